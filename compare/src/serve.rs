//! The model as a program: lines from standard input, an answer to each.

use std::fs;
use std::io::{self, BufRead, Write};
use std::path::Path;

use crate::block::{Answer, Program, Records, CAPACITY};
use crate::image;

/// Serves Oregon's book until the end of the input.
pub fn oregon(input: &mut impl BufRead, output: &mut impl Write) -> io::Result<()> {
    let mut program = Program::oregon();
    each_line(input, |line| write_answer(&program.answer(line), output))
}

/// Serves the cooperative's book on an image if there is one. After each
/// accepted line the image is written.
pub fn cooperative(
    image: Option<&Path>,
    input: &mut impl BufRead,
    output: &mut impl Write,
) -> io::Result<()> {
    let (records, capacity) = match image {
        Some(path) if path.exists() => image::read(&fs::read(path)?)
            .map_err(|unusable| io::Error::new(io::ErrorKind::InvalidData, unusable.to_string()))?,
        _ => (Records::new(), CAPACITY),
    };
    let mut program = Program::cooperative(capacity, records);
    each_line(input, |line| {
        let answer = program.answer(line);
        let is_accepted = !matches!(answer, Answer::Refused(_));
        if let (true, Some(path), Some(block)) = (is_accepted, image, program.block()) {
            fs::write(path, image::write(block.records(), block.capacity()))?;
        }
        write_answer(&answer, output)
    })
}

fn write_answer(answer: &Answer, output: &mut impl Write) -> io::Result<()> {
    writeln!(output, "{}", answer.line())?;
    output.flush()
}

/// A last line counts even if it is not ended.
fn each_line(
    input: &mut impl BufRead,
    mut take: impl FnMut(&[u8]) -> io::Result<()>,
) -> io::Result<()> {
    let mut line = Vec::new();
    while input.read_until(b'\n', &mut line)? > 0 {
        take(line.strip_suffix(b"\n").unwrap_or(&line))?;
        line.clear();
    }
    Ok(())
}

#[cfg(test)]
mod tests {
    use super::*;

    #[test]
    fn worked_month_as_text() {
        let input = "102000001388138800141388001413880014138800141388001413880014138800146C\n\
                     01340000000700FC0001000400000003E80000000000000000000000000000640000000000000000000000000000000000000000000074\n\
                     02080000000700FC0002F1";
        let mut output = Vec::new();
        oregon(&mut input.as_bytes(), &mut output).unwrap();
        assert_eq!(
            String::from_utf8(output).unwrap(),
            "900070\n\
             8134000003B60000000000000DC3000000000000000000000332000000920000000000001388000000050000002600000004000000141D\n\
             7F040D05000962\n"
        );
    }

    #[test]
    fn empty_lines_and_no_input() {
        let said = |input: &[u8]| {
            let mut output = Vec::new();
            cooperative(None, &mut &input[..], &mut output).unwrap();
            String::from_utf8(output).unwrap()
        };
        assert_eq!(said(b""), "");
        assert_eq!(said(b"\n\r\n"), "7F04020100007A\n7F04020100007A\n");
    }
}
