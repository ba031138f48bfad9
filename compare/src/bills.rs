//! What `bills` reads and prints: reading lines and amount lines.

use std::io::{self, Write};

use crate::lines;
use crate::tariffs::{self, alone, Book, Card, PerLine, Reading, Refused};

/// A reading and the book it is reckoned by: one line of input.
#[derive(Clone, Copy, Debug, PartialEq, Eq, Hash)]
pub struct Entry {
    pub book: Book,
    pub reading: Reading,
}

/// A field of a reading line after the book.
#[derive(Clone, Copy, Debug, PartialEq, Eq)]
pub enum Field {
    Schedule,
    Flags,
    Kwh,
    OffHours,
    Demand,
    PeakDemand,
    Kvar,
    PowerFactor,
    LoadSize,
}

/// In the order of the line, each with its own limit if it has one.
pub const FIELDS: [(Field, Option<u128>); 9] = [
    (Field::Schedule, Some(65_535)),
    (Field::Flags, Some(15)),
    (Field::Kwh, Some(999_999)),
    (Field::OffHours, None),
    (Field::Demand, Some(99_999)),
    (Field::PeakDemand, Some(99_999)),
    (Field::Kvar, Some(9_999)),
    (Field::PowerFactor, Some(100)),
    (Field::LoadSize, Some(10_000)),
];

impl Field {
    pub fn of(self, reading: &Reading) -> u128 {
        let mut copy = *reading;
        *self.in_reading(&mut copy)
    }

    pub fn set(self, reading: &mut Reading, value: u128) {
        *self.in_reading(reading) = value;
    }

    fn in_reading(self, reading: &mut Reading) -> &mut u128 {
        match self {
            Field::Schedule => &mut reading.schedule,
            Field::Flags => &mut reading.flags,
            Field::Kwh => &mut reading.kwh,
            Field::OffHours => &mut reading.off_hours,
            Field::Demand => &mut reading.demand,
            Field::PeakDemand => &mut reading.peak_demand,
            Field::Kvar => &mut reading.kvar,
            Field::PowerFactor => &mut reading.power_factor,
            Field::LoadSize => &mut reading.load_size,
        }
    }
}

#[derive(Clone, Copy, Debug, PartialEq, Eq)]
pub enum BadLine {
    FieldCount,
    Book,
    NotDecimal(Field),
    AboveLimit(Field),
    OffHoursAboveKwh,
    PeakAboveDemand,
    NoSchedule,
    FlagNotOffered,
}

const MOST_DIGITS: usize = 10;

// ---- Reading lines ----

pub fn read_entry(line: &[u8]) -> Result<Entry, BadLine> {
    let texts: Vec<&[u8]> = line.split(|byte| *byte == b',').collect();
    if texts.len() != 1 + FIELDS.len() {
        return Err(BadLine::FieldCount);
    }
    let book = book_of(texts[0]).ok_or(BadLine::Book)?;
    let mut reading = Reading::default();
    for ((field, limit), text) in FIELDS.iter().zip(&texts[1..]) {
        let value = decimal(text).ok_or(BadLine::NotDecimal(*field))?;
        if limit.is_some_and(|limit| value > limit) {
            return Err(BadLine::AboveLimit(*field));
        }
        field.set(&mut reading, value);
    }
    if reading.off_hours > reading.kwh {
        return Err(BadLine::OffHoursAboveKwh);
    }
    if reading.peak_demand > reading.demand {
        return Err(BadLine::PeakAboveDemand);
    }
    match tariffs::check(book, &reading) {
        Ok(()) => Ok(Entry { book, reading }),
        Err(Refused::Schedule) => Err(BadLine::NoSchedule),
        Err(Refused::Flag) => Err(BadLine::FlagNotOffered),
    }
}

fn book_of(text: &[u8]) -> Option<Book> {
    match text {
        b"oregon" => Some(Book::Oregon),
        b"cooperative" => Some(Book::Cooperative),
        _ => None,
    }
}

fn decimal(text: &[u8]) -> Option<u128> {
    let lawful = (1..=MOST_DIGITS).contains(&text.len()) && text.iter().all(u8::is_ascii_digit);
    lawful.then(|| {
        text.iter()
            .fold(0, |value, digit| value * 10 + u128::from(digit - b'0'))
    })
}

pub fn book_name(book: Book) -> &'static str {
    match book {
        Book::Oregon => "oregon",
        Book::Cooperative => "cooperative",
    }
}

/// The ten fields of an entry's line.
pub fn texts(entry: &Entry) -> Vec<String> {
    let mut texts = vec![book_name(entry.book).to_string()];
    texts.extend(FIELDS.map(|(field, _)| field.of(&entry.reading).to_string()));
    texts
}

pub fn write_entry(entry: &Entry) -> String {
    texts(entry).join(",")
}

// ---- What `bills --csv` must print ----

pub fn write_amounts(amounts: &PerLine) -> String {
    amounts.map(|amount| amount.to_string()).join(",")
}

/// For a bad line only the prefix is printed.
pub fn expect(input: &[u8], output: &mut impl Write) -> io::Result<()> {
    let mut card: Option<Card> = None;
    for (index, line) in input_lines(input).enumerate() {
        let printed = match &card {
            None => match lines::read_card(line) {
                Ok(accepted) => {
                    card = Some(accepted);
                    continue;
                }
                Err(_) => None,
            },
            Some(card) => match read_entry(line) {
                Ok(entry) => Some(write_amounts(&alone(entry.book, card, &entry.reading))),
                Err(_) => None,
            },
        };
        match printed {
            Some(amounts) => writeln!(output, "{amounts}")?,
            None => writeln!(output, "# line {}: ", index + 1)?,
        }
    }
    Ok(())
}

/// Lines end with a line feed, and a carriage return just before it is dropped; an unterminated last line counts.
fn input_lines(input: &[u8]) -> impl Iterator<Item = &[u8]> {
    input
        .split_inclusive(|byte| *byte == b'\n')
        .map(|line| match line.strip_suffix(b"\n") {
            Some(ended) => ended.strip_suffix(b"\r").unwrap_or(ended),
            None => line,
        })
}

#[cfg(test)]
mod tests {
    use super::*;

    const CARD: &str = "102000001388138800141388001413880014138800141388001413880014138800146C";

    fn expected(input: &str) -> String {
        let mut output = Vec::new();
        expect(input.as_bytes(), &mut output).unwrap();
        String::from_utf8(output).unwrap()
    }

    fn fault(line: &str) -> BadLine {
        read_entry(line.as_bytes()).unwrap_err()
    }

    #[test]
    fn entry_both_ways() {
        let line = "oregon,28,2,10000,1,123,4,10,100,101";
        let entry = read_entry(line.as_bytes()).unwrap();
        assert_eq!(entry.reading.kwh, 10_000);
        assert_eq!(entry.reading.load_size, 101);
        assert_eq!(write_entry(&entry), line);
    }

    #[test]
    fn amounts_of_worked_readings() {
        let input = format!(
            "{CARD}\n\
             oregon,4,0,1000,0,0,0,0,100,0\n\
             oregon,28,2,10000,0,123,0,10,100,101\n\
             cooperative,5,0,100000,30000,4000,3500,0,95,0"
        );
        assert_eq!(
            expected(&input),
            "950,0,3523,0,0,818,146,0,5000,5,38,4,20\n\
             8400,11420,4046,0,333,3249,1447,0,49225,49,364,30,197\n\
             22000,218750,372000,15600,5000,0,0,0,0,0,0,0,0\n"
        );
    }

    #[test]
    fn refused_cards_and_bad_lines_are_numbered() {
        let input = format!(
            "\noregon,4,0,1000,0,0,0,0,100,0\n{CARD}\n\n\
             oregon,4,0,0,0,0,0,0,100,0\n{CARD}\noregon,4,0,0,0,0,0,0,100,0\r\n\
             oregon,4,0,0,0,0,0,0,100,0\r\r\n"
        );
        assert_eq!(
            expected(&input),
            "# line 1: \n# line 2: \n# line 4: \n950,0,0,0,0,0,0,0,0,0,0,0,0\n\
             # line 6: \n950,0,0,0,0,0,0,0,0,0,0,0,0\n# line 8: \n"
        );
    }

    #[test]
    fn no_input() {
        assert_eq!(expected(""), "");
        assert_eq!(expected("\n"), "# line 1: \n");
    }

    #[test]
    fn faults() {
        use BadLine::*;
        let cases = [
            ("", FieldCount),
            ("oregon,4,0,0,0,0,0,0,0", FieldCount),
            ("oregon,4,0,0,0,0,0,0,0,0,", FieldCount),
            ("Oregon,4,0,0,0,0,0,0,0,0", Book),
            ("oregon,,0,0,0,0,0,0,0,0", NotDecimal(Field::Schedule)),
            ("oregon,4,0,+1,0,0,0,0,0,0", NotDecimal(Field::Kwh)),
            ("oregon,4,0,0,0,0,0,0,0, 0", NotDecimal(Field::LoadSize)),
            ("oregon,4,0,00000000001,0,0,0,0,0,0", NotDecimal(Field::Kwh)),
            ("oregon,65536,0,0,0,0,0,0,0,0", AboveLimit(Field::Schedule)),
            ("oregon,4,16,0,0,0,0,0,0,0", AboveLimit(Field::Flags)),
            ("oregon,4,0,1000000,0,0,0,0,0,0", AboveLimit(Field::Kwh)),
            ("oregon,4,0,0,0,100000,0,0,0,0", AboveLimit(Field::Demand)),
            (
                "oregon,4,0,0,0,0,100000,0,0,0",
                AboveLimit(Field::PeakDemand),
            ),
            ("oregon,4,0,0,0,0,0,10000,0,0", AboveLimit(Field::Kvar)),
            ("oregon,4,0,0,0,0,0,0,101,0", AboveLimit(Field::PowerFactor)),
            ("oregon,4,0,0,0,0,0,0,0,10001", AboveLimit(Field::LoadSize)),
            ("oregon,4,0,7,8,0,0,0,0,0", OffHoursAboveKwh),
            ("oregon,4,0,7,9999999999,0,0,0,0,0", OffHoursAboveKwh),
            ("oregon,4,0,0,0,7,8,0,0,0", PeakAboveDemand),
            ("oregon,30,0,0,0,0,0,0,0,0", NoSchedule),
            ("oregon,29,1,0,0,0,0,0,0,0", FlagNotOffered),
            ("cooperative,4,0,0,0,0,0,0,0,0", NoSchedule),
            ("cooperative,5,4,0,0,0,0,0,0,0", FlagNotOffered),
        ];
        for (line, expected) in cases {
            assert_eq!(fault(line), expected, "{line}");
        }
        assert!(read_entry(b"oregon,0000000004,0,0,0,0,0,0,0,0").is_ok());
    }
}
