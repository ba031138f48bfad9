//! `compare generate SEED COUNT`      input for `bills`, all lines lawful
//! `compare generate-bad SEED COUNT`  the same with bad lines mixed in
//! `compare expect`                   what `bills --csv` must print for it
//! `compare runs OPTIONS`             runs of a program compared with the model
//! `compare lines OPTIONS`            the lines of one run
//! `compare serve OPTIONS`            the model as a program

use std::collections::HashMap;
use std::env;
use std::io::{self, BufWriter, Read, Write};
use std::path::{Path, PathBuf};
use std::process::{self, ExitCode};

use compare::random::Random;
use compare::tariffs::Book;
use compare::trial::{Trial, Verdict};
use compare::{bills, generator, lines, runs, serve, spoiler};

const USAGE: &str = "usage: compare generate SEED COUNT
       compare generate-bad SEED COUNT
       compare expect
       compare runs --book oregon|coop --runs N --seed S --program PATH [--dir DIR]
       compare lines --book oregon|coop --seed S
       compare serve --book oregon|coop [--image FILE]

runs: starts PATH once for each run (with an image in DIR as its argument for
coop), and compares its answers. Run I has seed S + I - 1, and `--runs 1` with
that seed makes it again. From 200 runs on, a case that was never met fails.";

fn main() -> ExitCode {
    let arguments: Vec<String> = env::args().skip(1).collect();
    let arguments: Vec<&str> = arguments.iter().map(String::as_str).collect();
    let mut output = BufWriter::new(io::stdout().lock());
    let done = command(&arguments, &mut output)
        .map(|done| done.and_then(|verdict| output.flush().map(|()| verdict)));
    match done {
        Some(Ok(Verdict::AllPassed)) => ExitCode::SUCCESS,
        Some(Ok(Verdict::SomeFailed)) => ExitCode::FAILURE,
        Some(Err(error)) => {
            eprintln!("compare: {error}");
            ExitCode::FAILURE
        }
        None => {
            eprintln!("{USAGE}");
            ExitCode::from(2)
        }
    }
}

/// None if the arguments are not lawful.
fn command(arguments: &[&str], output: &mut impl Write) -> Option<io::Result<Verdict>> {
    let done = match arguments {
        ["generate", seed, count] => {
            let (seed, count) = numbers(seed, count)?;
            generate(seed, count, output)
        }
        ["generate-bad", seed, count] => {
            let (seed, count) = numbers(seed, count)?;
            generate_bad(seed, count, output)
        }
        ["expect"] => expect(output),
        ["runs", options @ ..] => return Some(trial(options)?.hold(output)),
        ["lines", options @ ..] => run_lines(options, output)?,
        ["serve", options @ ..] => serve_book(options, output)?,
        _ => return None,
    };
    Some(done.map(|()| Verdict::AllPassed))
}

fn numbers(seed: &str, count: &str) -> Option<(u64, usize)> {
    Some((seed.parse().ok()?, count.parse().ok()?))
}

fn generate(seed: u64, count: usize, output: &mut impl Write) -> io::Result<()> {
    let mut random = Random::new(seed);
    let card = generator::card(seed, &mut random);
    writeln!(output, "{}", lines::write_card(&card))?;
    for entry in generator::entries(&card, count, &mut random) {
        writeln!(output, "{}", bills::write_entry(&entry))?;
    }
    Ok(())
}

fn generate_bad(seed: u64, count: usize, output: &mut impl Write) -> io::Result<()> {
    output.write_all(&spoiler::input(seed, count))
}

fn expect(output: &mut impl Write) -> io::Result<()> {
    let mut input = Vec::new();
    io::stdin().lock().read_to_end(&mut input)?;
    bills::expect(&input, output)
}

// ---- Runs ----

/// Options with their values, each of them at most once and one of `names`.
struct Options<'a>(HashMap<&'a str, &'a str>);

impl<'a> Options<'a> {
    fn read(arguments: &[&'a str], names: &[&str]) -> Option<Self> {
        let mut options = HashMap::new();
        for pair in arguments.chunks(2) {
            let [name, value] = pair else {
                return None;
            };
            if !names.contains(name) || options.insert(*name, *value).is_some() {
                return None;
            }
        }
        Some(Options(options))
    }

    fn get(&self, name: &str) -> Option<&'a str> {
        self.0.get(name).copied()
    }

    fn number(&self, name: &str) -> Option<u64> {
        self.get(name)?.parse().ok()
    }

    fn book(&self) -> Option<Book> {
        match self.get("--book")? {
            "oregon" => Some(Book::Oregon),
            "coop" => Some(Book::Cooperative),
            _ => None,
        }
    }
}

fn trial(arguments: &[&str]) -> Option<Trial> {
    let names = ["--book", "--runs", "--seed", "--program", "--dir"];
    let options = Options::read(arguments, &names)?;
    Some(Trial {
        book: options.book()?,
        runs: options.number("--runs")?,
        seed: options.number("--seed")?,
        program: PathBuf::from(options.get("--program")?),
        dir: match options.get("--dir") {
            Some(dir) => PathBuf::from(dir),
            None => env::temp_dir().join(format!("compare-runs-{}", process::id())),
        },
    })
}

fn run_lines(arguments: &[&str], output: &mut impl Write) -> Option<io::Result<()>> {
    let options = Options::read(arguments, &["--book", "--seed"])?;
    let run = runs::run(options.book()?, options.number("--seed")?);
    Some(output.write_all(&runs::input(&run.lines, run.ending)))
}

fn serve_book(arguments: &[&str], output: &mut impl Write) -> Option<io::Result<()>> {
    let options = Options::read(arguments, &["--book", "--image"])?;
    let image = options.get("--image").map(Path::new);
    let mut input = io::stdin().lock();
    match (options.book()?, image) {
        (Book::Oregon, None) => Some(serve::oregon(&mut input, output)),
        (Book::Oregon, Some(_)) => None,
        (Book::Cooperative, image) => Some(serve::cooperative(image, &mut input, output)),
    }
}
