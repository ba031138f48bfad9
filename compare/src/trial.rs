//! Runs of a program compared with the model, answer by answer.

use std::collections::HashMap;
use std::fmt;
use std::fs::{self, File};
use std::io::{self, Write};
use std::path::{Path, PathBuf};
use std::thread;
use std::time::{Duration, Instant};

use crate::block::{Answer, Program, Readings, Records, Terms};
use crate::coverage::{Case, Coverage};
use crate::image;
use crate::law::{Broken, Ledger, Sums};
use crate::requests::SiteMonth;
use crate::runs::{self, Ending, Feeding, Run};
use crate::session::{Fault, Session, Source};
use crate::tariffs::Book;

/// From so many runs on it is a failure if some case was never met.
const RUNS_TO_MEET_EVERY_CASE: u64 = 200;
const MOST_FAILURES_TOLD: u64 = 10;
const PATIENCE_FOR_AN_IMAGE: Duration = Duration::from_secs(2);
const PAUSE: Duration = Duration::from_micros(200);

pub struct Trial {
    pub book: Book,
    pub runs: u64,
    pub seed: u64,
    pub program: PathBuf,
    /// For input, images and what the program says on standard error.
    pub dir: PathBuf,
}

#[derive(Clone, Copy, Debug, PartialEq, Eq)]
pub enum Verdict {
    AllPassed,
    SomeFailed,
}

// ---- Failures ----

#[derive(Debug)]
enum Failure {
    Answer {
        line: usize,
        sent: Vec<u8>,
        expected: String,
        /// With its line feed; None if there was no more output.
        got: Option<Vec<u8>>,
    },
    /// While the answer to the line was awaited.
    Awaiting {
        line: usize,
        sent: Vec<u8>,
        fault: Fault,
    },
    FurtherOutput(Vec<u8>),
    Program(Fault),
    Law {
        line: usize,
        sent: Vec<u8>,
        broken: Broken,
    },
    OtherSums(Box<OtherSums>),
    Image {
        /// The last line answered.
        line: usize,
        difference: image::Difference,
    },
}

/// The same readings, but other sums than in an earlier run.
#[derive(Debug)]
struct OtherSums {
    site_month: SiteMonth,
    sums: Sums,
    earlier: Reached,
}

impl Failure {
    fn took_too_long(&self) -> bool {
        matches!(
            self,
            Failure::Program(Fault::TookTooLong)
                | Failure::Awaiting {
                    fault: Fault::TookTooLong,
                    ..
                }
        )
    }
}

impl From<Fault> for Failure {
    fn from(fault: Fault) -> Failure {
        Failure::Program(fault)
    }
}

impl From<io::Error> for Failure {
    fn from(error: io::Error) -> Failure {
        Failure::Program(Fault::Io(error))
    }
}

impl fmt::Display for Failure {
    fn fmt(&self, f: &mut fmt::Formatter) -> fmt::Result {
        match self {
            Failure::Answer {
                line,
                sent,
                expected,
                got,
            } => {
                writeln!(f, "line {line}: {}", sent.escape_ascii())?;
                writeln!(f, "  expected {expected}")?;
                match got {
                    Some(got) => write!(f, "  got      {}", without_line_feed(got)),
                    None => write!(f, "  got      no answer"),
                }
            }
            Failure::Awaiting { line, sent, fault } => {
                write!(f, "line {line}: {}\n  {fault}", sent.escape_ascii())
            }
            Failure::FurtherOutput(got) => {
                write!(f, "output past the last answer: {}", got.escape_ascii())
            }
            Failure::Program(fault) => write!(f, "{fault}"),
            Failure::Law { line, sent, broken } => {
                write!(f, "line {line}: {}\n  {broken}", sent.escape_ascii())
            }
            Failure::OtherSums(other) => write!(
                f,
                "site {} month {}: the amounts add up to {:?}, but to {:?} with seed {}",
                other.site_month.site,
                other.site_month.month,
                other.sums,
                other.earlier.sums,
                other.earlier.number
            ),
            Failure::Image { line, difference } => {
                write!(f, "the image after line {line}: {difference}")
            }
        }
    }
}

/// A missing line feed is told.
fn without_line_feed(got: &[u8]) -> String {
    match got.strip_suffix(b"\n") {
        Some(line) => line.escape_ascii().to_string(),
        None => format!("{} without a line feed", got.escape_ascii()),
    }
}

// ---- The trial ----

/// Readings in a site month at the end of a run.
type Reaching = (Terms, SiteMonth, Readings);

/// What the run answered for them, added up.
#[derive(Clone, Copy, Debug)]
struct Reached {
    number: u64,
    sums: Sums,
}

#[derive(Clone, Copy, Default)]
struct Score {
    passed: u64,
    failed: u64,
}

impl Score {
    fn tried(self) -> u64 {
        self.passed + self.failed
    }

    fn verdict(self) -> Verdict {
        match self.failed {
            0 => Verdict::AllPassed,
            _ => Verdict::SomeFailed,
        }
    }
}

#[derive(Default)]
struct Notes {
    coverage: Coverage,
    reached: HashMap<Reaching, Reached>,
}

impl Trial {
    /// Tells of each failure and counts them on the last line. A program that
    /// takes too long ends the trial.
    pub fn hold(&self, output: &mut impl Write) -> io::Result<Verdict> {
        let dir_is_new = !self.dir.exists();
        fs::create_dir_all(&self.dir)?;
        let mut notes = Notes::default();
        let mut score = Score::default();
        for index in 0..self.runs {
            let number = self.seed.wrapping_add(index);
            let run = runs::run(self.book, number);
            let tried = self.try_run(&run, &mut notes);
            remove(&self.image(number))?;
            let Err(failure) = tried else {
                score.passed += 1;
                continue;
            };
            score.failed += 1;
            if score.failed <= MOST_FAILURES_TOLD {
                writeln!(
                    output,
                    "FAILED: run {}, seed {number}: {failure}",
                    index + 1
                )?;
                self.tell_errors(output)?;
            }
            if failure.took_too_long() {
                break;
            }
        }
        writeln!(output, "met: {}", notes.coverage)?;
        if score.tried() == self.runs && self.runs >= RUNS_TO_MEET_EVERY_CASE {
            for case in notes.coverage.missing(self.book) {
                score.failed += 1;
                writeln!(output, "FAILED: never met: {case}")?;
            }
        }
        remove(&self.input())?;
        remove(&self.errors())?;
        if dir_is_new {
            fs::remove_dir(&self.dir)?;
        }
        writeln!(output, "{} passed, {} failed", score.passed, score.failed)?;
        Ok(score.verdict())
    }

    fn image(&self, number: u64) -> PathBuf {
        self.dir.join(format!("image-{number}"))
    }

    fn input(&self) -> PathBuf {
        self.dir.join("input")
    }

    fn errors(&self) -> PathBuf {
        self.dir.join("errors")
    }

    /// What the program said on standard error, its beginning.
    fn tell_errors(&self, output: &mut impl Write) -> io::Result<()> {
        let errors = read_if_there(&self.errors())?.unwrap_or_default();
        for line in String::from_utf8_lossy(&errors).lines().take(3) {
            writeln!(output, "  standard error: {line}")?;
        }
        Ok(())
    }

    fn try_run(&self, run: &Run, notes: &mut Notes) -> Result<(), Failure> {
        let mut model = Program::of(self.book);
        let expected = expect(&mut model.clone(), &run.lines, &mut notes.coverage);
        let mut ledger = Ledger::new(self.book);
        match run.feeding {
            Feeding::Restarted { after } => {
                notes.coverage.count(Case::Restarted);
                let parts = [
                    (0..after, Ending::LineFeed),
                    (after..run.lines.len(), run.ending),
                ];
                for (range, ending) in parts {
                    let part = Part {
                        first: range.start,
                        lines: &run.lines[range.clone()],
                        expected: &expected[range],
                        ending,
                    };
                    self.try_part(run, &part, &mut model, &mut ledger)?;
                    if run.number % 4 == 1 {
                        self.reverse_slots(run.number)?;
                    }
                }
            }
            Feeding::AtOnce | Feeding::LineByLine => {
                if run.feeding == Feeding::LineByLine {
                    notes.coverage.count(Case::LineByLine);
                }
                let whole = Part {
                    first: 0,
                    lines: &run.lines,
                    expected: &expected,
                    ending: run.ending,
                };
                self.try_part(run, &whole, &mut model, &mut ledger)?;
            }
        }
        notes.coverage.add(Case::Capped, ledger.capped());
        notes.coverage.add(Case::CapCrossed, ledger.crossed());
        compare_reached(run.number, &ledger, notes)
    }

    /// One start of the program.
    fn try_part(
        &self,
        run: &Run,
        part: &Part,
        model: &mut Program,
        ledger: &mut Ledger,
    ) -> Result<(), Failure> {
        let mut session = self.start(run, part)?;
        for (index, (line, expected)) in part.lines.iter().zip(part.expected).enumerate() {
            session.say(line);
            let number = part.first + index + 1;
            let got = session.answer().map_err(|fault| Failure::Awaiting {
                line: number,
                sent: line.clone(),
                fault,
            })?;
            let answer = agreed(number, line, expected, got)?;
            ledger.enter(line, &answer).map_err(|broken| Failure::Law {
                line: number,
                sent: line.clone(),
                broken,
            })?;
            model.answer(line);
            if run.feeding == Feeding::LineByLine {
                self.await_image(run.number, number, model)?;
            }
        }
        session.hush();
        if let Some(further) = session.answer()? {
            return Err(Failure::FurtherOutput(further));
        }
        session.end()?;
        self.compare_image(run.number, part.first + part.lines.len(), model)
    }

    fn start(&self, run: &Run, part: &Part) -> Result<Session, Failure> {
        let source = match run.feeding {
            Feeding::LineByLine => Source::Said,
            Feeding::AtOnce | Feeding::Restarted { .. } => {
                fs::write(self.input(), runs::input(part.lines, part.ending))?;
                Source::File(File::open(self.input())?)
            }
        };
        let image = match self.book {
            Book::Oregon => None,
            Book::Cooperative => Some(self.image(run.number)),
        };
        let errors = File::create(self.errors())?;
        Ok(Session::start(
            &self.program,
            image.as_deref(),
            source,
            errors,
        )?)
    }

    /// The image has what the model holds. A missing image is one of empty
    /// slots.
    fn compare_image(&self, number: u64, line: usize, model: &Program) -> Result<(), Failure> {
        let (Book::Cooperative, Some(block)) = (self.book, model.block()) else {
            return Ok(());
        };
        let slots = block.capacity();
        let image = read_if_there(&self.image(number))?
            .unwrap_or_else(|| image::write(&Records::new(), slots));
        image::compare(&image, block.records(), slots)
            .map_err(|difference| Failure::Image { line, difference })
    }

    /// The same of a program that goes on, and may write after its answer.
    fn await_image(&self, number: u64, line: usize, model: &Program) -> Result<(), Failure> {
        let deadline = Instant::now() + PATIENCE_FOR_AN_IMAGE;
        loop {
            match self.compare_image(number, line, model) {
                Err(Failure::Image { .. }) if Instant::now() < deadline => thread::sleep(PAUSE),
                compared => return compared,
            }
        }
    }

    /// The same records in other slots, for the program to go on with.
    fn reverse_slots(&self, number: u64) -> io::Result<()> {
        let Some(image) = read_if_there(&self.image(number))? else {
            return Ok(());
        };
        let mut slots: Vec<&[u8]> = image.chunks(image::SLOT).collect();
        slots.reverse();
        fs::write(self.image(number), slots.concat())
    }
}

/// Lines for one start of the program.
struct Part<'a> {
    /// How many lines of the run come before.
    first: usize,
    lines: &'a [Vec<u8>],
    expected: &'a [String],
    ending: Ending,
}

/// The answer without its line feed, if it is the one expected.
fn agreed(
    line: usize,
    sent: &[u8],
    expected: &str,
    got: Option<Vec<u8>>,
) -> Result<Vec<u8>, Failure> {
    match got.as_deref().and_then(|got| got.strip_suffix(b"\n")) {
        Some(answer) if answer == expected.as_bytes() => Ok(answer.to_vec()),
        _ => Err(Failure::Answer {
            line,
            sent: sent.to_vec(),
            expected: expected.to_string(),
            got,
        }),
    }
}

/// The model's answer lines, with their cases counted.
fn expect(model: &mut Program, lines: &[Vec<u8>], coverage: &mut Coverage) -> Vec<String> {
    let held = |model: &Program| model.block().map_or(0, |block| block.records().len());
    let mut was_full = false;
    let mut expected = Vec::new();
    for line in lines {
        let before = held(model);
        let answer: Answer = model.answer(line);
        coverage.count(Case::of(&answer));
        if was_full && held(model) > before {
            coverage.count(Case::RoomReused);
        }
        was_full |= model.block().is_some_and(|block| block.is_full());
        expected.push(answer.line());
    }
    expected
}

/// The same readings under the same card have answered the same sums.
fn compare_reached(number: u64, ledger: &Ledger, notes: &mut Notes) -> Result<(), Failure> {
    let Some(terms) = ledger.terms() else {
        return Ok(());
    };
    for (site_month, month) in ledger.standing() {
        let reaching = (terms.clone(), *site_month, month.standing.clone());
        let reached = Reached {
            number,
            sums: month.sums,
        };
        let earlier = *notes.reached.entry(reaching).or_insert(reached);
        if earlier.number != number {
            notes.coverage.count(Case::SameReadings);
        }
        if earlier.sums != month.sums {
            return Err(Failure::OtherSums(Box::new(OtherSums {
                site_month: *site_month,
                sums: month.sums,
                earlier,
            })));
        }
    }
    Ok(())
}

fn read_if_there(path: &Path) -> io::Result<Option<Vec<u8>>> {
    match fs::read(path) {
        Ok(bytes) => Ok(Some(bytes)),
        Err(error) if error.kind() == io::ErrorKind::NotFound => Ok(None),
        Err(error) => Err(error),
    }
}

fn remove(path: &Path) -> io::Result<()> {
    match fs::remove_file(path) {
        Err(error) if error.kind() != io::ErrorKind::NotFound => Err(error),
        _ => Ok(()),
    }
}
