//! How often each case was met in runs.

use std::collections::BTreeMap;
use std::fmt;

use crate::block::Answer;
use crate::requests::{Kind, OFF_HOURS, PEAK_DEMAND};
use crate::tariffs::Book;

#[derive(Clone, Copy, Debug, PartialEq, Eq, PartialOrd, Ord)]
pub enum Case {
    CardTaken,
    Accepted(Kind),
    /// For number 3, of which the place is any column, the place is 0.
    Refused {
        number: u8,
        place: u16,
    },
    /// An amount of line 12 with the cap in force.
    Capped,
    /// A change after which the cap is in force and was not before, or the
    /// other way round, with readings standing both times.
    CapCrossed,
    /// A record opened in a store that was full before.
    RoomReused,
    /// Readings that stood at the end of an earlier run too, under the same
    /// card.
    SameReadings,
    LineByLine,
    Restarted,
}

impl Case {
    pub fn of(answer: &Answer) -> Case {
        match answer {
            Answer::CardTaken => Case::CardTaken,
            Answer::Amounts(kind, _) => Case::Accepted(*kind),
            Answer::Closed => Case::Accepted(Kind::Close),
            Answer::Refused(refusal) => Case::Refused {
                number: refusal.number,
                place: match refusal.number {
                    3 => 0,
                    _ => refusal.place,
                },
            },
        }
    }
}

impl fmt::Display for Case {
    fn fmt(&self, f: &mut fmt::Formatter) -> fmt::Result {
        match self {
            Case::CardTaken => write!(f, "card"),
            Case::Accepted(Kind::Post) => write!(f, "post"),
            Case::Accepted(Kind::Cancel) => write!(f, "cancel"),
            Case::Accepted(Kind::Correct) => write!(f, "correct"),
            Case::Accepted(Kind::Close) => write!(f, "close"),
            Case::Accepted(Kind::Account) => write!(f, "account"),
            Case::Refused { number, place: 0 } => write!(f, "refusal {number}"),
            Case::Refused { number, place } => write!(f, "refusal {number} at {place}"),
            Case::Capped => write!(f, "capped"),
            Case::CapCrossed => write!(f, "cap crossed"),
            Case::RoomReused => write!(f, "room reused"),
            Case::SameReadings => write!(f, "same readings"),
            Case::LineByLine => write!(f, "line by line"),
            Case::Restarted => write!(f, "restarted"),
        }
    }
}

#[derive(Clone, Debug, Default)]
pub struct Coverage(BTreeMap<Case, usize>);

impl Coverage {
    pub fn count(&mut self, case: Case) {
        self.add(case, 1);
    }

    pub fn add(&mut self, case: Case, times: usize) {
        if times > 0 {
            *self.0.entry(case).or_default() += times;
        }
    }

    /// The cases of the book that were never met.
    pub fn missing(&self, book: Book) -> Vec<Case> {
        let mut missing = cases(book);
        missing.retain(|case| !self.0.contains_key(case));
        missing
    }
}

impl fmt::Display for Coverage {
    fn fmt(&self, f: &mut fmt::Formatter) -> fmt::Result {
        for (index, (case, times)) in self.0.iter().enumerate() {
            let separator = if index == 0 { "" } else { ", " };
            write!(f, "{separator}{case}: {times}")?;
        }
        Ok(())
    }
}

/// Every case that runs have to meet.
fn cases(book: Book) -> Vec<Case> {
    let mut cases: Vec<Case> = Kind::ALL.map(Case::Accepted).to_vec();
    cases.extend(refusals().map(|(number, place)| Case::Refused { number, place }));
    cases.extend([Case::RoomReused, Case::SameReadings, Case::LineByLine]);
    match book {
        Book::Oregon => {
            let card_limit = Case::Refused {
                number: 7,
                place: 3,
            };
            cases.extend([Case::CardTaken, card_limit, Case::Capped, Case::CapCrossed]);
        }
        Book::Cooperative => cases.push(Case::Restarted),
    }
    cases
}

/// Numbers 2 to 15 with the places that a request can bring.
fn refusals() -> impl Iterator<Item = (u8, u16)> {
    let limits = Kind::Post
        .fields()
        .iter()
        .filter(|field| field.limit.is_some())
        .map(|field| (7, field.first as u16));
    let parts = [OFF_HOURS, PEAK_DEMAND].map(|field| (8, field.first as u16));
    let lines = [(2, 0), (3, 0), (4, 0), (5, 1), (6, 2)];
    let rest = [
        (9, 11),
        (10, 13),
        (11, 3),
        (12, 9),
        (13, 9),
        (13, 3),
        (14, 9),
        (15, 3),
    ];
    lines.into_iter().chain(limits).chain(parts).chain(rest)
}

#[cfg(test)]
mod tests {
    use super::*;
    use crate::block::Program;
    use crate::runs;

    #[test]
    fn every_number_is_asked_for() {
        for book in [Book::Oregon, Book::Cooperative] {
            let numbers: Vec<u8> = cases(book)
                .into_iter()
                .filter_map(|case| match case {
                    Case::Refused { number, .. } => Some(number),
                    _ => None,
                })
                .collect();
            for number in 2..=15 {
                assert!(numbers.contains(&number));
            }
        }
    }

    #[test]
    fn answers_of_200_runs_meet_their_cases() {
        for book in [Book::Oregon, Book::Cooperative] {
            let mut coverage = Coverage::default();
            for number in 0..200 {
                let mut program = Program::of(book);
                for answer in runs::answers(&mut program, &runs::run(book, number).lines) {
                    coverage.count(Case::of(&answer));
                }
            }
            let mut missing = coverage.missing(book);
            missing.retain(|case| {
                matches!(
                    case,
                    Case::CardTaken | Case::Accepted(_) | Case::Refused { .. }
                )
            });
            assert_eq!(missing, []);
        }
    }
}
