//! The laws of the answers of a run, judged from the text of its lines and
//! answers alone.

use std::collections::BTreeMap;
use std::fmt;

use crate::block::{Readings, Terms};
use crate::lines::{read_card, read_frame};
use crate::requests::{self, Kind, Request, SiteMonth};
use crate::tariffs::{cents, weights, Book, LINES, LOW_INCOME_LINE};

/// What was answered on each statement line, added up.
pub type Sums = [i128; LINES];

/// What the answers so far say of a site month.
#[derive(Clone, Debug, Default, PartialEq, Eq)]
pub struct Month {
    pub standing: Readings,
    pub sums: Sums,
    in_force: InForce,
}

/// What decides line 12 of a site month.
#[derive(Clone, Copy, Debug, Default, PartialEq, Eq)]
enum InForce {
    /// Nothing stands.
    #[default]
    Nothing,
    Charges,
    Cap,
}

#[derive(Clone, Debug)]
pub struct Ledger {
    /// None until Oregon's card is accepted.
    terms: Option<Terms>,
    months: BTreeMap<SiteMonth, Month>,
    /// How many amounts of line 12 were answered with the cap in force.
    capped: usize,
    /// How many changes brought the cap into force or out of it.
    crossed: usize,
}

#[derive(Clone, Copy, Debug, PartialEq, Eq)]
pub enum Broken {
    /// A line that cannot be read was accepted, or one by another kind's answer.
    NotItsAnswer,
    NegativePost {
        line: usize,
    },
    PositiveCancel {
        line: usize,
    },
    /// The amounts answered do not add up to the settlement.
    Sum {
        line: usize,
        sum: i128,
        settlement: i128,
    },
    /// An account differs from the amounts answered before it.
    Account {
        line: usize,
        sum: i128,
        account: i128,
    },
    /// Line 12 is not the lesser of the cap and the uncapped settlement.
    Cap {
        sum: i128,
        uncapped: u128,
        cap: u128,
    },
}

impl fmt::Display for Broken {
    fn fmt(&self, f: &mut fmt::Formatter) -> fmt::Result {
        match self {
            Broken::NotItsAnswer => write!(f, "the answer is not one to this line"),
            Broken::NegativePost { line } => {
                write!(
                    f,
                    "a post answered a negative amount on statement line {line}"
                )
            }
            Broken::PositiveCancel { line } => {
                write!(
                    f,
                    "a cancel answered a positive amount on statement line {line}"
                )
            }
            Broken::Sum {
                line,
                sum,
                settlement,
            } => write!(
                f,
                "statement line {line}: the amounts add up to {sum}, the settlement is {settlement}"
            ),
            Broken::Account { line, sum, account } => write!(
                f,
                "statement line {line}: the amounts add up to {sum}, the account says {account}"
            ),
            Broken::Cap { sum, uncapped, cap } => write!(
                f,
                "the amounts of line 12 add up to {sum} with cap {cap} and {uncapped} uncapped"
            ),
        }
    }
}

impl Ledger {
    pub fn new(book: Book) -> Self {
        Ledger {
            terms: match book {
                Book::Oregon => None,
                Book::Cooperative => Some(Terms::cooperative()),
            },
            months: BTreeMap::new(),
            capped: 0,
            crossed: 0,
        }
    }

    pub fn terms(&self) -> Option<&Terms> {
        self.terms.as_ref()
    }

    /// The site months in which readings stand.
    pub fn standing(&self) -> impl Iterator<Item = (&SiteMonth, &Month)> {
        self.months
            .iter()
            .filter(|(_, month)| !month.standing.is_empty())
    }

    pub fn capped(&self) -> usize {
        self.capped
    }

    pub fn crossed(&self) -> usize {
        self.crossed
    }

    /// Takes a line with its answer.
    pub fn enter(&mut self, line: &[u8], answer: &[u8]) -> Result<(), Broken> {
        let Some(terms) = self.terms.clone() else {
            if answer == b"900070" {
                let card = read_card(line).map_err(|_| Broken::NotItsAnswer)?;
                self.terms = Some(Terms::oregon(card));
            }
            return Ok(());
        };
        let Some((kind, amounts)) = read_amounts(answer) else {
            return Ok(());
        };
        let request = requests::read(line).map_err(|_| Broken::NotItsAnswer)?;
        let month = self.months.entry(request.site_month()).or_default();
        month.change(kind, &request, &amounts)?;
        let before = month.in_force;
        month.in_force = month.judge(&terms)?;
        match (before, month.in_force) {
            (InForce::Charges, InForce::Cap) | (InForce::Cap, InForce::Charges) => {
                self.crossed += 1;
            }
            _ => (),
        }
        if month.in_force == InForce::Cap {
            self.capped += 1;
        }
        Ok(())
    }
}

impl Month {
    fn change(&mut self, kind: Kind, request: &Request, amounts: &Sums) -> Result<(), Broken> {
        match (kind, request) {
            (Kind::Post, Request::Post(_, meter, reading)) => {
                if let Some(line) = amounts.iter().position(|amount| *amount < 0) {
                    return Err(Broken::NegativePost { line });
                }
                self.standing.insert(*meter, *reading);
            }
            (Kind::Correct, Request::Correct(_, meter, reading)) => {
                self.standing.insert(*meter, *reading);
            }
            (Kind::Cancel, Request::Cancel(_, meter)) => {
                if let Some(line) = amounts.iter().position(|amount| *amount > 0) {
                    return Err(Broken::PositiveCancel { line });
                }
                self.standing.remove(meter);
            }
            (Kind::Account, Request::Account(_)) => return self.compare_account(amounts),
            _ => return Err(Broken::NotItsAnswer),
        }
        for (sum, amount) in self.sums.iter_mut().zip(amounts) {
            *sum += amount;
        }
        Ok(())
    }

    fn compare_account(&self, amounts: &Sums) -> Result<(), Broken> {
        for (line, (sum, account)) in self.sums.into_iter().zip(*amounts).enumerate() {
            if sum != account {
                return Err(Broken::Account { line, sum, account });
            }
        }
        Ok(())
    }

    /// The sums are the settlements of what stands.
    fn judge(&self, terms: &Terms) -> Result<InForce, Broken> {
        let settlements = terms.settlements(&self.standing);
        for (line, (sum, settlement)) in self.sums.into_iter().zip(settlements).enumerate() {
            let settlement = settlement as i128;
            if sum != settlement {
                return Err(Broken::Sum {
                    line,
                    sum,
                    settlement,
                });
            }
        }
        match terms.book {
            Book::Oregon => self.judge_cap(terms),
            Book::Cooperative => Ok(InForce::Charges),
        }
    }

    fn judge_cap(&self, terms: &Terms) -> Result<InForce, Broken> {
        let weight: u128 = self
            .standing
            .values()
            .map(|reading| weights(terms.book, &terms.card, reading)[LOW_INCOME_LINE])
            .sum();
        let (sum, uncapped, cap) = (self.sums[LOW_INCOME_LINE], cents(weight), terms.card.cap);
        if sum != uncapped.min(cap) as i128 {
            return Err(Broken::Cap { sum, uncapped, cap });
        }
        Ok(if self.standing.is_empty() {
            InForce::Nothing
        } else if uncapped > cap {
            InForce::Cap
        } else {
            InForce::Charges
        })
    }
}

/// The kind and the amounts of an answer that has amounts.
fn read_amounts(answer: &[u8]) -> Option<(Kind, Sums)> {
    let kinds = [Kind::Post, Kind::Cancel, Kind::Correct, Kind::Account];
    let frame = read_frame(answer, &kinds.map(|kind| (kind.answer_byte(), 4 * LINES))).ok()?;
    let kind = kinds
        .into_iter()
        .find(|kind| kind.answer_byte() == frame.kind)?;
    let mut amounts = [0; LINES];
    for (line, amount) in amounts.iter_mut().enumerate() {
        *amount = i128::from(frame.number(3 + 4 * line, 4) as u32 as i32);
    }
    Some((kind, amounts))
}

#[cfg(test)]
mod tests {
    use super::*;
    use crate::block::{Answer, Program};
    use crate::lines::write_card;
    use crate::requests::{Form, KWH, METER, SCHEDULE};
    use crate::tariffs::{Card, CardRates};

    const PLACE: SiteMonth = SiteMonth { site: 1, month: 1 };

    fn card() -> Vec<u8> {
        let rates = CardRates {
            supply: 0,
            low_income: 50,
        };
        let card = Card {
            cap: 5_000,
            rates: [rates; 7],
        };
        write_card(&card).into_bytes()
    }

    fn sent(kind: Kind, meter: u128, kwh: u128) -> Vec<u8> {
        Form::new(kind, PLACE)
            .with(METER, meter)
            .with(SCHEDULE, 4)
            .with(KWH, kwh)
            .line()
    }

    fn cancel(meter: u128) -> Vec<u8> {
        Form::new(Kind::Cancel, PLACE).with(METER, meter).line()
    }

    fn lines() -> Vec<Vec<u8>> {
        vec![
            card(),
            sent(Kind::Post, 1, 60_000),
            sent(Kind::Post, 2, 50_000),
            sent(Kind::Post, 2, 50_000),
            Form::new(Kind::Account, PLACE).line(),
            sent(Kind::Correct, 2, 60_000),
            cancel(1),
            Form::new(Kind::Account, PLACE).line(),
            Form::new(Kind::Close, PLACE).line(),
        ]
    }

    /// The first law broken by the model's answers, one of them changed.
    fn broken(changed: usize, change: impl Fn(&mut i32)) -> Option<Broken> {
        let mut program = Program::oregon();
        let mut ledger = Ledger::new(Book::Oregon);
        for (index, line) in lines().iter().enumerate() {
            let mut answer = program.answer(line);
            if let (true, Answer::Amounts(_, amounts)) = (index == changed, &mut answer) {
                change(&mut amounts[12]);
            }
            if let Err(broken) = ledger.enter(line, answer.line().as_bytes()) {
                return Some(broken);
            }
        }
        assert_eq!(ledger.capped(), 3);
        assert_eq!(ledger.crossed(), 2);
        assert_eq!(ledger.standing().count(), 1);
        None
    }

    #[test]
    fn the_model_keeps_the_laws() {
        assert_eq!(broken(0, |_| ()), None);
    }

    #[test]
    fn broken_laws_are_found() {
        assert_eq!(
            broken(1, |amount| *amount = -1),
            Some(Broken::NegativePost { line: 12 })
        );
        assert_eq!(
            broken(6, |amount| *amount = 1),
            Some(Broken::PositiveCancel { line: 12 })
        );
        // What the meter was once charged instead of the difference.
        assert_eq!(
            broken(6, |amount| *amount = -3_000),
            Some(Broken::Sum {
                line: 12,
                sum: 2_000,
                settlement: 3_000
            })
        );
        assert_eq!(
            broken(7, |amount| *amount += 1),
            Some(Broken::Account {
                line: 12,
                sum: 3_000,
                account: 3_001
            })
        );
    }

    #[test]
    fn an_answer_to_another_line() {
        let mut ledger = Ledger::new(Book::Cooperative);
        let posted = Answer::Amounts(Kind::Post, [0; LINES]).line();
        assert_eq!(
            ledger.enter(&cancel(1), posted.as_bytes()),
            Err(Broken::NotItsAnswer)
        );
        assert_eq!(
            ledger.enter(b"", posted.as_bytes()),
            Err(Broken::NotItsAnswer)
        );
    }
}
