//! The block: what each line changes and how it is answered, as
//! docs/protocol.md lays it down.

use std::collections::BTreeMap;

use crate::lines::{read_card, write_frame, Refusal};
use crate::requests::{self, Kind, Meter, Request, SiteMonth};
use crate::tariffs::{self, settlements, Book, Card, PerLine, Reading, Refused, LINES};

pub const CAPACITY: usize = 64;
pub const MOST_READINGS: usize = 16;

// ---- Terms ----

/// What readings cost: a book, and the card if it is Oregon's.
#[derive(Clone, Debug, PartialEq, Eq, Hash)]
pub struct Terms {
    pub book: Book,
    /// Of no effect with the cooperative's book.
    pub card: Card,
}

impl Terms {
    pub fn oregon(card: Card) -> Self {
        Terms {
            book: Book::Oregon,
            card,
        }
    }

    pub fn cooperative() -> Self {
        Terms {
            book: Book::Cooperative,
            card: Card::default(),
        }
    }

    pub fn settlements(&self, readings: &Readings) -> PerLine {
        let readings: Vec<Reading> = readings.values().copied().collect();
        settlements(self.book, &self.card, &readings)
    }
}

// ---- Records ----

#[derive(Clone, Copy, Debug, PartialEq, Eq)]
pub enum State {
    Open,
    Closed,
}

/// The standing readings by meter, in rising order.
pub type Readings = BTreeMap<Meter, Reading>;

#[derive(Clone, Debug, PartialEq, Eq)]
pub struct Record {
    pub state: State,
    pub readings: Readings,
}

impl Record {
    fn new() -> Self {
        Record {
            state: State::Open,
            readings: Readings::new(),
        }
    }
}

pub type Records = BTreeMap<SiteMonth, Record>;

// ---- Answers ----

pub type Amounts = [i32; LINES];

#[derive(Clone, Copy, Debug, PartialEq, Eq)]
pub enum Answer {
    CardTaken,
    Amounts(Kind, Amounts),
    Closed,
    Refused(Refusal),
}

const CARD_TAKEN: u8 = 0x90;

impl Answer {
    pub fn line(&self) -> String {
        match self {
            Answer::CardTaken => write_frame(CARD_TAKEN, &[]),
            Answer::Amounts(kind, amounts) => {
                let payload: Vec<u8> = amounts
                    .iter()
                    .flat_map(|amount| amount.to_be_bytes())
                    .collect();
                write_frame(kind.answer_byte(), &payload)
            }
            Answer::Closed => write_frame(Kind::Close.answer_byte(), &[]),
            Answer::Refused(refusal) => refusal.line(),
        }
    }
}

/// What a line changed by, or is, in cents.
fn amounts(after: &PerLine, before: &PerLine) -> Amounts {
    let mut amounts = [0; LINES];
    for (line, amount) in amounts.iter_mut().enumerate() {
        let change = after[line] as i128 - before[line] as i128;
        *amount = i32::try_from(change).expect("a settlement is at most 2,000,000,000");
    }
    amounts
}

// ---- Refusals 9 to 15 ----

#[derive(Clone, Copy, Debug, PartialEq, Eq)]
enum Fault {
    Schedule,
    Flag,
    Closed,
    Standing,
    NoMeter,
    NotHeld,
    RecordFull,
    StoreFull,
}

impl From<Fault> for Refusal {
    fn from(fault: Fault) -> Refusal {
        match fault {
            Fault::Schedule => Refusal::new(9, 4, 11),
            Fault::Flag => Refusal::new(10, 4, 13),
            Fault::Closed => Refusal::new(11, 5, 3),
            Fault::Standing => Refusal::new(12, 5, 9),
            Fault::NoMeter => Refusal::new(13, 5, 9),
            Fault::NotHeld => Refusal::new(13, 5, 3),
            Fault::RecordFull => Refusal::new(14, 5, 9),
            Fault::StoreFull => Refusal::new(15, 6, 3),
        }
    }
}

// ---- The block ----

#[derive(Clone, Debug)]
pub struct Block {
    terms: Terms,
    capacity: usize,
    records: Records,
}

impl Block {
    pub fn new(terms: Terms, capacity: usize, records: Records) -> Self {
        Block {
            terms,
            capacity,
            records,
        }
    }

    pub fn records(&self) -> &Records {
        &self.records
    }

    pub fn capacity(&self) -> usize {
        self.capacity
    }

    pub fn is_full(&self) -> bool {
        self.records.len() >= self.capacity
    }

    /// The answer to a line of any bytes.
    pub fn serve(&mut self, line: &[u8]) -> Answer {
        match self.accepted(line) {
            Ok(request) => self.carry_out(&request),
            Err(refusal) => Answer::Refused(refusal),
        }
    }

    fn accepted(&self, line: &[u8]) -> Result<Request, Refusal> {
        let request = requests::read(line)?;
        self.check_book(&request)?;
        self.check_account(&request)?;
        Ok(request)
    }

    /// Tests 9 and 10.
    fn check_book(&self, request: &Request) -> Result<(), Fault> {
        let (Request::Post(_, _, reading) | Request::Correct(_, _, reading)) = request else {
            return Ok(());
        };
        match tariffs::check(self.terms.book, reading) {
            Ok(()) => Ok(()),
            Err(Refused::Schedule) => Err(Fault::Schedule),
            Err(Refused::Flag) => Err(Fault::Flag),
        }
    }

    /// Tests 11 to 15.
    fn check_account(&self, request: &Request) -> Result<(), Fault> {
        let record = self.records.get(&request.site_month());
        let is_closed = record.is_some_and(|record| record.state == State::Closed);
        let stands = |meter| record.is_some_and(|record| record.readings.contains_key(meter));
        let is_record_full = record.is_some_and(|record| record.readings.len() >= MOST_READINGS);
        match request {
            Request::Account(_) if record.is_none() => Err(Fault::NotHeld),
            Request::Account(_) => Ok(()),
            _ if is_closed => Err(Fault::Closed),
            Request::Post(_, meter, _) if stands(meter) => Err(Fault::Standing),
            Request::Correct(_, meter, _) | Request::Cancel(_, meter) if !stands(meter) => {
                Err(Fault::NoMeter)
            }
            Request::Close(_) if record.is_none() => Err(Fault::NotHeld),
            Request::Post(..) if is_record_full => Err(Fault::RecordFull),
            Request::Post(..) if record.is_none() && self.is_full() => Err(Fault::StoreFull),
            _ => Ok(()),
        }
    }

    fn carry_out(&mut self, request: &Request) -> Answer {
        let site_month = request.site_month();
        let before = self.settled(site_month);
        let kind = match request {
            Request::Post(_, meter, reading) => {
                self.put(site_month, *meter, *reading);
                Kind::Post
            }
            Request::Correct(_, meter, reading) => {
                self.put(site_month, *meter, *reading);
                Kind::Correct
            }
            Request::Cancel(_, meter) => {
                self.take_out(site_month, *meter);
                Kind::Cancel
            }
            Request::Close(_) => {
                self.close(site_month);
                return Answer::Closed;
            }
            Request::Account(_) => {
                return Answer::Amounts(Kind::Account, amounts(&before, &[0; LINES]));
            }
        };
        Answer::Amounts(kind, amounts(&self.settled(site_month), &before))
    }

    fn settled(&self, site_month: SiteMonth) -> PerLine {
        match self.records.get(&site_month) {
            Some(record) => self.terms.settlements(&record.readings),
            None => [0; LINES],
        }
    }

    fn put(&mut self, site_month: SiteMonth, meter: Meter, reading: Reading) {
        let record = self.records.entry(site_month).or_insert_with(Record::new);
        record.readings.insert(meter, reading);
    }

    /// With its last reading the record goes too.
    fn take_out(&mut self, site_month: SiteMonth, meter: Meter) {
        if let Some(record) = self.records.get_mut(&site_month) {
            record.readings.remove(&meter);
            if record.readings.is_empty() {
                self.records.remove(&site_month);
            }
        }
    }

    fn close(&mut self, site_month: SiteMonth) {
        if let Some(record) = self.records.get_mut(&site_month) {
            record.state = State::Closed;
        }
    }
}

// ---- The programs ----

/// `oregon-serve` or `coop-lines`, line by line.
#[derive(Clone, Debug)]
pub enum Program {
    /// Each line is taken as a card until one is accepted.
    AwaitingCard,
    Serving(Box<Block>),
}

impl Program {
    pub fn oregon() -> Self {
        Program::AwaitingCard
    }

    pub fn cooperative(capacity: usize, records: Records) -> Self {
        let block = Block::new(Terms::cooperative(), capacity, records);
        Program::Serving(Box::new(block))
    }

    /// The program as it starts with nothing held.
    pub fn of(book: Book) -> Self {
        match book {
            Book::Oregon => Program::oregon(),
            Book::Cooperative => Program::cooperative(CAPACITY, Records::new()),
        }
    }

    /// The answer to a line of any bytes.
    pub fn answer(&mut self, line: &[u8]) -> Answer {
        match self {
            Program::Serving(block) => block.serve(line),
            Program::AwaitingCard => match read_card(line) {
                Ok(card) => {
                    let block = Block::new(Terms::oregon(card), CAPACITY, Records::new());
                    *self = Program::Serving(Box::new(block));
                    Answer::CardTaken
                }
                Err(refusal) => Answer::Refused(refusal),
            },
        }
    }

    pub fn block(&self) -> Option<&Block> {
        match self {
            Program::AwaitingCard => None,
            Program::Serving(block) => Some(block),
        }
    }

    pub fn record(&self, site_month: SiteMonth) -> Option<&Record> {
        self.block()?.records().get(&site_month)
    }
}

#[cfg(test)]
mod tests {
    use super::*;
    use crate::lines::write_card;
    use crate::requests::{Form, DEMAND, FLAGS, METER, SCHEDULE};
    use crate::tariffs::CardRates;

    const CARD: &str = "102000001388138800141388001413880014138800141388001413880014138800146C";
    const POST: &str = "01340000000700FC0001000400000003E80000000000000000000000000000640000000000000000000000000000000000000000000074";
    const POSTED: &str = "8134000003B60000000000000DC3000000000000000000000332000000920000000000001388000000050000002600000004000000141D";

    const PLACE: SiteMonth = SiteMonth {
        site: 7,
        month: 252,
    };

    fn at(site: u128) -> SiteMonth {
        SiteMonth { site, month: 252 }
    }

    fn said(program: &mut Program, line: &str) -> String {
        program.answer(line.as_bytes()).line()
    }

    fn form(kind: Kind, site_month: SiteMonth, meter: Meter) -> Form {
        Form::new(kind, site_month).with(METER, meter)
    }

    fn sent(kind: Kind, meter: Meter, reading: Reading, earlier_kw: [u128; 11]) -> Vec<u8> {
        form(kind, PLACE, meter)
            .with_reading(&reading, &earlier_kw)
            .line()
    }

    fn on(schedule: u128, flags: u128) -> Reading {
        Reading {
            schedule,
            flags,
            power_factor: 100,
            ..Reading::default()
        }
    }

    fn oregon_with(cap: u128, supply: u128, low_income: u128) -> Program {
        let card = Card {
            cap,
            rates: [CardRates { supply, low_income }; 7],
        };
        let mut program = Program::oregon();
        assert_eq!(said(&mut program, &write_card(&card)), "900070");
        program
    }

    fn oregon() -> Program {
        oregon_with(5_000, 5_000, 20)
    }

    fn amounts_of(answer: Answer) -> Amounts {
        match answer {
            Answer::Amounts(_, amounts) => amounts,
            other => panic!("{other:?}"),
        }
    }

    /// The amounts of one reading alone, by its post.
    fn alone(reading: Reading, earlier_kw: [u128; 11]) -> Amounts {
        amounts_of(oregon().answer(&sent(Kind::Post, 1, reading, earlier_kw)))
    }

    fn refused(program: &mut Program, line: &[u8]) -> (u8, u8, u16) {
        let before = format!("{program:?}");
        match program.answer(line) {
            Answer::Refused(refusal) => {
                assert_eq!(format!("{program:?}"), before, "a refusal alters nothing");
                (refusal.number, refusal.layer, refusal.place)
            }
            other => panic!("{other:?}"),
        }
    }

    #[test]
    fn worked_month() {
        let mut program = Program::oregon();
        assert_eq!(said(&mut program, CARD), "900070");
        assert_eq!(said(&mut program, POST), POSTED);
        assert_eq!(
            said(&mut program, "02080000000700FC0002F1"),
            "7F040D05000962"
        );
        let account = said(&mut program, "05060000000700FCF2");
        assert_eq!(account[..2], *"85");
        assert_eq!(account[2..108], POSTED[2..108]);
    }

    #[test]
    fn lines_before_and_after_the_card() {
        let mut program = Program::oregon();
        assert_eq!(said(&mut program, ""), "7F04020100007A");
        assert_eq!(said(&mut program, POST), "7F040502000175");
        assert_eq!(said(&mut program, CARD), "900070");
        assert_eq!(said(&mut program, CARD), "7F040502000175");
        assert_eq!(said(&mut program, &format!("{POST}\r")), "7F04020100007A");
        let mut cooperative = Program::of(Book::Cooperative);
        assert_eq!(said(&mut cooperative, CARD), "7F040502000175");
        assert_eq!(said(&mut cooperative, POST), "7F040904000B65");
    }

    #[test]
    fn close_answers_without_amounts() {
        let mut program = oregon();
        said(&mut program, POST);
        let close = Form::new(Kind::Close, PLACE).line();
        assert_eq!(program.answer(&close).line(), "84007C");
        assert_eq!(refused(&mut program, &close), (11, 5, 3));
        assert_eq!(refused(&mut program, POST.as_bytes()), (11, 5, 3));
        let cancel = form(Kind::Cancel, PLACE, 1).line();
        assert_eq!(refused(&mut program, &cancel), (11, 5, 3));
        assert_eq!(said(&mut program, "05060000000700FCF2")[..2], *"85");
        let unknown = form(Kind::Post, PLACE, 1).with(SCHEDULE, 30).line();
        assert_eq!(refused(&mut program, &unknown), (9, 4, 11));
    }

    #[test]
    fn amounts_in_twos_complement() {
        let mut amounts = [0; LINES];
        amounts[12] = -2_500;
        let line = Answer::Amounts(Kind::Cancel, amounts).line();
        assert_eq!(line[..4], *"8234");
        assert_eq!(line[100..108], *"FFFFF63C");
    }

    #[test]
    fn case_2() {
        let reading = Reading {
            kwh: 8_000,
            demand: 204,
            kvar: 10,
            ..on(23, 4)
        };
        assert_eq!(
            alone(reading, [0; 11])[..7],
            [2_590, 3_020, 25_456, 0, 130, 5_784, 1_064]
        );
    }

    #[test]
    fn case_3() {
        let reading = Reading {
            demand: 500,
            ..on(28, 0)
        };
        assert_eq!(alone(reading, [0; 11])[..2], [1_900, 26_150]);
        let mut earlier_kw = [0; 11];
        earlier_kw[4] = 52;
        assert_eq!(alone(reading, earlier_kw)[..2], [3_500, 24_995]);
    }

    #[test]
    fn cases_4_and_5() {
        let reading = |flags, kwh| Reading {
            kwh,
            ..on(28, flags)
        };
        assert_eq!(alone(reading(2, 10_000), [0; 11])[2], 4_046);
        assert_eq!(alone(reading(0, 500), [0; 11])[6], 74);
    }

    #[test]
    fn case_6() {
        let reading = |kwh| Reading {
            kwh,
            demand: 150,
            ..on(29, 0)
        };
        assert_eq!(alone(reading(33_700), [0; 11])[7], 26);
        assert_eq!(alone(reading(33_600), [0; 11])[7], 0);
    }

    #[test]
    fn case_7() {
        let mut program = oregon_with(5_000, 0, 50);
        let reading = |kwh| Reading { kwh, ..on(4, 0) };
        let lines = [
            sent(Kind::Post, 1, reading(60_000), [0; 11]),
            sent(Kind::Post, 2, reading(50_000), [0; 11]),
            form(Kind::Cancel, PLACE, 1).line(),
        ];
        let answers = lines.map(|line| amounts_of(program.answer(&line))[12]);
        assert_eq!(answers, [3_000, 2_000, -2_500]);
    }

    #[test]
    fn case_8() {
        let mut program = oregon();
        let reading = Reading {
            kwh: 70,
            ..on(4, 0)
        };
        let answers = [1, 2, 3]
            .map(|meter| amounts_of(program.answer(&sent(Kind::Post, meter, reading, [0; 11])))[9]);
        assert_eq!(answers, [0, 1, 0]);
    }

    #[test]
    fn case_9() {
        let reading = Reading {
            kwh: 100_000,
            off_hours: 30_000,
            demand: 4_000,
            peak_demand: 3_500,
            power_factor: 95,
            ..on(5, 0)
        };
        let mut program = Program::of(Book::Cooperative);
        let answer = program.answer(&sent(Kind::Post, 1, reading, [0; 11]));
        assert_eq!(
            amounts_of(answer),
            [22_000, 218_750, 372_000, 15_600, 5_000, 0, 0, 0, 0, 0, 0, 0, 0]
        );
    }

    #[test]
    fn more_values() {
        let free_15_kw = Reading {
            demand: 150,
            ..on(23, 1)
        };
        assert_eq!(alone(free_15_kw, [0; 11])[1], 141);
        let usage = Reading {
            kwh: 500,
            ..on(4, 0)
        };
        assert_eq!(alone(usage, [0; 11])[6], 73);
        for schedule in [4, 5] {
            let line_1 = |demand| {
                let reading = Reading {
                    demand,
                    ..on(schedule, 4)
                };
                alone(reading, [0; 11])[1]
            };
            assert_eq!([0, 10, 20].map(line_1), [380, 380, 440]);
        }
        let reactive = Reading {
            kvar: 10,
            ..on(28, 0)
        };
        assert_eq!(alone(reactive, [0; 11])[4], 650);
        let all_lines = Reading {
            kwh: 10_000,
            demand: 123,
            kvar: 10,
            ..on(28, 2)
        };
        let mut earlier_kw = [0; 11];
        earlier_kw[0] = 101;
        earlier_kw[10] = 101;
        assert_eq!(
            alone(all_lines, earlier_kw),
            [8_400, 11_420, 4_046, 0, 333, 3_249, 1_447, 0, 49_225, 49, 364, 30, 197]
        );
    }

    #[test]
    fn a_correct_answers_the_change() {
        let mut program = oregon();
        let reading = |kwh| Reading { kwh, ..on(4, 0) };
        program.answer(&sent(Kind::Post, 1, reading(1_000), [0; 11]));
        let lower = program.answer(&sent(Kind::Correct, 1, reading(0), [0; 11]));
        assert_eq!(
            amounts_of(lower),
            [0, 0, -3_523, 0, 0, -818, -146, 0, -5_000, -5, -38, -4, -20]
        );
        let missing = sent(Kind::Correct, 2, reading(0), [0; 11]);
        assert_eq!(refused(&mut program, &missing), (13, 5, 9));
    }

    #[test]
    fn book_refusals_come_in_order() {
        let mut program = oregon();
        let post = form(Kind::Post, PLACE, 1)
            .with(SCHEDULE, 30)
            .with(FLAGS, 15);
        assert_eq!(refused(&mut program, &post.line()), (9, 4, 11));
        let post = post.with(SCHEDULE, 29);
        assert_eq!(refused(&mut program, &post.clone().line()), (10, 4, 13));
        assert_eq!(
            refused(&mut program, &post.with(DEMAND, 100_000).line()),
            (7, 3, 22)
        );
    }

    #[test]
    fn what_is_not_held() {
        let mut program = oregon();
        for (kind, place) in [(Kind::Close, 3), (Kind::Account, 3)] {
            let line = Form::new(kind, PLACE).line();
            assert_eq!(refused(&mut program, &line), (13, 5, place));
        }
        let cancel = form(Kind::Cancel, PLACE, 1).line();
        assert_eq!(refused(&mut program, &cancel), (13, 5, 9));
    }

    #[test]
    fn a_full_record() {
        let mut program = oregon();
        let post = |meter| sent(Kind::Post, meter, on(4, 0), [0; 11]);
        for meter in 0..16 {
            program.answer(&post(meter));
        }
        assert_eq!(refused(&mut program, &post(16)), (14, 5, 9));
        assert_eq!(refused(&mut program, &post(15)), (12, 5, 9));
        program.answer(&form(Kind::Cancel, PLACE, 3).line());
        assert!(matches!(
            program.answer(&post(16)),
            Answer::Amounts(Kind::Post, _)
        ));
    }

    #[test]
    fn a_full_store_and_its_room() {
        let mut block = Block::new(Terms::cooperative(), 2, Records::new());
        let post = |site, meter| form(Kind::Post, at(site), meter).with(SCHEDULE, 5).line();
        let number = |answer| match answer {
            Answer::Refused(refusal) => refusal.number,
            _ => 0,
        };
        for (site, meter, expected) in [(1, 1, 0), (2, 1, 0), (3, 1, 15), (2, 2, 0), (2, 2, 12)] {
            assert_eq!(number(block.serve(&post(site, meter))), expected);
        }
        let cancel = |meter| form(Kind::Cancel, at(2), meter).line();
        assert_eq!(number(block.serve(&cancel(1))), 0);
        assert_eq!(number(block.serve(&post(3, 1))), 15);
        assert_eq!(number(block.serve(&cancel(2))), 0);
        assert_eq!(number(block.serve(&post(3, 1))), 0);
        assert_eq!(number(block.serve(&post(2, 1))), 15);
        assert!(block.is_full());
    }
}
