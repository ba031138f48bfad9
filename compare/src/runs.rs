//! Runs for the block's programs, from a seed: lists of lines that lead into
//! every refusal and every kind of change.

use crate::block::{Answer, Program, State, CAPACITY, MOST_READINGS};
use crate::generator::{self, KWH_LIMIT};
use crate::lines::{spell, write_card, write_frame};
use crate::random::Random;
use crate::requests::{
    earlier, Field, Form, Kind, Meter, SiteMonth, DEMAND, EARLIER_MONTHS, FLAGS, KWH, METER, MONTH,
    OFF_HOURS, PEAK_DEMAND, SCHEDULE,
};
use crate::spoiler::refused_cards;
use crate::tariffs::{flags_offered, Book, Card, CardRates, Reading};

pub const FEWEST_LINES: usize = 20;
pub const MOST_LINES: usize = 120;

pub struct Run {
    /// It makes the whole run.
    pub number: u64,
    pub lines: Vec<Vec<u8>>,
    pub feeding: Feeding,
    pub ending: Ending,
}

/// How the program gets the lines.
#[derive(Clone, Copy, Debug, PartialEq, Eq)]
pub enum Feeding {
    AtOnce,
    /// Each line once the one before is answered.
    LineByLine,
    /// The program is ended after so many lines and started again.
    Restarted {
        after: usize,
    },
}

#[derive(Clone, Copy, Debug, PartialEq, Eq)]
pub enum Ending {
    LineFeed,
    /// The last line is not ended.
    Open,
}

/// What a run is bent on.
#[derive(Clone, Copy, Debug, PartialEq, Eq)]
pub enum Shape {
    /// Few site months and meters, all kinds of lines.
    Mixed,
    /// Sixteen readings in a record and a further one.
    FullRecord,
    /// A record in every room of the store and a further one.
    FullStore,
    /// Many readings in a site month, with the cap in reach.
    Money,
    /// Fields at their limits and just above.
    Edges,
    /// Mostly spoiled lines.
    Noise,
    /// The same readings reached in two ways, by a run with an even number
    /// and the next.
    Twins,
}

impl Shape {
    pub const ALL: [Shape; 7] = [
        Shape::Mixed,
        Shape::FullRecord,
        Shape::FullStore,
        Shape::Money,
        Shape::Edges,
        Shape::Noise,
        Shape::Twins,
    ];

    pub fn of(number: u64) -> Shape {
        Shape::ALL[(number / 2 % Shape::ALL.len() as u64) as usize]
    }
}

/// The run of a number. Of ten runs one is fed line by line, and with the
/// cooperative's book, which has an image, one is restarted.
pub fn run(book: Book, number: u64) -> Run {
    let mut maker = Maker::new(book, number);
    maker.make();
    let lines = maker.lines;
    let feeding = match (number % 10, book) {
        (3, Book::Cooperative) => Feeding::Restarted {
            after: maker.random.up_to(lines.len() as u128) as usize,
        },
        (8, _) => Feeding::LineByLine,
        _ => Feeding::AtOnce,
    };
    let last_is_empty = lines.last().is_none_or(Vec::is_empty);
    let ending = if !last_is_empty && maker.random.one_in(4) {
        Ending::Open
    } else {
        Ending::LineFeed
    };
    Run {
        number,
        lines,
        feeding,
        ending,
    }
}

// ---- Steps ----

#[derive(Clone, Copy, Debug, PartialEq, Eq)]
enum Step {
    Post,
    Correct,
    Cancel,
    Close,
    Account,
    /// A field at its limit or above.
    Edge,
    /// A schedule or a flag that the book lacks.
    Lacking,
    Spoiled,
    /// A post to a site month that is not held.
    PostElsewhere,
    /// A cancel of the only reading of a record.
    FreeRoom,
}

/// Steps with how often each is taken.
type Habit = &'static [(Step, u128)];

const MIXED: Habit = &[
    (Step::Post, 30),
    (Step::Correct, 14),
    (Step::Cancel, 18),
    (Step::Close, 3),
    (Step::Account, 7),
    (Step::Edge, 8),
    (Step::Lacking, 6),
    (Step::Spoiled, 10),
    (Step::PostElsewhere, 2),
    (Step::FreeRoom, 2),
];
const RECORD: Habit = &[
    (Step::Post, 40),
    (Step::Correct, 12),
    (Step::Cancel, 16),
    (Step::Close, 1),
    (Step::Account, 6),
    (Step::Lacking, 6),
    (Step::Spoiled, 6),
];
const STORE: Habit = &[
    (Step::PostElsewhere, 45),
    (Step::FreeRoom, 18),
    (Step::Post, 15),
    (Step::Cancel, 5),
    (Step::Correct, 4),
    (Step::Close, 3),
    (Step::Account, 4),
    (Step::Lacking, 3),
    (Step::Spoiled, 3),
];
const MONEY: Habit = &[
    (Step::Post, 40),
    (Step::Correct, 22),
    (Step::Cancel, 24),
    (Step::Account, 12),
    (Step::Close, 1),
    (Step::FreeRoom, 1),
];
const EDGES: Habit = &[
    (Step::Edge, 60),
    (Step::Lacking, 12),
    (Step::Post, 8),
    (Step::Cancel, 10),
    (Step::Close, 1),
    (Step::Account, 5),
    (Step::Spoiled, 4),
];
const NOISE: Habit = &[
    (Step::Spoiled, 70),
    (Step::Post, 12),
    (Step::Correct, 5),
    (Step::Cancel, 5),
    (Step::Close, 2),
    (Step::Account, 6),
];
/// Lines that change nothing.
const IDLE: Habit = &[(Step::Account, 2), (Step::Spoiled, 1)];

impl Shape {
    fn habit(self) -> Habit {
        match self {
            Shape::Mixed => MIXED,
            Shape::FullRecord => RECORD,
            Shape::FullStore => STORE,
            Shape::Money => MONEY,
            Shape::Edges => EDGES,
            Shape::Noise => NOISE,
            Shape::Twins => IDLE,
        }
    }
}

// ---- The maker ----

/// Makes a run. It follows the program, so that it knows what stands.
struct Maker {
    book: Book,
    number: u64,
    shape: Shape,
    random: Random,
    card: Card,
    program: Program,
    lines: Vec<Vec<u8>>,
    site_months: Vec<SiteMonth>,
    meters: Vec<Meter>,
}

impl Maker {
    fn new(book: Book, number: u64) -> Self {
        let shape = Shape::of(number);
        let mut random = Random::new(number);
        let card = match shape {
            Shape::Twins => card(&mut twins_random(number)),
            _ => card(&mut random),
        };
        let site_months = site_months(shape, &mut random);
        let meters = meters(shape, &mut random);
        Maker {
            book,
            number,
            shape,
            random,
            card,
            program: Program::of(book),
            lines: Vec::new(),
            site_months,
            meters,
        }
    }

    fn make(&mut self) {
        let fewest = match self.shape {
            Shape::FullStore => MOST_LINES - 20,
            Shape::FullRecord => 50,
            _ => FEWEST_LINES,
        };
        let length = self.random.between(fewest as u128, MOST_LINES as u128) as usize;
        if self.book == Book::Oregon {
            self.cards();
        }
        match self.shape {
            Shape::FullRecord => self.fill_record(),
            Shape::FullStore => self.fill_store(),
            Shape::Twins => self.reach_the_same(),
            Shape::Mixed | Shape::Money | Shape::Edges | Shape::Noise => (),
        }
        while self.lines.len() < length {
            self.step(self.shape.habit());
        }
    }

    fn push(&mut self, line: Vec<u8>) {
        self.program.answer(&line);
        self.lines.push(line);
    }

    /// Some refused cards and an accepted one, which is seldom left out.
    fn cards(&mut self) {
        let mut refused = refused_cards(&self.card);
        self.random.shuffle(&mut refused);
        let before = self.random.up_to(3) as usize;
        for line in refused.into_iter().take(before) {
            self.push(line);
        }
        if self.random.one_in(4) {
            let line = self.good_line();
            self.push(line);
        }
        if self.shape == Shape::Noise && self.random.one_in(10) {
            return;
        }
        self.push(write_card(&self.card).into_bytes());
    }

    fn step(&mut self, habit: Habit) {
        let step = self.chosen(habit);
        let line = match step {
            Step::Post => self.post(),
            Step::Correct => self.correct(),
            Step::Cancel => self.cancel(),
            Step::Close => self.site_month_form(Kind::Close).line(),
            Step::Account => self.site_month_form(Kind::Account).line(),
            Step::Edge => self.edge(),
            Step::Lacking => self.lacking(),
            Step::Spoiled => self.spoiled(),
            Step::PostElsewhere => self.post_elsewhere(),
            Step::FreeRoom => self.free_room(),
        };
        self.push(line);
    }

    fn chosen(&mut self, habit: Habit) -> Step {
        let all: u128 = habit.iter().map(|(_, share)| share).sum();
        let mut left = self.random.up_to(all - 1);
        for (step, share) in habit {
            if left < *share {
                return *step;
            }
            left -= share;
        }
        unreachable!("the shares add up to {all}")
    }

    // Where a request goes.

    fn site_month(&mut self) -> SiteMonth {
        *self.random.pick(&self.site_months)
    }

    fn standing(&self, site_month: SiteMonth) -> Vec<Meter> {
        match self.program.record(site_month) {
            Some(record) => record.readings.keys().copied().collect(),
            None => Vec::new(),
        }
    }

    /// One of the run's meters, most often one that stands.
    fn standing_meter(&mut self, site_month: SiteMonth) -> Meter {
        let standing = self.standing(site_month);
        if standing.is_empty() || self.random.one_in(4) {
            *self.random.pick(&self.meters)
        } else {
            *self.random.pick(&standing)
        }
    }

    /// One of the run's meters, most often one that does not stand.
    fn missing_meter(&mut self, site_month: SiteMonth) -> Meter {
        let standing = self.standing(site_month);
        let mut missing = self.meters.clone();
        missing.retain(|meter| !standing.contains(meter));
        if missing.is_empty() || self.random.one_in(4) {
            *self.random.pick(&self.meters)
        } else {
            *self.random.pick(&missing)
        }
    }

    // Requests in order.

    fn reading(&mut self) -> Reading {
        let mut reading = generator::random_reading(self.book, &self.card, &mut self.random);
        if self.shape == Shape::Money && !self.random.one_in(4) {
            reading.kwh = self.kwh_in_reach(&reading);
            reading.off_hours = reading.off_hours.min(reading.kwh);
        }
        reading
    }

    /// With Oregon's book, kWh for a part of the cap; with the
    /// cooperative's, about the step of the energy charge.
    fn kwh_in_reach(&mut self, reading: &Reading) -> u128 {
        match self.book {
            Book::Oregon => {
                let rate = self.card.rates_of(reading.schedule).low_income.max(1);
                let alone = self.card.cap * 1_000 / rate;
                self.random.up_to(alone * 2 / 3).min(KWH_LIMIT)
            }
            Book::Cooperative => self.random.between(74_990, 75_010),
        }
    }

    fn reading_form(&mut self, kind: Kind, site_month: SiteMonth, meter: Meter) -> Form {
        let reading = self.reading();
        let earlier_kw = earlier_demands(&reading, &mut self.random);
        Form::new(kind, site_month)
            .with(METER, meter)
            .with_reading(&reading, &earlier_kw)
    }

    fn post_form(&mut self) -> Form {
        let site_month = self.site_month();
        let meter = self.missing_meter(site_month);
        self.reading_form(Kind::Post, site_month, meter)
    }

    fn correct_form(&mut self) -> Form {
        let site_month = self.site_month();
        let meter = self.standing_meter(site_month);
        self.reading_form(Kind::Correct, site_month, meter)
    }

    fn cancel_form(&mut self) -> Form {
        let site_month = self.site_month();
        let meter = self.standing_meter(site_month);
        Form::new(Kind::Cancel, site_month).with(METER, meter)
    }

    fn site_month_form(&mut self, kind: Kind) -> Form {
        Form::new(kind, self.site_month())
    }

    fn post(&mut self) -> Vec<u8> {
        self.post_form().line()
    }

    fn correct(&mut self) -> Vec<u8> {
        self.correct_form().line()
    }

    fn cancel(&mut self) -> Vec<u8> {
        self.cancel_form().line()
    }

    fn good_form(&mut self) -> Form {
        match self.random.up_to(5) {
            0 | 1 => self.post_form(),
            2 => self.correct_form(),
            3 => self.cancel_form(),
            4 => self.site_month_form(Kind::Close),
            _ => self.site_month_form(Kind::Account),
        }
    }

    fn good_line(&mut self) -> Vec<u8> {
        self.good_form().line()
    }

    // Requests out of order.

    /// One or two fields at their limit or above.
    fn edge(&mut self) -> Vec<u8> {
        let mut form = match self.random.up_to(9) {
            0..=4 => self.post_form(),
            5..=7 => self.correct_form(),
            _ => return self.month_edge(),
        };
        if self.random.one_in(3) {
            return self.part_edge(form);
        }
        let fields = limited_fields(form.kind());
        for _ in 0..self.random.between(1, 2) {
            let field = self.random.pick(&fields);
            form = form.with(*field, edge_value(field, &mut self.random));
        }
        form.line()
    }

    fn month_edge(&mut self) -> Vec<u8> {
        let form = self.good_form();
        form.with(MONTH, edge_value(&MONTH, &mut self.random))
            .line()
    }

    /// Off-hours kWh or peak-hours demand at the whole or just above.
    fn part_edge(&mut self, form: Form) -> Vec<u8> {
        let (whole, part) = *self.random.pick(&[(KWH, OFF_HOURS), (DEMAND, PEAK_DEMAND)]);
        let any = self.random.up_to(50_000);
        let value = *self.random.pick(&[0, 1, any, 99_998, 99_999]);
        let of_part = *self
            .random
            .pick(&[value, value + 1, value + 256, part.greatest()]);
        let mut form = form.with(whole, value).with(part, of_part);
        if part == PEAK_DEMAND {
            form = form.with(OFF_HOURS, 0);
        }
        if self.random.one_in(3) {
            form = form.with(OFF_HOURS, 1_000_000 + any);
        }
        form.line()
    }

    fn lacking(&mut self) -> Vec<u8> {
        let form = match self.random.up_to(2) {
            0 => self.correct_form(),
            _ => self.post_form(),
        };
        let any = self.random.up_to(65_535);
        let schedule = *self.random.pick(&[
            0, 4, 5, 5, 6, 22, 23, 28, 29, 30, 260, 728, 730, 731, 1_280, 65_535, any,
        ]);
        let offered = flags_offered(self.book, schedule).unwrap_or(0);
        let flags = match self.random.up_to(3) {
            0 => offered,
            1 => 15,
            _ => self.random.up_to(15),
        };
        form.with(SCHEDULE, schedule).with(FLAGS, flags).line()
    }

    fn spoiled(&mut self) -> Vec<u8> {
        let form = self.good_form();
        let spoil = *self.random.pick(&Spoil::ALL);
        spoil.line(&form, &self.card, &mut self.random)
    }

    // Full records and stores.

    fn fill_record(&mut self) {
        let site_month = self.site_months[0];
        let mut meters = self.meters.clone();
        meters.truncate(MOST_READINGS);
        for meter in meters {
            let form = self.reading_form(Kind::Post, site_month, meter);
            self.push(form.line());
            if self.random.one_in(8) {
                self.step(RECORD);
            }
        }
        // A few steps may have left room.
        while self.standing(site_month).len() < MOST_READINGS && self.lines.len() < 45 {
            let meter = self.missing_meter(site_month);
            let form = self.reading_form(Kind::Post, site_month, meter);
            self.push(form.line());
        }
        for meter in [self.missing_meter(site_month), self.meters[0]] {
            let form = self.reading_form(Kind::Post, site_month, meter);
            self.push(form.line());
        }
    }

    fn fill_store(&mut self) {
        for index in 0..CAPACITY {
            let site_month = self.site_months[index];
            let meter = *self.random.pick(&self.meters);
            let form = self.reading_form(Kind::Post, site_month, meter);
            self.push(form.line());
            if self.random.one_in(16) {
                let line = self.spoiled();
                self.push(line);
            }
        }
    }

    fn is_held(&self, site_month: &SiteMonth) -> bool {
        self.program.record(*site_month).is_some()
    }

    /// A post to a site month that is not held: one of the run's or another.
    fn post_elsewhere(&mut self) -> Vec<u8> {
        let mut free = self.site_months.clone();
        free.retain(|site_month| !self.is_held(site_month));
        let site_month = if free.is_empty() || self.random.one_in(3) {
            any_site_month(&mut self.random)
        } else {
            *self.random.pick(&free)
        };
        let meter = *self.random.pick(&self.meters);
        self.reading_form(Kind::Post, site_month, meter).line()
    }

    /// If there is no record of one reading, some cancel.
    fn free_room(&mut self) -> Vec<u8> {
        let mut alone = Vec::new();
        if let Some(block) = self.program.block() {
            for (site_month, record) in block.records() {
                if record.state == State::Open && record.readings.len() == 1 {
                    alone.push(*site_month);
                }
            }
        }
        if alone.is_empty() {
            return self.cancel();
        }
        let site_month = *self.random.pick(&alone);
        let meter = self.standing(site_month)[0];
        Form::new(Kind::Cancel, site_month)
            .with(METER, meter)
            .line()
    }

    // Twins.

    /// The same readings for both twins: the even one goes straight, the odd
    /// one by ways round.
    fn reach_the_same(&mut self) {
        let mut target = self.target();
        if self.number.is_multiple_of(2) {
            for post in &target {
                self.push(post.line());
            }
        } else {
            self.random.shuffle(&mut target);
            let further = self.post_further();
            for post in &target {
                self.reach(post);
            }
            for cancel in further {
                self.push(cancel);
            }
        }
        if self.random.one_in(3) {
            let line = self.site_month_form(Kind::Close).line();
            self.push(line);
        }
    }

    /// Posts to the run's site months, from the number that the twins share.
    fn target(&mut self) -> Vec<Form> {
        let own = std::mem::replace(&mut self.random, twins_random(self.number));
        self.site_months = site_months(self.shape, &mut self.random);
        self.meters = meters(self.shape, &mut self.random);
        let mut target = Vec::new();
        for site_month in self.site_months.clone() {
            let mut meters = self.meters.clone();
            self.random.shuffle(&mut meters);
            let count = self.random.between(1, meters.len() as u128) as usize;
            for meter in &meters[..count] {
                target.push(self.reading_form(Kind::Post, site_month, *meter));
            }
        }
        self.random = own;
        target
    }

    /// Posts of meters that the target has not. Gives the cancels of them.
    fn post_further(&mut self) -> Vec<Vec<u8>> {
        let mut cancels = Vec::new();
        for site_month in self.site_months.clone() {
            for _ in 0..self.random.up_to(2) {
                let mut meter = self.random.up_to(65_535);
                while self.meters.contains(&meter) || self.standing(site_month).contains(&meter) {
                    meter = self.random.up_to(65_535);
                }
                let form = self.reading_form(Kind::Post, site_month, meter);
                self.push(form.line());
                let cancel = Form::new(Kind::Cancel, site_month).with(METER, meter);
                cancels.push(cancel.line());
            }
        }
        cancels
    }

    /// The reading of a post, by way of another reading or straight.
    fn reach(&mut self, post: &Form) {
        let reading = self.reading();
        let earlier_kw = earlier_demands(&reading, &mut self.random);
        let other = post.clone().with_reading(&reading, &earlier_kw);
        let correct = post.clone().with_kind(Kind::Correct);
        let other_correct = other.clone().with_kind(Kind::Correct);
        let cancel = post.clone().with_kind(Kind::Cancel);
        let way = match self.random.up_to(4) {
            0 => vec![post.clone()],
            1 => vec![other, correct],
            2 => vec![other, cancel, post.clone()],
            3 => vec![post.clone(), other_correct, correct],
            _ => vec![post.clone(), cancel, other, correct.clone(), correct],
        };
        for form in way {
            self.push(form.line());
        }
    }
}

// ---- What a run is about ----

fn twins_random(number: u64) -> Random {
    Random::new(!(number / 2))
}

/// Most often with a cap that a few readings reach.
fn card(random: &mut Random) -> Card {
    if random.one_in(4) {
        let kind = random.up_to(24) as u64;
        return generator::card(kind, random);
    }
    let mut rates = [CardRates::default(); 7];
    for schedule_rates in &mut rates {
        schedule_rates.supply = random.up_to(65_535);
        schedule_rates.low_income = random.between(10, 300);
    }
    let most = *random.pick(&[100, 2_000, 20_000, 200_000]);
    Card {
        cap: random.up_to(most),
        rates,
    }
}

fn any_site_month(random: &mut Random) -> SiteMonth {
    SiteMonth {
        site: random.up_to(u128::from(u32::MAX)),
        month: random.up_to(2_399),
    }
}

/// Site months that have the site or the month in common with one another.
fn site_months(shape: Shape, random: &mut Random) -> Vec<SiteMonth> {
    let (sites, months, count) = match shape {
        Shape::Mixed | Shape::Noise => (2, 2, random.between(1, 4)),
        Shape::FullRecord | Shape::Money | Shape::Edges => (2, 1, 2),
        Shape::FullStore => (12, 6, 72),
        Shape::Twins => (2, 2, 3),
    };
    let sites = numbers(
        sites,
        &[0, 1, 7, 8, 255, 256, 65_536, 16_777_216, 4_294_967_295],
        u128::from(u32::MAX),
        random,
    );
    let months = numbers(months, &[0, 1, 251, 252, 255, 256, 2_399], 2_399, random);
    let mut site_months = Vec::new();
    for site in &sites {
        for month in &months {
            site_months.push(SiteMonth {
                site: *site,
                month: *month,
            });
        }
    }
    random.shuffle(&mut site_months);
    site_months.truncate(count as usize);
    site_months
}

fn meters(shape: Shape, random: &mut Random) -> Vec<Meter> {
    let count = match shape {
        Shape::Mixed | Shape::Noise => random.between(2, 5),
        Shape::FullRecord => MOST_READINGS as u128 + 3,
        Shape::FullStore => 3,
        Shape::Money => 8,
        Shape::Edges => 6,
        Shape::Twins => 4,
    };
    numbers(
        count as usize,
        &[0, 1, 2, 255, 256, 257, 65_534, 65_535],
        65_535,
        random,
    )
}

/// So many different numbers, half of them from the ones given.
fn numbers(count: usize, some: &[u128], limit: u128, random: &mut Random) -> Vec<u128> {
    let mut numbers = Vec::new();
    while numbers.len() < count {
        let number = if random.one_in(2) {
            *random.pick(some)
        } else {
            random.up_to(limit)
        };
        if !numbers.contains(&number) {
            numbers.push(number);
        }
    }
    numbers
}

/// Demands that lead the load size to the edges of its bands and elsewhere.
fn earlier_demands(reading: &Reading, random: &mut Random) -> [u128; EARLIER_MONTHS] {
    let mut demands = [0; EARLIER_MONTHS];
    let count = *random.pick(&[0, 1, 2, EARLIER_MONTHS]);
    let band = *random.pick(&[15, 50, 51, 100, 101, 200, 201, 300, 301]);
    let kind = random.up_to(3);
    for demand in demands.iter_mut().take(count) {
        *demand = match kind {
            0 => band,
            1 => (reading.demand_kw() + random.up_to(2)).min(9_999),
            2 => random.up_to(400),
            _ => random.up_to(9_999),
        };
    }
    random.shuffle(&mut demands);
    demands
}

/// Those with a limit of their own. The earlier demands are many, so the
/// others are there more than once.
fn limited_fields(kind: Kind) -> Vec<Field> {
    let mut fields = Vec::new();
    for field in kind.fields() {
        if field.limit.is_some() {
            let times = if field.first < earlier(0).first { 2 } else { 1 };
            fields.extend([*field].repeat(times));
        }
    }
    fields
}

fn edge_value(field: &Field, random: &mut Random) -> u128 {
    let greatest = field.greatest();
    let limit = field.limit.unwrap_or(greatest);
    let above = (limit + 1).min(greatest);
    let any = random.between(above, greatest);
    *random.pick(&[limit - 1, limit, limit, above, above, greatest, any])
}

// ---- Spoiled lines ----

/// A way to make a line of a request that tests 2 to 6 refuse.
#[derive(Clone, Copy, Debug, PartialEq, Eq)]
enum Spoil {
    Empty,
    TooShort,
    OddLength,
    TooLong,
    CarriageReturn,
    TwoCarriageReturns,
    LowerCase,
    NoDigit,
    NoDigitAndOdd,
    CheckByte,
    AnotherDigit,
    WrongKind,
    WrongKindAndSum,
    WrongKindAndLength,
    LengthByte,
    ShortPayload,
    LongPayload,
    LongestLine,
    Twice,
    Card,
    AnyBytes,
}

impl Spoil {
    const ALL: [Spoil; 21] = [
        Spoil::Empty,
        Spoil::TooShort,
        Spoil::OddLength,
        Spoil::TooLong,
        Spoil::CarriageReturn,
        Spoil::TwoCarriageReturns,
        Spoil::LowerCase,
        Spoil::NoDigit,
        Spoil::NoDigitAndOdd,
        Spoil::CheckByte,
        Spoil::AnotherDigit,
        Spoil::WrongKind,
        Spoil::WrongKindAndSum,
        Spoil::WrongKindAndLength,
        Spoil::LengthByte,
        Spoil::ShortPayload,
        Spoil::LongPayload,
        Spoil::LongestLine,
        Spoil::Twice,
        Spoil::Card,
        Spoil::AnyBytes,
    ];

    fn line(self, form: &Form, card: &Card, random: &mut Random) -> Vec<u8> {
        let good = form.line();
        let kind = form.kind().byte();
        let payload = form.payload();
        match self {
            Spoil::Empty => Vec::new(),
            Spoil::TooShort => good[..random.between(1, 5) as usize].to_vec(),
            Spoil::OddLength if random.one_in(2) => good[1..].to_vec(),
            Spoil::OddLength => [&good[..], b"0"].concat(),
            Spoil::TooLong => {
                let length = random.between(129, 300) as usize;
                good.into_iter().cycle().take(length).collect()
            }
            Spoil::CarriageReturn => [&good[..], b"\r"].concat(),
            Spoil::TwoCarriageReturns => [&good[..], b"\r\r"].concat(),
            Spoil::LowerCase => lower_case(good, random),
            Spoil::NoDigit => no_digit(good, random),
            Spoil::NoDigitAndOdd => no_digit(good[1..].to_vec(), random),
            Spoil::CheckByte => {
                let mut bytes = good;
                let last = bytes.len() - 1;
                bytes[last] = other_digit(bytes[last], random);
                bytes
            }
            Spoil::AnotherDigit => {
                let mut bytes = good;
                let place = random.up_to(bytes.len() as u128 - 1) as usize;
                bytes[place] = other_digit(bytes[place], random);
                bytes
            }
            Spoil::WrongKind => write_frame(wrong_kind(random), payload).into_bytes(),
            Spoil::WrongKindAndSum => {
                let mut bytes = write_frame(wrong_kind(random), payload).into_bytes();
                let last = bytes.len() - 1;
                bytes[last] = other_digit(bytes[last], random);
                bytes
            }
            Spoil::WrongKindAndLength => write_frame(wrong_kind(random), &[0; 3]).into_bytes(),
            Spoil::LengthByte => {
                let length = payload.len() as u8;
                let any = random.up_to(255) as u8;
                let picked = *random.pick(&[0, length - 1, length + 1, 255, any]);
                let other = if picked == length { length + 2 } else { picked };
                with_length(kind, other, payload)
            }
            Spoil::ShortPayload => {
                let short = &payload[..random.up_to(payload.len() as u128 - 1) as usize];
                either_length(form.kind(), short, random)
            }
            Spoil::LongPayload => {
                let long = [payload, &[0, 0][..random.between(1, 2) as usize]].concat();
                either_length(form.kind(), &long, random)
            }
            Spoil::LongestLine => {
                let mut longest = payload.to_vec();
                longest.resize(61, 0);
                either_length(form.kind(), &longest, random)
            }
            Spoil::Twice => [&good[..], &good[..]].concat(),
            Spoil::Card => write_card(card).into_bytes(),
            Spoil::AnyBytes => any_bytes(random),
        }
    }
}

const HEXADECIMAL: &[u8] = b"0123456789ABCDEF";

fn other_digit(digit: u8, random: &mut Random) -> u8 {
    let mut other = digit;
    while other == digit {
        other = *random.pick(HEXADECIMAL);
    }
    other
}

/// Some of the letters small, or an `a` put in if there are none.
fn lower_case(mut line: Vec<u8>, random: &mut Random) -> Vec<u8> {
    let letters: Vec<usize> = (0..line.len())
        .filter(|place| line[*place].is_ascii_uppercase())
        .collect();
    if letters.is_empty() {
        let place = random.up_to(line.len() as u128 - 1) as usize;
        line[place] = b'a';
        return line;
    }
    if random.one_in(2) {
        return line.to_ascii_lowercase();
    }
    line[*random.pick(&letters)].make_ascii_lowercase();
    line
}

/// One or two characters that are no digits.
fn no_digit(mut line: Vec<u8>, random: &mut Random) -> Vec<u8> {
    for _ in 0..random.between(1, 2) {
        let place = random.up_to(line.len() as u128 - 1) as usize;
        line[place] = *random.pick(b"/:@G`ag zZ\0\r\t\x7F\x80\xB0\xC1\xFF");
    }
    line
}

fn wrong_kind(random: &mut Random) -> u8 {
    *random.pick(&[
        0x00, 0x06, 0x07, 0x0F, 0x10, 0x11, 0x20, 0x7F, 0x80, 0x81, 0x82, 0x83, 0x84, 0x85, 0x90,
        0xFE, 0xFF,
    ])
}

/// A frame with right sum and this length byte.
fn with_length(kind: u8, length: u8, payload: &[u8]) -> Vec<u8> {
    let mut bytes = [&[kind, length], payload].concat();
    let sum = bytes.iter().fold(0u8, |sum, byte| sum.wrapping_add(*byte));
    bytes.push(sum.wrapping_neg());
    spell(&bytes).into_bytes()
}

/// The length byte is that of the payload or that of the kind.
fn either_length(kind: Kind, payload: &[u8], random: &mut Random) -> Vec<u8> {
    let length = *random.pick(&[payload.len(), kind.payload_length()]);
    with_length(kind.byte(), length as u8, payload)
}

/// Bytes of any value but the line feed.
fn any_bytes(random: &mut Random) -> Vec<u8> {
    (0..random.up_to(140))
        .map(|_| random.up_to(255) as u8)
        .map(|byte| if byte == b'\n' { b'\r' } else { byte })
        .collect()
}

// ---- What a program is given ----

/// The lines as standard input.
pub fn input(lines: &[Vec<u8>], ending: Ending) -> Vec<u8> {
    let mut input = lines.join(&b'\n');
    if ending == Ending::LineFeed && !lines.is_empty() {
        input.push(b'\n');
    }
    input
}

/// The model's answers to lines.
pub fn answers(program: &mut Program, lines: &[Vec<u8>]) -> Vec<Answer> {
    lines.iter().map(|line| program.answer(line)).collect()
}

#[cfg(test)]
mod tests {
    use super::*;
    use crate::block::Records;
    use crate::requests;

    const BOOKS: [Book; 2] = [Book::Oregon, Book::Cooperative];

    fn left(book: Book, number: u64) -> Records {
        let mut program = Program::of(book);
        answers(&mut program, &run(book, number).lines);
        match program.block() {
            Some(block) => block.records().clone(),
            None => Records::new(),
        }
    }

    #[test]
    fn runs_are_lawful_input() {
        for book in BOOKS {
            for number in 0..210 {
                let run = run(book, number);
                assert!((FEWEST_LINES..=MOST_LINES).contains(&run.lines.len()));
                for line in &run.lines {
                    assert!(!line.contains(&b'\n'));
                }
                let input = input(&run.lines, run.ending);
                assert_eq!(
                    input.split_inclusive(|byte| *byte == b'\n').count(),
                    run.lines.len()
                );
            }
        }
    }

    #[test]
    fn a_number_makes_one_run() {
        for book in BOOKS {
            for number in 0..28 {
                assert_eq!(run(book, number).lines, run(book, number).lines);
            }
        }
    }

    #[test]
    fn spoiled_lines_are_refused_as_lines() {
        for book in BOOKS {
            let mut maker = Maker::new(book, 10);
            for spoil in Spoil::ALL {
                for _ in 0..50 {
                    let form = maker.good_form();
                    let line = spoil.line(&form, &maker.card, &mut maker.random);
                    let refusal = requests::read(&line).unwrap_err();
                    assert!((2..=6).contains(&refusal.number), "{spoil:?}");
                }
            }
        }
    }

    #[test]
    fn twins_leave_the_same_readings() {
        for book in BOOKS {
            let mut met = 0;
            for number in (0..420).step_by(2) {
                if Shape::of(number) != Shape::Twins {
                    continue;
                }
                let readings = |number| -> Vec<_> {
                    left(book, number)
                        .into_iter()
                        .map(|(site_month, record)| (site_month, record.readings))
                        .collect()
                };
                let straight = readings(number);
                assert!(!straight.is_empty());
                assert_eq!(straight, readings(number + 1));
                assert_ne!(run(book, number).lines, run(book, number + 1).lines);
                met += 1;
            }
            assert_eq!(met, 30);
        }
    }

    #[test]
    fn stores_are_filled() {
        for book in BOOKS {
            for number in [4, 5, 18, 19] {
                assert_eq!(Shape::of(number), Shape::FullStore);
                let mut program = Program::of(book);
                let full = run(book, number).lines.iter().any(|line| {
                    program.answer(line);
                    program.block().is_some_and(|block| block.is_full())
                });
                assert!(full);
            }
        }
    }
}
