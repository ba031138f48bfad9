//! Lawful input for `bills`: a card and readings, from a seed.
//!
//! Readings that stand at an edge of the tariffs are built on purpose; the
//! rest are random.

use std::collections::HashSet;
use std::ops::RangeInclusive;

use crate::bills::{Entry, Field};
use crate::lines::CAP_LIMIT;
use crate::random::Random;
use crate::tariffs::{
    alone, billed_demand, cents, flags_offered, units, Book, Card, CardRates, Reading,
    COOPERATIVE_SCHEDULES, LOW_INCOME_LINE, OREGON_SCHEDULES, UNITS_PER_CENT,
};

pub const KWH_LIMIT: u128 = 999_999;
pub const DEMAND_LIMIT: u128 = 99_999;
pub const KVAR_LIMIT: u128 = 9_999;
pub const POWER_FACTOR_LIMIT: u128 = 100;
pub const LOAD_SIZE_LIMIT: u128 = 10_000;
const RATE_LIMIT: u128 = 65_535;
const HALF_CENT: u128 = UNITS_PER_CENT / 2;

/// The built entries and random ones up to `count`, in random order. With a
/// smaller `count` it is a random choice of the built ones.
pub fn entries(card: &Card, count: usize, random: &mut Random) -> Vec<Entry> {
    let mut entries = built(card, random);
    while entries.len() < count {
        entries.push(random_entry(card, random));
    }
    random.shuffle(&mut entries);
    entries.truncate(count);
    entries
}

// ---- The card ----

/// Seeds that follow each other take turns at the kinds of rates and caps, so
/// that 25 of them have every pair.
pub fn card(seed: u64, random: &mut Random) -> Card {
    let mut rates = [CardRates::default(); 7];
    for schedule_rates in &mut rates {
        schedule_rates.supply = card_rate(seed % 5, 3_000..=9_000, random);
        schedule_rates.low_income = card_rate(seed % 5, 10..=200, random);
    }
    let cap = match (seed % 5 + seed / 5) % 5 {
        0 => reachable_cap(&rates, random),
        1 => random.between(1, 100),
        2 => 0,
        3 => CAP_LIMIT,
        _ => random.up_to(CAP_LIMIT),
    };
    Card { cap, rates }
}

fn card_rate(kind: u64, usual: RangeInclusive<u128>, random: &mut Random) -> u128 {
    let any = random.up_to(RATE_LIMIT);
    match kind {
        0 => random.between(*usual.start(), *usual.end()),
        1 => *random.pick(&[0, 1, 2, RATE_LIMIT - 1, RATE_LIMIT, any]),
        2 => any,
        3 => RATE_LIMIT,
        _ => 0,
    }
}

/// A low-income charge that some reading has.
fn reachable_cap(rates: &[CardRates; 7], random: &mut Random) -> u128 {
    let rate = random.pick(rates).low_income;
    cents(random.between(1, KWH_LIMIT) * rate * 10_000)
}

// ---- Built entries ----

/// Every schedule of both books with every combination of its flags, and
/// every quantity 0.
pub fn offers() -> Vec<Entry> {
    let oregon = OREGON_SCHEDULES.map(|schedule| (Book::Oregon, schedule));
    let cooperative = COOPERATIVE_SCHEDULES.map(|schedule| (Book::Cooperative, schedule));
    let mut offers = Vec::new();
    for (book, schedule) in oregon.into_iter().chain(cooperative) {
        let offered = flags_offered(book, schedule).expect("a schedule of the book");
        for flags in (0..16).filter(|flags| flags & !offered == 0) {
            let reading = Reading {
                schedule,
                flags,
                ..Reading::default()
            };
            offers.push(Entry { book, reading });
        }
    }
    offers
}

/// All entries built on purpose, each once.
pub fn built(card: &Card, random: &mut Random) -> Vec<Entry> {
    let mut entries = Vec::new();
    for offer in offers() {
        entries.extend(limits(offer));
        entries.extend(load_size_edges(offer, random));
        entries.extend(demand_edges(offer, random));
        entries.extend(reactive_edges(offer));
        entries.extend(half_cents(card, offer, random));
        match (offer.book, offer.reading.schedule) {
            (Book::Oregon, 29) => {
                entries.extend(cap_edges(card, offer));
                entries.extend(block_edges(offer, random));
                entries.extend(floor_line_edges(card, offer));
            }
            (Book::Oregon, _) => entries.extend(cap_edges(card, offer)),
            (Book::Cooperative, _) => {
                entries.extend(energy_step_edges(offer, random));
                entries.extend(power_factor_edges(offer));
            }
        }
    }
    entries.extend(worked_cases());
    let mut seen = HashSet::new();
    entries.retain(|entry| seen.insert(*entry));
    entries
}

/// The entry with a change in its reading.
fn with(entry: Entry, change: impl FnOnce(&mut Reading)) -> Entry {
    let mut changed = entry;
    change(&mut changed.reading);
    changed
}

/// The same offer with every quantity random.
fn filled(offer: Entry, random: &mut Random) -> Entry {
    with(offer, |reading| fill(reading, random))
}

/// All zero, all at the limit, and each field alone at its limit and one less.
pub fn limits(offer: Entry) -> Vec<Entry> {
    let greatest = with(offer, |reading| {
        reading.kwh = KWH_LIMIT;
        reading.off_hours = KWH_LIMIT;
        reading.demand = DEMAND_LIMIT;
        reading.peak_demand = DEMAND_LIMIT;
        reading.kvar = KVAR_LIMIT;
        reading.power_factor = POWER_FACTOR_LIMIT;
        reading.load_size = LOAD_SIZE_LIMIT;
    });
    let mut entries = vec![
        offer,
        with(offer, |reading| reading.power_factor = POWER_FACTOR_LIMIT),
        greatest,
        with(greatest, |reading| reading.power_factor = 0),
        with(greatest, |reading| {
            reading.off_hours = 0;
            reading.peak_demand = 0;
        }),
    ];
    for less in [0, 1] {
        entries.extend([
            with(offer, |reading| reading.kwh = KWH_LIMIT - less),
            with(offer, |reading| {
                reading.kwh = KWH_LIMIT;
                reading.off_hours = KWH_LIMIT - less;
            }),
            with(offer, |reading| reading.demand = DEMAND_LIMIT - less),
            with(offer, |reading| {
                reading.demand = DEMAND_LIMIT;
                reading.peak_demand = DEMAND_LIMIT - less;
            }),
            with(offer, |reading| reading.kvar = KVAR_LIMIT - less),
            with(offer, |reading| reading.power_factor = 100 - less),
            with(offer, |reading| reading.load_size = LOAD_SIZE_LIMIT - less),
            // The same from below: the least that is not 0.
            with(offer, |reading| reading.kwh = 1 + less),
            with(offer, |reading| {
                reading.kwh = 1 + less;
                reading.off_hours = 1;
            }),
            with(offer, |reading| reading.kvar = 1 + less),
            with(offer, |reading| reading.power_factor = 1 + less),
        ]);
    }
    entries
}

const LOAD_SIZES: [u128; 16] = [
    0, 1, 14, 15, 16, 49, 50, 51, 99, 100, 101, 200, 201, 300, 301, 302,
];

/// Band edges, and the 15 kW that are free on 23.
fn load_size_edges(offer: Entry, random: &mut Random) -> Vec<Entry> {
    let mut entries = Vec::new();
    for load_size in LOAD_SIZES {
        for base in [
            offer,
            with(offer, |reading| reading.demand = 500),
            filled(offer, random),
        ] {
            entries.push(with(base, |reading| reading.load_size = load_size));
        }
    }
    entries
}

/// Whole kW about which demands are set: the least, the floors of billed
/// demand, and the greatest.
const DEMANDS_KW: [u128; 10] = [1, 2, 3, 14, 15, 16, 99, 100, 101, 9_999];

/// Demands that go to the nearest kW, on either side of each half.
fn demands_in_tenths() -> Vec<u128> {
    let mut demands = vec![0, 99_998, DEMAND_LIMIT];
    for kw in DEMANDS_KW {
        let tenths = 10 * kw;
        demands.extend([tenths - 6, tenths - 5, tenths, tenths + 4, tenths + 5]);
    }
    demands
}

fn demand_edges(offer: Entry, random: &mut Random) -> Vec<Entry> {
    let mut entries = Vec::new();
    for demand in demands_in_tenths() {
        for base in [offer, filled(offer, random)] {
            entries.push(with(base, |reading| {
                reading.demand = demand;
                reading.peak_demand = random.up_to(demand);
            }));
        }
    }
    entries
}

/// Kvar just below, at and just above 40% of the demand.
fn reactive_edges(offer: Entry) -> Vec<Entry> {
    let mut entries = Vec::new();
    for kw in [0u128, 1, 3, 4, 15, 20, 100, 9_995] {
        for demand in [10 * kw, 10 * kw + 4, 10 * kw + 5] {
            let at = 4 * kw / 10;
            for kvar in [at.saturating_sub(1), at, at + 1] {
                entries.push(with(offer, |reading| {
                    reading.demand = demand;
                    reading.kvar = kvar;
                }));
            }
        }
    }
    entries
}

/// The first 50 kWh for each kW of billed demand, on 29.
fn block_edges(offer: Entry, random: &mut Random) -> Vec<Entry> {
    let mut entries = Vec::new();
    let further = [204, 205, 1_000, 4_321, 50_000];
    for demand in demands_in_tenths().into_iter().chain(further) {
        let base = with(offer, |reading| reading.demand = demand);
        let block = 50 * billed_demand(&base.reading);
        for kwh in [block - 1, block, block + 1, block + random.up_to(1_000)] {
            entries.push(with(base, |reading| reading.kwh = kwh));
        }
    }
    entries
}

/// The kWh about which line 7 of 29 leaves 0.
fn floor_line_edges(card: &Card, offer: Entry) -> Vec<Entry> {
    let mut entries = Vec::new();
    for kw in [0, 15, 16, 17, 20, 50, 100, 250, 400, 444, 445, 446] {
        let base = with(offer, |reading| reading.demand = 10 * kw);
        let at = |kwh| with(base, |reading| reading.kwh = kwh);
        let edge = least(KWH_LIMIT, |kwh| {
            let entry = at(kwh);
            alone(entry.book, card, &entry.reading)[7] > 0
        });
        let edge = edge.unwrap_or(KWH_LIMIT);
        entries.extend(
            (edge - 8..=edge + 8)
                .filter(|kwh| *kwh <= KWH_LIMIT)
                .map(at),
        );
    }
    entries
}

/// The first 75,000 kWh of the cooperative's energy charge.
fn energy_step_edges(offer: Entry, random: &mut Random) -> Vec<Entry> {
    let mut entries = Vec::new();
    for kwh in [74_999, 75_000, 75_001, 75_002, 75_025, 150_000] {
        for off_hours in [0, 1, kwh / 2, kwh - 1, kwh] {
            for base in [offer, filled(offer, random)] {
                entries.push(with(base, |reading| {
                    reading.kwh = kwh;
                    reading.off_hours = off_hours;
                }));
            }
        }
    }
    entries
}

/// The cooperative's reactive charge, below 97 percent.
fn power_factor_edges(offer: Entry) -> Vec<Entry> {
    let mut entries = Vec::new();
    for power_factor in [0, 1, 50, 93, 95, 96, 97, 98, 99, 100] {
        for demand in [0, 1, 2, 3, 4, 5, 7, 8, 9, 3_000, 4_004, DEMAND_LIMIT] {
            for peak_demand in [0, demand / 2, demand] {
                entries.push(with(offer, |reading| {
                    reading.power_factor = power_factor;
                    reading.demand = demand;
                    reading.peak_demand = peak_demand;
                }));
            }
        }
    }
    entries
}

/// The kWh about which the low-income charge reaches and passes the cap.
pub fn cap_edges(card: &Card, offer: Entry) -> Vec<Entry> {
    let at = |kwh| with(offer, |reading| reading.kwh = kwh);
    let uncapped = |kwh| cents(units(offer.book, card, &at(kwh).reading)[LOW_INCOME_LINE]);
    let mut entries = Vec::new();
    for charge in [card.cap, card.cap + 1] {
        if let Some(edge) = least(KWH_LIMIT, |kwh| uncapped(kwh) >= charge) {
            for kwh in edge.saturating_sub(2)..=edge + 2 {
                if kwh <= KWH_LIMIT {
                    entries.push(at(kwh));
                }
            }
        }
    }
    entries
}

/// The least number up to `limit` that `holds`, if it goes on to hold from
/// there; where it wavers at first, a number in that place.
fn least(limit: u128, holds: impl Fn(u128) -> bool) -> Option<u128> {
    let (mut low, mut high) = (0, limit);
    if !holds(high) {
        return None;
    }
    while low < high {
        let middle = (low + high) / 2;
        if holds(middle) {
            high = middle;
        } else {
            low = middle + 1;
        }
    }
    Some(low)
}

/// The worked cases of docs/tariffs.md, with whatever card there is.
fn worked_cases() -> Vec<Entry> {
    // Schedule, flags, kWh, demand, kvar, load size.
    let oregon = [
        [4, 0, 1_000, 0, 0, 0],
        [23, 4, 8_000, 204, 10, 20],
        [28, 0, 0, 500, 0, 50],
        [28, 0, 0, 500, 0, 51],
        [28, 2, 10_000, 0, 0, 0],
        [28, 0, 500, 0, 0, 0],
        [29, 0, 33_700, 150, 0, 0],
        [29, 0, 33_600, 150, 0, 0],
        [4, 0, 60_000, 0, 0, 0],
        [4, 0, 50_000, 0, 0, 0],
        [4, 0, 70, 0, 0, 0],
        [23, 1, 0, 150, 0, 15],
        [4, 0, 500, 0, 0, 0],
        [4, 4, 0, 0, 0, 0],
        [4, 4, 0, 10, 0, 0],
        [4, 4, 0, 20, 0, 0],
        [5, 4, 0, 0, 0, 0],
        [5, 4, 0, 10, 0, 0],
        [5, 4, 0, 20, 0, 0],
        [28, 0, 0, 0, 10, 0],
        [28, 2, 10_000, 123, 10, 101],
    ];
    let mut entries: Vec<Entry> = oregon
        .into_iter()
        .map(|[schedule, flags, kwh, demand, kvar, load_size]| Entry {
            book: Book::Oregon,
            reading: Reading {
                schedule,
                flags,
                kwh,
                demand,
                kvar,
                load_size,
                power_factor: 100,
                ..Reading::default()
            },
        })
        .collect();
    entries.push(Entry {
        book: Book::Cooperative,
        reading: Reading {
            schedule: 5,
            kwh: 100_000,
            off_hours: 30_000,
            demand: 4_000,
            peak_demand: 3_500,
            power_factor: 95,
            ..Reading::default()
        },
    });
    entries
}

// ---- Half cents ----

/// A stretch of a field along which the amount of a line grows evenly.
struct Stretch {
    base: Entry,
    line: usize,
    field: Field,
    /// The field counts in this many of its own units.
    by: u128,
    range: RangeInclusive<u128>,
}

impl Stretch {
    fn at(&self, value: u128) -> Entry {
        with(self.base, |reading| {
            self.field.set(reading, self.by * value);
        })
    }

    fn amount(&self, card: &Card, value: u128) -> u128 {
        let entry = self.at(value);
        units(entry.book, card, &entry.reading)[self.line]
    }

    /// Entries whose amount is half-way between two cents, and those that are
    /// nearest to it from below and from above.
    fn around_half(&self, card: &Card, random: &mut Random) -> Vec<Entry> {
        let (first, last) = (*self.range.start(), *self.range.end());
        let start = self.amount(card, first);
        let step = self.amount(card, first + 1) - start;
        let Some(steps) = Steps::new(start, step, last - first) else {
            return Vec::new();
        };
        let mut found = steps.to_half(random);
        found.extend(steps.to_below_half());
        found.extend(steps.to_above_half());
        found.sort();
        found.dedup();
        found
            .into_iter()
            .map(|steps| self.at(first + steps))
            .collect()
    }
}

/// Amounts that begin at `start` and grow by `step`, but for whole cents.
struct Steps {
    start: u128,
    /// The parts of a cent that occur lie this far apart.
    pace: u128,
    /// They come round again after so many steps.
    period: u128,
    inverse: u128,
    most: u128,
}

impl Steps {
    /// None if the part of a cent never changes.
    fn new(start: u128, step: u128, most: u128) -> Option<Self> {
        let pace = gcd(step, UNITS_PER_CENT);
        let period = UNITS_PER_CENT / pace;
        (period > 1).then(|| Steps {
            start: start % UNITS_PER_CENT,
            pace,
            period,
            inverse: inverse(step / pace, period),
            most,
        })
    }

    /// The least number of steps to an amount with this part of a cent.
    fn to(&self, part: u128) -> Option<u128> {
        let way = part + UNITS_PER_CENT - self.start;
        if !way.is_multiple_of(self.pace) {
            return None;
        }
        let steps = way / self.pace % self.period * self.inverse % self.period;
        (steps <= self.most).then_some(steps)
    }

    /// The least and the most steps to a half, and some between.
    fn to_half(&self, random: &mut Random) -> Vec<u128> {
        let Some(least) = self.to(HALF_CENT) else {
            return Vec::new();
        };
        let rounds = (self.most - least) / self.period;
        [0, rounds, random.up_to(rounds)]
            .map(|round| least + round * self.period)
            .to_vec()
    }

    fn to_below_half(&self) -> Option<u128> {
        let mut part =
            HALF_CENT - 1 - (HALF_CENT - 1 + self.pace - self.start % self.pace) % self.pace;
        loop {
            if let Some(steps) = self.to(part) {
                return Some(steps);
            }
            part = part.checked_sub(self.pace)?;
        }
    }

    fn to_above_half(&self) -> Option<u128> {
        let mut part = HALF_CENT + 1 + (self.start + UNITS_PER_CENT - HALF_CENT - 1) % self.pace;
        while part < UNITS_PER_CENT {
            if let Some(steps) = self.to(part) {
                return Some(steps);
            }
            part += self.pace;
        }
        None
    }
}

fn gcd(a: u128, b: u128) -> u128 {
    if b == 0 {
        a
    } else {
        gcd(b, a % b)
    }
}

/// The number that makes 1 with `a` but for multiples of `modulus`.
fn inverse(a: u128, modulus: u128) -> u128 {
    let modulus = modulus as i128;
    let (mut old, mut rest) = (a as i128 % modulus, modulus);
    let (mut old_times, mut times) = (1, 0);
    while rest != 0 {
        let quotient = old / rest;
        (old, rest) = (rest, old - quotient * rest);
        (old_times, times) = (times, old_times - quotient * times);
    }
    old_times.rem_euclid(modulus) as u128
}

pub fn half_cents(card: &Card, offer: Entry, random: &mut Random) -> Vec<Entry> {
    let stretches = match offer.book {
        Book::Oregon => oregon_stretches(offer, random),
        Book::Cooperative => cooperative_stretches(offer, random),
    };
    let mut entries = Vec::new();
    for stretch in stretches {
        entries.extend(stretch.around_half(card, random));
    }
    entries
}

fn oregon_stretches(offer: Entry, random: &mut Random) -> Vec<Stretch> {
    let schedule = offer.reading.schedule;
    let stretch = |base, line, field, by, range| Stretch {
        base,
        line,
        field,
        by,
        range,
    };
    let mut stretches = Vec::new();

    if schedule == 29 {
        for kw in [0, 16, 100, random.between(15, 9_999)] {
            let base = with(offer, |reading| reading.demand = 10 * kw);
            let block = 50 * billed_demand(&base.reading);
            stretches.push(stretch(base, 2, Field::Kwh, 1, 0..=block));
            stretches.push(stretch(base, 3, Field::Kwh, 1, block..=KWH_LIMIT));
        }
    } else {
        stretches.push(stretch(offer, 2, Field::Kwh, 1, 0..=KWH_LIMIT));
    }
    for line in [5, 6, 8, 9, 10, 11, 12] {
        stretches.push(stretch(offer, line, Field::Kwh, 1, 0..=KWH_LIMIT));
    }

    for kw in [0, 100, random.up_to(2_000)] {
        let base = with(offer, |reading| reading.demand = 10 * kw);
        let free = 4 * kw / 10 + 1;
        stretches.push(stretch(base, 4, Field::Kvar, 1, free..=KVAR_LIMIT));
    }

    let bands: &[RangeInclusive<u128>] = match schedule {
        23 => &[16..=LOAD_SIZE_LIMIT],
        28 | 728 => &[0..=50, 51..=100, 101..=300, 301..=LOAD_SIZE_LIMIT],
        730 => &[201..=300, 301..=LOAD_SIZE_LIMIT],
        _ => &[],
    };
    for band in bands {
        for kw in [0, 1_000, random.between(16, 200), random.up_to(9_999)] {
            let base = with(offer, |reading| reading.demand = 10 * kw);
            stretches.push(stretch(base, 1, Field::LoadSize, 1, band.clone()));
        }
    }

    for line in [1, 5] {
        for load_size in [0, 20, 60, 250, random.up_to(LOAD_SIZE_LIMIT)] {
            let base = with(offer, |reading| reading.load_size = load_size);
            stretches.push(stretch(base, line, Field::Demand, 10, 101..=9_999));
        }
    }
    stretches
}

fn cooperative_stretches(offer: Entry, random: &mut Random) -> Vec<Stretch> {
    let stretch = |base, line, field, range| Stretch {
        base,
        line,
        field,
        by: 1,
        range,
    };
    let all_demand = with(offer, |reading| reading.demand = DEMAND_LIMIT);
    let all_kwh = with(offer, |reading| reading.kwh = KWH_LIMIT);
    let mut stretches = vec![
        stretch(all_demand, 1, Field::PeakDemand, 0..=DEMAND_LIMIT),
        stretch(offer, 2, Field::Kwh, 0..=75_000),
        stretch(offer, 2, Field::Kwh, 75_000..=KWH_LIMIT),
        stretch(all_kwh, 3, Field::OffHours, 0..=KWH_LIMIT),
    ];
    for power_factor in [0, 93, 95, 96, random.up_to(96)] {
        let base = with(offer, |reading| reading.power_factor = power_factor);
        stretches.push(stretch(base, 4, Field::Demand, 0..=DEMAND_LIMIT));
    }
    stretches
}

// ---- Random entries ----

pub fn random_entry(card: &Card, random: &mut Random) -> Entry {
    let offers = offers();
    let offer = if random.one_in(8) {
        offers[offers.len() - 1]
    } else {
        *random.pick(&offers)
    };
    completed(card, offer, random)
}

/// A random reading that the book takes.
pub fn random_reading(book: Book, card: &Card, random: &mut Random) -> Reading {
    let mut offers = offers();
    offers.retain(|offer| offer.book == book);
    completed(card, *random.pick(&offers), random).reading
}

/// The same offer with every quantity random, some line often near half a cent.
fn completed(card: &Card, offer: Entry, random: &mut Random) -> Entry {
    let entry = filled(offer, random);
    if offer.book == Book::Oregon && random.one_in(8) {
        return with_half_cent(card, entry, random);
    }
    entry
}

/// The entry with kWh for which some line is at or near half a cent.
fn with_half_cent(card: &Card, entry: Entry, random: &mut Random) -> Entry {
    let base = with(entry, |reading| reading.off_hours = 0);
    let stretch = Stretch {
        base,
        line: *random.pick(&[5, 6, 8, 9, 10, 11, 12]),
        field: Field::Kwh,
        by: 1,
        range: 0..=KWH_LIMIT,
    };
    let found = stretch.around_half(card, random);
    if found.is_empty() {
        entry
    } else {
        *random.pick(&found)
    }
}

/// Random quantities, each field with its own spread.
fn fill(reading: &mut Reading, random: &mut Random) {
    reading.kwh = quantity(KWH_LIMIT, random);
    reading.off_hours = part(reading.kwh, random);
    reading.demand = quantity(DEMAND_LIMIT, random);
    reading.peak_demand = part(reading.demand, random);
    reading.kvar = quantity(KVAR_LIMIT, random);
    reading.power_factor = match random.up_to(2) {
        0 => random.up_to(POWER_FACTOR_LIMIT),
        1 => random.between(90, POWER_FACTOR_LIMIT),
        _ => random.between(95, 98),
    };
    reading.load_size = match random.up_to(3) {
        0 => random.up_to(400),
        1 => reading.demand_kw(),
        _ => quantity(LOAD_SIZE_LIMIT, random),
    };
}

/// Small, of any number of digits, uniform, or close to the limit.
fn quantity(limit: u128, random: &mut Random) -> u128 {
    match random.up_to(7) {
        0 => random.up_to(30),
        1..=3 => {
            let bits = random.up_to(u128::from(limit.ilog2()) + 1);
            random.up_to((1 << bits) - 1).min(limit)
        }
        4..=6 => random.up_to(limit),
        _ => limit - random.up_to(30),
    }
}

/// None, all or some of the whole.
fn part(whole: u128, random: &mut Random) -> u128 {
    match random.up_to(4) {
        0 => 0,
        1 => whole,
        _ => random.up_to(whole),
    }
}

#[cfg(test)]
mod tests {
    use super::*;
    use crate::bills::{read_entry, write_entry};
    use crate::tariffs::{weights, LINES};

    fn built_of(seed: u64) -> (Card, Vec<Entry>) {
        let mut random = Random::new(seed);
        let card = card(seed, &mut random);
        let built = built(&card, &mut random);
        (card, built)
    }

    #[test]
    fn forty_three_offers() {
        assert_eq!(offers().len(), 43);
    }

    #[test]
    fn entries_are_lawful_and_as_many_as_asked() {
        for seed in 0..5 {
            for count in [0, 10, 30_000] {
                let mut random = Random::new(seed);
                let card = card(seed, &mut random);
                let entries = entries(&card, count, &mut random);
                assert_eq!(entries.len(), count);
                for entry in entries {
                    let line = write_entry(&entry);
                    assert_eq!(read_entry(line.as_bytes()), Ok(entry), "{line}");
                }
            }
        }
    }

    #[test]
    fn a_seed_gives_the_same_again() {
        let (card, built) = built_of(9);
        assert_eq!(built_of(9), (card.clone(), built.clone()));
        let again = |seed| entries(&card, 20_000, &mut Random::new(seed));
        assert_eq!(again(1), again(1));
        assert_ne!(again(1), again(2));
    }

    #[test]
    fn twenty_five_seeds_have_every_kind_of_card() {
        let cards: Vec<Card> = (0..25)
            .map(|seed| card(seed, &mut Random::new(seed)))
            .collect();
        let with_rate = |card: &Card, rate| card.rates.iter().any(|r| r.low_income == rate);
        for rate in [0, RATE_LIMIT] {
            for cap in [0, CAP_LIMIT] {
                assert!(cards
                    .iter()
                    .any(|card| card.cap == cap && with_rate(card, rate)));
            }
        }
        assert!(cards.iter().any(|card| (1..=100).contains(&card.cap)));
    }

    fn has(built: &[Entry], offer: &Entry, test: impl Fn(&Reading) -> bool) -> bool {
        built.iter().any(|entry| {
            entry.book == offer.book
                && entry.reading.schedule == offer.reading.schedule
                && entry.reading.flags == offer.reading.flags
                && test(&entry.reading)
        })
    }

    #[test]
    fn edges_on_every_offer() {
        let (_, built) = built_of(1);
        for offer in offers() {
            assert!(built.contains(&offer));
            for load_size in [50, 51, 100, 101, 200, 201, 300, 301, LOAD_SIZE_LIMIT] {
                assert!(has(&built, &offer, |r| r.load_size == load_size));
            }
            for kw in [0, 1, 2, 14, 15, 16, 99, 100, 101, 10_000] {
                assert!(has(&built, &offer, |r| r.demand_kw() == kw));
            }
            for demand in [4, 5, 144, 145, 994, 995, DEMAND_LIMIT] {
                assert!(has(&built, &offer, |r| r.demand == demand));
            }
            assert!(has(&built, &offer, |r| r.kvar > 0
                && 10 * r.kvar == 4 * r.demand_kw()));
            assert!(has(&built, &offer, |r| 10 * r.kvar == 4 * r.demand_kw() + 2));
            assert!(has(&built, &offer, |r| 10 * r.kvar + 2 == 4 * r.demand_kw()));
        }
    }

    #[test]
    fn edges_of_29() {
        let (card, built) = built_of(1);
        let offers = offers()
            .into_iter()
            .filter(|offer| offer.reading.schedule == 29);
        for offer in offers {
            for kw in [15, 16, 100, 10_000] {
                for kwh in [50 * kw - 1, 50 * kw, 50 * kw + 1] {
                    assert!(has(&built, &offer, |r| r.kwh == kwh && billed_demand(r) == kw));
                }
            }
            for floor in 0..3 {
                assert!(has(&built, &offer, |r| {
                    let amounts = alone(Book::Oregon, &card, r);
                    let delivery = amounts[2] + amounts[5] + amounts[6];
                    amounts[3] + 2 == delivery + floor
                }));
            }
        }
    }

    #[test]
    fn edges_of_the_cooperative() {
        let (_, built) = built_of(1);
        let offer = offers()[42];
        assert_eq!(offer.book, Book::Cooperative);
        for kwh in [74_999, 75_000, 75_001] {
            assert!(has(&built, &offer, |r| r.kwh == kwh));
        }
        for power_factor in [0, 96, 97, 98, 100] {
            assert!(has(&built, &offer, |r| r.power_factor == power_factor
                && r.demand > 0));
        }
    }

    #[test]
    fn caps_are_reached_and_passed() {
        let (card, built) = built_of(0);
        let charges: Vec<u128> = built
            .iter()
            .filter(|entry| entry.book == Book::Oregon)
            .map(|entry| cents(weights(entry.book, &card, &entry.reading)[LOW_INCOME_LINE]))
            .collect();
        for charge in card.cap - 1..=card.cap + 1 {
            assert!(charges.contains(&charge));
        }
    }

    /// Offers of Oregon's book for which some built entry has a line at a half.
    fn offers_at_half(built: &[Entry], card: &Card, line: usize) -> Vec<(u128, u128)> {
        let mut offers = Vec::new();
        for entry in built.iter().filter(|entry| entry.book == Book::Oregon) {
            let offer = (entry.reading.schedule, entry.reading.flags);
            let units = units(entry.book, card, &entry.reading)[line];
            if units % UNITS_PER_CENT == HALF_CENT && !offers.contains(&offer) {
                offers.push(offer);
            }
        }
        offers
    }

    #[test]
    fn half_cents_on_every_line_that_has_them() {
        let (card, built) = built_of(0);
        let at_half: Vec<usize> = (0..LINES)
            .map(|line| offers_at_half(&built, &card, line).len())
            .collect();
        // Lines 0 and 7 are whole cents.
        assert_eq!([at_half[0], at_half[7]], [0, 0]);
        for line in [1, 2, 3, 4, 5, 6, 8, 9, 10, 11, 12] {
            assert!(at_half[line] > 0, "line {line}");
        }
        // Without a factor, 3 thousandths of a cent for 500 kWh are 1.5 cents.
        assert!(offers_at_half(&built, &card, 11).contains(&(28, 0)));
        for line in [1, 4] {
            let at_half = built.iter().any(|entry| {
                entry.book == Book::Cooperative
                    && units(entry.book, &card, &entry.reading)[line] % UNITS_PER_CENT == HALF_CENT
            });
            assert!(at_half, "line {line}");
        }
    }

    /// The search for halves against a look at every value.
    #[test]
    fn halves_are_found_where_there_are_any() {
        let (card, _) = built_of(2);
        let mut random = Random::new(3);
        for offer in offers() {
            let stretches = match offer.book {
                Book::Oregon => oregon_stretches(offer, &mut random),
                Book::Cooperative => cooperative_stretches(offer, &mut random),
            };
            for mut stretch in stretches {
                let first = *stretch.range.start();
                let last = (*stretch.range.end()).min(first + 2_000);
                stretch.range = first..=last;
                let part = |entry: &Entry| {
                    units(entry.book, &card, &entry.reading)[stretch.line] % UNITS_PER_CENT
                };
                let parts: Vec<u128> = (first..=last).map(|x| part(&stretch.at(x))).collect();
                let found = stretch.around_half(&card, &mut random);
                if found.is_empty() {
                    assert!(parts.iter().all(|p| *p == parts[0]));
                    continue;
                }
                let found: Vec<u128> = found.iter().map(part).collect();
                let nearest = |parts: &[u128]| {
                    let below = parts.iter().copied().filter(|p| *p < HALF_CENT).max();
                    let above = parts.iter().copied().filter(|p| *p > HALF_CENT).min();
                    (below, above, parts.contains(&HALF_CENT))
                };
                assert_eq!(nearest(&found), nearest(&parts));
            }
        }
    }
}
