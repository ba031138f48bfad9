//! What a reading costs, as docs/tariffs.md lays it down.
//!
//! The parts follow the order of the document. All arithmetic is exact.

pub const LINES: usize = 13;

/// One number for each statement line, in units or in cents.
pub type PerLine = [u128; LINES];

// ---- Units and rounding ----

pub const UNITS_PER_CENT: u128 = 10_000_000;

pub fn cents(units: u128) -> u128 {
    (units + 5_000_000) / UNITS_PER_CENT
}

/// Thousandths of a cent per kWh, in units.
fn per_kwh(kwh: u128, rate: u128, factor: u128) -> u128 {
    kwh * rate * factor
}

/// Cents per kW, in units.
fn per_kw(kw: u128, rate: u128, factor: u128) -> u128 {
    kw * rate * 1_000 * factor
}

/// Whole cents, not multiplied by the factor, in units.
fn whole_cents(rate: u128) -> u128 {
    rate * UNITS_PER_CENT
}

/// Lines 0 to 8 round at each meter, lines 9 to 12 only at settlement.
const LAST_LINE_ROUNDED_AT_METER: usize = 8;

pub const LOW_INCOME_LINE: usize = 12;

// ---- A reading ----

#[derive(Clone, Copy, Debug, PartialEq, Eq, Hash)]
pub enum Book {
    Oregon,
    Cooperative,
}

#[derive(Clone, Copy, Debug, Default, PartialEq, Eq, Hash)]
pub struct Reading {
    pub schedule: u128,
    pub flags: u128,
    pub kwh: u128,
    pub off_hours: u128,
    /// In tenths of a kW.
    pub demand: u128,
    /// In tenths of a kW.
    pub peak_demand: u128,
    pub kvar: u128,
    pub power_factor: u128,
    pub load_size: u128,
}

pub const PRIMARY_DELIVERY: u128 = 1;
pub const PRIMARY_METERING: u128 = 2;
pub const THREE_PHASE: u128 = 4;
pub const MULTI_FAMILY: u128 = 8;

impl Reading {
    fn has(&self, flag: u128) -> bool {
        self.flags & flag != 0
    }

    pub fn demand_kw(&self) -> u128 {
        nearest_kw(self.demand)
    }
}

pub fn nearest_kw(tenths: u128) -> u128 {
    (tenths + 5) / 10
}

/// From the demands of the eleven earlier months and of this month, in kW.
pub fn load_size(demands: &[u128; 12]) -> u128 {
    let mut counted: Vec<u128> = demands.iter().copied().filter(|kw| *kw > 0).collect();
    counted.sort_by(|a, b| b.cmp(a));
    match counted[..] {
        [] => 0,
        [one] => one,
        [first, second, ..] => (first + second) / 2,
    }
}

// ---- The check of a reading ----

#[derive(Clone, Copy, Debug, PartialEq, Eq)]
pub enum Refused {
    Schedule,
    Flag,
}

pub const OREGON_SCHEDULES: [u128; 7] = [4, 5, 23, 28, 29, 728, 730];
pub const COOPERATIVE_SCHEDULES: [u128; 1] = [5];

/// The flags that the book offers on the schedule, if it has the schedule.
pub fn flags_offered(book: Book, schedule: u128) -> Option<u128> {
    match (book, schedule) {
        (Book::Oregon, 4 | 5) => Some(THREE_PHASE | MULTI_FAMILY),
        (Book::Oregon, 23 | 28 | 728 | 730) => {
            Some(PRIMARY_DELIVERY | PRIMARY_METERING | THREE_PHASE)
        }
        (Book::Oregon, 29) => Some(THREE_PHASE),
        (Book::Cooperative, 5) => Some(0),
        _ => None,
    }
}

pub fn check(book: Book, reading: &Reading) -> Result<(), Refused> {
    let offered = flags_offered(book, reading.schedule).ok_or(Refused::Schedule)?;
    if reading.flags & !offered != 0 {
        return Err(Refused::Flag);
    }
    Ok(())
}

// ---- Oregon's book ----

#[derive(Clone, Debug, Default, PartialEq, Eq, Hash)]
pub struct Card {
    /// Cap of line 12, in cents.
    pub cap: u128,
    /// In the order of `OREGON_SCHEDULES`.
    pub rates: [CardRates; 7],
}

/// Thousandths of a cent per kWh.
#[derive(Clone, Copy, Debug, Default, PartialEq, Eq, Hash)]
pub struct CardRates {
    pub supply: u128,
    pub low_income: u128,
}

impl Card {
    pub fn rates_of(&self, schedule: u128) -> CardRates {
        let place = OREGON_SCHEDULES.iter().position(|s| *s == schedule);
        self.rates[place.expect("a schedule of Oregon's book")]
    }
}

/// A rate at secondary and at primary delivery.
struct Rate(u128, u128);

/// A dash in the tables: the schedule has no primary delivery.
const NONE: u128 = 0;

impl Rate {
    fn of(&self, reading: &Reading) -> u128 {
        if reading.has(PRIMARY_DELIVERY) {
            self.1
        } else {
            self.0
        }
    }
}

fn no_such_schedule(schedule: u128) -> ! {
    unreachable!("schedule {schedule} passed the check")
}

fn demand_floor(schedule: u128) -> u128 {
    match schedule {
        4 | 5 | 23 => 0,
        28 | 29 | 728 => 15,
        730 => 100,
        other => no_such_schedule(other),
    }
}

pub fn billed_demand(reading: &Reading) -> u128 {
    reading.demand_kw().max(demand_floor(reading.schedule))
}

/// In ten-thousandths.
fn factor(reading: &Reading) -> u128 {
    match (reading.has(PRIMARY_DELIVERY), reading.has(PRIMARY_METERING)) {
        (false, false) => 10_000,
        (false, true) => 9_845,
        (true, false) => 10_157,
        (true, true) => 10_000,
    }
}

// Lines 0 and 1: basic charge; load size charge and demand charge.

/// The basic charge in cents and the load rate in cents per kW.
fn basic_and_load_rates(reading: &Reading) -> (Rate, Rate) {
    let load_size = reading.load_size;
    match reading.schedule {
        4 | 5 if !reading.has(MULTI_FAMILY) => (Rate(950, NONE), Rate(0, NONE)),
        4 | 5 => (Rate(800, NONE), Rate(0, NONE)),
        23 if !reading.has(THREE_PHASE) => (Rate(1_735, 1_735), Rate(140, 140)),
        23 => (Rate(2_590, 2_590), Rate(140, 140)),
        28 | 728 if load_size <= 50 => (Rate(1_900, 2_500), Rate(120, 140)),
        28 | 728 if load_size <= 100 => (Rate(3_500, 4_300), Rate(95, 115)),
        28 | 728 if load_size <= 300 => (Rate(8_400, 10_000), Rate(55, 70)),
        28 | 728 => (Rate(11_900, 14_300), Rate(35, 35)),
        29 => (Rate(3_700, NONE), Rate(0, NONE)),
        730 if load_size <= 200 => (Rate(49_400, 48_100), Rate(0, 0)),
        730 if load_size <= 300 => (Rate(14_400, 15_100), Rate(175, 165)),
        730 => (Rate(38_000, 39_300), Rate(85, 80)),
        other => no_such_schedule(other),
    }
}

fn basic_charge(reading: &Reading) -> u128 {
    let (basic, _) = basic_and_load_rates(reading);
    whole_cents(basic.of(reading))
}

/// Cents per kW.
fn demand_rate(reading: &Reading) -> u128 {
    let rate = match reading.schedule {
        4 | 5 if reading.has(THREE_PHASE) => Rate(220, NONE),
        4 | 5 => Rate(0, NONE),
        23 => Rate(464, 458),
        28 | 728 => Rate(403, 490),
        29 => Rate(0, NONE),
        730 => Rate(417, 417),
        other => no_such_schedule(other),
    };
    rate.of(reading)
}

fn load_and_demand_charge(reading: &Reading) -> u128 {
    let (_, load_rate) = basic_and_load_rates(reading);
    let load_rate = load_rate.of(reading);
    let demand_rate = demand_rate(reading);
    let load_size = reading.load_size;
    let billed = billed_demand(reading);
    let factor = factor(reading);
    match reading.schedule {
        4 | 5 if reading.has(THREE_PHASE) => whole_cents((billed * demand_rate).max(380)),
        4 | 5 | 29 => 0,
        23 => {
            let over = |kw: u128| (kw * factor).saturating_sub(150_000);
            (over(load_size) * load_rate + over(billed) * demand_rate) * 1_000
        }
        28 | 728 | 730 => {
            per_kw(load_size, load_rate, factor) + per_kw(billed, demand_rate, factor)
        }
        other => no_such_schedule(other),
    }
}

// Lines 2, 3, 5, 6 and 7: energy, credit, transmission, system usage, floor.

/// On 29, the kWh within the first 50 for each kW of billed demand.
fn block(reading: &Reading) -> u128 {
    reading.kwh.min(50 * billed_demand(reading))
}

fn energy_charge(reading: &Reading) -> u128 {
    let rate = match reading.schedule {
        4 | 5 => Rate(3_523, NONE),
        23 => Rate(3_182, 3_133),
        28 | 728 => Rate(411, 69),
        29 => return per_kwh(block(reading), 18_940, 10_000),
        730 => Rate(0, 0),
        other => no_such_schedule(other),
    };
    per_kwh(reading.kwh, rate.of(reading), factor(reading))
}

fn credit(reading: &Reading) -> u128 {
    match reading.schedule {
        29 => per_kwh(reading.kwh - block(reading), 1_335, 10_000),
        _ => 0,
    }
}

fn transmission_charge(reading: &Reading) -> u128 {
    let factor = factor(reading);
    let rate = match reading.schedule {
        4 | 5 => Rate(818, NONE),
        23 => Rate(723, 712),
        28 => {
            let rate = Rate(220, 214).of(reading);
            return per_kw(billed_demand(reading), rate, factor);
        }
        29 => Rate(736, NONE),
        728 | 730 => Rate(0, 0),
        other => no_such_schedule(other),
    };
    per_kwh(reading.kwh, rate.of(reading), factor)
}

fn system_usage_charge(reading: &Reading) -> u128 {
    let rate = match reading.schedule {
        4 | 5 => Rate(146, NONE),
        23 => Rate(133, 131),
        28 => Rate(147, 139),
        29 => Rate(147, NONE),
        728 => Rate(68, 64),
        730 => Rate(65, 64),
        other => no_such_schedule(other),
    };
    per_kwh(reading.kwh, rate.of(reading), factor(reading))
}

/// On 29, what the credit has over the rounded delivery charges.
fn floor_under_delivery(reading: &Reading) -> u128 {
    if reading.schedule != 29 {
        return 0;
    }
    let delivery = cents(energy_charge(reading))
        + cents(transmission_charge(reading))
        + cents(system_usage_charge(reading));
    whole_cents(cents(credit(reading)).saturating_sub(delivery))
}

// Line 4: reactive power charge.

fn reactive_charge(reading: &Reading) -> u128 {
    let excess_tenths = (10 * reading.kvar).saturating_sub(4 * reading.demand_kw());
    let rate = match reading.schedule {
        4 | 5 | 29 => Rate(0, NONE),
        23 | 28 | 728 | 730 => Rate(65, 60),
        other => no_such_schedule(other),
    };
    excess_tenths * rate.of(reading) * 100 * factor(reading)
}

// Lines 8 to 12: supply, Schedules 203, 204 and 207, low-income charge.

fn schedule_204_rate(schedule: u128) -> u128 {
    match schedule {
        4 | 5 => 38,
        23 => 36,
        28 | 29 | 728 => 37,
        730 => 36,
        other => no_such_schedule(other),
    }
}

fn schedule_207_rate(schedule: u128) -> u128 {
    match schedule {
        4 | 5 => 4,
        23 | 28 | 29 | 728 | 730 => 3,
        other => no_such_schedule(other),
    }
}

fn oregon_units(card: &Card, reading: &Reading) -> PerLine {
    let on_kwh = |rate| per_kwh(reading.kwh, rate, factor(reading));
    let card_rates = card.rates_of(reading.schedule);
    [
        basic_charge(reading),
        load_and_demand_charge(reading),
        energy_charge(reading),
        credit(reading),
        reactive_charge(reading),
        transmission_charge(reading),
        system_usage_charge(reading),
        floor_under_delivery(reading),
        on_kwh(card_rates.supply),
        on_kwh(5),
        on_kwh(schedule_204_rate(reading.schedule)),
        on_kwh(schedule_207_rate(reading.schedule)),
        on_kwh(card_rates.low_income),
    ]
}

// ---- The cooperative's book ----

fn cooperative_units(reading: &Reading) -> PerLine {
    let kwh = reading.kwh;
    let first = kwh.min(75_000);
    let percent_below = 97u128.saturating_sub(reading.power_factor);
    let mut units = [0; LINES];
    units[0] = whole_cents(22_000);
    units[1] = reading.peak_demand * 625 * 1_000_000;
    units[2] = (first * 3_520 + (kwh - first) * 4_320) * 10_000;
    units[3] = reading.off_hours * 520 * 10_000;
    units[4] = percent_below * reading.demand * 625 * 10_000;
    units
}

// ---- Weights and settlements ----

/// The amount in units of each line; 0 on every line if the check fails.
pub fn units(book: Book, card: &Card, reading: &Reading) -> PerLine {
    if check(book, reading).is_err() {
        return [0; LINES];
    }
    match book {
        Book::Oregon => oregon_units(card, reading),
        Book::Cooperative => cooperative_units(reading),
    }
}

pub fn weights(book: Book, card: &Card, reading: &Reading) -> PerLine {
    let mut weights = units(book, card, reading);
    for weight in &mut weights[..=LAST_LINE_ROUNDED_AT_METER] {
        *weight = whole_cents(cents(*weight));
    }
    weights
}

/// The settlements, in cents, of a site month with these readings.
pub fn settlements(book: Book, card: &Card, readings: &[Reading]) -> PerLine {
    let mut sums = [0; LINES];
    for reading in readings {
        let weights = weights(book, card, reading);
        for line in 0..LINES {
            sums[line] += weights[line];
        }
    }
    let mut settled = sums.map(cents);
    if book == Book::Oregon {
        settled[LOW_INCOME_LINE] = settled[LOW_INCOME_LINE].min(card.cap);
    }
    settled
}

/// The amounts, in cents, of one reading alone.
pub fn alone(book: Book, card: &Card, reading: &Reading) -> PerLine {
    settlements(book, card, std::slice::from_ref(reading))
}

#[cfg(test)]
mod tests {
    use super::*;

    /// The same rates for every schedule.
    fn card(cap: u128, supply: u128, low_income: u128) -> Card {
        Card {
            cap,
            rates: [CardRates { supply, low_income }; 7],
        }
    }

    fn first_card() -> Card {
        card(5_000, 5_000, 20)
    }

    fn on(schedule: u128, flags: u128) -> Reading {
        Reading {
            schedule,
            flags,
            power_factor: 100,
            ..Reading::default()
        }
    }

    fn oregon(reading: Reading) -> PerLine {
        alone(Book::Oregon, &first_card(), &reading)
    }

    #[test]
    fn rounding_is_half_up() {
        assert_eq!(cents(4_999_999), 0);
        assert_eq!(cents(5_000_000), 1);
        assert_eq!(cents(14_999_999), 1);
        assert_eq!(cents(15_000_000), 2);
    }

    #[test]
    fn nearest_kw_half_goes_up() {
        assert_eq!([204, 205, 99_999].map(nearest_kw), [20, 21, 10_000]);
        assert_eq!([0, 4, 5, 14, 15].map(nearest_kw), [0, 0, 1, 1, 2]);
    }

    #[test]
    fn load_size_of_the_two_greatest() {
        assert_eq!(load_size(&[0; 12]), 0);
        assert_eq!(load_size(&[0, 0, 0, 0, 0, 7, 0, 0, 0, 0, 0, 0]), 7);
        assert_eq!(load_size(&[20, 0, 1, 0, 0, 2, 0, 0, 0, 0, 0, 21]), 20);
        assert_eq!(load_size(&[9, 9, 0, 0, 0, 2, 0, 0, 0, 0, 0, 0]), 9);
        let greatest = [
            9_999, 9_999, 9_999, 9_999, 9_999, 9_999, 9_999, 9_999, 9_999, 9_999, 9_999, 10_000,
        ];
        assert_eq!(load_size(&greatest), 9_999);
    }

    #[test]
    fn check_by_schedule_then_flags() {
        let check_of = |book, schedule, flags| check(book, &on(schedule, flags));
        assert_eq!(check_of(Book::Oregon, 30, 1), Err(Refused::Schedule));
        assert_eq!(check_of(Book::Oregon, 29, 1), Err(Refused::Flag));
        assert_eq!(check_of(Book::Cooperative, 4, 0), Err(Refused::Schedule));
        assert_eq!(check_of(Book::Cooperative, 5, 4), Err(Refused::Flag));
        let passing = |book, schedule| -> Vec<u128> {
            (0..16)
                .filter(|flags| check_of(book, schedule, *flags).is_ok())
                .collect()
        };
        for schedule in [4, 5] {
            assert_eq!(passing(Book::Oregon, schedule), [0, 4, 8, 12]);
        }
        for schedule in [23, 28, 728, 730] {
            assert_eq!(
                passing(Book::Oregon, schedule),
                (0..8).collect::<Vec<u128>>()
            );
        }
        assert_eq!(passing(Book::Oregon, 29), [0, 4]);
        assert_eq!(passing(Book::Cooperative, 5), [0]);
    }

    #[test]
    fn refused_reading_weighs_nothing() {
        let reading = Reading {
            kwh: 1_000,
            ..on(29, 1)
        };
        assert_eq!(oregon(reading), [0; LINES]);
        assert_eq!(settlements(Book::Oregon, &first_card(), &[]), [0; LINES]);
    }

    #[test]
    fn case_1() {
        let reading = Reading {
            kwh: 1_000,
            ..on(4, 0)
        };
        assert_eq!(
            oregon(reading),
            [950, 0, 3_523, 0, 0, 818, 146, 0, 5_000, 5, 38, 4, 20]
        );
    }

    #[test]
    fn case_2() {
        let reading = Reading {
            kwh: 8_000,
            demand: 204,
            kvar: 10,
            load_size: 20,
            ..on(23, 4)
        };
        assert_eq!(
            oregon(reading)[..7],
            [2_590, 3_020, 25_456, 0, 130, 5_784, 1_064]
        );
        let units = units(Book::Oregon, &first_card(), &reading);
        assert_eq!(units[1], 30_200_000_000);
        assert_eq!(units[4], 1_300_000_000);
    }

    #[test]
    fn case_3() {
        let reading = |load_size| Reading {
            demand: 500,
            load_size,
            ..on(28, 0)
        };
        assert_eq!(oregon(reading(50))[..2], [1_900, 26_150]);
        assert_eq!(oregon(reading(51))[..2], [3_500, 24_995]);
    }

    #[test]
    fn case_4() {
        let reading = Reading {
            kwh: 10_000,
            ..on(28, 2)
        };
        assert_eq!(oregon(reading)[2], 4_046);
        let units = units(Book::Oregon, &first_card(), &reading);
        assert_eq!(units[2], 40_462_950_000);
    }

    #[test]
    fn case_5() {
        let reading = Reading {
            kwh: 500,
            ..on(28, 0)
        };
        assert_eq!(oregon(reading)[6], 74);
    }

    #[test]
    fn case_6() {
        let reading = |kwh| Reading {
            kwh,
            demand: 150,
            ..on(29, 0)
        };
        let more = oregon(reading(33_700));
        assert_eq!(
            [more[2], more[3], more[5], more[6], more[7]],
            [14_205, 43_988, 24_803, 4_954, 26]
        );
        let less = oregon(reading(33_600));
        assert_eq!(
            [less[2], less[3], less[5], less[6], less[7]],
            [14_205, 43_855, 24_730, 4_939, 0]
        );
    }

    /// What each change of the readings answers on a line.
    fn answers(card: &Card, line: usize, months: &[&[Reading]]) -> Vec<i128> {
        let mut before = 0;
        let mut answers = Vec::new();
        for readings in months {
            let after = settlements(Book::Oregon, card, readings)[line] as i128;
            answers.push(after - before);
            before = after;
        }
        answers
    }

    #[test]
    fn case_7() {
        let first = Reading {
            kwh: 60_000,
            ..on(4, 0)
        };
        let second = Reading {
            kwh: 50_000,
            ..on(4, 0)
        };
        let months: [&[Reading]; 3] = [&[first], &[first, second], &[second]];
        assert_eq!(
            answers(&card(5_000, 0, 50), 12, &months),
            [3_000, 2_000, -2_500]
        );
    }

    #[test]
    fn case_8() {
        let reading = Reading {
            kwh: 70,
            ..on(4, 0)
        };
        let months: [&[Reading]; 3] = [&[reading], &[reading; 2], &[reading; 3]];
        assert_eq!(answers(&first_card(), 9, &months), [0, 1, 0]);
        assert_eq!(weights(Book::Oregon, &first_card(), &reading)[9], 3_500_000);
    }

    #[test]
    fn case_9() {
        let reading = Reading {
            kwh: 100_000,
            off_hours: 30_000,
            demand: 4_000,
            peak_demand: 3_500,
            power_factor: 95,
            ..on(5, 0)
        };
        assert_eq!(
            alone(Book::Cooperative, &first_card(), &reading),
            [22_000, 218_750, 372_000, 15_600, 5_000, 0, 0, 0, 0, 0, 0, 0, 0]
        );
    }

    #[test]
    fn free_15_kw_after_the_factor() {
        let reading = Reading {
            demand: 150,
            load_size: 15,
            ..on(23, 1)
        };
        let units = units(Book::Oregon, &first_card(), &reading);
        assert_eq!(units[1], 2_355 * (140 + 458) * 1_000);
        assert_eq!(oregon(reading)[1], 141);
    }

    #[test]
    fn system_usage_of_500_kwh() {
        let reading = Reading {
            kwh: 500,
            ..on(4, 0)
        };
        assert_eq!(oregon(reading)[6], 73);
    }

    #[test]
    fn three_phase_minimum() {
        for schedule in [4, 5] {
            let line_1 = |demand| {
                oregon(Reading {
                    demand,
                    ..on(schedule, 4)
                })[1]
            };
            assert_eq!([0, 10, 20].map(line_1), [380, 380, 440]);
        }
    }

    #[test]
    fn reactive_without_demand() {
        let reading = Reading {
            kvar: 10,
            ..on(28, 0)
        };
        assert_eq!(oregon(reading)[4], 650);
    }

    #[test]
    fn all_lines_of_28_metered_at_primary() {
        let reading = Reading {
            kwh: 10_000,
            demand: 123,
            kvar: 10,
            load_size: 101,
            ..on(28, 2)
        };
        assert_eq!(
            oregon(reading),
            [8_400, 11_420, 4_046, 0, 333, 3_249, 1_447, 0, 49_225, 49, 364, 30, 197]
        );
    }

    #[test]
    fn bounds_of_weights_and_settlements() {
        let dear = card(99_999_999, 65_535, 65_535);
        let offers = OREGON_SCHEDULES
            .map(|schedule| (Book::Oregon, schedule))
            .into_iter()
            .chain([(Book::Cooperative, 5)]);
        for (book, schedule) in offers {
            for flags in 0..16 {
                let reading = Reading {
                    schedule,
                    flags,
                    kwh: 999_999,
                    off_hours: 999_999,
                    demand: 99_999,
                    peak_demand: 99_999,
                    kvar: 9_999,
                    power_factor: 0,
                    load_size: 10_000,
                };
                for weight in weights(book, &dear, &reading) {
                    assert!(weight <= 1_000_000_000_000_000);
                }
                for settled in settlements(book, &dear, &[reading; 16]) {
                    assert!(settled <= 2_000_000_000);
                }
            }
        }
    }
}
