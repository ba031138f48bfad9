//! Input for `bills` with bad lines and refused cards mixed in.

use crate::bills::{texts, write_entry, Entry, Field, FIELDS};
use crate::generator::{self, random_entry, DEMAND_LIMIT};
use crate::lines::{card_payload, spell, write_card, write_frame, CAP_LIMIT, CARD};
use crate::random::Random;
use crate::tariffs::{flags_offered, Book, Card};

/// Refused cards, a card, and `count` lines, two of five of them bad. The
/// kinds of bad lines take turns. With an odd seed the last line, a good one,
/// has no line feed.
pub fn input(seed: u64, count: usize) -> Vec<u8> {
    let mut random = Random::new(seed);
    let card = generator::card(seed, &mut random);
    let mut lines = refused_cards(&card);
    random.shuffle(&mut lines);
    lines.push(write_card(&card).into_bytes());

    let mut spoils = spoils();
    random.shuffle(&mut spoils);
    let mut spoils = spoils.iter().cycle();
    for (index, entry) in generator::entries(&card, count, &mut random)
        .iter()
        .enumerate()
    {
        let last = index + 1 == count;
        lines.push(if !last && random.up_to(4) < 2 {
            let spoil = spoils.next().expect("a cycle has no end");
            spoil.line(&card, entry, &mut random)
        } else if random.one_in(20) {
            padded(entry, &mut random)
        } else {
            write_entry(entry).into_bytes()
        });
    }

    let mut input = lines.join(&b'\n');
    if seed.is_multiple_of(2) {
        input.push(b'\n');
    }
    input
}

/// A good line: some field with leading zeros, ten digits in all.
fn padded(entry: &Entry, random: &mut Random) -> Vec<u8> {
    let mut texts = texts(entry);
    let place = random.between(1, FIELDS.len() as u128) as usize;
    texts[place] = format!("{:0>10}", texts[place]);
    texts.join(",").into_bytes()
}

// ---- Refused cards ----

pub fn refused_cards(card: &Card) -> Vec<Vec<u8>> {
    let good = write_card(card);
    let payload = card_payload(card);
    let with_cap = |cap| {
        write_card(&Card {
            cap,
            ..card.clone()
        })
    };
    let with_character = |place: usize, character: &str| {
        format!("{}{character}{}", &good[..place], &good[place + 1..])
    };
    // Right sum, but the length byte is not that of the payload.
    let mut wrong_length = vec![CARD, 31];
    wrong_length.extend(&payload);
    let sum = wrong_length
        .iter()
        .fold(0u8, |sum, byte| sum.wrapping_add(*byte));
    wrong_length.push(sum.wrapping_neg());
    // Any other last digit spoils the sum.
    let other_digit = if good.ends_with('0') { "1" } else { "0" };

    let lines = [
        String::new(),
        "10".to_string(),
        "oregon,4,0,1000,0,0,0,0,100,0".to_string(),
        good[..good.len() - 1].to_string(),
        good[..good.len() - 2].to_string(),
        format!("{good}0"),
        format!("{good}00"),
        format!("{good}\r\r"),
        format!("{good} "),
        format!(" {good}"),
        format!(" {good} "),
        with_character(0, "g"),
        with_character(5, "a"),
        with_character(40, ","),
        with_character(good.len() - 1, other_digit),
        write_frame(0x11, &payload),
        write_frame(0x01, &[0; 52]),
        write_frame(0x90, &[]),
        write_frame(CARD, &payload[..31]),
        write_frame(CARD, &[&payload[..], &[0]].concat()),
        write_frame(CARD, &[]),
        spell(&wrong_length),
        with_cap(CAP_LIMIT + 1),
        with_cap(u128::from(u32::MAX)),
        "00".repeat(64),
        "00".repeat(65),
        "10".repeat(2_500),
    ];
    let mut lines: Vec<Vec<u8>> = lines.into_iter().map(String::into_bytes).collect();
    lines.push(vec![0xFF; 70]);
    lines.push(vec![0; 70]);
    lines
}

// ---- Bad reading lines ----

/// A way to make a bad line of a good entry.
#[derive(Clone, Debug)]
enum Spoil {
    /// The line whatever the entry.
    Line(Vec<u8>),
    /// The good card again.
    Card,
    /// The entry's line with so many fields.
    FieldCount(usize),
    /// The entry's line between two texts.
    Between(&'static str, &'static str),
    /// Another sign between the fields.
    Separator(&'static str),
    /// Another text for the field at the place.
    Text(usize, Vec<u8>),
    /// The field at the place raised by so much, or else to above its limit.
    Raised(usize, u128, u128),
    OffHoursAbove(Above),
    PeakAbove(Above),
    /// Book, schedule and flags that do not go together.
    Offer(Book, u128, u128),
    /// A bad schedule, flags, kWh and demand at once.
    ManyFaults,
}

#[derive(Clone, Copy, Debug)]
enum Above {
    ByOne,
    ByAny,
    To(u128),
}

impl Above {
    fn value(self, of: u128, limit: u128, random: &mut Random) -> u128 {
        match self {
            Above::ByAny if of < limit => random.between(of + 1, limit),
            Above::ByOne | Above::ByAny => of + 1,
            Above::To(value) => value,
        }
    }
}

/// Texts that are no decimal number of at most ten digits.
const NO_NUMBERS: [&[u8]; 25] = [
    b"",
    b" ",
    b" 1",
    b"1 ",
    b"1\t",
    b"1\r",
    b"+1",
    b"-1",
    b"-0",
    b"1.0",
    b"1e1",
    b"0x1",
    b"1_0",
    b"1'0",
    b"\"1\"",
    b"A",
    b"one",
    b"/",
    b":",
    b"1\0",
    b"\xFF",
    b"\xD9\xA1",
    b"00000000000",
    b"10000000000",
    b"18446744073709551617",
];

const NO_BOOKS: [&str; 13] = [
    "",
    "Oregon",
    "OREGON",
    " oregon",
    "oregon ",
    "orego",
    "oregonn",
    "cooperativ",
    "cooperatives",
    "Cooperative",
    "coop",
    "oregoncooperative",
    "0",
];

const SCHEDULES_TRIED: [u128; 26] = [
    0, 1, 3, 4, 5, 6, 7, 22, 23, 24, 27, 28, 29, 30, 31, 48, 200, 260, 261, 727, 728, 729, 730,
    731, 32_768, 65_535,
];

fn spoils() -> Vec<Spoil> {
    let mut spoils = vec![
        Spoil::Card,
        Spoil::Between(",", ""),
        Spoil::Between("", ","),
        Spoil::Between(" ", ""),
        Spoil::Between("", " "),
        Spoil::Between("", "\r\r"),
        Spoil::Between("# ", ""),
        Spoil::Between("\u{FEFF}", ""),
        Spoil::Separator(""),
        Spoil::Separator(" "),
        Spoil::Separator(";"),
        Spoil::Separator(", "),
        Spoil::Separator(",,"),
        Spoil::Separator("\r"),
        Spoil::ManyFaults,
    ];
    for line in [
        "",
        "",
        "",
        "",
        " ",
        "\r",
        "\t",
        ",",
        ",,,,,,,,,",
        "900070",
        "# line 3: ",
    ] {
        spoils.push(Spoil::Line(line.as_bytes().to_vec()));
    }
    for (character, length) in [
        (b'0', 129),
        (b',', 300),
        (b'1', 5_000),
        (b',', 5_000),
        (0, 10),
    ] {
        spoils.push(Spoil::Line(vec![character; length]));
    }
    for fields in (1..=9).chain([11, 12, 20, 200]) {
        spoils.push(Spoil::FieldCount(fields));
    }
    for book in NO_BOOKS {
        spoils.push(Spoil::Text(0, book.as_bytes().to_vec()));
    }
    for (index, (_, limit)) in FIELDS.iter().enumerate() {
        let place = index + 1;
        for text in NO_NUMBERS {
            spoils.push(Spoil::Text(place, text.to_vec()));
        }
        if let Some(limit) = *limit {
            for above in [limit + 1, 10 * limit, u128::from(u32::MAX), 9_999_999_999] {
                spoils.push(Spoil::Text(place, above.to_string().into_bytes()));
            }
            for bits in [8, 16, 17, 20, 32, 33] {
                spoils.push(Spoil::Raised(place, 1 << bits, limit));
            }
        }
    }
    for to in [1_000_000, 4_294_967_295, 4_294_967_296, 9_999_999_999] {
        spoils.push(Spoil::OffHoursAbove(Above::To(to)));
    }
    for above in [Above::ByOne, Above::ByOne, Above::ByAny, Above::ByAny] {
        spoils.push(Spoil::OffHoursAbove(above));
        spoils.push(Spoil::PeakAbove(above));
    }
    for book in [Book::Oregon, Book::Cooperative] {
        for schedule in SCHEDULES_TRIED {
            spoils.extend(offers_lacking(book, schedule));
        }
    }
    spoils
}

/// A schedule that the book lacks, or the flags that it does not offer.
fn offers_lacking(book: Book, schedule: u128) -> Vec<Spoil> {
    match flags_offered(book, schedule) {
        None => vec![Spoil::Offer(book, schedule, 0)],
        Some(offered) => (0..16)
            .filter(|flags| flags & !offered != 0)
            .map(|flags| Spoil::Offer(book, schedule, flags))
            .collect(),
    }
}

impl Spoil {
    fn line(&self, card: &Card, entry: &Entry, random: &mut Random) -> Vec<u8> {
        let texts = texts(entry);
        match self {
            Spoil::Line(line) => line.clone(),
            Spoil::Card => write_card(card).into_bytes(),
            Spoil::FieldCount(fields) => {
                let cycled: Vec<String> = texts.into_iter().cycle().take(*fields).collect();
                cycled.join(",").into_bytes()
            }
            Spoil::Between(before, after) => {
                format!("{before}{}{after}", texts.join(",")).into_bytes()
            }
            Spoil::Separator(separator) => texts.join(separator).into_bytes(),
            Spoil::Text(place, text) => with_text(&texts, *place, text),
            Spoil::Raised(place, by, limit) => {
                let (field, _) = FIELDS[place - 1];
                let raised = (field.of(&entry.reading) + by).max(limit + 1);
                with_text(&texts, *place, raised.to_string().as_bytes())
            }
            Spoil::OffHoursAbove(above) => {
                let kwh = entry.reading.kwh;
                let off_hours = above.value(kwh, generator::KWH_LIMIT, random);
                changed(entry, &[(Field::OffHours, off_hours)])
            }
            Spoil::PeakAbove(above) => {
                let peak = above.value(entry.reading.demand, DEMAND_LIMIT, random);
                changed(entry, &[(Field::PeakDemand, peak)])
            }
            Spoil::Offer(book, schedule, flags) => {
                let reading = random_entry(card, random).reading;
                let entry = Entry {
                    book: *book,
                    reading,
                };
                changed(
                    &entry,
                    &[(Field::Schedule, *schedule), (Field::Flags, *flags)],
                )
            }
            Spoil::ManyFaults => {
                let faults = [
                    (Field::Schedule, 65_536),
                    (Field::Flags, 16),
                    (Field::Kwh, 1_000_000),
                    (Field::OffHours, 2_000_000),
                    (Field::Demand, 100_000),
                ];
                changed(entry, &faults)
            }
        }
    }
}

fn with_text(texts: &[String], place: usize, text: &[u8]) -> Vec<u8> {
    let mut fields: Vec<&[u8]> = texts.iter().map(|text| text.as_bytes()).collect();
    fields[place] = text;
    fields.join(&b',')
}

fn changed(entry: &Entry, changes: &[(Field, u128)]) -> Vec<u8> {
    let mut changed = *entry;
    for (field, value) in changes {
        field.set(&mut changed.reading, *value);
    }
    write_entry(&changed).into_bytes()
}

#[cfg(test)]
mod tests {
    use super::*;
    use crate::bills::{expect, read_entry, BadLine};
    use crate::lines::read_card;

    fn setting() -> (Card, Random) {
        let mut random = Random::new(5);
        (generator::card(5, &mut random), random)
    }

    #[test]
    fn every_spoil_makes_a_bad_line() {
        let (card, mut random) = setting();
        for spoil in spoils() {
            for _ in 0..20 {
                let entry = random_entry(&card, &mut random);
                let line = spoil.line(&card, &entry, &mut random);
                assert!(read_entry(&line).is_err(), "{spoil:?}");
                assert!(!line.contains(&b'\n'));
            }
        }
    }

    #[test]
    fn every_fault_is_there() {
        let (card, mut random) = setting();
        let mut faults = Vec::new();
        for spoil in spoils() {
            let entry = random_entry(&card, &mut random);
            faults.extend(read_entry(&spoil.line(&card, &entry, &mut random)).err());
        }
        for fault in [
            BadLine::FieldCount,
            BadLine::Book,
            BadLine::OffHoursAboveKwh,
            BadLine::PeakAboveDemand,
            BadLine::NoSchedule,
            BadLine::FlagNotOffered,
        ] {
            assert!(faults.contains(&fault), "{fault:?}");
        }
        for (field, limit) in FIELDS {
            assert!(faults.contains(&BadLine::NotDecimal(field)));
            assert!(limit.is_none() || faults.contains(&BadLine::AboveLimit(field)));
        }
    }

    #[test]
    fn refused_cards_are_refused() {
        for seed in 0..25 {
            let card = generator::card(seed, &mut Random::new(seed));
            let mut numbers = Vec::new();
            for line in refused_cards(&card) {
                numbers.push(read_card(&line).unwrap_err().number);
            }
            for number in 2..=7 {
                assert!(numbers.contains(&number));
            }
        }
    }

    #[test]
    fn padded_lines_are_good() {
        let (card, mut random) = setting();
        for _ in 0..200 {
            let entry = random_entry(&card, &mut random);
            assert_eq!(read_entry(&padded(&entry, &mut random)), Ok(entry));
        }
    }

    #[test]
    fn two_of_five_lines_are_bad() {
        for seed in [6, 7] {
            let input = input(seed, 5_000);
            assert_eq!(input.ends_with(b"\n"), seed % 2 == 0);
            let mut output = Vec::new();
            expect(&input, &mut output).unwrap();
            let output = String::from_utf8(output).unwrap();
            let (card, _) = setting();
            let refused = refused_cards(&card).len();
            assert_eq!(output.lines().count(), refused + 5_000);
            let bad = output
                .lines()
                .filter(|line| line.starts_with("# line "))
                .count();
            assert!((1_800..2_200).contains(&(bad - refused)));
            assert!(!output.lines().last().unwrap().starts_with('#'));
        }
    }
}
