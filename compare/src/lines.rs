//! Lines, frames and cards, as docs/protocol.md lays them down.

use crate::tariffs::{Card, CardRates};

/// Number, layer and place of a refusal.
#[derive(Clone, Copy, Debug, PartialEq, Eq)]
pub struct Refusal {
    pub number: u8,
    pub layer: u8,
    pub place: u16,
}

impl Refusal {
    pub(crate) fn new(number: u8, layer: u8, place: u16) -> Self {
        Refusal {
            number,
            layer,
            place,
        }
    }

    pub fn line(&self) -> String {
        let [high, low] = self.place.to_be_bytes();
        write_frame(REFUSAL, &[self.number, self.layer, high, low])
    }
}

const REFUSAL: u8 = 0x7F;
pub const CARD: u8 = 0x10;
pub const CARD_PAYLOAD: usize = 32;
pub const CAP_LIMIT: u128 = 99_999_999;

const SHORTEST_LINE: usize = 6;
const LONGEST_LINE: usize = 128;

// ---- Frames ----

#[derive(Clone, Debug, PartialEq, Eq)]
pub struct Frame {
    pub kind: u8,
    pub payload: Vec<u8>,
}

impl Frame {
    /// The number of `width` bytes that begins at byte `first` of the frame.
    pub fn number(&self, first: usize, width: usize) -> u128 {
        let start = first - 3;
        self.payload[start..start + width]
            .iter()
            .fold(0, |number, byte| number * 256 + u128::from(*byte))
    }
}

pub fn write_frame(kind: u8, payload: &[u8]) -> String {
    let mut bytes = vec![kind, payload.len() as u8];
    bytes.extend_from_slice(payload);
    bytes.push(sum(&bytes).wrapping_neg());
    spell(&bytes)
}

pub fn spell(bytes: &[u8]) -> String {
    bytes.iter().map(|byte| format!("{byte:02X}")).collect()
}

/// The frame of a line. `served` has each kind served and its payload length.
pub fn read_frame(line: &[u8], served: &[(u8, usize)]) -> Result<Frame, Refusal> {
    let even = line.len().is_multiple_of(2);
    if !even || line.len() < SHORTEST_LINE || line.len() > LONGEST_LINE {
        return Err(Refusal::new(2, 1, 0));
    }
    let bytes = bytes_of(line)?;
    if sum(&bytes) != 0 {
        return Err(Refusal::new(4, 2, 0));
    }
    let kind = bytes[0];
    let payload = &bytes[2..bytes.len() - 1];
    let Some((_, expected)) = served.iter().find(|(served, _)| *served == kind) else {
        return Err(Refusal::new(5, 2, 1));
    };
    if usize::from(bytes[1]) != *expected || payload.len() != *expected {
        return Err(Refusal::new(6, 2, 2));
    }
    Ok(Frame {
        kind,
        payload: payload.to_vec(),
    })
}

fn sum(bytes: &[u8]) -> u8 {
    bytes.iter().fold(0, |sum, byte| sum.wrapping_add(*byte))
}

fn bytes_of(line: &[u8]) -> Result<Vec<u8>, Refusal> {
    let mut digits = Vec::new();
    for (index, character) in line.iter().enumerate() {
        digits.push(match character {
            b'0'..=b'9' => character - b'0',
            b'A'..=b'F' => character - b'A' + 10,
            _ => return Err(Refusal::new(3, 1, index as u16 + 1)),
        });
    }
    Ok(digits
        .chunks(2)
        .map(|pair| pair[0] * 16 + pair[1])
        .collect())
}

// ---- Oregon's card ----

const CAP_BYTE: usize = 3;

/// First byte of the supply rate of the schedule at `place` on the card.
fn supply_byte(place: usize) -> usize {
    7 + 4 * place
}

/// First byte of its low-income rate.
fn low_income_byte(place: usize) -> usize {
    9 + 4 * place
}

pub fn read_card(line: &[u8]) -> Result<Card, Refusal> {
    let frame = read_frame(line, &[(CARD, CARD_PAYLOAD)])?;
    let cap = frame.number(CAP_BYTE, 4);
    if cap > CAP_LIMIT {
        return Err(Refusal::new(7, 3, CAP_BYTE as u16));
    }
    let mut rates = [CardRates::default(); 7];
    for (place, schedule_rates) in rates.iter_mut().enumerate() {
        schedule_rates.supply = frame.number(supply_byte(place), 2);
        schedule_rates.low_income = frame.number(low_income_byte(place), 2);
    }
    Ok(Card { cap, rates })
}

pub fn write_card(card: &Card) -> String {
    write_frame(CARD, &card_payload(card))
}

pub fn card_payload(card: &Card) -> Vec<u8> {
    let mut payload = (card.cap as u32).to_be_bytes().to_vec();
    for rates in &card.rates {
        payload.extend((rates.supply as u16).to_be_bytes());
        payload.extend((rates.low_income as u16).to_be_bytes());
    }
    payload
}

#[cfg(test)]
mod tests {
    use super::*;
    use crate::tariffs::{alone, load_size, nearest_kw, Book, Reading};

    const WORKED_CARD: &str =
        "102000001388138800141388001413880014138800141388001413880014138800146C";
    const WORKED_POST: &str = "01340000000700FC0001000400000003E80000000000000000000000000000640000000000000000000000000000000000000000000074";
    const WORKED_ANSWER: &str = "8134000003B60000000000000DC3000000000000000000000332000000920000000000001388000000050000002600000004000000141D";

    fn worked_card() -> Card {
        Card {
            cap: 5_000,
            rates: [CardRates {
                supply: 5_000,
                low_income: 20,
            }; 7],
        }
    }

    fn refusal_of(line: &str) -> (u8, u8, u16) {
        let refusal = read_card(line.as_bytes()).unwrap_err();
        (refusal.number, refusal.layer, refusal.place)
    }

    #[test]
    fn account_example() {
        let line = write_frame(0x05, &[0, 0, 0, 7, 0, 0xFC]);
        assert_eq!(line, "05060000000700FCF2");
        let frame = read_frame(line.as_bytes(), &[(0x05, 6)]).unwrap();
        assert_eq!((frame.number(3, 4), frame.number(7, 2)), (7, 252));
    }

    #[test]
    fn fixed_answers() {
        assert_eq!(write_frame(0x90, &[]), "900070");
        assert_eq!(write_frame(0x84, &[]), "84007C");
    }

    #[test]
    fn worked_card_both_ways() {
        assert_eq!(read_card(WORKED_CARD.as_bytes()), Ok(worked_card()));
        assert_eq!(write_card(&worked_card()), WORKED_CARD);
    }

    #[test]
    fn every_rate_has_its_bytes() {
        let mut card = Card {
            cap: CAP_LIMIT,
            rates: [CardRates::default(); 7],
        };
        for (place, rates) in card.rates.iter_mut().enumerate() {
            rates.supply = 1_000 + place as u128;
            rates.low_income = 65_535 - place as u128;
        }
        let line = write_card(&card);
        assert_eq!(read_card(line.as_bytes()), Ok(card));
        // Bytes 31-32 and 33-34 are those of schedule 730.
        assert_eq!(&line[60..64], "03EE");
        assert_eq!(&line[64..68], "FFF9");
    }

    #[test]
    fn worked_post() {
        let frame = read_frame(WORKED_POST.as_bytes(), &[(0x01, 52)]).unwrap();
        assert_eq!(
            (frame.number(3, 4), frame.number(7, 2), frame.number(9, 2)),
            (7, 252, 1)
        );
        let demand = frame.number(22, 4);
        let mut demands = [nearest_kw(demand); 12];
        for (month, earlier) in demands[..11].iter_mut().enumerate() {
            *earlier = frame.number(33 + 2 * month, 2);
        }
        let reading = Reading {
            schedule: frame.number(11, 2),
            flags: frame.number(13, 1),
            kwh: frame.number(14, 4),
            off_hours: frame.number(18, 4),
            demand,
            peak_demand: frame.number(26, 4),
            kvar: frame.number(30, 2),
            power_factor: frame.number(32, 1),
            load_size: load_size(&demands),
        };
        assert_eq!(
            reading,
            Reading {
                schedule: 4,
                kwh: 1_000,
                power_factor: 100,
                ..Reading::default()
            }
        );
        let amounts = alone(Book::Oregon, &worked_card(), &reading);
        assert_eq!(
            amounts,
            [950, 0, 3_523, 0, 0, 818, 146, 0, 5_000, 5, 38, 4, 20]
        );
        let payload: Vec<u8> = amounts
            .iter()
            .flat_map(|amount| (*amount as u32).to_be_bytes())
            .collect();
        assert_eq!(write_frame(0x81, &payload), WORKED_ANSWER);
    }

    #[test]
    fn worked_cancel() {
        let frame = read_frame(b"02080000000700FC0002F1", &[(0x02, 8)]).unwrap();
        assert_eq!(frame.number(9, 2), 2);
        assert_eq!(Refusal::new(13, 5, 9).line(), "7F040D05000962");
    }

    #[test]
    fn refusals_of_a_card() {
        assert_eq!(refusal_of(""), (2, 1, 0));
        let empty = read_card(b"").unwrap_err();
        assert_eq!(empty.line(), "7F04020100007A");
        assert_eq!(refusal_of("9000"), (2, 1, 0));
        assert_eq!(refusal_of("9000700"), (2, 1, 0));
        assert_eq!(refusal_of(&"0".repeat(130)), (2, 1, 0));
        assert_eq!(refusal_of(&format!("{WORKED_CARD}\r")), (2, 1, 0));
        assert_eq!(refusal_of(&WORKED_CARD.replace('C', "c")), (3, 1, 70));
        assert_eq!(refusal_of(&WORKED_CARD.replace("6C", "6D")), (4, 2, 0));
        assert_eq!(refusal_of(WORKED_POST), (5, 2, 1));
        assert_eq!(refusal_of("1020D0"), (6, 2, 2));
        assert_eq!(refusal_of(&write_frame(CARD, &[0; 31])), (6, 2, 2));
        let mut card = worked_card();
        card.cap = CAP_LIMIT + 1;
        assert_eq!(refusal_of(&write_card(&card)), (7, 3, 3));
    }
}
