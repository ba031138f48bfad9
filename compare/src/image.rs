//! The image of a store: slots of 424 bytes, each empty or one record.

use std::collections::BTreeSet;
use std::fmt;

use crate::block::{Readings, Record, Records, State, MOST_READINGS};
use crate::requests::{SiteMonth, DEMAND, FLAGS, KVAR, KWH, MONTH, PEAK_DEMAND, POWER_FACTOR};
use crate::tariffs::Reading;

pub const SLOT: usize = 424;
pub const MOST_SLOTS: usize = 1_024;
const LOAD_SIZE_LIMIT: u128 = 10_000;

const EMPTY: u128 = 0;
const OPEN: u128 = 1;
const CLOSED: u128 = 2;

// ---- Writing ----

fn put(bytes: &mut Vec<u8>, value: u128, width: usize) {
    let all = value.to_be_bytes();
    bytes.extend_from_slice(&all[all.len() - width..]);
}

pub fn write_slot(site_month: &SiteMonth, record: &Record) -> Vec<u8> {
    let mut slot = Vec::with_capacity(SLOT);
    let state = match record.state {
        State::Open => OPEN,
        State::Closed => CLOSED,
    };
    put(&mut slot, state, 1);
    put(&mut slot, record.readings.len() as u128, 1);
    put(&mut slot, site_month.site, 4);
    put(&mut slot, site_month.month, 2);
    for (meter, reading) in &record.readings {
        put(&mut slot, *meter, 2);
        put(&mut slot, reading.schedule, 2);
        put(&mut slot, reading.flags, 1);
        put(&mut slot, reading.power_factor, 1);
        put(&mut slot, reading.kwh, 4);
        put(&mut slot, reading.off_hours, 4);
        put(&mut slot, reading.demand, 4);
        put(&mut slot, reading.peak_demand, 4);
        put(&mut slot, reading.kvar, 2);
        put(&mut slot, reading.load_size, 2);
    }
    slot.resize(SLOT, 0);
    slot
}

/// The records from the first slot on, and then empty slots.
pub fn write(records: &Records, slots: usize) -> Vec<u8> {
    let mut image: Vec<u8> = records
        .iter()
        .flat_map(|(site_month, record)| write_slot(site_month, record))
        .collect();
    image.resize(slots * SLOT, 0);
    image
}

// ---- Reading ----

/// Why an image starts no store (number 16).
#[derive(Clone, Copy, Debug, PartialEq, Eq)]
pub enum Unusable {
    PartOfASlot,
    SlotCount(usize),
    /// The slot at the place is neither empty nor as a record is written.
    Slot(usize),
    /// The slot at the place has a site month that an earlier one has.
    Twice(usize),
}

impl fmt::Display for Unusable {
    fn fmt(&self, f: &mut fmt::Formatter) -> fmt::Result {
        match self {
            Unusable::PartOfASlot => write!(f, "a part of a slot at the end"),
            Unusable::SlotCount(slots) => write!(f, "{slots} slots"),
            Unusable::Slot(place) => write!(f, "slot {place} is not lawful"),
            Unusable::Twice(place) => write!(f, "slot {place} has a site month again"),
        }
    }
}

/// The records of an image and its number of slots.
pub fn read(image: &[u8]) -> Result<(Records, usize), Unusable> {
    if !image.len().is_multiple_of(SLOT) {
        return Err(Unusable::PartOfASlot);
    }
    let slots = image.len() / SLOT;
    if !(1..=MOST_SLOTS).contains(&slots) {
        return Err(Unusable::SlotCount(slots));
    }
    let mut records = Records::new();
    for (place, slot) in image.chunks(SLOT).enumerate() {
        if is_empty(slot) {
            continue;
        }
        let (site_month, record) = read_slot(slot).ok_or(Unusable::Slot(place))?;
        if records.insert(site_month, record).is_some() {
            return Err(Unusable::Twice(place));
        }
    }
    Ok((records, slots))
}

fn is_empty(slot: &[u8]) -> bool {
    slot.iter().all(|byte| *byte == 0)
}

/// Takes numbers from the front of the bytes.
struct Taker<'a>(&'a [u8]);

impl Taker<'_> {
    fn take(&mut self, width: usize) -> Option<u128> {
        let (front, rest) = self.0.split_at_checked(width)?;
        self.0 = rest;
        Some(
            front
                .iter()
                .fold(0, |number, byte| number * 256 + u128::from(*byte)),
        )
    }
}

/// The record of a slot that is exactly as it is written.
fn read_slot(slot: &[u8]) -> Option<(SiteMonth, Record)> {
    let mut taker = Taker(slot);
    let state = match taker.take(1)? {
        OPEN => State::Open,
        CLOSED => State::Closed,
        EMPTY | 3.. => return None,
    };
    let count = taker.take(1)? as usize;
    if !(1..=MOST_READINGS).contains(&count) {
        return None;
    }
    let site_month = SiteMonth {
        site: taker.take(4)?,
        month: taker.take(2)?,
    };
    if !MONTH.allows(site_month.month) {
        return None;
    }
    let mut readings = Readings::new();
    for _ in 0..count {
        let meter = taker.take(2)?;
        readings.insert(meter, read_reading(&mut taker)?);
    }
    let record = Record { state, readings };
    (write_slot(&site_month, &record) == slot).then_some((site_month, record))
}

fn read_reading(taker: &mut Taker) -> Option<Reading> {
    let schedule = taker.take(2)?;
    let flags = taker.take(1)?;
    let power_factor = taker.take(1)?;
    let reading = Reading {
        schedule,
        flags,
        power_factor,
        kwh: taker.take(4)?,
        off_hours: taker.take(4)?,
        demand: taker.take(4)?,
        peak_demand: taker.take(4)?,
        kvar: taker.take(2)?,
        load_size: taker.take(2)?,
    };
    is_within_limits(&reading).then_some(reading)
}

fn is_within_limits(reading: &Reading) -> bool {
    FLAGS.allows(reading.flags)
        && KWH.allows(reading.kwh)
        && reading.off_hours <= reading.kwh
        && DEMAND.allows(reading.demand)
        && PEAK_DEMAND.allows(reading.peak_demand)
        && reading.peak_demand <= reading.demand
        && KVAR.allows(reading.kvar)
        && POWER_FACTOR.allows(reading.power_factor)
        && reading.load_size <= LOAD_SIZE_LIMIT
}

// ---- Comparing ----

/// How an image differs from the records that it should hold.
#[derive(Clone, Copy, Debug, PartialEq, Eq)]
pub enum Difference {
    Length {
        expected: usize,
        got: usize,
    },
    /// The slot at the place is neither empty nor a record that is held, or
    /// has it once more.
    Slot(usize),
    /// So many records are in no slot.
    Missing(usize),
}

impl fmt::Display for Difference {
    fn fmt(&self, f: &mut fmt::Formatter) -> fmt::Result {
        match self {
            Difference::Length { expected, got } => {
                write!(f, "the image has {got} bytes, not {expected}")
            }
            Difference::Slot(place) => {
                write!(f, "slot {place} is neither empty nor a record that is held")
            }
            Difference::Missing(records) => write!(f, "{records} records are in no slot"),
        }
    }
}

/// Every slot is empty or one of the records, and every record has one slot.
/// Which slot it is does not matter.
pub fn compare(image: &[u8], records: &Records, slots: usize) -> Result<(), Difference> {
    if image.len() != slots * SLOT {
        return Err(Difference::Length {
            expected: slots * SLOT,
            got: image.len(),
        });
    }
    let mut wanted: BTreeSet<Vec<u8>> = records
        .iter()
        .map(|(site_month, record)| write_slot(site_month, record))
        .collect();
    for (place, slot) in image.chunks(SLOT).enumerate() {
        if !is_empty(slot) && !wanted.remove(slot) {
            return Err(Difference::Slot(place));
        }
    }
    match wanted.len() {
        0 => Ok(()),
        missing => Err(Difference::Missing(missing)),
    }
}

#[cfg(test)]
mod tests {
    use super::*;

    fn reading(schedule: u128) -> Reading {
        Reading {
            schedule,
            flags: 0x0B,
            kwh: 0x0C0D0E,
            off_hours: 0x0C0D0D,
            demand: 0x010203,
            peak_demand: 0x010202,
            kvar: 0x0405,
            power_factor: 0x5F,
            load_size: 0x0607,
        }
    }

    fn records() -> Records {
        let at = |site, month| SiteMonth { site, month };
        let record = |state, meters: &[u128]| Record {
            state,
            readings: meters.iter().map(|meter| (*meter, reading(5))).collect(),
        };
        Records::from([
            (at(0x01020304, 0x00FC), record(State::Open, &[0x0708, 9])),
            (at(0, 0), record(State::Closed, &[0])),
            (
                at(0, 1),
                record(State::Open, &(0..16).collect::<Vec<u128>>()),
            ),
        ])
    }

    #[test]
    fn bytes_of_a_slot() {
        let records = records();
        let (site_month, record) = records.iter().last().unwrap();
        let slot = write_slot(site_month, record);
        assert_eq!(slot.len(), SLOT);
        assert_eq!(slot[..8], [1, 2, 1, 2, 3, 4, 0, 0xFC]);
        let entry = [
            0, 5, 0x0B, 0x5F, 0, 0x0C, 0x0D, 0x0E, 0, 0x0C, 0x0D, 0x0D, 0, 1, 2, 3, 0, 1, 2, 2, 4,
            5, 6, 7,
        ];
        assert_eq!(slot[8..10], [0, 9]);
        assert_eq!(slot[10..34], entry);
        assert_eq!(slot[34..36], [7, 8]);
        assert_eq!(slot[36..60], entry);
        assert!(slot[60..].iter().all(|byte| *byte == 0));
    }

    #[test]
    fn images_both_ways() {
        let records = records();
        let image = write(&records, 64);
        assert_eq!(image.len(), 64 * SLOT);
        assert_eq!(read(&image), Ok((records.clone(), 64)));
        assert_eq!(compare(&image, &records, 64), Ok(()));
        assert_eq!(read(&vec![0; 64 * SLOT]), Ok((Records::new(), 64)));
    }

    #[test]
    fn unusable_images() {
        let good = {
            let reading = Reading {
                schedule: 5,
                ..Reading::default()
            };
            let record = Record {
                state: State::Open,
                readings: Readings::from([(1, reading), (2, reading)]),
            };
            write_slot(&SiteMonth { site: 1, month: 1 }, &record)
        };
        assert!(read(&good).is_ok());
        assert_eq!(read(&[]), Err(Unusable::SlotCount(0)));
        assert_eq!(read(&good[..423]), Err(Unusable::PartOfASlot));
        assert_eq!(
            read(&vec![0; 1_025 * SLOT]),
            Err(Unusable::SlotCount(1_025))
        );
        assert_eq!(
            read(&[&good[..], &good[..]].concat()),
            Err(Unusable::Twice(1))
        );
        // State, count, month, order of meters, flags, power factor, rest.
        for (byte, value) in [
            (0, 0),
            (0, 3),
            (1, 0),
            (1, 1),
            (1, 3),
            (1, 17),
            (6, 10),
            (9, 2),
            (9, 3),
            (12, 16),
            (13, 101),
            (423, 1),
        ] {
            let mut bad = good.clone();
            bad[byte] = value;
            assert_eq!(read(&bad), Err(Unusable::Slot(0)), "byte {byte}: {value}");
        }
    }

    #[test]
    fn slots_in_any_order() {
        let records = records();
        let mut slots: Vec<Vec<u8>> = write(&records, 5)
            .chunks(SLOT)
            .map(<[u8]>::to_vec)
            .collect();
        slots.reverse();
        assert_eq!(compare(&slots.concat(), &records, 5), Ok(()));
        assert_eq!(
            compare(&slots.concat(), &records, 6),
            Err(Difference::Length {
                expected: 6 * SLOT,
                got: 5 * SLOT
            })
        );
        slots[0] = slots[4].clone();
        assert_eq!(
            compare(&slots.concat(), &records, 5),
            Err(Difference::Slot(4))
        );
        slots[0] = vec![0; SLOT];
        slots[4] = vec![0; SLOT];
        assert_eq!(
            compare(&slots.concat(), &records, 5),
            Err(Difference::Missing(1))
        );
        slots[4][300] = 1;
        assert_eq!(
            compare(&slots.concat(), &records, 5),
            Err(Difference::Slot(4))
        );
    }
}
