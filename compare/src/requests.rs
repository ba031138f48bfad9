//! Requests, read from lines and written as lines, as docs/protocol.md lays
//! them down.

use crate::lines::{read_frame, write_frame, Frame, Refusal};
use crate::tariffs::{load_size, nearest_kw, Reading};

// ---- Kinds and fields ----

#[derive(Clone, Copy, Debug, PartialEq, Eq, PartialOrd, Ord, Hash)]
pub enum Kind {
    Post,
    Cancel,
    Correct,
    Close,
    Account,
}

impl Kind {
    pub const ALL: [Kind; 5] = [
        Kind::Post,
        Kind::Cancel,
        Kind::Correct,
        Kind::Close,
        Kind::Account,
    ];

    pub fn byte(self) -> u8 {
        match self {
            Kind::Post => 0x01,
            Kind::Cancel => 0x02,
            Kind::Correct => 0x03,
            Kind::Close => 0x04,
            Kind::Account => 0x05,
        }
    }

    /// The kind of its answer, unless that is a refusal.
    pub fn answer_byte(self) -> u8 {
        self.byte() + 0x80
    }

    pub fn payload_length(self) -> usize {
        match self {
            Kind::Post | Kind::Correct => 52,
            Kind::Cancel => 8,
            Kind::Close | Kind::Account => 6,
        }
    }

    /// In the order of their bytes.
    pub fn fields(self) -> &'static [Field] {
        match self {
            Kind::Post | Kind::Correct => &READING_FIELDS,
            Kind::Cancel => &READING_FIELDS[..3],
            Kind::Close | Kind::Account => &READING_FIELDS[..2],
        }
    }
}

#[derive(Clone, Copy, Debug, PartialEq, Eq)]
pub struct Field {
    /// The first byte in the frame.
    pub first: usize,
    pub width: usize,
    pub limit: Option<u128>,
}

impl Field {
    const fn free(first: usize, width: usize) -> Self {
        Field {
            first,
            width,
            limit: None,
        }
    }

    const fn limited(first: usize, width: usize, limit: u128) -> Self {
        Field {
            first,
            width,
            limit: Some(limit),
        }
    }

    pub fn allows(&self, value: u128) -> bool {
        self.limit.is_none_or(|limit| value <= limit)
    }

    /// The greatest number that its bytes can write.
    pub fn greatest(&self) -> u128 {
        (1 << (8 * self.width)) - 1
    }

    fn of(&self, frame: &Frame) -> u128 {
        frame.number(self.first, self.width)
    }
}

pub const SITE: Field = Field::free(3, 4);
pub const MONTH: Field = Field::limited(7, 2, 2_399);
pub const METER: Field = Field::free(9, 2);
pub const SCHEDULE: Field = Field::free(11, 2);
pub const FLAGS: Field = Field::limited(13, 1, 15);
pub const KWH: Field = Field::limited(14, 4, 999_999);
pub const OFF_HOURS: Field = Field::free(18, 4);
pub const DEMAND: Field = Field::limited(22, 4, 99_999);
pub const PEAK_DEMAND: Field = Field::limited(26, 4, 99_999);
pub const KVAR: Field = Field::limited(30, 2, 9_999);
pub const POWER_FACTOR: Field = Field::limited(32, 1, 100);

pub const EARLIER_MONTHS: usize = 11;

/// The demand of an earlier month, in kW.
pub const fn earlier(month: usize) -> Field {
    Field::limited(33 + 2 * month, 2, 9_999)
}

const READING_FIELDS: [Field; 22] = [
    SITE,
    MONTH,
    METER,
    SCHEDULE,
    FLAGS,
    KWH,
    OFF_HOURS,
    DEMAND,
    PEAK_DEMAND,
    KVAR,
    POWER_FACTOR,
    earlier(0),
    earlier(1),
    earlier(2),
    earlier(3),
    earlier(4),
    earlier(5),
    earlier(6),
    earlier(7),
    earlier(8),
    earlier(9),
    earlier(10),
];

// ---- Requests ----

#[derive(Clone, Copy, Debug, PartialEq, Eq, PartialOrd, Ord, Hash)]
pub struct SiteMonth {
    pub site: u128,
    pub month: u128,
}

pub type Meter = u128;

#[derive(Clone, Copy, Debug, PartialEq, Eq)]
pub enum Request {
    Post(SiteMonth, Meter, Reading),
    Cancel(SiteMonth, Meter),
    Correct(SiteMonth, Meter, Reading),
    Close(SiteMonth),
    Account(SiteMonth),
}

impl Request {
    pub fn site_month(&self) -> SiteMonth {
        match self {
            Request::Post(site_month, ..)
            | Request::Cancel(site_month, _)
            | Request::Correct(site_month, ..)
            | Request::Close(site_month)
            | Request::Account(site_month) => *site_month,
        }
    }
}

/// The request of a line, by tests 2 to 8.
pub fn read(line: &[u8]) -> Result<Request, Refusal> {
    let served = Kind::ALL.map(|kind| (kind.byte(), kind.payload_length()));
    let frame = read_frame(line, &served)?;
    let kind = Kind::ALL
        .into_iter()
        .find(|kind| kind.byte() == frame.kind)
        .ok_or(Refusal::new(5, 2, 1))?;
    for field in kind.fields() {
        if !field.allows(field.of(&frame)) {
            return Err(Refusal::new(7, 3, field.first as u16));
        }
    }
    let site_month = SiteMonth {
        site: SITE.of(&frame),
        month: MONTH.of(&frame),
    };
    Ok(match kind {
        Kind::Post => Request::Post(site_month, METER.of(&frame), read_reading(&frame)?),
        Kind::Cancel => Request::Cancel(site_month, METER.of(&frame)),
        Kind::Correct => Request::Correct(site_month, METER.of(&frame), read_reading(&frame)?),
        Kind::Close => Request::Close(site_month),
        Kind::Account => Request::Account(site_month),
    })
}

fn read_reading(frame: &Frame) -> Result<Reading, Refusal> {
    let demand = DEMAND.of(frame);
    let mut demands = [nearest_kw(demand); EARLIER_MONTHS + 1];
    for (month, kw) in demands[..EARLIER_MONTHS].iter_mut().enumerate() {
        *kw = earlier(month).of(frame);
    }
    let reading = Reading {
        schedule: SCHEDULE.of(frame),
        flags: FLAGS.of(frame),
        kwh: KWH.of(frame),
        off_hours: OFF_HOURS.of(frame),
        demand,
        peak_demand: PEAK_DEMAND.of(frame),
        kvar: KVAR.of(frame),
        power_factor: POWER_FACTOR.of(frame),
        load_size: load_size(&demands),
    };
    if reading.off_hours > reading.kwh {
        return Err(Refusal::new(8, 3, OFF_HOURS.first as u16));
    }
    if reading.peak_demand > reading.demand {
        return Err(Refusal::new(8, 3, PEAK_DEMAND.first as u16));
    }
    Ok(reading)
}

// ---- Forms ----

/// A request to be written, lawful or not. Fields not filled in are 0.
#[derive(Clone, Debug)]
pub struct Form {
    kind: Kind,
    payload: Vec<u8>,
}

impl Form {
    pub fn new(kind: Kind, site_month: SiteMonth) -> Self {
        let form = Form {
            kind,
            payload: vec![0; kind.payload_length()],
        };
        form.with(SITE, site_month.site)
            .with(MONTH, site_month.month)
    }

    pub fn with(mut self, field: Field, value: u128) -> Self {
        let bytes = value.to_be_bytes();
        let start = field.first - 3;
        self.payload[start..start + field.width]
            .copy_from_slice(&bytes[bytes.len() - field.width..]);
        self
    }

    /// The reading but for its load size, which comes from the earlier demands.
    pub fn with_reading(self, reading: &Reading, earlier_kw: &[u128; EARLIER_MONTHS]) -> Self {
        let mut form = self
            .with(SCHEDULE, reading.schedule)
            .with(FLAGS, reading.flags)
            .with(KWH, reading.kwh)
            .with(OFF_HOURS, reading.off_hours)
            .with(DEMAND, reading.demand)
            .with(PEAK_DEMAND, reading.peak_demand)
            .with(KVAR, reading.kvar)
            .with(POWER_FACTOR, reading.power_factor);
        for (month, kw) in earlier_kw.iter().enumerate() {
            form = form.with(earlier(month), *kw);
        }
        form
    }

    /// A post as a correct, or the other way round.
    pub fn with_kind(mut self, kind: Kind) -> Self {
        self.kind = kind;
        self.payload.resize(kind.payload_length(), 0);
        self
    }

    pub fn kind(&self) -> Kind {
        self.kind
    }

    pub fn payload(&self) -> &[u8] {
        &self.payload
    }

    pub fn line(&self) -> Vec<u8> {
        write_frame(self.kind.byte(), &self.payload).into_bytes()
    }
}

#[cfg(test)]
mod tests {
    use super::*;

    const PLACE: SiteMonth = SiteMonth {
        site: 7,
        month: 252,
    };

    fn reading() -> Reading {
        Reading {
            schedule: 730,
            flags: 5,
            kwh: 999_999,
            off_hours: 999_998,
            demand: 99_999,
            peak_demand: 99_998,
            kvar: 9_999,
            power_factor: 100,
            load_size: 0,
        }
    }

    fn post() -> Form {
        Form::new(Kind::Post, PLACE)
            .with(METER, 65_535)
            .with_reading(&reading(), &[9_999; 11])
    }

    fn fault(form: Form) -> (u8, u8, u16) {
        let refusal = read(&form.line()).unwrap_err();
        (refusal.number, refusal.layer, refusal.place)
    }

    #[test]
    fn fields_fill_the_payload() {
        for kind in Kind::ALL {
            let mut first = 3;
            for field in kind.fields() {
                assert_eq!(field.first, first);
                first += field.width;
            }
            assert_eq!(first, 3 + kind.payload_length());
        }
    }

    #[test]
    fn account_example() {
        let line = Form::new(Kind::Account, PLACE).line();
        assert_eq!(line, b"05060000000700FCF2");
        assert_eq!(read(&line), Ok(Request::Account(PLACE)));
    }

    #[test]
    fn a_post_at_its_limits() {
        let expected = Reading {
            load_size: 9_999,
            ..reading()
        };
        assert_eq!(
            read(&post().line()),
            Ok(Request::Post(PLACE, 65_535, expected))
        );
        assert_eq!(
            read(&post().with_kind(Kind::Correct).line()),
            Ok(Request::Correct(PLACE, 65_535, expected))
        );
    }

    #[test]
    fn load_size_counts_this_month_in_whole_kw() {
        let load = |demand, earlier_kw: [u128; 11]| {
            let reading = Reading {
                schedule: 28,
                demand,
                ..Reading::default()
            };
            let form = Form::new(Kind::Post, PLACE).with_reading(&reading, &earlier_kw);
            match read(&form.line()) {
                Ok(Request::Post(_, _, reading)) => reading.load_size,
                other => panic!("{other:?}"),
            }
        };
        let last = |kw| [0, 0, 0, 0, 0, 0, 0, 0, 0, 0, kw];
        assert_eq!(load(0, [0; 11]), 0);
        assert_eq!(load(4, [0; 11]), 0);
        assert_eq!(load(5, [0; 11]), 1);
        assert_eq!(load(4, last(9)), 9);
        assert_eq!(load(5, last(9)), 5);
        assert_eq!(load(204, last(21)), 20);
        assert_eq!(load(99_999, [0; 11]), 10_000);
    }

    #[test]
    fn first_field_above_its_limit() {
        let mut form = post();
        for field in READING_FIELDS.into_iter().rev() {
            if let Some(limit) = field.limit {
                form = form.with(field, limit + 1);
                assert_eq!(fault(form.clone()), (7, 3, field.first as u16));
            }
        }
        for kind in [Kind::Cancel, Kind::Close, Kind::Account] {
            let form = Form::new(kind, PLACE);
            assert!(read(&form.clone().with(MONTH, 2_399).line()).is_ok());
            assert_eq!(fault(form.with(MONTH, 2_400)), (7, 3, 7));
        }
    }

    #[test]
    fn parts_above_the_whole() {
        let off_hours = post().with(OFF_HOURS, 1_000_000);
        assert_eq!(fault(off_hours.clone()), (8, 3, 18));
        assert_eq!(fault(post().with(DEMAND, 99_997)), (8, 3, 26));
        assert_eq!(fault(off_hours.with(DEMAND, 99_997)), (8, 3, 18));
        assert_eq!(fault(post().with(OFF_HOURS, 4_294_967_295)), (8, 3, 18));
        let limit_first = post()
            .with(OFF_HOURS, 4_294_967_295)
            .with(earlier(10), 10_000);
        assert_eq!(fault(limit_first), (7, 3, 53));
    }
}
