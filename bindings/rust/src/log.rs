//! The log of weighings: records of 20 bytes, without a header.
use core::error::Error;
use core::fmt;

use crate::addresses::{Address, Role};
use crate::families::Family;
use crate::line::Event;
use crate::messages::Load;
use crate::raw;
use crate::refusal::{judged, other_version, Refusal};
use crate::weights::Weight;
use crate::writing::length_written;

/// How many bytes a record has.
pub const RECORD_LENGTH: usize = 20;

const REFUSED: u8 = 3;

/// The weight byte of a record that is no weighing, and its family.
const NO_DIGITS: u8 = 255;
const NO_FAMILY: u8 = 0;

/// A record of a log.
#[derive(Clone, Copy, Debug, PartialEq, Eq, Hash)]
pub struct Record {
    /// Seconds, as the caller gave them.
    pub time: u64,
    /// What was noted.
    pub noted: Noted,
}

/// What a record notes. A refusal has no weight bytes that could be taken for a weight.
#[derive(Clone, Copy, Debug, PartialEq, Eq, Hash)]
pub enum Noted {
    /// A weight that was said.
    Weighed {
        /// Gross or net.
        load: Load,
        /// By whom.
        address: Address,
        /// Its four bytes, and the terminal's family: plain in a record from before there were families. An overloaded bridge is noted so
        /// too, although its value is refused by 24.
        weight: Weight,
    },
    /// A refusal met on the line, 1 to 8.
    Refused(Refusal),
}

/// Where and why a log is not whole: 10 for bytes left over, 11 for a record that breaks a rule.
#[derive(Clone, Copy, Debug, PartialEq, Eq, Hash)]
pub struct Broken {
    /// 10 or 11.
    pub why: Refusal,
    /// The byte where the fault begins. All records before it were good.
    pub place: usize,
}

impl fmt::Display for Broken {
    fn fmt(&self, out: &mut fmt::Formatter<'_>) -> fmt::Result {
        write!(out, "{} at byte {} of the log", self.why, self.place)
    }
}

impl Error for Broken {}

impl Record {
    fn crossing(self) -> raw::QuayRecord {
        let time = self.time;
        match self.noted {
            Noted::Weighed { load, address, weight } => {
                let (address, serial) = address.crossing();
                let [w0, w1, w2, status] = weight.bytes;
                let family = weight.family.number();
                raw::QuayRecord { time, serial, kind: load as u8, address, status, w0, w1, w2, family, refusal: 0 }
            }
            Noted::Refused(why) => raw::QuayRecord {
                time,
                serial: 0,
                kind: REFUSED,
                address: 0,
                status: why.number(),
                w0: NO_DIGITS,
                w1: NO_DIGITS,
                w2: NO_DIGITS,
                family: NO_FAMILY,
                refusal: 0,
            },
        }
    }

    /// A record, no record, or why it is refused.
    fn crossed(item: raw::QuayRecord) -> Result<Option<Record>, Refusal> {
        judged(item.refusal)?;
        let noted = match (item.kind, Load::of_number(item.kind), Refusal::of_number(item.status)) {
            (0, _, _) => return Ok(None),
            (REFUSED, _, Some(why)) => Noted::Refused(why),
            (_, Some(load), _) => Noted::Weighed {
                load,
                address: Address::crossed(item.address, item.serial),
                weight: Weight::new(Family::crossed(item.family), [item.w0, item.w1, item.w2, item.status]),
            },
            (kind, _, _) => other_version("kind of record", kind),
        };
        Ok(Some(Record { time: item.time, noted }))
    }
}

/// Writes a record into lent room and answers its length, 20. Refusals: 11, 9 in that order.
/// A refused write leaves every lent byte as it stood.
///
/// ```
/// use quay::{write_record, Noted, Record, Refusal};
/// let record = Record { time: 1, noted: Noted::Refused(Refusal::CheckWrong) };
/// let mut room = [0; quay::RECORD_LENGTH];
/// assert_eq!(write_record(record, &mut room), Ok(20));
/// assert_eq!(room, [1, 0, 0, 0, 0, 0, 0, 0, 3, 0, 0, 0, 0, 4, 0, 0, 0, 0, 0, 0]);
/// assert_eq!(write_record(record, &mut room[..19]), Err(Refusal::RoomShort));
/// ```
pub fn write_record(record: Record, room: &mut [u8]) -> Result<usize, Refusal> {
    length_written(raw::write_record(record.crossing(), room))
}

/// Reads the record of 20 bytes, or refuses by 11. Its byte 17 is the family: 0 in a record from before there were families.
///
/// ```
/// use quay::{read_record, Address, Family, Load, Noted, Refusal, Weight};
/// let mut bytes = [1, 0, 0, 0, 0, 0, 0, 0, 1, 2, 0, 0, 0, 0x10, 0x40, 0x84, 0x01, 3, 0, 0];
/// let weight = Weight::new(Family::Of002, [0x40, 0x84, 0x01, 0x10]);
/// let noted = Noted::Weighed { load: Load::Gross, address: Address::Short(2), weight };
/// assert_eq!(read_record(&bytes)?.noted, noted);
/// bytes[14] = 0x4A; // a half that is no digit
/// assert_eq!(read_record(&bytes), Err(Refusal::RecordBroken));
/// # Ok::<(), Refusal>(())
/// ```
pub fn read_record(bytes: &[u8]) -> Result<Record, Refusal> {
    match Record::crossed(raw::read_record(bytes))? {
        Some(record) => Ok(record),
        None => other_version("kind of record", 0),
    }
}

/// One step through a log from a place: the record there and the place after it, or none at the end. Refusals: 10, 11.
///
/// ```
/// assert_eq!(quay::step(&[], 0), Ok(None));
/// assert_eq!(quay::step(&[0; 19], 0), Err(quay::Refusal::LogLeftOver));
/// ```
pub fn step(log: &[u8], place: usize) -> Result<Option<(Record, usize)>, Refusal> {
    let stepped = raw::step(log, place);
    let record = Record::crossed(stepped.item)?;
    Ok(record.map(|record| (record, stepped.next)))
}

/// The records of a log from its front. A log that is not whole ends in the refusal and its place. What follows is not read.
///
/// ```
/// use quay::{records, write_record, Broken, Noted, Record, Refusal};
/// let record = Record { time: 7, noted: Noted::Refused(Refusal::HeldBroken) };
/// let mut log = [0; 23];
/// write_record(record, &mut log)?;
/// let mut read = records(&log);
/// assert_eq!(read.next(), Some(Ok(record)));
/// assert_eq!(read.next(), Some(Err(Broken { why: Refusal::LogLeftOver, place: 20 })));
/// assert_eq!(read.next(), None);
///
/// let whole: Result<Vec<Record>, Broken> = records(&log[..20]).collect();
/// assert_eq!(whole, Ok(vec![record]));
/// # Ok::<(), Refusal>(())
/// ```
pub fn records(log: &[u8]) -> Records<'_> {
    Records { log, place: 0, ended: false }
}

/// The records of a log, one by one: see [`records`].
#[derive(Clone, Debug)]
pub struct Records<'a> {
    log: &'a [u8],
    place: usize,
    ended: bool,
}

impl Iterator for Records<'_> {
    type Item = Result<Record, Broken>;

    fn next(&mut self) -> Option<Result<Record, Broken>> {
        if self.ended {
            return None;
        }
        match step(self.log, self.place) {
            Ok(Some((record, next))) => {
                self.place = next;
                Some(Ok(record))
            }
            Ok(None) => {
                self.ended = true;
                None
            }
            Err(why) => {
                self.ended = true;
                Some(Err(Broken { why, place: self.place }))
            }
        }
    }
}

impl core::iter::FusedIterator for Records<'_> {}

/// The record that an event makes, read in a role, of a line of a family. A message that is no weight reply makes none. What was refused on
/// the line, or in its message, makes a record of the refusal. A line meets no refusal above 8: an event with one is refused by 8.
///
/// ```
/// use quay::{record_heard, Event, Family, Noted, Record, Refusal, Role, WirePlace};
/// // A weight with a half that is no digit: its frame is good, and its message is not.
/// let mut room = [0; 16];
/// let length = quay::write_frame(quay::Address::Short(1), 0xC3, &[0x0A, 0, 0, 0], &mut room)?;
/// let body = &room[1..length - 2];
/// let heard = record_heard(7, Role::Reply, Family::Of002, Event::Frame { wire: WirePlace(10), body });
/// assert_eq!(heard, Ok(Some(Record { time: 7, noted: Noted::Refused(Refusal::FieldOutside) })));
/// # Ok::<(), Refusal>(())
/// ```
pub fn record_heard(time: u64, role: Role, family: Family, event: Event<'_>) -> Result<Option<Record>, Refusal> {
    let (event, body) = event.crossing();
    Record::crossed(raw::record_heard(time, role as u8, family.number(), event, body))
}
