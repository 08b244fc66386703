//! The listing: events as lines of text, and the total line.
use crate::families::Family;
use crate::line::Event;
use crate::raw;
use crate::refusal::{judged, other_version, Refusal};
use crate::writing::length_written;

/// The longest line of a listing, its newline included.
pub const LONGEST_LINE: usize = 85;

/// What was listed.
#[derive(Clone, Copy, Debug, PartialEq, Eq, Hash)]
pub enum Entry {
    /// A weight.
    Weight,
    /// Another message.
    Message,
    /// A refusal: not a weight.
    Refused,
}

/// A line that was written.
#[derive(Clone, Copy, Debug, PartialEq, Eq, Hash)]
pub struct Listed {
    /// Its length, newline included.
    pub length: usize,
    /// What it tells, for the counts of the total.
    pub entry: Entry,
}

/// The counts of a listing.
#[derive(Clone, Copy, Debug, Default, PartialEq, Eq, Hash)]
pub struct Total {
    /// All events.
    pub events: u64,
    /// Those that were weights.
    pub weights: u64,
    /// Those that were refused.
    pub refused: u64,
}

impl Total {
    /// Counts one more event, by what was listed of it.
    pub fn count(&mut self, entry: Entry) {
        self.events = self.events.wrapping_add(1);
        match entry {
            Entry::Weight => self.weights = self.weights.wrapping_add(1),
            Entry::Message => {}
            Entry::Refused => self.refused = self.refused.wrapping_add(1),
        }
    }
}

/// Writes the line of an event into lent room. The event is read as a reply of a line of a family. The last word of a weight's line is its
/// [`Mode`](crate::Mode), if the family has one. An overloaded weight has six hyphens for its digits, and is listed as a weight all the
/// same. If the line is refused by 9, the room is as it stood.
/// Events are numbered from 1. The body of a frame is judged again, check and all: bytes that nobody heard list as the refusal they earn.
///
/// ```
/// use quay::{list_event, Entry, Event, Family, Refusal, WirePlace};
/// let body = [0x01, 0xC3, 0x51, 0x02, 0x00, 0x01, 0xDE];
/// let mut room = [0; quay::LONGEST_LINE];
/// let listed = list_event(1, Family::Of002, Event::Frame { wire: WirePlace(10), body: &body }, &mut room)?;
/// assert_eq!(&room[..listed.length], b"1 weight gross 1 + 000251 1 0 0 gross\n");
/// assert_eq!(listed.entry, Entry::Weight);
///
/// let overloaded = [0x01, 0xC3, 0x00, 0x00, 0x06, 0x18, 0xA2];
/// let listed = list_event(2, Family::Of002, Event::Frame { wire: WirePlace(20), body: &overloaded }, &mut room)?;
/// assert_eq!(&room[..listed.length], b"2 weight gross 1 + ------ 0 1 1 gross\n");
/// # Ok::<(), Refusal>(())
/// ```
pub fn list_event(number: u64, family: Family, event: Event<'_>, room: &mut [u8]) -> Result<Listed, Refusal> {
    let (event, body) = event.crossing();
    let listed = raw::list_event(number, family.number(), event, body, room);
    judged(listed.refusal)?;
    let entry = match listed.entry {
        1 => Entry::Weight,
        2 => Entry::Message,
        3 => Entry::Refused,
        entry => other_version("entry", entry),
    };
    Ok(Listed { length: listed.length, entry })
}

/// Writes the last line of a listing and answers its length. If it is refused by 9, the room is as it stood.
///
/// ```
/// use quay::{list_total, Refusal, Total};
/// let mut room = [0; quay::LONGEST_LINE];
/// let length = list_total(Total { events: 3, weights: 2, refused: 1 }, &mut room)?;
/// assert_eq!(&room[..length], b"total 3 weights 2 refused 1\n");
/// # Ok::<(), Refusal>(())
/// ```
pub fn list_total(total: Total, room: &mut [u8]) -> Result<usize, Refusal> {
    length_written(raw::list_total(total.events, total.weights, total.refused, room))
}
