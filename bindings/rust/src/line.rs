//! The line: blocks of bytes in, events out.
use crate::raw;
use crate::refusal::{judged, other_version, Refusal};

/// The most bytes that a body has, its check included.
pub const LONGEST_BODY: usize = 255;

/// A place on the wire: bytes since the reader started, modulo 2^64. It never stands in for a [`BodyPlace`].
#[derive(Clone, Copy, Debug, PartialEq, Eq, Hash, PartialOrd, Ord)]
pub struct WirePlace(pub u64);

/// A place in the body: bytes kept. It never stands in for a [`WirePlace`].
#[derive(Clone, Copy, Debug, PartialEq, Eq, Hash, PartialOrd, Ord)]
pub struct BodyPlace(pub usize);

/// What a reader listens for.
#[derive(Clone, Copy, Debug, PartialEq, Eq, Hash)]
pub enum Phase {
    /// For an FF. Other bytes are dropped.
    Seeking,
    /// For the first byte of a body.
    Delimited,
    /// For the bytes of a body.
    Inside,
    /// For what follows an FF inside a body.
    Held,
}

/// The phases by their numbers, from 0.
const PHASES: [Phase; 4] = [Phase::Seeking, Phase::Delimited, Phase::Inside, Phase::Held];

/// Where a reader stands.
#[derive(Clone, Copy, Debug, PartialEq, Eq, Hash)]
pub struct Place {
    /// What it listens for.
    pub phase: Phase,
    /// Bytes taken since it started.
    pub wire: WirePlace,
    /// Body bytes kept.
    pub kept: BodyPlace,
}

/// What was heard on the line.
#[derive(Clone, Copy, Debug, PartialEq, Eq, Hash)]
pub enum Event<'a> {
    /// A frame.
    Frame {
        /// The place on the wire of its last byte.
        wire: WirePlace,
        /// Address, code, data and check.
        body: &'a [u8],
    },
    /// A refusal met on the line: something came, and it was not read.
    Refused {
        /// Which refusal.
        why: Refusal,
        /// The place on the wire of the byte that gave it.
        wire: WirePlace,
        /// Body bytes kept at that moment.
        kept: BodyPlace,
    },
}

impl<'a> Event<'a> {
    /// The event as numbers, and its body.
    pub(crate) fn crossing(&self) -> (raw::QuayEvent, &'a [u8]) {
        match *self {
            Event::Frame { wire, body } => {
                let kept = body.len();
                (raw::QuayEvent { wire: wire.0, kept, kind: 1, refusal: 0 }, body)
            }
            Event::Refused { why, wire, kept } => {
                let refusal = why.number();
                (raw::QuayEvent { wire: wire.0, kept: kept.0, kind: 2, refusal }, &[])
            }
        }
    }

    fn crossed(event: raw::QuayEvent, body: &'a [u8; LONGEST_BODY]) -> Option<Event<'a>> {
        let wire = WirePlace(event.wire);
        match (event.kind, Refusal::of_number(event.refusal)) {
            (0, _) => None,
            (1, _) => Some(Event::Frame { wire, body: &body[..event.kept] }),
            (2, Some(why)) => Some(Event::Refused { why, wire, kept: BodyPlace(event.kept) }),
            (2, None) => other_version("refusal", event.refusal),
            _ => other_version("kind of event", event.kind),
        }
    }
}

/// A listener of one line. It holds only its place and the 255 bytes of a body.
#[derive(Clone, Debug)]
pub struct Reader {
    place: raw::QuayPlace,
    body: [u8; LONGEST_BODY],
}

impl Reader {
    /// A fresh reader: it seeks.
    ///
    /// ```
    /// use quay::{BodyPlace, Phase, Place, Reader, WirePlace};
    /// let fresh = Place { phase: Phase::Seeking, wire: WirePlace(0), kept: BodyPlace(0) };
    /// assert_eq!(Reader::new().place(), fresh);
    /// ```
    pub const fn new() -> Reader {
        let place = raw::QuayPlace { wire: 0, kept: 0, phase: Phase::Seeking as u8 };
        Reader { place, body: [0; LONGEST_BODY] }
    }

    /// A reader that goes on from a place, with the body bytes kept there. A place with more than 255 kept is treated as fresh.
    ///
    /// ```
    /// use quay::{Event, Reader, Refusal};
    /// let mut first = Reader::new();
    /// assert!(first.feed(&[0xFF, 0x01, 0xFF]).next().is_none());
    /// let mut second = Reader::resume(first.place(), *first.body());
    /// let refused = second.feed(&[0x02]).next().map(|event| matches!(event, Event::Refused { why: Refusal::HeldBroken, .. }));
    /// assert_eq!(refused, Some(true));
    /// ```
    pub const fn resume(place: Place, body: [u8; LONGEST_BODY]) -> Reader {
        let place = raw::QuayPlace { wire: place.wire.0, kept: place.kept.0, phase: place.phase as u8 };
        Reader { place, body }
    }

    /// Where it stands.
    pub fn place(&self) -> Place {
        let number = self.place.phase;
        let Some(&phase) = PHASES.get(usize::from(number)) else { other_version("phase", number) };
        Place { phase, wire: WirePlace(self.place.wire), kept: BodyPlace(self.place.kept) }
    }

    /// Its 255 bytes; the first of them are the body bytes kept.
    pub fn body(&self) -> &[u8; LONGEST_BODY] {
        &self.body
    }

    /// Takes a block in and gives its events, one after another. However the bytes are cut into blocks, the events are the same.
    ///
    /// ```
    /// use quay::{Event, Reader, WirePlace};
    /// let mut reader = Reader::new();
    /// // A request of the gross weight, address 1.
    /// let mut events = reader.feed(&[0xFF, 0x01, 0xC3, 0xE3, 0xFF, 0xFF]);
    /// assert_eq!(events.next(), Some(Event::Frame { wire: WirePlace(6), body: &[0x01, 0xC3, 0xE3] }));
    /// assert_eq!(events.next(), None);
    /// ```
    pub fn feed<'a>(&'a mut self, block: &'a [u8]) -> Events<'a> {
        Events { reader: self, rest: block }
    }
}

impl Default for Reader {
    fn default() -> Reader {
        Reader::new()
    }
}

/// The events of a block. Each event lends the reader's own bytes. So you must be done with it before you ask for the next:
/// `while let Some(event) = events.next()`.
#[derive(Debug)]
#[must_use = "a block is heard only as its events are asked for, to the last"]
pub struct Events<'a> {
    reader: &'a mut Reader,
    rest: &'a [u8],
}

impl Events<'_> {
    /// The next event, or none when the whole block is taken.
    // This is no `Iterator`: its items could be kept while the reader's bytes change under them.
    #[allow(clippy::should_implement_trait)]
    pub fn next(&mut self) -> Option<Event<'_>> {
        let went = raw::listen(self.reader.place, self.rest, &mut self.reader.body);
        if judged(went.refusal).is_err() {
            // This would only be for a phase that does not exist, and a reader has no such phase.
            other_version("refusal of a reader's own place", went.refusal);
        }
        self.reader.place = went.place;
        self.rest = &self.rest[went.used..];
        Event::crossed(went.event, &self.reader.body)
    }

    /// The bytes of the block that are not taken yet. A caller who stops early feeds them first when he goes on.
    ///
    /// ```
    /// let mut reader = quay::Reader::new();
    /// let mut events = reader.feed(&[0xFF, 0x01, 0xC3, 0xE3, 0xFF, 0xFF, 0x01, 0xC2]);
    /// assert!(events.next().is_some());
    /// assert_eq!(events.rest(), [0x01, 0xC2]);
    /// ```
    pub fn rest(&self) -> &[u8] {
        self.rest
    }
}
