//! listen, list_event, list_total.
use quay::{BodyPlace, Entry, Event, Phase, Place, Reader, Refusal, Total, WirePlace};

use crate::message_cases::tell_raw;
use crate::raw;
use crate::weight_cases::family_of;
use crate::words::{tell_written, Malformed, Telling, Words};
use crate::Told;

pub fn listen(words: &mut Words<'_>) -> Result<Told, Malformed> {
    let phase = words.number("PHASE")?;
    let wire = words.number("WIRE")?;
    let kept = words.number("KEPT")?;
    let body = words.array("BODY")?;
    let block = words.bytes("BLOCK")?;
    let mut lent = body;
    let went = raw::listen(raw::QuayPlace { wire, kept, phase }, &block, &mut lent);
    let crate_own = phase_of(phase).map(|phase| {
        let place = Place { phase, wire: WirePlace(wire), kept: BodyPlace(kept) };
        let (went, body) = own_went(Reader::resume(place, body), &block);
        tell_went(went, &body)
    });
    Ok(Told { raw: tell_went(went, &lent), crate_own })
}

pub fn list_event(words: &mut Words<'_>) -> Result<Told, Malformed> {
    let number = words.number("NUMBER")?;
    let family = words.number("FAMILY")?;
    let event = event_words(words)?;
    let body = words.bytes("BODY")?;
    let room = words.bytes("ROOM")?;
    let mut lent = room.clone();
    let listed = raw::list_event(number, family, event, &body, &mut lent);
    let crate_own = family_of(family).zip(own_event(event, &body)).map(|(family, event)| {
        let mut lent = room;
        let listed_own = match quay::list_event(number, family, event, &mut lent) {
            Ok(listed) => raw::QuayListed { length: listed.length, entry: entry_number(listed.entry), refusal: 0 },
            // What would have been listed is not told beside a refusal; the raw call's word is taken for it.
            Err(why) => raw::QuayListed { length: 0, entry: listed.entry, refusal: why.number() },
        };
        tell_listed(listed_own, &lent)
    });
    Ok(Told { raw: tell_listed(listed, &lent), crate_own })
}

pub fn list_total(words: &mut Words<'_>) -> Result<Told, Malformed> {
    let events = words.number("TOTAL")?;
    let weights = words.number("WEIGHTS")?;
    let refused = words.number("REFUSED")?;
    let room = words.bytes("ROOM")?;
    let mut lent = room.clone();
    let written = raw::list_total(events, weights, refused, &mut lent);
    let mut own_lent = room;
    let own = quay::list_total(Total { events, weights, refused }, &mut own_lent);
    Ok(Told { raw: tell_raw(written, &lent), crate_own: Some(tell_written(own, &own_lent)) })
}

/// KIND EVENT_REFUSAL EVENT_WIRE EVENT_KEPT
pub fn event_words(words: &mut Words<'_>) -> Result<raw::QuayEvent, Malformed> {
    let kind = words.number("KIND")?;
    let refusal = words.number("EVENT_REFUSAL")?;
    let wire = words.number("EVENT_WIRE")?;
    let kept = words.number("EVENT_KEPT")?;
    Ok(raw::QuayEvent { wire, kept, kind, refusal })
}

/// The event of these numbers, where the crate's own type can say it. A frame's body is the front of the lent bytes, or all there are.
pub fn own_event(event: raw::QuayEvent, body: &[u8]) -> Option<Event<'_>> {
    let wire = WirePlace(event.wire);
    match event.kind {
        1 => Some(Event::Frame { wire, body: body.get(..event.kept).unwrap_or(body) }),
        2 => {
            let why = Refusal::of_number(event.refusal)?;
            Some(Event::Refused { why, wire, kept: BodyPlace(event.kept) })
        }
        _ => None,
    }
}

fn phase_of(number: u8) -> Option<Phase> {
    [Phase::Seeking, Phase::Delimited, Phase::Inside, Phase::Held].get(usize::from(number)).copied()
}

fn phase_number(phase: Phase) -> u8 {
    match phase {
        Phase::Seeking => 0,
        Phase::Delimited => 1,
        Phase::Inside => 2,
        Phase::Held => 3,
    }
}

fn entry_number(entry: Entry) -> u8 {
    match entry {
        Entry::Weight => 1,
        Entry::Message => 2,
        Entry::Refused => 3,
    }
}

/// The first event that a reader hears in a block, taken back to the raw fields.
fn own_went(mut reader: Reader, block: &[u8]) -> (raw::QuayWent, [u8; 255]) {
    let mut events = reader.feed(block);
    let event = match events.next() {
        None => raw::QuayEvent { wire: 0, kept: 0, kind: 0, refusal: 0 },
        Some(Event::Frame { wire, body }) => raw::QuayEvent { wire: wire.0, kept: body.len(), kind: 1, refusal: 0 },
        Some(Event::Refused { why, wire, kept }) => raw::QuayEvent { wire: wire.0, kept: kept.0, kind: 2, refusal: why.number() },
    };
    let used = block.len() - events.rest().len();
    let place = reader.place();
    let place = raw::QuayPlace { wire: place.wire.0, kept: place.kept.0, phase: phase_number(place.phase) };
    (raw::QuayWent { place, event, used, refusal: 0 }, *reader.body())
}

fn tell_went(went: raw::QuayWent, body: &[u8]) -> String {
    let told = Telling::default().number(went.refusal).number(went.place.phase).number(went.place.wire);
    let told = told.number(went.place.kept).bytes(body).number(went.used);
    let event = went.event;
    told.number(event.kind).number(event.refusal).number(event.wire).number(event.kept).told()
}

fn tell_listed(listed: raw::QuayListed, room: &[u8]) -> String {
    Telling::default().number(listed.refusal).number(listed.length).number(listed.entry).bytes(room).told()
}
