//! write_record, read_record, step, record_heard.
use quay::{Load, Noted, Record, Refusal, Weight};

use crate::line_cases::{event_words, own_event};
use crate::message_cases::{address_of, load_number, numbers_of, role_of, tell_raw};
use crate::raw;
use crate::weight_cases::{family_number, family_of};
use crate::words::{tell_written, Malformed, Telling, Words};
use crate::Told;

pub fn write_record(words: &mut Words<'_>) -> Result<Told, Malformed> {
    let item = record_words(words)?;
    let room = words.bytes("ROOM")?;
    let mut lent = room.clone();
    let written = raw::write_record(item, &mut lent);
    let crate_own = own_record(item).map(|record| {
        let mut lent = room;
        let written = quay::write_record(record, &mut lent);
        tell_written(written, &lent)
    });
    Ok(Told { raw: tell_raw(written, &lent), crate_own })
}

/// TIME KIND ADDRESS SERIAL STATUS W0W1W2 FAMILY CARRIED
fn record_words(words: &mut Words<'_>) -> Result<raw::QuayRecord, Malformed> {
    let mut item = no_record(0);
    item.time = words.number("TIME")?;
    item.kind = words.number("KIND")?;
    item.address = words.number("ADDRESS")?;
    item.serial = words.number("SERIAL")?;
    item.status = words.number("STATUS")?;
    [item.w0, item.w1, item.w2] = words.array("W0W1W2")?;
    item.family = words.number("FAMILY")?;
    item.refusal = words.number("CARRIED")?;
    Ok(item)
}

pub fn read_record(words: &mut Words<'_>) -> Result<Told, Malformed> {
    let bytes = words.bytes("BYTES")?;
    let raw = tell_record(raw::read_record(&bytes)).told();
    let own = quay::read_record(&bytes).map(Some);
    Ok(Told { raw, crate_own: Some(tell_record(crossing(own)).told()) })
}

pub fn step(words: &mut Words<'_>) -> Result<Told, Malformed> {
    let log = words.bytes("LOG")?;
    let place = words.number("PLACE")?;
    let stepped = raw::step(&log, place);
    let own = quay::step(&log, place);
    let next = match own {
        Ok(Some((_, next))) => next,
        _ => place,
    };
    let own_item = crossing(own.map(|stepped| stepped.map(|(record, _)| record)));
    Ok(Told {
        raw: tell_record(stepped.item).number(stepped.next).told(),
        crate_own: Some(tell_record(own_item).number(next).told()),
    })
}

pub fn record_heard(words: &mut Words<'_>) -> Result<Told, Malformed> {
    let time = words.number("TIME")?;
    let role = words.number("ROLE")?;
    let family = words.number("FAMILY")?;
    let event = event_words(words)?;
    let body = words.bytes("BODY")?;
    let raw = tell_record(raw::record_heard(time, role, family, event, &body)).told();
    let crate_own = role_of(role)
        .zip(family_of(family))
        .zip(own_event(event, &body))
        .map(|((role, family), event)| tell_record(crossing(quay::record_heard(time, role, family, event))).told());
    Ok(Told { raw, crate_own })
}

fn tell_record(item: raw::QuayRecord) -> Telling {
    let told = Telling::default().number(item.refusal).number(item.time).number(item.kind);
    let told = told.number(item.address).number(item.serial).number(item.status);
    told.bytes(&[item.w0, item.w1, item.w2]).number(item.family)
}

/// The record of these fields, where the crate's own type can say them.
fn own_record(item: raw::QuayRecord) -> Option<Record> {
    let load = match (item.refusal, item.kind) {
        (0, 1) => Load::Gross,
        (0, 2) => Load::Net,
        (0, 3) => return own_refused(item),
        _ => return None,
    };
    let weight = Weight::new(family_of(item.family)?, [item.w0, item.w1, item.w2, item.status]);
    let address = address_of(item.address, item.serial);
    Some(Record { time: item.time, noted: Noted::Weighed { load, address, weight } })
}

fn own_refused(item: raw::QuayRecord) -> Option<Record> {
    let is_bare = item.address == 0 && item.serial == 0 && [item.w0, item.w1, item.w2] == [0; 3] && item.family == 0;
    if !is_bare {
        return None;
    }
    let why = Refusal::of_number(item.status)?;
    Some(Record { time: item.time, noted: Noted::Refused(why) })
}

/// What the crate says, taken back to the raw fields: nothing of them may be lost.
fn crossing(own: Result<Option<Record>, Refusal>) -> raw::QuayRecord {
    let record = match own {
        Ok(Some(record)) => record,
        Ok(None) => return no_record(0),
        Err(why) => return no_record(why.number()),
    };
    let time = record.time;
    match record.noted {
        Noted::Weighed { load, address, weight } => {
            let (address, serial) = numbers_of(address);
            let [w0, w1, w2, status] = weight.bytes;
            let (kind, family) = (load_number(load), family_number(weight.family));
            raw::QuayRecord { time, serial, kind, address, status, w0, w1, w2, family, refusal: 0 }
        }
        Noted::Refused(why) => raw::QuayRecord { time, kind: 3, status: why.number(), family: 0, ..no_record(0) },
    }
}

fn no_record(refusal: u8) -> raw::QuayRecord {
    raw::QuayRecord { time: 0, serial: 0, kind: 0, address: 0, status: 0, w0: 255, w1: 255, w2: 255, family: 255, refusal }
}
