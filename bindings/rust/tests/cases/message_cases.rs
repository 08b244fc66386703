//! write_frame, write_message, read_message.
use quay::{Address, Load, Message, Role, Says};

use crate::raw;
use crate::weight_cases::{family_number, family_of};
use crate::words::{tell_written, Malformed, Telling, Words};
use crate::Told;

/// What is to be written, and the room lent for it.
struct Asked {
    short: u8,
    serial: u32,
    code: u8,
    data: Vec<u8>,
    room: Vec<u8>,
}

/// SHORT SERIAL CODE DATA ROOM
fn asked_words(words: &mut Words<'_>) -> Result<Asked, Malformed> {
    Ok(Asked {
        short: words.number("SHORT")?,
        serial: words.number("SERIAL")?,
        code: words.number("CODE")?,
        data: words.bytes("DATA")?,
        room: words.bytes("ROOM")?,
    })
}

pub fn write_frame(words: &mut Words<'_>) -> Result<Told, Malformed> {
    let Asked { short, serial, code, data, room } = asked_words(words)?;
    let mut lent = room.clone();
    let written = raw::write_frame(short, serial, code, &data, &mut lent);
    let mut own_lent = room;
    let own = quay::write_frame(address_of(short, serial), code, &data, &mut own_lent);
    Ok(Told { raw: tell_raw(written, &lent), crate_own: Some(tell_written(own, &own_lent)) })
}

pub fn write_message(words: &mut Words<'_>) -> Result<Told, Malformed> {
    let role = words.number("ROLE")?;
    let family = words.number("FAMILY")?;
    let Asked { short, serial, code, data, room } = asked_words(words)?;
    let mut lent = room.clone();
    let written = raw::write_message(role, family, (short, serial), code, &data, &mut lent);
    let crate_own = role_of(role).zip(family_of(family)).map(|(role, family)| {
        let mut lent = room;
        let written = quay::write_message(role, family, address_of(short, serial), code, &data, &mut lent);
        tell_written(written, &lent)
    });
    Ok(Told { raw: tell_raw(written, &lent), crate_own })
}

pub fn read_message(words: &mut Words<'_>) -> Result<Told, Malformed> {
    let role = words.number("ROLE")?;
    let family = words.number("FAMILY")?;
    let body = words.bytes("BODY")?;
    let raw = tell_message(raw::read_message(role, family, &body));
    let crate_own = role_of(role).zip(family_of(family)).map(|(role, family)| match quay::read_message(role, family, &body) {
        Ok(message) => tell_message(own_message(message, &body)),
        Err(why) => tell_message(no_message(why.number())),
    });
    Ok(Told { raw, crate_own })
}

pub fn role_of(number: u8) -> Option<Role> {
    match number {
        0 => Some(Role::Request),
        1 => Some(Role::Reply),
        _ => None,
    }
}

/// A short address and serial 0, or short 0 and a serial; both at once are the short address 0.
pub fn address_of(short: u8, serial: u32) -> Address {
    match (short, serial) {
        (0, serial) => Address::Serial(serial),
        (short, 0) => Address::Short(short),
        _ => Address::Short(0),
    }
}

pub fn numbers_of(address: Address) -> (u8, u32) {
    match address {
        Address::Short(byte) => (byte, 0),
        Address::Serial(serial) => (0, serial),
    }
}

pub fn tell_raw(written: raw::QuayWritten, room: &[u8]) -> String {
    Telling::default().number(written.refusal).number(written.length).bytes(room).told()
}

fn tell_message(message: raw::QuayMessage) -> String {
    let what = message.what;
    let weight = [what.weight.w0, what.weight.w1, what.weight.w2, what.weight.con, what.weight.family];
    let told = Telling::default().number(message.refusal).number(message.short).number(message.serial);
    let told = told.number(message.code).number(message.from).number(message.to);
    let told = told.number(what.says).number(what.number).number(what.on).number(what.load);
    told.bytes(&weight).number(what.from).number(what.to).told()
}

/// What is not said is all ones.
const NO_NUMBER: u64 = u64::MAX;
const NO_COUNT: u32 = u32::MAX;

fn plain(says: u8, number: u64) -> raw::QuayWhat {
    let weight = raw::QuayWeight { w0: 255, w1: 255, w2: 255, con: 255, family: 255 };
    raw::QuayWhat { number, from: 0, to: 0, on: NO_COUNT, weight, load: 0, says }
}

fn no_message(refusal: u8) -> raw::QuayMessage {
    raw::QuayMessage { what: plain(0, NO_NUMBER), from: 0, to: 0, serial: 0, short: 0, code: 0, refusal }
}

/// What the crate says, taken back to the raw fields: nothing of them may be lost.
fn own_message(message: Message<'_>, body: &[u8]) -> raw::QuayMessage {
    let (short, serial) = numbers_of(message.address);
    let (from, to) = place_in(message.data, body);
    raw::QuayMessage { what: own_what(message.says, body), from, to, serial, short, code: message.code, refusal: 0 }
}

fn own_what(says: Says<'_>, body: &[u8]) -> raw::QuayWhat {
    match says {
        Says::Nothing => plain(0, NO_NUMBER),
        Says::Serial(serial) => plain(1, u64::from(serial)),
        Says::Number(number) => plain(2, u64::from(number)),
        Says::Status(status) => plain(3, u64::from(status)),
        Says::Weight { load, weight } => {
            let [w0, w1, w2, con] = weight.bytes;
            let weight = raw::QuayWeight { w0, w1, w2, con, family: family_number(weight.family) };
            raw::QuayWhat { weight, load: load_number(load), ..plain(4, NO_NUMBER) }
        }
        Says::Inputs { bits, on } => raw::QuayWhat { on, ..plain(5, u64::from(bits)) },
        Says::Outputs(bits) => plain(6, u64::from(bits)),
        Says::Text { number, text } => placed(7, number, text, body),
        Says::Event { event, bytes } => placed(8, event, bytes, body),
        Says::Converter(number) => plain(9, number),
        Says::Error(error) => plain(10, u64::from(error)),
    }
}

fn placed(says: u8, number: u8, part: &[u8], body: &[u8]) -> raw::QuayWhat {
    let (from, to) = place_in(part, body);
    raw::QuayWhat { from, to, ..plain(says, u64::from(number)) }
}

pub fn load_number(load: Load) -> u8 {
    match load {
        Load::Gross => 1,
        Load::Net => 2,
    }
}

/// Where in the body a part of it lies. An empty part still has its place.
fn place_in(part: &[u8], body: &[u8]) -> (usize, usize) {
    let from = part.as_ptr() as usize - body.as_ptr() as usize;
    (from, from + part.len())
}
