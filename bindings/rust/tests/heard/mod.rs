//! What the tests share: events that outlive the reader's bytes, and the sample.
#![allow(dead_code)] // each test program takes what it needs
use std::fs;
use std::path::PathBuf;

use quay::{BodyPlace, Event, Reader, Refusal, WirePlace};

#[derive(Clone, Debug, PartialEq, Eq)]
pub enum Heard {
    Frame(WirePlace, Vec<u8>),
    Refused(Refusal, WirePlace, BodyPlace),
}

pub fn kept(event: Event<'_>) -> Heard {
    match event {
        Event::Frame { wire, body } => Heard::Frame(wire, body.to_vec()),
        Event::Refused { why, wire, kept } => Heard::Refused(why, wire, kept),
    }
}

/// All that a reader hears in one block.
pub fn hear(reader: &mut Reader, block: &[u8]) -> Vec<Heard> {
    let mut heard = Vec::new();
    let mut events = reader.feed(block);
    while let Some(event) = events.next() {
        heard.push(kept(event));
    }
    heard
}

/// All that a fresh reader hears on a wire.
pub fn hear_fresh(wire: &[u8]) -> Vec<Heard> {
    hear(&mut Reader::new(), wire)
}

pub fn sample(name: &str) -> Vec<u8> {
    let place = PathBuf::from(env!("CARGO_MANIFEST_DIR")).join("../../samples").join(name);
    fs::read(&place).unwrap_or_else(|why| panic!("{}: {why}", place.display()))
}

/// A frame with a right check, of any code.
pub fn frame(address: u8, code: u8, data: &[u8]) -> Vec<u8> {
    let mut room = vec![0; 1024];
    let length = quay::write_frame(quay::Address::Short(address), code, data, &mut room).expect("a frame that can be written");
    room.truncate(length);
    room
}

/// The body of the only frame on a wire.
pub fn only_body(wire: &[u8]) -> Vec<u8> {
    match hear_fresh(wire).as_slice() {
        [Heard::Frame(_, body)] => body.clone(),
        heard => panic!("one frame was to be heard, not {heard:?}"),
    }
}
