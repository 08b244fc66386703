//! The fourteen functions of `libquay.a` and their structs, field by field as `crates/crossing` and `crates/quay_*` have them.
//!
//! A lent slice crosses as its pointer and its length. The library promises, and it is proved, that every value of every field has a defined
//! answer. So each function below, which covers one of the library's, is safe to call with anything.

/// Where a reader stands. All zeros are a fresh reader.
#[derive(Clone, Copy, Debug)]
#[repr(C)]
pub struct QuayPlace {
    pub wire: u64,
    pub kept: usize,
    pub phase: u8,
}

#[derive(Clone, Copy, Debug)]
#[repr(C)]
pub struct QuayEvent {
    pub wire: u64,
    pub kept: usize,
    pub kind: u8,
    pub refusal: u8,
}

#[derive(Clone, Copy, Debug)]
#[repr(C)]
pub struct QuayWent {
    pub place: QuayPlace,
    pub event: QuayEvent,
    pub used: usize,
    pub refusal: u8,
}

#[derive(Clone, Copy, Debug)]
#[repr(C)]
pub struct QuayWritten {
    pub length: usize,
    pub refusal: u8,
}

#[derive(Clone, Copy, Debug)]
#[repr(C)]
pub struct QuayWeight {
    pub w0: u8,
    pub w1: u8,
    pub w2: u8,
    pub con: u8,
    pub family: u8,
}

#[derive(Clone, Copy, Debug)]
#[repr(C)]
pub struct QuayReading {
    pub number: u32,
    pub point: u8,
    pub minus: u8,
    pub bit6: u8,
    pub bit5: u8,
    pub settled: u8,
    pub overload: u8,
    pub family: u8,
    pub refusal: u8,
}

#[derive(Clone, Copy, Debug)]
#[repr(C)]
pub struct QuayValue {
    pub value: i64,
    pub refusal: u8,
}

#[derive(Clone, Copy, Debug)]
#[repr(C)]
pub struct QuayKilograms {
    pub kilograms: f64,
    pub refusal: u8,
}

#[derive(Clone, Copy, Debug)]
#[repr(C)]
pub struct QuayWhat {
    pub number: u64,
    pub from: usize,
    pub to: usize,
    pub on: u32,
    pub weight: QuayWeight,
    pub load: u8,
    pub says: u8,
}

#[derive(Clone, Copy, Debug)]
#[repr(C)]
pub struct QuayMessage {
    pub what: QuayWhat,
    pub from: usize,
    pub to: usize,
    pub serial: u32,
    pub short: u8,
    pub code: u8,
    pub refusal: u8,
}

#[derive(Clone, Copy, Debug)]
#[repr(C)]
pub struct QuayRecord {
    pub time: u64,
    pub serial: u32,
    pub kind: u8,
    pub address: u8,
    pub status: u8,
    pub w0: u8,
    pub w1: u8,
    pub w2: u8,
    pub family: u8,
    pub refusal: u8,
}

#[derive(Clone, Copy, Debug)]
#[repr(C)]
pub struct QuayStepped {
    pub item: QuayRecord,
    pub next: usize,
}

#[derive(Clone, Copy, Debug)]
#[repr(C)]
pub struct QuayListed {
    pub length: usize,
    pub entry: u8,
    pub refusal: u8,
}

/// Checks the size of a struct and the place of each field when this is compiled. A field out of its place would be read as another.
macro_rules! laid_out {
    ($name:ident, $size:literal: $($field:ident $place:literal),+) => {
        const _: () = assert!(core::mem::size_of::<$name>() == $size);
        $(const _: () = assert!(core::mem::offset_of!($name, $field) == $place);)+
    };
}

laid_out!(QuayPlace, 24: wire 0, kept 8, phase 16);
laid_out!(QuayEvent, 24: wire 0, kept 8, kind 16, refusal 17);
laid_out!(QuayWent, 64: place 0, event 24, used 48, refusal 56);
laid_out!(QuayWritten, 16: length 0, refusal 8);
laid_out!(QuayWeight, 5: w0 0, w1 1, w2 2, con 3, family 4);
laid_out!(QuayReading, 12: number 0, point 4, minus 5, bit6 6, bit5 7, settled 8, overload 9, family 10, refusal 11);
laid_out!(QuayValue, 16: value 0, refusal 8);
laid_out!(QuayKilograms, 16: kilograms 0, refusal 8);
laid_out!(QuayWhat, 40: number 0, from 8, to 16, on 24, weight 28, load 33, says 34);
laid_out!(QuayMessage, 64: what 0, from 40, to 48, serial 56, short 60, code 61, refusal 62);
laid_out!(QuayRecord, 24: time 0, serial 8, kind 12, address 13, status 14, w0 15, w1 16, w2 17, family 18, refusal 19);
laid_out!(QuayStepped, 32: item 0, next 24);
laid_out!(QuayListed, 16: length 0, entry 8, refusal 9);

// Each declaration is one line, as in a C header.
#[rustfmt::skip]
extern "C" {
    fn quay_listen(place: QuayPlace, block: *const u8, block_length: usize, body: *mut [u8; 255]) -> QuayWent;
    fn quay_write_frame(short: u8, serial: u32, code: u8, data: *const u8, data_length: usize, room: *mut u8, room_length: usize) -> QuayWritten;
    fn quay_write_message(role: u8, family: u8, short: u8, serial: u32, code: u8, data: *const u8, data_length: usize, room: *mut u8, room_length: usize) -> QuayWritten;
    fn quay_read_message(role: u8, family: u8, body: *const u8, body_length: usize) -> QuayMessage;
    fn quay_read_weight(weight: QuayWeight) -> QuayReading;
    fn quay_value(weight: QuayWeight) -> QuayValue;
    fn quay_difference(gross: QuayWeight, net: QuayWeight) -> QuayValue;
    fn quay_kilograms(weight: QuayWeight) -> QuayKilograms;
    fn quay_write_record(item: QuayRecord, room: *mut u8, room_length: usize) -> QuayWritten;
    fn quay_read_record(bytes: *const u8, bytes_length: usize) -> QuayRecord;
    fn quay_step(log: *const u8, log_length: usize, place: usize) -> QuayStepped;
    fn quay_record_heard(time: u64, role: u8, family: u8, event: QuayEvent, body: *const u8, body_length: usize) -> QuayRecord;
    fn quay_list_event(number: u64, family: u8, event: QuayEvent, body: *const u8, body_length: usize, room: *mut u8, room_length: usize) -> QuayListed;
    fn quay_list_total(total: u64, weights: u64, refused: u64, room: *mut u8, room_length: usize) -> QuayWritten;
}

pub fn listen(place: QuayPlace, block: &[u8], body: &mut [u8; 255]) -> QuayWent {
    // SAFETY: the block is borrowed with its own length, and the body is 255 bytes that nobody else holds.
    unsafe { quay_listen(place, block.as_ptr(), block.len(), body) }
}

pub fn write_frame(short: u8, serial: u32, code: u8, data: &[u8], room: &mut [u8]) -> QuayWritten {
    let (room_at, room_length) = (room.as_mut_ptr(), room.len());
    // SAFETY: both are borrowed with their own lengths, and nobody else holds the room.
    unsafe { quay_write_frame(short, serial, code, data.as_ptr(), data.len(), room_at, room_length) }
}

pub fn write_message(role: u8, family: u8, (short, serial): (u8, u32), code: u8, data: &[u8], room: &mut [u8]) -> QuayWritten {
    let (data_at, data_length) = (data.as_ptr(), data.len());
    let (room_at, room_length) = (room.as_mut_ptr(), room.len());
    // SAFETY: both are borrowed with their own lengths, and nobody else holds the room.
    unsafe { quay_write_message(role, family, short, serial, code, data_at, data_length, room_at, room_length) }
}

pub fn read_message(role: u8, family: u8, body: &[u8]) -> QuayMessage {
    // SAFETY: the body is borrowed with its own length and only read.
    unsafe { quay_read_message(role, family, body.as_ptr(), body.len()) }
}

pub fn read_weight(weight: QuayWeight) -> QuayReading {
    // SAFETY: five bytes by value; no memory is lent.
    unsafe { quay_read_weight(weight) }
}

pub fn value(weight: QuayWeight) -> QuayValue {
    // SAFETY: five bytes by value; no memory is lent.
    unsafe { quay_value(weight) }
}

pub fn difference(gross: QuayWeight, net: QuayWeight) -> QuayValue {
    // SAFETY: twice five bytes by value; no memory is lent.
    unsafe { quay_difference(gross, net) }
}

pub fn kilograms(weight: QuayWeight) -> QuayKilograms {
    // SAFETY: five bytes by value; no memory is lent.
    unsafe { quay_kilograms(weight) }
}

pub fn write_record(item: QuayRecord, room: &mut [u8]) -> QuayWritten {
    // SAFETY: the room is borrowed with its own length, and nobody else holds it.
    unsafe { quay_write_record(item, room.as_mut_ptr(), room.len()) }
}

pub fn read_record(bytes: &[u8]) -> QuayRecord {
    // SAFETY: the bytes are borrowed with their own length and only read.
    unsafe { quay_read_record(bytes.as_ptr(), bytes.len()) }
}

pub fn step(log: &[u8], place: usize) -> QuayStepped {
    // SAFETY: the log is borrowed with its own length and only read. A place past its end counts as its end.
    unsafe { quay_step(log.as_ptr(), log.len(), place) }
}

pub fn record_heard(time: u64, role: u8, family: u8, event: QuayEvent, body: &[u8]) -> QuayRecord {
    // SAFETY: the body is borrowed with its own length and only read.
    unsafe { quay_record_heard(time, role, family, event, body.as_ptr(), body.len()) }
}

pub fn list_event(number: u64, family: u8, event: QuayEvent, body: &[u8], room: &mut [u8]) -> QuayListed {
    let (room_at, room_length) = (room.as_mut_ptr(), room.len());
    // SAFETY: both are borrowed with their own lengths, and nobody else holds the room.
    unsafe { quay_list_event(number, family, event, body.as_ptr(), body.len(), room_at, room_length) }
}

pub fn list_total(total: u64, weights: u64, refused: u64, room: &mut [u8]) -> QuayWritten {
    // SAFETY: the room is borrowed with its own length, and nobody else holds it.
    unsafe { quay_list_total(total, weights, refused, room.as_mut_ptr(), room.len()) }
}
