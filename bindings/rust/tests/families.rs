//! Families: bits 6 and 5 by each of them, in weights, messages, the listing and the log; and logs from before there were any.
mod heard;

use heard::{frame, only_body};
use quay::{
    list_event, read_message, read_record, record_heard, records, write_message, write_record, Address, Broken, Event, Family,
    Load, Mode, Noted, Record, Refusal, Role, Says, Weight, WirePlace, LONGEST_LINE, RECORD_LENGTH,
};

const FAMILIES: [Family; 4] = [Family::Plain, Family::Of000, Family::Of001, Family::Of002];
const BIT_6: u8 = 0x40;
const BIT_5: u8 = 0x20;
const OVERLOAD: u8 = 0x08;
const WEIGHT_CODES: [(u8, Load); 2] = [(0xC2, Load::Net), (0xC3, Load::Gross)];

fn bytes_with(con: u8) -> [u8; 4] {
    [0x51, 0x02, 0x00, con]
}

fn is_refused(family: Family, con: u8) -> bool {
    family == Family::Of002 && con & BIT_6 != 0
}

/// Every family with every status byte.
fn every_mix() -> impl Iterator<Item = (Family, u8)> {
    FAMILIES.into_iter().flat_map(|family| (0..=255).map(move |con| (family, con)))
}

fn weighed(weight: Weight) -> Record {
    Record { time: 5, noted: Noted::Weighed { load: Load::Gross, address: Address::Short(1), weight } }
}

/// The mode of a weight as the crate tells it.
fn own_mode(family: Family, con: u8) -> Result<Option<String>, Refusal> {
    let reading = Weight::new(family, bytes_with(con)).reading()?;
    Ok(reading.mode().map(|mode| mode.word().to_string()))
}

/// The mode of a weight as the library lists it: the tenth word of its line, if there is one.
fn listed_mode(family: Family, code: u8, con: u8) -> Result<Option<String>, Refusal> {
    let body = only_body(&frame(1, code, &bytes_with(con)));
    let mut room = [0; LONGEST_LINE];
    let listed = list_event(1, family, Event::Frame { wire: WirePlace(10), body: &body }, &mut room).expect("room for any line");
    let line = String::from_utf8(room[..listed.length].to_vec()).expect("a listing is text");
    let words: Vec<&str> = line.trim_end().split(' ').collect();
    match words.as_slice() {
        ["1", "refused", "8"] => Err(Refusal::FieldOutside),
        ["1", "weight", rest @ ..] => Ok(rest.get(7).map(|word| word.to_string())),
        _ => panic!("no line of a weight: {line}"),
    }
}

#[test]
fn a_family_goes_to_its_number_and_back_and_no_other_number_is_one() {
    assert_eq!(FAMILIES.map(Family::number), [0, 1, 2, 3]);
    assert_eq!([0, 1, 2, 3].map(Family::of_number), FAMILIES.map(Some));
    assert!((4..=255).all(|number| Family::of_number(number).is_none()));
}

#[test]
fn a_mode_is_what_the_librarys_own_listing_says() {
    for (family, con) in every_mix() {
        for (code, _) in WEIGHT_CODES {
            assert_eq!(own_mode(family, con), listed_mode(family, code, con), "{family:?} {con:02X}");
        }
    }
}

#[test]
fn each_family_has_its_own_modes_and_plain_has_none() {
    let mode = |family, con| Weight::new(family, bytes_with(con)).reading().expect("a good weight").mode();
    for (family, clear, set) in [
        (Family::Of000, Mode::Gross, Mode::Net),
        (Family::Of001, Mode::Scale0, Mode::Scale1),
        (Family::Of002, Mode::Gross, Mode::Net),
    ] {
        assert_eq!((mode(family, 0x11), mode(family, 0x11 | BIT_5)), (Some(clear), Some(set)), "{family:?}");
    }
    assert_eq!((mode(Family::Plain, 0x11), mode(Family::Plain, 0x11 | BIT_5)), (None, None));
}

/// Where bit 6 refuses nothing, an overload still refuses every use but the reading.
#[test]
fn bit_6_is_refused_in_002_alone_and_in_every_use() {
    let good = Weight::new(Family::Of000, bytes_with(0x11));
    for (family, con) in every_mix() {
        let weight = Weight::new(family, bytes_with(con));
        let met = [weight.value().err(), weight.kilograms().err(), weight.difference(good).err(), good.difference(weight).err()];
        let of_reading = is_refused(family, con).then_some(Refusal::FieldOutside);
        let of_value = of_reading.or((con & OVERLOAD != 0).then_some(Refusal::Overloaded));
        assert_eq!((weight.reading().err(), met), (of_reading, [of_value; 4]), "{family:?} {con:02X}");
    }
}

#[test]
fn a_reading_carries_its_family_and_both_bits() {
    for (family, con) in every_mix().filter(|&(family, con)| !is_refused(family, con)) {
        let reading = Weight::new(family, bytes_with(con)).reading().expect("a good weight");
        assert_eq!((reading.family, reading.bit6, reading.bit5), (family, con & BIT_6 != 0, con & BIT_5 != 0));
    }
}

/// Both weights in every family: what is said has the family and the same four bytes, or 8 is answered by reader and writer alike.
#[test]
fn messages_are_judged_by_the_family_in_both_directions() {
    for (family, con) in every_mix() {
        for (code, load) in WEIGHT_CODES {
            let data = bytes_with(con);
            let wire = frame(1, code, &data);
            let body = only_body(&wire);
            let mut room = [0x55; 32];
            let written = write_message(Role::Reply, family, Address::Short(1), code, &data, &mut room);
            let read = read_message(Role::Reply, family, &body);
            if is_refused(family, con) {
                assert_eq!((written, read), (Err(Refusal::FieldOutside), Err(Refusal::FieldOutside)), "{con:02X}");
                assert_eq!(room, [0x55; 32]);
                continue;
            }
            assert_eq!(written.map(|length| room[..length].to_vec()), Ok(wire), "{family:?} {con:02X}");
            let weight = Weight { bytes: data, family };
            assert_eq!(read.map(|message| message.says), Ok(Says::Weight { load, weight }), "{family:?} {con:02X}");
        }
    }
}

/// In a request four bytes are too many, whatever the family and the bits.
#[test]
fn a_request_is_the_same_in_every_family() {
    for (family, con) in every_mix() {
        let body = only_body(&frame(1, 0xC3, &bytes_with(con)));
        assert_eq!(read_message(Role::Request, family, &body), Err(Refusal::LengthWrong));
        let mut room = [0; 32];
        assert_eq!(write_message(Role::Request, family, Address::Short(1), 0xC3, &[], &mut room), Ok(6));
        assert_eq!(room[..6], [0xFF, 0x01, 0xC3, 0xE3, 0xFF, 0xFF]);
    }
}

#[test]
fn what_is_heard_is_noted_with_the_family_in_byte_17() {
    for (family, con) in every_mix() {
        let body = only_body(&frame(1, 0xC3, &bytes_with(con)));
        let heard = record_heard(5, Role::Reply, family, Event::Frame { wire: WirePlace(10), body: &body });
        let refused = Record { time: 5, noted: Noted::Refused(Refusal::FieldOutside) };
        let wanted = if is_refused(family, con) { refused } else { weighed(Weight::new(family, bytes_with(con))) };
        assert_eq!(heard, Ok(Some(wanted)), "{family:?} {con:02X}");

        let mut twenty = [0x55; RECORD_LENGTH];
        assert_eq!(write_record(wanted, &mut twenty), Ok(RECORD_LENGTH));
        assert_eq!(twenty[17], if wanted == refused { 0 } else { family.number() });
        assert_eq!(read_record(&twenty), Ok(wanted));
    }
}

#[test]
fn a_record_breaks_a_rule_by_byte_17() {
    let twenty_of = |record| {
        let mut twenty = [0; RECORD_LENGTH];
        write_record(record, &mut twenty).expect("a good record");
        twenty
    };
    let weighing = twenty_of(weighed(Weight::new(Family::Of000, bytes_with(BIT_6))));
    let refusal = twenty_of(Record { time: 5, noted: Noted::Refused(Refusal::CheckWrong) });
    let with = |mut twenty: [u8; RECORD_LENGTH], byte| {
        twenty[17] = byte;
        read_record(&twenty)
    };
    for byte in 0..=255 {
        let wanted = match Family::of_number(byte) {
            Some(Family::Of002) | None => Err(Refusal::RecordBroken),
            Some(family) => Ok(weighed(Weight::new(family, bytes_with(BIT_6)))),
        };
        assert_eq!(with(weighing, byte), wanted, "byte 17 as {byte}");
        assert_eq!(with(refusal, byte).is_ok(), byte == 0, "byte 17 of kind 3 as {byte}");
    }
    let unwritten = weighed(Weight::new(Family::Of002, bytes_with(BIT_6)));
    assert_eq!(write_record(unwritten, &mut [0; RECORD_LENGTH]), Err(Refusal::RecordBroken));
}

/// A log that was written before byte 17 had a meaning: gross 25.1 kg from 1 with bits 6 and 5 set, a wrong check, net minus zero from a serial,
/// overloaded.
const OLD_LOG: [u8; 60] = [
    0xE8, 0x03, 0, 0, 0, 0, 0, 0, 1, 0x01, 0, 0, 0, 0x61, 0x51, 0x02, 0x00, 0, 0, 0, //
    0xE9, 0x03, 0, 0, 0, 0, 0, 0, 3, 0, 0, 0, 0, 4, 0, 0, 0, 0, 0, 0, //
    0xEA, 0x03, 0, 0, 0, 0, 0, 0, 2, 0, 0x65, 0x13, 0x01, 0x98, 0, 0, 0, 0, 0, 0,
];

#[test]
fn a_log_from_before_is_read_as_plain_and_has_no_mode() {
    let read: Result<Vec<Record>, Broken> = records(&OLD_LOG).collect();
    let heavy = Weight::new(Family::Plain, [0x51, 0x02, 0x00, 0x61]);
    let overloaded = Weight::new(Family::Plain, [0, 0, 0, 0x98]);
    let wanted = [
        Record { time: 1000, noted: Noted::Weighed { load: Load::Gross, address: Address::Short(1), weight: heavy } },
        Record { time: 1001, noted: Noted::Refused(Refusal::CheckWrong) },
        Record { time: 1002, noted: Noted::Weighed { load: Load::Net, address: Address::Serial(70_501), weight: overloaded } },
    ];
    assert_eq!(read.as_deref(), Ok(&wanted[..]));
    for (weight, kilograms) in [(heavy, Ok(25.1)), (overloaded, Err(Refusal::Overloaded))] {
        assert_eq!(weight.kilograms(), kilograms);
        assert_eq!(weight.reading().map(|reading| reading.mode()), Ok(None));
    }
    let mut again = [0x55; 60];
    for (record, room) in wanted.into_iter().zip(again.chunks_mut(RECORD_LENGTH)) {
        assert_eq!(write_record(record, room), Ok(RECORD_LENGTH));
    }
    assert_eq!(again, OLD_LOG);
}
