//! The log: written, read, broken, left over, and made of what was heard.
mod heard;

use heard::{frame, only_body, sample};
use quay::{
    record_heard, records, write_record, Address, BodyPlace, Broken, Event, Family, Load, Noted, Reader, Record, Refusal, Role,
    Weight, WirePlace, RECORD_LENGTH,
};

const FAMILY: Family = Family::Of002;

const MINUS_ZERO: Weight = Weight::new(FAMILY, [0, 0, 0, 0x90]);

fn weighed(time: u64, load: Load, address: Address, weight: Weight) -> Record {
    Record { time, noted: Noted::Weighed { load, address, weight } }
}

fn three() -> [Record; 3] {
    [
        weighed(10, Load::Gross, Address::Short(2), Weight::new(FAMILY, [0x60, 0x09, 0x04, 0x18])),
        Record { time: 11, noted: Noted::Refused(Refusal::CheckWrong) },
        weighed(u64::MAX, Load::Net, Address::Serial(70_501), MINUS_ZERO),
    ]
}

fn log_of(items: &[Record]) -> Vec<u8> {
    let mut log = vec![0; items.len() * RECORD_LENGTH];
    for (item, room) in items.iter().zip(log.chunks_mut(RECORD_LENGTH)) {
        assert_eq!(write_record(*item, room), Ok(RECORD_LENGTH));
    }
    log
}

#[test]
fn a_log_is_read_back_as_it_was_written() {
    let read: Result<Vec<Record>, Broken> = records(&log_of(&three())).collect();
    assert_eq!(read.as_deref(), Ok(&three()[..]));
    assert_eq!(records(&[]).next(), None);
}

/// What has no value is not lost: each of the 20 bytes comes back, in every family.
#[test]
fn an_overloaded_weighing_is_noted_with_its_bytes() {
    for family in [Family::Plain, Family::Of000, Family::Of001, Family::Of002] {
        let weight = Weight::new(family, [0x00, 0x00, 0x06, 0x18]);
        let body = only_body(&frame(2, 0xC3, &weight.bytes));
        let heard = record_heard(10, Role::Reply, family, Event::Frame { wire: WirePlace(10), body: &body });
        let item = weighed(10, Load::Gross, Address::Short(2), weight);
        assert_eq!(heard, Ok(Some(item)), "{family:?}");
        let log = log_of(&[item]);
        assert_eq!(log, [10, 0, 0, 0, 0, 0, 0, 0, 1, 2, 0, 0, 0, 0x18, 0, 0, 0x06, family.number(), 0, 0]);
        let read: Vec<Record> = records(&log).collect::<Result<_, _>>().expect("a whole log");
        assert_eq!((read.as_slice(), log_of(&read)), (&[item][..], log), "{family:?}");
        assert_eq!(weight.value(), Err(Refusal::Overloaded));
    }
}

/// The older bridges stand at A4 and F0; FD is the highest short address.
#[test]
fn weighings_from_high_addresses_are_read_back() {
    let items = [0x9F, 0xA0, 0xA4, 0xF0, 0xFD].map(|byte| weighed(1, Load::Gross, Address::Short(byte), MINUS_ZERO));
    let read: Result<Vec<Record>, Broken> = records(&log_of(&items)).collect();
    assert_eq!(read.as_deref(), Ok(&items[..]));
}

#[test]
fn a_log_cut_anywhere_is_left_over_or_whole() {
    let log = log_of(&three());
    for length in 0..=log.len() {
        let (good, over) = (length / RECORD_LENGTH, length % RECORD_LENGTH);
        let mut read = records(&log[..length]);
        for item in &three()[..good] {
            assert_eq!(read.next(), Some(Ok(*item)));
        }
        let broken = Broken { why: Refusal::LogLeftOver, place: good * RECORD_LENGTH };
        assert_eq!(read.next(), (over != 0).then_some(Err(broken)), "a log of {length} bytes");
        assert_eq!(read.next(), None);
    }
}

#[test]
fn a_broken_record_ends_the_log_at_its_place() {
    // A kind that there is not, an address beside its serial, bit 6 in family 002, a half that is no digit, a family that there is not,
    // bytes that have to be zero.
    for (place, byte) in [(8, 4), (8, 0), (10, 1), (13, 0x58), (14, 0x6A), (17, 4), (17, 255), (18, 1), (19, 1)] {
        let items = three();
        let mut log = log_of(&[items[1], items[0], items[2]]);
        log[RECORD_LENGTH + place] = byte;
        let mut read = records(&log);
        assert_eq!(read.next(), Some(Ok(items[1])));
        let broken = Broken { why: Refusal::RecordBroken, place: RECORD_LENGTH };
        assert_eq!(read.next(), Some(Err(broken)), "byte {place} as {byte}");
        assert_eq!(read.next(), None, "what follows a broken record is not read");
    }
}

#[test]
fn a_broken_record_comes_before_bytes_left_over() {
    let mut log = log_of(&three());
    log[8] = 9;
    log.push(0);
    let read: Result<Vec<Record>, Broken> = records(&log).collect();
    let broken = read.expect_err("a broken log");
    assert_eq!(broken, Broken { why: Refusal::RecordBroken, place: 0 });
    assert_eq!(broken.to_string(), "refused 11: a log record breaks a rule at byte 0 of the log");
}

#[test]
fn what_is_no_record_is_not_written() {
    let refused = |noted| Record { time: 1, noted };
    let broken = [
        weighed(1, Load::Gross, Address::Short(0), MINUS_ZERO),
        weighed(1, Load::Gross, Address::Short(0xFE), MINUS_ZERO),
        weighed(1, Load::Net, Address::Serial(0x100_0000), MINUS_ZERO),
        weighed(1, Load::Net, Address::Short(1), Weight::new(FAMILY, [0xFF; 4])),
        weighed(1, Load::Net, Address::Short(1), Weight::new(FAMILY, [0, 0, 0, 0x40])),
        refused(Noted::Refused(Refusal::RoomShort)),
        refused(Noted::Refused(Refusal::RecordBroken)),
    ];
    for item in broken {
        let mut room = [0x55; RECORD_LENGTH];
        assert_eq!(write_record(item, &mut room), Err(Refusal::RecordBroken), "{item:?}");
        assert_eq!(room, [0x55; RECORD_LENGTH]);
    }
    let mut short = [0x55; RECORD_LENGTH - 1];
    assert_eq!(write_record(three()[0], &mut short), Err(Refusal::RoomShort));
    assert_eq!(short, [0x55; RECORD_LENGTH - 1]);
}

#[test]
fn what_was_heard_makes_its_record() {
    let heard = |role, wire: &[u8]| {
        let mut reader = Reader::new();
        let mut events = reader.feed(wire);
        record_heard(5, role, FAMILY, events.next().expect("an event"))
    };
    let weight = Weight::new(FAMILY, [0x51, 0x02, 0x00, 0x01]);
    let gross = frame(1, 0xC3, &weight.bytes);
    assert_eq!(heard(Role::Reply, &gross), Ok(Some(weighed(5, Load::Gross, Address::Short(1), weight))));
    // The same bytes as a request are one whose length is wrong.
    let refused = |why| Ok(Some(Record { time: 5, noted: Noted::Refused(why) }));
    assert_eq!(heard(Role::Request, &gross), refused(Refusal::LengthWrong));
    assert_eq!(heard(Role::Reply, &frame(1, 0xC3, &[0, 0, 0x0A, 0])), refused(Refusal::FieldOutside));
    assert_eq!(heard(Role::Reply, &[0xFF, 0x01, 0xFF, 0x00]), refused(Refusal::HeldBroken));
    assert_eq!(heard(Role::Reply, &frame(1, 0xEE, &[5])), Ok(None));
    assert_eq!(heard(Role::Request, &frame(1, 0xC3, &[])), Ok(None));
}

#[test]
fn a_refusal_that_no_line_can_meet_is_refused() {
    for why in (9..=u8::MAX).filter_map(Refusal::of_number) {
        let event = Event::Refused { why, wire: WirePlace(1), kept: BodyPlace(0) };
        assert_eq!(record_heard(5, Role::Reply, FAMILY, event), Err(Refusal::FieldOutside), "{why}");
    }
}

/// The morning of the sample as a log: seven weights and five refusals, none of them a weight of nothing but the one that said so. One of
/// the seven is overloaded and has no value.
#[test]
fn the_sample_as_a_log() {
    let mut reader = Reader::new();
    let mut items = Vec::new();
    let capture = sample("morning.capture");
    let mut events = reader.feed(&capture);
    while let Some(event) = events.next() {
        items.extend(record_heard(9, Role::Reply, FAMILY, event).expect("what was heard"));
    }
    let read: Vec<Record> = records(&log_of(&items)).collect::<Result<_, _>>().expect("a whole log");
    assert_eq!(read, items);
    let weights: Vec<Weight> = read
        .iter()
        .filter_map(|item| match item.noted {
            Noted::Weighed { weight, .. } => Some(weight),
            Noted::Refused(_) => None,
        })
        .collect();
    assert_eq!((read.len(), weights.len()), (12, 7));
    let nothing: Vec<&Weight> = weights.iter().filter(|weight| weight.value() == Ok(0)).collect();
    assert_eq!(nothing, [&MINUS_ZERO]);
    let overloaded: Vec<&Weight> = weights.iter().filter(|weight| weight.value() == Err(Refusal::Overloaded)).collect();
    assert_eq!(overloaded, [&Weight::new(FAMILY, [0x60, 0x09, 0x04, 0x18])]);
    assert_eq!(weights.iter().filter(|weight| weight.value().is_ok()).count(), 6);
}
