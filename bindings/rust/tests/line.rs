//! The line: the same events however it is cut, both counts, the longest body, and readers that go on.
mod heard;

use heard::{frame, hear, hear_fresh, kept, sample, Heard};
use quay::{BodyPlace, Phase, Reader, Refusal, WirePlace, LONGEST_BODY};

/// The sample, and behind it every refusal of the line, stuffed bytes, and a body that passes 255.
fn mixed_wire() -> Vec<u8> {
    let mut wire = sample("morning.capture");
    wire.extend([0xFF, 0xFF]);
    wire.extend(frame(1, 0xA1, &[0xFF, 0xFE, 0xFF]));
    wire.extend([0xFF, 0x01, 0xFF, 0xFF, 0x01, 0xFF, 0x02, 0xFF, 0xFE, 0x05]);
    wire.extend(frame(0xFD, 0xD2, &[0xFF; 251]));
    wire.extend([0xFF, 0xA0, 0x01, 0x02, 0xFF, 0xFF, 0x07]);
    wire.extend([0x33; 300]);
    wire.extend(frame(2, 0xC3, &[0x45, 0x23, 0x01, 0x11]));
    wire
}

fn hear_cut(wire: &[u8], cuts: &[usize]) -> (Vec<Heard>, Reader) {
    let mut reader = Reader::new();
    let mut heard = Vec::new();
    let mut from = 0;
    for &to in cuts.iter().chain([&wire.len()]) {
        heard.extend(hear(&mut reader, &wire[from..to]));
        from = to;
    }
    (heard, reader)
}

#[test]
fn the_mixed_wire_has_all_kinds_of_events() {
    let heard = hear_fresh(&mixed_wire());
    for why in [Refusal::BodyShort, Refusal::BodyLong, Refusal::HeldBroken, Refusal::CheckWrong] {
        assert!(heard.iter().any(|event| matches!(event, Heard::Refused(met, _, _) if *met == why)), "{why}");
    }
    assert!(heard.iter().any(|event| matches!(event, Heard::Frame(_, body) if body.len() == LONGEST_BODY - 1)));
}

#[test]
fn one_cut_anywhere_changes_nothing() {
    let wire = mixed_wire();
    let (whole, end) = hear_cut(&wire, &[]);
    for cut in 0..=wire.len() {
        let (heard, reader) = hear_cut(&wire, &[cut]);
        assert_eq!(heard, whole, "cut at {cut}");
        assert_eq!(reader.place(), end.place(), "cut at {cut}");
    }
}

#[test]
fn blocks_of_any_size_change_nothing() {
    let wire = mixed_wire();
    let (whole, end) = hear_cut(&wire, &[]);
    for size in 1..300 {
        let cuts: Vec<usize> = (size..wire.len()).step_by(size).collect();
        let (heard, reader) = hear_cut(&wire, &cuts);
        assert_eq!(heard, whole, "blocks of {size}");
        assert_eq!(reader.place(), end.place(), "blocks of {size}");
        assert_eq!(reader.body(), end.body(), "blocks of {size}");
    }
}

#[test]
fn who_stops_early_feeds_the_rest_first() {
    let wire = mixed_wire();
    let mut reader = Reader::new();
    let mut heard = Vec::new();
    let mut rest = wire.clone();
    while !rest.is_empty() {
        let mut events = reader.feed(&rest);
        heard.extend(events.next().map(kept));
        rest = events.rest().to_vec();
    }
    assert_eq!(heard, hear_fresh(&wire));
}

#[test]
fn a_reader_goes_on_from_its_place_and_bytes() {
    let wire = mixed_wire();
    for cut in 0..=wire.len() {
        let (mut heard, first) = hear_cut(&wire[..cut], &[]);
        let mut second = Reader::resume(first.place(), *first.body());
        heard.extend(hear(&mut second, &wire[cut..]));
        assert_eq!(heard, hear_fresh(&wire), "resumed at {cut}");
    }
}

#[test]
fn both_counts_are_told_and_are_not_the_same() {
    // E7 behind three dropped bytes.
    let heard = hear_fresh(&[0x01, 0x02, 0x03, 0xFF, 0x01, 0xFF, 0x02]);
    assert_eq!(heard, [Heard::Refused(Refusal::HeldBroken, WirePlace(7), BodyPlace(1))]);
}

#[test]
fn a_body_of_255_is_read_and_one_byte_more_is_refused() {
    let longest = frame(1, 0, &[0; 252]);
    let heard = hear_fresh(&longest);
    assert!(matches!(heard.as_slice(), [Heard::Frame(WirePlace(258), body)] if body.len() == 255), "{heard:?}");

    let mut longer = vec![0xFF, 0x01];
    longer.extend([0; 255]);
    let heard = hear_fresh(&longer);
    assert_eq!(heard, [Heard::Refused(Refusal::BodyLong, WirePlace(257), BodyPlace(255))]);
}

#[test]
fn stuffed_bytes_come_out_once() {
    // E5: an FF in the serial number.
    let body = heard::only_body(&[0xFF, 0x01, 0xA1, 0xFF, 0xFE, 0x00, 0x00, 0x39, 0xFF, 0xFF]);
    assert_eq!(body, [0x01, 0xA1, 0xFF, 0x00, 0x00, 0x39]);
}

#[test]
fn a_frame_that_is_not_ended_gives_no_event() {
    let mut reader = Reader::new();
    assert_eq!(hear(&mut reader, &[0xFF, 0x01, 0xC3, 0xE3, 0xFF]), []);
    let place = reader.place();
    assert_eq!((place.phase, place.wire, place.kept), (Phase::Held, WirePlace(5), BodyPlace(3)));
    assert_eq!(reader.body()[..3], [0x01, 0xC3, 0xE3]);
}
