//! The listing: the sample's, in blocks of any size, and lines into lent room.
mod heard;

use heard::{frame, sample};
use quay::{list_event, list_total, Entry, Event, Family, Listed, Reader, Refusal, Total, WirePlace, LONGEST_LINE};

const FAMILY: Family = Family::Of002;

fn listing_of(family: Family, capture: &[u8], size: usize) -> Vec<u8> {
    let mut reader = Reader::new();
    let mut total = Total::default();
    let mut listing = Vec::new();
    let mut room = [0; LONGEST_LINE];
    for block in capture.chunks(size) {
        let mut events = reader.feed(block);
        while let Some(event) = events.next() {
            let listed = list_event(total.events + 1, family, event, &mut room).expect("room for any line");
            total.count(listed.entry);
            listing.extend_from_slice(&room[..listed.length]);
        }
    }
    let length = list_total(total, &mut room).expect("room for any line");
    listing.extend_from_slice(&room[..length]);
    listing
}

#[test]
fn each_sample_lists_as_it_should_in_blocks_of_any_size() {
    for (name, family) in [("morning", Family::Of002), ("older", Family::Of000), ("platforms", Family::Of001)] {
        let capture = sample(&format!("{name}.capture"));
        let wanted = String::from_utf8(sample(&format!("{name}.listing"))).expect("a listing is text");
        for size in 1..=capture.len() {
            let listing = String::from_utf8(listing_of(family, &capture, size)).expect("a listing is text");
            assert_eq!(listing, wanted, "{name} in blocks of {size}");
        }
    }
}

#[test]
fn the_papers_example_lists_exactly_so() {
    let capture = [
        &[0xFF, 0x01, 0xC3, 0x51, 0x02, 0x00, 0x01, 0xDE, 0xFF, 0xFF][..],
        &[0xFF, 0x01, 0xC2, 0x05, 0x00, 0x00, 0x91, 0x32, 0xFF, 0xFF],
        &[0xFF, 0x01, 0xC3, 0xE2, 0xFF, 0xFF],
    ]
    .concat();
    let wanted =
        "1 weight gross 1 + 000251 1 0 0 gross\n2 weight net 1 - 000005 1 1 0 gross\n3 refused 4\ntotal 3 weights 2 refused 1\n";
    assert_eq!(String::from_utf8(listing_of(FAMILY, &capture, 7)).as_deref(), Ok(wanted));
}

/// Six hyphens for the digits, also for those of zero; everything else of the line, and the count of weights, as for any other weight.
#[test]
fn an_overloaded_weight_lists_hyphens_and_counts_as_a_weight() {
    let capture = [
        frame(1, 0xC3, &[0x00, 0x00, 0x06, 0x18]),
        frame(1, 0xC2, &[0x00, 0x00, 0x00, 0xA8]),
        frame(1, 0xC3, &[0x99, 0x99, 0x99, 0x2F]),
        frame(1, 0xC3, &[0x00, 0x00, 0x06, 0x10]),
    ]
    .concat();
    let wanted = |gross: &str, net: &str| {
        format!(
            "1 weight gross 1 + ------ 0 1 1{gross}\n2 weight net 1 - ------ 0 0 1{net}\n3 weight gross 1 + ------ 7 0 1{net}\n\
             4 weight gross 1 + 060000 0 1 0{gross}\ntotal 4 weights 4 refused 0\n"
        )
    };
    for (family, gross, net) in [
        (Family::Plain, "", ""),
        (Family::Of000, " gross", " net"),
        (Family::Of001, " scale0", " scale1"),
        (Family::Of002, " gross", " net"),
    ] {
        assert_eq!(String::from_utf8(listing_of(family, &capture, 9)), Ok(wanted(gross, net)), "{family:?}");
    }
}

#[test]
fn silence_lists_as_a_total_of_nothing() {
    assert_eq!(listing_of(FAMILY, &[], 1), b"total 0 weights 0 refused 0\n");
}

#[test]
fn a_line_without_room_is_refused_and_leaves_it_alone() {
    let wire = frame(1, 0xEE, &[5]);
    let body = heard::only_body(&wire);
    let event = Event::Frame { wire: WirePlace(7), body: &body };
    let line = b"18446744073709551615 message 1 EE\n";
    let mut short = vec![0x55; line.len() - 1];
    assert_eq!(list_event(u64::MAX, FAMILY, event, &mut short), Err(Refusal::RoomShort));
    assert_eq!(short, vec![0x55; line.len() - 1]);

    let mut room = vec![0x55; line.len() + 1];
    let listed = list_event(u64::MAX, FAMILY, event, &mut room);
    assert_eq!(listed, Ok(Listed { length: line.len(), entry: Entry::Message }));
    assert_eq!(room, [&line[..], &[0x55]].concat());
}

#[test]
fn the_longest_line_has_room() {
    let most = Total { events: u64::MAX, weights: u64::MAX, refused: u64::MAX };
    let mut room = [0x55; LONGEST_LINE];
    assert_eq!(list_total(most, &mut room), Ok(LONGEST_LINE));
    assert_eq!(list_total(most, &mut room[1..]), Err(Refusal::RoomShort));
}

#[test]
fn a_message_that_is_refused_is_counted_as_refused() {
    let body = heard::only_body(&frame(1, 0xC3, &[0, 0, 0xA0, 0]));
    let mut room = [0; LONGEST_LINE];
    let listed = list_event(4, FAMILY, Event::Frame { wire: WirePlace(10), body: &body }, &mut room).expect("room enough");
    assert_eq!(&room[..listed.length], b"4 refused 8\n");
    let mut total = Total::default();
    total.count(listed.entry);
    assert_eq!(total, Total { events: 1, weights: 0, refused: 1 });
}
