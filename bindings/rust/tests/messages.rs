//! Messages read and written, the room they are lent, and each refusal by its number.
mod heard;

use heard::{frame, hear_fresh, only_body, Heard};
use quay::{read_message, read_record, step, write_frame, write_message, Address, Family, Load, Refusal, Role, Says, Weight};

const FAMILY: Family = Family::Of002;

fn reply(code: u8, data: &[u8]) -> Vec<u8> {
    only_body(&frame(2, code, data))
}

fn met_on_the_line(wire: &[u8]) -> Option<Refusal> {
    match hear_fresh(wire).as_slice() {
        [Heard::Refused(why, _, _)] => Some(*why),
        _ => None,
    }
}

#[test]
fn each_refusal_has_the_papers_number() {
    let mut room = [0; 300];
    let met = [
        met_on_the_line(&[0xFF, 0x01, 0xFF, 0xFF]),
        write_frame(Address::Short(1), 0xD2, &[0; 253], &mut room).err(),
        met_on_the_line(&[0xFF, 0x01, 0xFF, 0x02]),
        met_on_the_line(&[0xFF, 0x01, 0xC3, 0xE2, 0xFF, 0xFF]),
        write_frame(Address::Short(0xFE), 0xC3, &[], &mut room).err(),
        read_message(Role::Request, FAMILY, &reply(0xEE, &[1])).err(),
        read_message(Role::Reply, FAMILY, &reply(0xC3, &[])).err(),
        read_message(Role::Reply, FAMILY, &reply(0xC3, &[0x0A, 0, 0, 0])).err(),
        write_frame(Address::Short(1), 0xC3, &[], &mut room[..5]).err(),
        step(&[0; 5], 0).err(),
        read_record(&[0; 20]).err(),
        Weight::new(FAMILY, [0, 0, 0x06, 0x18]).value().err(),
    ];
    let numbers = met.map(|why| why.map(Refusal::number));
    assert_eq!(numbers, [1, 2, 3, 4, 5, 6, 7, 8, 9, 10, 11, 24].map(Some));
}

#[test]
fn a_refusal_says_its_number_and_goes_back_to_itself() {
    for number in (1..=11).chain(20..=26).chain([31]) {
        let refusal = Refusal::of_number(number).expect("a refusal of the list");
        assert_eq!(refusal.number(), number);
        assert!(refusal.to_string().starts_with(&format!("refused {number}: ")));
    }
    assert!((12..=19).chain(27..=30).chain(32..=255).chain([0]).all(|number| Refusal::of_number(number).is_none()));
}

#[test]
fn what_each_reply_says() {
    let said = |code: u8, data: &[u8], wanted: Says<'_>| {
        let body = reply(code, data);
        let message = read_message(Role::Reply, FAMILY, &body).expect("a good message");
        assert_eq!((message.address, message.code, message.data), (Address::Short(2), code, data));
        assert_eq!(message.says, wanted);
    };
    said(0xC0, &[], Says::Nothing);
    said(0xA1, &[0x65, 0x13, 0x01], Says::Serial(70_501));
    said(0xBF, &[0x41], Says::Status(0x41));
    let weight = Weight::new(FAMILY, [0x05, 0, 0, 0x91]);
    said(0xC2, &weight.bytes, Says::Weight { load: Load::Net, weight });
    said(0xC3, &weight.bytes, Says::Weight { load: Load::Gross, weight });
    said(0xC4, &[0x0F, 0, 0, 0x80], Says::Inputs { bits: 0x8000_000F, on: 5 });
    said(0xC5, &[1, 2, 3, 0xFF], Says::Outputs(0xFF03_0201));
    said(0xC6, &[0x1F, 2, b'O', b'K'], Says::Text { number: 0x1F, text: b"OK" });
    said(0xC6, &[0x20, 0], Says::Text { number: 0x20, text: b"" });
    said(0xC7, &[5, 1, 2, 3, 4, 5, 6], Says::Event { event: 5, bytes: &[1, 2, 3, 4, 5, 6] });
    said(0xCC, &[1, 0, 0, 0, 0xFF], Says::Converter(0xFF_0000_0001));
    said(0xEE, &[5], Says::Error(5));
}

/// 60 tonnes with the overload bit: the message is good, and its four bytes come back; only their value is refused.
#[test]
fn an_overloaded_weight_is_said_and_written_as_any_other() {
    let weight = Weight::new(FAMILY, [0, 0, 0x06, 0x18]);
    for (code, load) in [(0xC2, Load::Net), (0xC3, Load::Gross)] {
        let body = reply(code, &weight.bytes);
        let message = read_message(Role::Reply, FAMILY, &body).expect("a good message");
        assert_eq!((message.data, message.says), (&weight.bytes[..], Says::Weight { load, weight }));
        let mut room = [0; 16];
        let length = write_message(Role::Reply, FAMILY, Address::Short(2), code, &weight.bytes, &mut room).expect("room enough");
        assert_eq!(only_body(&room[..length]), body);
    }
    assert_eq!(weight.kilograms(), Err(Refusal::Overloaded));
}

#[test]
fn what_requests_say() {
    let asked = reply(0xC6, &[0x21]);
    let message = read_message(Role::Request, FAMILY, &asked).expect("a good request");
    assert_eq!(message.says, Says::Number(0x21));
    // In the other role it is a text without its count.
    assert_eq!(read_message(Role::Reply, FAMILY, &asked), Err(Refusal::LengthWrong));
}

#[test]
fn a_message_written_is_read_back_with_its_address() {
    let short = [0x01, 0x9F, 0xA0, 0xA4, 0xF0, 0xFD].map(Address::Short);
    for address in short.into_iter().chain([Address::Serial(0), Address::Serial(0xFF_FFFF)]) {
        let mut room = [0; 64];
        let data = [0x51, 0x02, 0x00, 0x01];
        let length = write_message(Role::Reply, FAMILY, address, 0xC3, &data, &mut room).expect("room enough");
        let body = only_body(&room[..length]);
        let message = read_message(Role::Reply, FAMILY, &body).expect("what was written");
        assert_eq!((message.address, message.data), (address, &data[..]));
    }
}

/// Short(0) is not the serial 0, and must not be written as if it were.
#[test]
fn an_address_that_nobody_has_is_refused() {
    let mut room = [0x55; 64];
    for address in [Address::Short(0), Address::Short(0xFE), Address::Short(0xFF), Address::Serial(0x100_0000)] {
        assert_eq!(write_frame(address, 0xC3, &[], &mut room), Err(Refusal::AddressIllegal), "{address:?}");
        assert_eq!(write_message(Role::Request, FAMILY, address, 0xC3, &[], &mut room), Err(Refusal::AddressIllegal));
    }
    assert_eq!(room, [0x55; 64]);
}

#[test]
fn lent_room_is_left_alone_but_for_what_is_written() {
    let needed = 6;
    for length in 0..10 {
        let mut room = vec![0x55; length];
        let written = write_message(Role::Request, FAMILY, Address::Short(1), 0xC3, &[], &mut room);
        if length < needed {
            assert_eq!(written, Err(Refusal::RoomShort));
            assert_eq!(room, vec![0x55; length]);
            continue;
        }
        assert_eq!(written, Ok(needed));
        assert_eq!(room[..needed], [0xFF, 0x01, 0xC3, 0xE3, 0xFF, 0xFF]);
        assert_eq!(room[needed..], vec![0x55; length - needed]);
    }
}
