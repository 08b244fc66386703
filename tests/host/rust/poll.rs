//! The poll that bindings/rust/README.md prints, as it prints it (printed.rs), with a line for it to hear.
include!("printed.rs");

fn main() {
    let mut sent = Vec::new();
    ask(&mut |bytes| sent.extend_from_slice(bytes)).expect("the request is a message");
    assert_eq!(sent, [0xFF, 0x01, 0xC3, 0xE3, 0xFF, 0xFF]); // E1 of the rules paper

    // E3, cut in two, and a frame whose check is wrong (E6); the weight of E3 with bit 6 set, which 002 refuses; 60 tonnes, overloaded.
    let blocks: [&[u8]; 4] = [
        &[0xFF, 0x01, 0xC3, 0x51, 0x02],
        &[0x00, 0x01, 0xDE, 0xFF, 0xFF, 0xFF, 0x01, 0xC3, 0xE2, 0xFF, 0xFF],
        &[0xFF, 0x01, 0xC3, 0x51, 0x02, 0x00, 0x41, 0x30, 0xFF, 0xFF],
        &[0xFF, 0x01, 0xC3, 0x00, 0x00, 0x06, 0x18, 0xA2, 0xFF, 0xFF],
    ];
    let mut reader = Reader::new();
    let mut log = Vec::new();
    for block in blocks {
        hear(&mut reader, block, 1000, &mut |bytes| log.extend_from_slice(bytes)).expect("every event makes its record");
    }
    // Kind, status and family: a gross weight of 002, a wrong check, a field outside its values, a gross weight with the overload bit.
    let noted: Vec<[u8; 3]> = log.chunks(quay::RECORD_LENGTH).map(|record| [record[8], record[13], record[17]]).collect();
    assert_eq!(noted, [[1, 1, 3], [3, 4, 0], [3, 8, 0], [1, 0x18, 3]]);
}
