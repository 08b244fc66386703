//! Weights: what is refused is never a number, and what weighs nothing says so itself.
use quay::{Family, Reading, Refusal, Weight};

const MINUS: u8 = 0x80;
const SETTLED: u8 = 0x10;
const OVERLOAD: u8 = 0x08;
const BIT_6: u8 = 0x40;

fn weight_of(bytes: [u8; 4]) -> Weight {
    Weight::new(Family::Of002, bytes)
}

/// What each use of a weight that asks for its value is refused by: value, kilograms, and the difference as gross and as net of another.
fn refusals_of(weight: Weight, other: Weight) -> [Option<Refusal>; 4] {
    [weight.value().err(), weight.kilograms().err(), weight.difference(other).err(), other.difference(weight).err()]
}

#[test]
fn minus_zero_keeps_its_sign_and_weighs_plus_zero() {
    let weight = weight_of([0, 0, 0, MINUS | SETTLED]);
    let reading = weight.reading().expect("a good weight");
    assert!(reading.minus);
    assert_eq!(reading.number, 0);
    assert_eq!(weight.value(), Ok(0));
    let kilograms = weight.kilograms().expect("a good weight");
    assert_eq!(kilograms.to_bits(), 0.0_f64.to_bits());
}

#[test]
fn an_overloaded_bridge_is_read_and_has_no_weight() {
    let bytes = [0x60, 0x09, 0x04, SETTLED | OVERLOAD];
    let weight = weight_of(bytes);
    let reading = weight.reading().expect("an overload is no refusal of the reading");
    assert!(reading.overload && reading.settled && !reading.minus);
    assert_eq!((reading.number, reading.point, weight.bytes), (40_960, 0, bytes));
    let good = weight_of([0x60, 0x09, 0x04, SETTLED]);
    assert_eq!(refusals_of(weight, good), [Some(Refusal::Overloaded); 4]);
    assert_eq!(weight.difference(weight), Err(Refusal::Overloaded), "it does not weigh nothing, less itself");
    assert!(!good.reading().expect("a good weight").overload);
    assert_eq!(refusals_of(good, good), [None; 4]);
    assert_eq!(good.value(), Ok(409_600_000_000));
}

/// Zero and minus zero among them: an overloaded zero is no weight of nothing.
#[test]
fn no_digits_point_sign_or_family_make_an_overload_a_weight() {
    let good = weight_of([0, 0, 0, SETTLED]);
    for family in [Family::Plain, Family::Of000, Family::Of001, Family::Of002] {
        for [w0, w1, w2] in [[0, 0, 0], [0x01, 0, 0], [0x99, 0x99, 0x99]] {
            for con in (0..8).flat_map(|point| [point, MINUS | point, SETTLED | point]) {
                let light = Weight::new(family, [w0, w1, w2, con]);
                assert_eq!(refusals_of(light, good), [None; 4], "{light:?}");
                let overloaded = Weight::new(family, [w0, w1, w2, con | OVERLOAD]);
                let reading = overloaded.reading().expect("an overload is no refusal of the reading");
                assert_eq!(Ok(reading), light.reading().map(|reading| Reading { overload: true, ..reading }));
                assert_eq!(refusals_of(overloaded, good), [Some(Refusal::Overloaded); 4], "{overloaded:?}");
            }
        }
    }
}

/// 8 of either weight, then 24 of either, whichever of the two is the gross one.
#[test]
fn what_is_no_weight_is_refused_ahead_of_an_overload() {
    let good = weight_of([0x51, 0x02, 0x00, SETTLED]);
    let overloaded = weight_of([0x51, 0x02, 0x00, SETTLED | OVERLOAD]);
    for con in [SETTLED, SETTLED | OVERLOAD] {
        for bytes in [[0x5A, 0x02, 0x00, con], [0x51, 0x02, 0xA0, con], [0x51, 0x02, 0x00, con | BIT_6]] {
            let unread = weight_of(bytes);
            assert_eq!(unread.reading(), Err(Refusal::FieldOutside), "{unread:?}");
            for other in [good, overloaded, unread] {
                assert_eq!(refusals_of(unread, other), [Some(Refusal::FieldOutside); 4], "{unread:?} {other:?}");
            }
        }
    }
    // Bit 6 is free in the other families, so that the overload is what is left.
    let event = Weight::new(Family::Of001, [0x51, 0x02, 0x00, SETTLED | OVERLOAD | BIT_6]);
    assert_eq!(refusals_of(event, good), [Some(Refusal::Overloaded); 4]);
}

#[test]
fn bits_6_and_5_are_carried_apart() {
    for family in [Family::Plain, Family::Of000, Family::Of001] {
        let six = Weight::new(family, [1, 0, 0, 0x40]).reading().expect("a good weight");
        let five = Weight::new(family, [1, 0, 0, 0x20]).reading().expect("a good weight");
        assert_eq!((six.bit6, six.bit5), (true, false), "{family:?}");
        assert_eq!((five.bit6, five.bit5), (false, true), "{family:?}");
    }
}

/// Every half of every digit byte, above 9: refused in each use, also where all other digits are zeros.
#[test]
fn an_unread_weight_is_no_number_in_any_use() {
    let good = weight_of([0x40, 0x84, 0x01, SETTLED]);
    for place in 0..3 {
        for bad in (0x0A..=0x0F).chain((0xA0..=0xF0).step_by(0x10)).chain([0xFF]) {
            let mut bytes = [0, 0, 0, SETTLED];
            bytes[place] = bad;
            let unread = weight_of(bytes);
            assert_eq!(unread.reading(), Err(Refusal::FieldOutside), "{bytes:?}");
            assert_eq!(unread.value(), Err(Refusal::FieldOutside), "{bytes:?}");
            assert_eq!(unread.kilograms(), Err(Refusal::FieldOutside), "{bytes:?}");
            assert_eq!(unread.difference(good), Err(Refusal::FieldOutside), "{bytes:?}");
            assert_eq!(good.difference(unread), Err(Refusal::FieldOutside), "{bytes:?}");
            // Least of all does a weight that was not read, less itself, weigh nothing.
            assert_eq!(unread.difference(unread), Err(Refusal::FieldOutside), "{bytes:?}");
        }
    }
}

#[test]
fn each_place_of_the_point_is_exact() {
    let mut tenths = 9_999_990_000_000;
    for point in 0..8 {
        let weight = weight_of([0x99, 0x99, 0x99, point]);
        assert_eq!(weight.value(), Ok(tenths));
        assert_eq!(weight_of([0x99, 0x99, 0x99, MINUS | point]).value(), Ok(-tenths));
        assert_eq!(weight.kilograms(), Ok(tenths as f64 / 10_000_000.0));
        tenths /= 10;
    }
}

#[test]
fn a_difference_has_its_sign() {
    let gross = weight_of([0x05, 0x00, 0x00, MINUS | 1]);
    let net = weight_of([0x51, 0x02, 0x00, 0x01]);
    assert_eq!(gross.difference(net), Ok(-256_000_000));
    assert_eq!(net.difference(gross), Ok(256_000_000));
    assert_eq!(net.difference(net), Ok(0));
}
