//! read_weight, value, difference, kilograms.
use quay::{Family, Refusal, Weight};

use crate::raw;
use crate::words::{Malformed, Telling, Words};
use crate::Told;

/// What the paper's lowest number stands for across: refused.
const NO_VALUE: i64 = i64::MIN;

pub fn read_weight(words: &mut Words<'_>) -> Result<Told, Malformed> {
    let weight = words.array("WEIGHT")?;
    let reading = raw::read_weight(crossing(weight));
    let marks = [reading.minus, reading.bit6, reading.bit5, reading.settled, reading.overload];
    let raw = tell_reading(reading.refusal, reading.number, reading.point, marks, reading.family);
    let crate_own = own_weight(weight).map(|weight| match weight.reading() {
        Ok(reading) => {
            let marks = [reading.minus, reading.bit6, reading.bit5, reading.settled, reading.overload];
            tell_reading(0, reading.number, reading.point, marks.map(u8::from), family_number(reading.family))
        }
        Err(why) => tell_reading(why.number(), u32::MAX, 0, [255; 5], 255),
    });
    Ok(Told { raw, crate_own })
}

pub fn value(words: &mut Words<'_>) -> Result<Told, Malformed> {
    let weight = words.array("WEIGHT")?;
    let value = raw::value(crossing(weight));
    let crate_own = own_weight(weight).map(|weight| tell_own_value(weight.value()));
    Ok(Told { raw: tell_value(value.refusal, value.value), crate_own })
}

pub fn difference(words: &mut Words<'_>) -> Result<Told, Malformed> {
    let gross = words.array("GROSS")?;
    let net = words.array("NET")?;
    let value = raw::difference(crossing(gross), crossing(net));
    let crate_own = own_weight(gross).zip(own_weight(net)).map(|(gross, net)| tell_own_value(gross.difference(net)));
    Ok(Told { raw: tell_value(value.refusal, value.value), crate_own })
}

pub fn kilograms(words: &mut Words<'_>) -> Result<Told, Malformed> {
    let weight = words.array("WEIGHT")?;
    let weighed = raw::kilograms(crossing(weight));
    let crate_own = own_weight(weight).map(|weight| match weight.kilograms() {
        Ok(kilograms) => tell_kilograms(0, kilograms),
        Err(why) => tell_kilograms(why.number(), f64::NAN),
    });
    Ok(Told { raw: tell_kilograms(weighed.refusal, weighed.kilograms), crate_own })
}

fn crossing([w0, w1, w2, con, family]: [u8; 5]) -> raw::QuayWeight {
    raw::QuayWeight { w0, w1, w2, con, family }
}

/// The weight of these bytes, where the crate's own type can say its family.
fn own_weight([w0, w1, w2, con, family]: [u8; 5]) -> Option<Weight> {
    family_of(family).map(|family| Weight::new(family, [w0, w1, w2, con]))
}

/// The families by their numbers, said here once more than in the crate.
pub fn family_of(number: u8) -> Option<Family> {
    [Family::Plain, Family::Of000, Family::Of001, Family::Of002].get(usize::from(number)).copied()
}

pub fn family_number(family: Family) -> u8 {
    match family {
        Family::Plain => 0,
        Family::Of000 => 1,
        Family::Of001 => 2,
        Family::Of002 => 3,
    }
}

fn tell_reading(refusal: u8, number: u32, point: u8, marks: [u8; 5], family: u8) -> String {
    let told = Telling::default().number(refusal).number(number).number(point);
    told.numbers(&marks.map(u64::from)).number(family).told()
}

fn tell_own_value(own: Result<i64, Refusal>) -> String {
    match own {
        Ok(tenths) => tell_value(0, tenths),
        Err(why) => tell_value(why.number(), NO_VALUE),
    }
}

fn tell_value(refusal: u8, value: i64) -> String {
    Telling::default().number(refusal).number(value).told()
}

fn tell_kilograms(refusal: u8, kilograms: f64) -> String {
    let told = Telling::default().number(refusal);
    if kilograms.is_nan() {
        return told.number("nan").told();
    }
    told.number(format!("{:016x}", kilograms.to_bits())).told()
}
