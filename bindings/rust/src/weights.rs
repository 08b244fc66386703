//! Weights: four bytes and their family, and what they say.
use crate::families::{Family, Mode};
use crate::raw;
use crate::refusal::{judged, Refusal};

/// The four bytes of a weight, and the family of the terminal that said them.
///
/// It can hold any four bytes. Each use tells whether they are a weight of that family: bit 6 of CON is refused by 8 in family 002. There
/// is no default: no bytes stand for a weight that was not heard.
///
/// An overloaded bridge has no weight. If bit 3 of CON is set, the bytes are still read, and the value, the kilograms and every difference
/// are refused by 24, after 8.
#[derive(Clone, Copy, Debug, PartialEq, Eq, Hash)]
pub struct Weight {
    /// As the wire and the log have them: W0 W1 W2 CON.
    pub bytes: [u8; 4],
    /// By which they are read.
    pub family: Family,
}

/// What a terminal shows. If `overload` is true, its digits are no weight: do not show or use them. Ask [`Weight::value`] or
/// [`Weight::kilograms`], which refuse then.
#[derive(Clone, Copy, Debug, PartialEq, Eq, Hash)]
pub struct Reading {
    /// The six digits, 0 to 999,999. Of an overloaded bridge they stay only so that its four bytes come back.
    pub number: u32,
    /// How many of them stand after the point, 0 to 7.
    pub point: u8,
    /// The sign bit. Minus zero has it too.
    pub minus: bool,
    /// What it means, the family says. False is no answer in plain, nor in 002.
    pub bit6: bool,
    /// What it means, the family says: see [`Reading::mode`]. False is no answer in plain, and in 001 the bit is no net mode.
    pub bit5: bool,
    /// The load has come to rest.
    pub settled: bool,
    /// More lies on the bridge than it can weigh: it has no weight.
    pub overload: bool,
    /// Of the terminal that shows it.
    pub family: Family,
}

impl Reading {
    /// What bit 5 says. None in the plain family, whatever the bit is. 001 has no net mode: what is not [`Mode::Net`] need not be gross.
    ///
    /// ```
    /// use quay::{Family, Mode, Refusal, Weight};
    /// let bytes = [0x05, 0x00, 0x00, 0x31];
    /// assert_eq!(Weight::new(Family::Of002, bytes).reading()?.mode(), Some(Mode::Net));
    /// assert_eq!(Weight::new(Family::Of001, bytes).reading()?.mode(), Some(Mode::Scale1));
    /// assert_eq!(Weight::new(Family::Plain, bytes).reading()?.mode(), None);
    /// # Ok::<(), Refusal>(())
    /// ```
    pub const fn mode(&self) -> Option<Mode> {
        Mode::of(self.family, self.bit5)
    }
}

impl Weight {
    /// The weight of four bytes, W0 W1 W2 CON, that a terminal of a family said.
    pub const fn new(family: Family, bytes: [u8; 4]) -> Weight {
        Weight { bytes, family }
    }

    /// What the terminal shows, or 8. An overload is marked here and is no refusal.
    ///
    /// ```
    /// use quay::{Family, Refusal, Weight};
    /// let reading = Weight::new(Family::Of002, [0x05, 0x00, 0x00, 0x91]).reading()?;
    /// assert_eq!((reading.minus, reading.number, reading.point, reading.settled), (true, 5, 1, true));
    /// assert_eq!(Weight::new(Family::Of002, [0x0A, 0x00, 0x00, 0x00]).reading(), Err(Refusal::FieldOutside));
    /// // Bit 6 is an event in 001, and reserved in 002.
    /// assert!(Weight::new(Family::Of001, [0x05, 0x00, 0x00, 0x51]).reading()?.bit6);
    /// assert_eq!(Weight::new(Family::Of002, [0x05, 0x00, 0x00, 0x51]).reading(), Err(Refusal::FieldOutside));
    /// // Bit 3 is overload: read, and no weight.
    /// assert!(Weight::new(Family::Of002, [0x00, 0x00, 0x06, 0x18]).reading()?.overload);
    /// # Ok::<(), Refusal>(())
    /// ```
    pub fn reading(self) -> Result<Reading, Refusal> {
        let reading = raw::read_weight(self.crossing());
        judged(reading.refusal)?;
        Ok(Reading {
            number: reading.number,
            point: reading.point,
            minus: reading.minus != 0,
            bit6: reading.bit6 != 0,
            bit5: reading.bit5 != 0,
            settled: reading.settled != 0,
            overload: reading.overload != 0,
            family: Family::crossed(reading.family),
        })
    }

    /// The exact value in tenths of a milligram, or 8, and then 24.
    ///
    /// ```
    /// use quay::{Family, Refusal, Weight};
    /// assert_eq!(Weight::new(Family::Of002, [0x51, 0x02, 0x00, 0x01]).value(), Ok(251_000_000));
    /// assert_eq!(Weight::new(Family::Of002, [0x51, 0x02, 0x00, 0x09]).value(), Err(Refusal::Overloaded));
    /// assert_eq!(Weight::new(Family::Of002, [0xFF; 4]).value(), Err(Refusal::FieldOutside));
    /// ```
    pub fn value(self) -> Result<i64, Refusal> {
        tenths(raw::value(self.crossing()))
    }

    /// Gross less net in tenths of a milligram, or 8 of either weight, and then 24 of either. This weight is the gross one. The difference
    /// may be negative. The two may be of different families.
    ///
    /// ```
    /// use quay::{Family, Refusal, Weight};
    /// let gross = Weight::new(Family::Of002, [0x40, 0x84, 0x01, 0x10]);
    /// let net = Weight::new(Family::Of002, [0x80, 0x42, 0x00, 0x10]);
    /// assert_eq!(gross.difference(net), Ok(141_600_000_000)); // 18,440 kg less 4,280 kg
    /// let overloaded = Weight::new(Family::Of002, [0x00, 0x00, 0x06, 0x18]);
    /// assert_eq!(overloaded.difference(net), Err(Refusal::Overloaded));
    /// assert_eq!(overloaded.difference(Weight::new(Family::Of002, [0xFF; 4])), Err(Refusal::FieldOutside));
    /// ```
    pub fn difference(self, net: Weight) -> Result<i64, Refusal> {
        tenths(raw::difference(self.crossing(), net.crossing()))
    }

    /// The weight in kilograms, rounded once, or 8, and then 24.
    ///
    /// ```
    /// use quay::{Family, Refusal, Weight};
    /// assert_eq!(Weight::new(Family::Of002, [0x51, 0x02, 0x00, 0x01]).kilograms(), Ok(25.1));
    /// assert_eq!(Weight::new(Family::Of002, [0x51, 0x02, 0x00, 0x09]).kilograms(), Err(Refusal::Overloaded));
    /// assert_eq!(Weight::new(Family::Of002, [0x00, 0x00, 0xA0, 0x00]).kilograms(), Err(Refusal::FieldOutside));
    /// ```
    pub fn kilograms(self) -> Result<f64, Refusal> {
        let weighed = raw::kilograms(self.crossing());
        judged(weighed.refusal)?;
        Ok(weighed.kilograms)
    }

    fn crossing(self) -> raw::QuayWeight {
        let [w0, w1, w2, con] = self.bytes;
        raw::QuayWeight { w0, w1, w2, con, family: self.family.number() }
    }

    /// A weight that the library said.
    pub(crate) fn crossed(weight: raw::QuayWeight) -> Weight {
        let raw::QuayWeight { w0, w1, w2, con, family } = weight;
        Weight::new(Family::crossed(family), [w0, w1, w2, con])
    }
}

fn tenths(value: raw::QuayValue) -> Result<i64, Refusal> {
    judged(value.refusal)?;
    Ok(value.value)
}
