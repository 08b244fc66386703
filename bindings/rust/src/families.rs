//! The families of terminals, and how they cross as numbers.
use crate::refusal::other_version;

/// The family of a line's terminals: the document that describes them. It says what bits 6 and 5 of a weight's status byte mean.
/// The caller says it of each line. There is no default.
#[derive(Clone, Copy, Debug, PartialEq, Eq, Hash)]
#[repr(u8)]
pub enum Family {
    /// No terminal's: that of a record from before there were families. Neither bit has a meaning, and neither is judged.
    Plain = 0,
    /// Document 000. Bit 6: a key code was entered. Bit 5: net mode.
    Of000 = 1,
    /// Document 001. Bit 6: an event. Bit 5: the current scale number.
    Of001 = 2,
    /// Document 002. Bit 6 is reserved and must be 0: a weight that has it set is refused by 8. Bit 5: net mode.
    Of002 = 3,
}

impl Family {
    /// Its number, as byte 17 of a record has it.
    ///
    /// ```
    /// assert_eq!(quay::Family::Of002.number(), 3);
    /// ```
    pub const fn number(self) -> u8 {
        self as u8
    }

    /// The family with this number, if there is one. A number that is no family's never stands for plain.
    ///
    /// ```
    /// use quay::Family;
    /// assert_eq!(Family::of_number(1), Some(Family::Of000));
    /// assert_eq!(Family::of_number(4), None);
    /// ```
    pub const fn of_number(number: u8) -> Option<Family> {
        match number {
            0 => Some(Family::Plain),
            1 => Some(Family::Of000),
            2 => Some(Family::Of001),
            3 => Some(Family::Of002),
            _ => None,
        }
    }

    /// The family that the library tells beside a weight that was read.
    pub(crate) fn crossed(number: u8) -> Family {
        match Family::of_number(number) {
            Some(family) => family,
            None => other_version("family", number),
        }
    }
}

/// What bit 5 says in a family that gives it a meaning: the terminal's mode, or the platform.
/// It is not the weight that was asked for, and may differ from it.
#[derive(Clone, Copy, Debug, PartialEq, Eq, Hash)]
pub enum Mode {
    /// Families 000 and 002, bit 5 clear.
    Gross,
    /// Families 000 and 002, bit 5 set.
    Net,
    /// Family 001, bit 5 clear.
    Scale0,
    /// Family 001, bit 5 set.
    Scale1,
}

impl Mode {
    /// The listing's word for it.
    ///
    /// ```
    /// assert_eq!(quay::Mode::Scale1.word(), "scale1");
    /// ```
    pub const fn word(self) -> &'static str {
        match self {
            Mode::Gross => "gross",
            Mode::Net => "net",
            Mode::Scale0 => "scale0",
            Mode::Scale1 => "scale1",
        }
    }

    pub(crate) const fn of(family: Family, bit5: bool) -> Option<Mode> {
        match (family, bit5) {
            (Family::Plain, _) => None,
            (Family::Of000 | Family::Of002, false) => Some(Mode::Gross),
            (Family::Of000 | Family::Of002, true) => Some(Mode::Net),
            (Family::Of001, false) => Some(Mode::Scale0),
            (Family::Of001, true) => Some(Mode::Scale1),
        }
    }
}
