//! The numbered refusals of the rules paper, 1 to 11, and of the requests behind it, from 20 on.
use core::error::Error;
use core::fmt;

/// Why something was refused: one case for each number of the list.
#[derive(Clone, Copy, Debug, PartialEq, Eq, Hash, PartialOrd, Ord)]
#[repr(u8)]
pub enum Refusal {
    /// 1: a body ended with under 3 bytes, or its first byte is 00 and it has under 6.
    BodyShort = 1,
    /// 2: a 256th body byte; in writing, a body that would pass 255.
    BodyLong = 2,
    /// 3: held, then neither FE nor FF.
    HeldBroken = 3,
    /// 4: the check is not 0.
    CheckWrong = 4,
    /// 5: a short address outside 01 to FD, or a serial above 16,777,215. A line heard from its start never gives it.
    AddressIllegal = 5,
    /// 6: the code is not in the table for that role.
    CodeUnknown = 6,
    /// 7: the data length is wrong for the code.
    LengthWrong = 7,
    /// 8: a field outside its values, as bit 6 of a weight of family 002.
    FieldOutside = 8,
    /// 9: the lent room is shorter than needed.
    RoomShort = 9,
    /// 10: 1 to 19 bytes of a log are left over.
    LogLeftOver = 10,
    /// 11: a log record breaks a rule.
    RecordBroken = 11,
    /// 20: a parcel scale's message does not start with F8 55 CE, or has under 3 bytes. Nothing of this crate answers 20, 21 or 22 yet.
    HeaderWrong = 20,
    /// 21: fewer bytes than the length and the check of such a message need.
    BytesMissing = 21,
    /// 22: the check of such a message is wrong.
    ParcelCheckWrong = 22,
    /// 23: a count of the weekday and hour table would pass 65,535. Nothing of this crate answers 23 or 31 yet.
    CountFull = 23,
    /// 24: a weight is marked overload, so that it has no value. [`Weight`](crate::Weight) answers it for its value, kilograms and
    /// difference, after 8. No line meets it.
    Overloaded = 24,
    /// 25: a body that is empty or over 31 bytes, in which no bad bit is looked for. Nothing of this crate answers 25 or 26 yet.
    LengthOutside = 25,
    /// 26: a body of 1 to 31 bytes whose check is right already, so no bad bit is looked for.
    CheckRight = 26,
    /// 31: a lent cell of the weekday and hour table has a sum that is, sign aside, beyond its count times 9,999,990,000,000.
    SumBeyond = 31,
}

const IN_ORDER: [Refusal; 19] = [
    Refusal::BodyShort,
    Refusal::BodyLong,
    Refusal::HeldBroken,
    Refusal::CheckWrong,
    Refusal::AddressIllegal,
    Refusal::CodeUnknown,
    Refusal::LengthWrong,
    Refusal::FieldOutside,
    Refusal::RoomShort,
    Refusal::LogLeftOver,
    Refusal::RecordBroken,
    Refusal::HeaderWrong,
    Refusal::BytesMissing,
    Refusal::ParcelCheckWrong,
    Refusal::CountFull,
    Refusal::Overloaded,
    Refusal::LengthOutside,
    Refusal::CheckRight,
    Refusal::SumBeyond,
];

impl Refusal {
    /// The paper's number.
    ///
    /// ```
    /// assert_eq!(quay::Refusal::CheckWrong.number(), 4);
    /// ```
    pub const fn number(self) -> u8 {
        self as u8
    }

    /// The refusal with this number, if there is one.
    ///
    /// ```
    /// use quay::Refusal;
    /// assert_eq!(Refusal::of_number(4), Some(Refusal::CheckWrong));
    /// assert_eq!(Refusal::of_number(0), None);
    /// assert_eq!(Refusal::of_number(12), None);
    /// ```
    pub fn of_number(number: u8) -> Option<Refusal> {
        IN_ORDER.into_iter().find(|refusal| refusal.number() == number)
    }

    fn words(self) -> &'static str {
        match self {
            Refusal::BodyShort => "the body is too short",
            Refusal::BodyLong => "the body passes 255 bytes",
            Refusal::HeldBroken => "an FF inside a body is followed by neither FE nor FF",
            Refusal::CheckWrong => "the check is wrong",
            Refusal::AddressIllegal => "the address is outside its range",
            Refusal::CodeUnknown => "the code is not in the table for that role",
            Refusal::LengthWrong => "the data length is wrong for the code",
            Refusal::FieldOutside => "a field is outside its values",
            Refusal::RoomShort => "the lent room is shorter than needed",
            Refusal::LogLeftOver => "bytes of the log are left over",
            Refusal::RecordBroken => "a log record breaks a rule",
            Refusal::HeaderWrong => "the header of the parcel message is wrong",
            Refusal::BytesMissing => "bytes of the parcel message are missing",
            Refusal::ParcelCheckWrong => "the check of the parcel message is wrong",
            Refusal::CountFull => "a count of the weekday and hour table would pass 65,535",
            Refusal::Overloaded => "the bridge is overloaded and has no weight",
            Refusal::LengthOutside => "the body is empty or over 31 bytes, so no bad bit is looked for",
            Refusal::CheckRight => "the check is right already, so no bad bit is looked for",
            Refusal::SumBeyond => "a cell of the weekday and hour table has a sum beyond what its count of weights allows",
        }
    }
}

impl fmt::Display for Refusal {
    fn fmt(&self, out: &mut fmt::Formatter<'_>) -> fmt::Result {
        write!(out, "refused {}: {}", self.number(), self.words())
    }
}

impl Error for Refusal {}

/// What the field `refusal` of an answer says. 0 is no refusal.
pub(crate) fn judged(number: u8) -> Result<(), Refusal> {
    if number == 0 {
        return Ok(());
    }
    match Refusal::of_number(number) {
        Some(why) => Err(why),
        None => other_version("refusal", number),
    }
}

/// The proved library never answers such a number. An archive that does so is a later one. To go on would be to guess at a weight.
#[cold]
pub(crate) fn other_version(field: &str, number: u8) -> ! {
    panic!("libquay.a answers {field} {number}, which this crate does not know: they are not of one version")
}
