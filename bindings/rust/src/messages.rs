//! Messages: what a body says.
use crate::addresses::{Address, Role};
use crate::families::Family;
use crate::raw;
use crate::refusal::{judged, other_version, Refusal};
use crate::weights::Weight;

/// Which weight.
#[derive(Clone, Copy, Debug, PartialEq, Eq, Hash)]
#[repr(u8)]
pub enum Load {
    /// All that lies on the bridge.
    Gross = 1,
    /// Without the tare.
    Net = 2,
}

impl Load {
    pub(crate) fn of_number(number: u8) -> Option<Load> {
        match number {
            1 => Some(Load::Gross),
            2 => Some(Load::Net),
            _ => None,
        }
    }
}

/// What a message says.
#[derive(Clone, Copy, Debug, PartialEq, Eq, Hash)]
pub enum Says<'a> {
    /// Nothing but its code.
    Nothing,
    /// The terminal's serial number.
    Serial(u32),
    /// The number of the text or the printer that is asked for.
    Number(u8),
    /// A status.
    Status(u8),
    /// A weight. A message that was read has four good bytes. An overloaded bridge says them too: their value is refused by 24.
    Weight {
        /// Gross or net.
        load: Load,
        /// Its four bytes, and the family of the line.
        weight: Weight,
    },
    /// The inputs.
    Inputs {
        /// One bit for each of the 32.
        bits: u32,
        /// How many are on.
        on: u32,
    },
    /// The outputs, one bit for each.
    Outputs(u32),
    /// A text.
    Text {
        /// Its number.
        number: u8,
        /// Its characters. There may be none.
        text: &'a [u8],
    },
    /// An event of the terminal.
    Event {
        /// Its number.
        event: u8,
        /// The six bytes beside it.
        bytes: &'a [u8],
    },
    /// The converter's number, of 40 bits.
    Converter(u64),
    /// The number of an error.
    Error(u8),
}

/// A message that was read.
#[derive(Clone, Copy, Debug, PartialEq, Eq, Hash)]
pub struct Message<'a> {
    /// Whom it is for, or from.
    pub address: Address,
    /// Its operation code.
    pub code: u8,
    /// Its data bytes, as the body has them.
    pub data: &'a [u8],
    /// What it says.
    pub says: Says<'a>,
}

/// Reads a body in a role, of a line of a family. Refusals: 2, 1, 4, 5, 6, 7, 8 in that order.
///
/// ```
/// use quay::{read_message, Address, Family, Load, Refusal, Role, Says, Weight};
/// // Minus 0.5 kg net from address 1.
/// let message = read_message(Role::Reply, Family::Of002, &[0x01, 0xC2, 0x05, 0x00, 0x00, 0x91, 0x32])?;
/// assert_eq!(message.address, Address::Short(1));
/// let weight = Weight::new(Family::Of002, [0x05, 0x00, 0x00, 0x91]);
/// assert_eq!(message.says, Says::Weight { load: Load::Net, weight });
/// // A request of a weight is no reply.
/// assert_eq!(read_message(Role::Reply, Family::Of002, &[0x01, 0xC3, 0xE3]), Err(Refusal::LengthWrong));
/// # Ok::<(), Refusal>(())
/// ```
pub fn read_message(role: Role, family: Family, body: &[u8]) -> Result<Message<'_>, Refusal> {
    let message = raw::read_message(role as u8, family.number(), body);
    judged(message.refusal)?;
    Ok(Message {
        address: Address::crossed(message.short, message.serial),
        code: message.code,
        data: &body[message.from..message.to],
        says: said(message.what, body),
    })
}

// The numbers below are as wide as their fields on the wire: serial three bytes, bits four, the converter five, the others one.
fn said(what: raw::QuayWhat, body: &[u8]) -> Says<'_> {
    let number = what.number;
    match what.says {
        0 => Says::Nothing,
        1 => Says::Serial(number as u32),
        2 => Says::Number(number as u8),
        3 => Says::Status(number as u8),
        4 => weighed(what),
        5 => Says::Inputs { bits: number as u32, on: what.on },
        6 => Says::Outputs(number as u32),
        7 => Says::Text { number: number as u8, text: &body[what.from..what.to] },
        8 => Says::Event { event: number as u8, bytes: &body[what.from..what.to] },
        9 => Says::Converter(number),
        10 => Says::Error(number as u8),
        says => other_version("says", says),
    }
}

fn weighed<'a>(what: raw::QuayWhat) -> Says<'a> {
    match Load::of_number(what.load) {
        Some(load) => Says::Weight { load, weight: Weight::crossed(what.weight) },
        None => other_version("load", what.load),
    }
}
