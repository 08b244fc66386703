//! Frames and messages into lent room.
use crate::addresses::{Address, Role};
use crate::families::Family;
use crate::raw;
use crate::refusal::{judged, Refusal};

/// Writes the frame of an address, a code and data, and answers its length. The check is worked out here. Refusals: 5, 2, 9 in that order.
///
/// A refused write leaves every lent byte as it stood. An accepted one changes only its own length of bytes.
///
/// ```
/// use quay::{write_frame, Address, Refusal};
/// let mut room = [0; 16];
/// let length = write_frame(Address::Short(1), 0xC3, &[], &mut room)?;
/// assert_eq!(room[..length], [0xFF, 0x01, 0xC3, 0xE3, 0xFF, 0xFF]);
/// assert_eq!(write_frame(Address::Short(0xFE), 0xC3, &[], &mut room), Err(Refusal::AddressIllegal));
/// # Ok::<(), Refusal>(())
/// ```
pub fn write_frame(address: Address, code: u8, data: &[u8], room: &mut [u8]) -> Result<usize, Refusal> {
    let (short, serial) = address.crossing();
    length_written(raw::write_frame(short, serial, code, data, room))
}

/// Writes the frame of a message in a role, for a line of a family, and answers its length. Refusals: 5, 6, 7, 8, 2, 9 in that order.
/// A weight is judged by the family, as it is read. The room is left as by [`write_frame`].
///
/// ```
/// use quay::{write_message, Address, Family, Refusal, Role};
/// let mut room = [0; 16];
/// // The net weight asked of the terminal with serial 70501.
/// let length = write_message(Role::Request, Family::Of002, Address::Serial(70_501), 0xC2, &[], &mut room)?;
/// assert_eq!(room[..6], [0xFF, 0x00, 0x65, 0x13, 0x01, 0xC2]);
/// assert_eq!(length, 9);
/// // A reply has four data bytes, and bit 6 is reserved in 002.
/// let mut reply = |data: &[u8]| write_message(Role::Reply, Family::Of002, Address::Short(1), 0xC2, data, &mut room);
/// assert_eq!(reply(&[]), Err(Refusal::LengthWrong));
/// assert_eq!(reply(&[0x05, 0x00, 0x00, 0x40]), Err(Refusal::FieldOutside));
/// # Ok::<(), Refusal>(())
/// ```
pub fn write_message(
    role: Role,
    family: Family,
    address: Address,
    code: u8,
    data: &[u8],
    room: &mut [u8],
) -> Result<usize, Refusal> {
    length_written(raw::write_message(role as u8, family.number(), address.crossing(), code, data, room))
}

pub(crate) fn length_written(written: raw::QuayWritten) -> Result<usize, Refusal> {
    judged(written.refusal)?;
    Ok(written.length)
}
