//! Addresses and roles, and how they cross as numbers.

/// Whom a frame is for, or from.
#[derive(Clone, Copy, Debug, PartialEq, Eq, Hash)]
pub enum Address {
    /// One byte, 01 to FD. Any other byte is no address, and writing it is refused.
    Short(u8),
    /// A serial number, 0 to 16,777,215.
    Serial(u32),
}

impl Address {
    /// A short address beside serial 0, or short 0 beside a serial.
    ///
    /// Short(0) must not cross as 0 beside 0, which is the legal serial 0. A short address and a serial at once tell the library of a short
    /// address that nobody has. The library refuses them.
    pub(crate) fn crossing(self) -> (u8, u32) {
        match self {
            Address::Short(0) => (1, 1),
            Address::Short(byte) => (byte, 0),
            Address::Serial(serial) => (0, serial),
        }
    }

    /// The address of a message or a record that was read.
    pub(crate) fn crossed(short: u8, serial: u32) -> Address {
        match short {
            0 => Address::Serial(serial),
            _ => Address::Short(short),
        }
    }
}

/// The role in which a message is read or written.
#[derive(Clone, Copy, Debug, PartialEq, Eq, Hash)]
#[repr(u8)]
pub enum Role {
    /// What the poller asks.
    Request = 0,
    /// What the terminal answers.
    Reply = 1,
}
