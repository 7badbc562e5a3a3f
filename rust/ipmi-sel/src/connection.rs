//! Channels and logical units. After src/connection/mod.rs of ipmi-rs-core 0.6.0, changed: the library decides which numbers are valid.

use std::fmt;
use std::num::NonZeroU8;

use crate::ffi;

#[cfg(feature = "ipmi-rs-core")]
pub use ipmi_rs_core::connection::{
    Address, CompletionErrorCode, IpmiCommand, IpmiConnection, Message, NetFn, NotEnoughData, Request, RequestTargetAddress, Response,
};

/// An answer is too short, or not of its one length, or has a reservation of 0: [`refusal`](crate::capture::refusal) tells which.
#[cfg(not(feature = "ipmi-rs-core"))]
#[derive(Debug, Clone, Copy, PartialEq)]
pub struct NotEnoughData;

// The numbers that Get Device ID gives the versions, and that the library takes.
const IPMI_1_5: u8 = 0x51;
const IPMI_2_0: u8 = 0x02;

/// The version of IPMI that a server follows, and with it the channels that a record may name: 1.5 reserves 8h to Dh, and 2.0 Ch and Dh alone.
/// Not in ipmi-rs-core, which goes by 2.0.
#[derive(Debug, Clone, Copy, PartialEq, Eq)]
pub enum Version {
    V1_5,
    V2_0,
}

impl Version {
    /// Of the IPMI version byte of the server's Get Device ID answer: 51h or 02h, and `None` for any other. Never of that of Get SEL Info, which is
    /// 51h on servers of 2.0 too.
    pub fn from_device_id(byte: u8) -> Option<Self> {
        match byte {
            IPMI_1_5 => Some(Self::V1_5),
            IPMI_2_0 => Some(Self::V2_0),
            _ => None,
        }
    }

    /// The number that the library takes; it refuses neither.
    pub(crate) fn number(self) -> u8 {
        match self {
            Self::V1_5 => IPMI_1_5,
            Self::V2_0 => IPMI_2_0,
        }
    }
}

/// The number of a numbered channel, 1h to Bh.
#[derive(Copy, Clone, Debug, PartialEq)]
pub struct ChannelNumber(NonZeroU8);

impl ChannelNumber {
    /// `None` over Bh.
    pub fn new(value: NonZeroU8) -> Option<Self> {
        match Channel::new(value.get()) {
            Some(Channel::Numbered(number)) => Some(number),
            _ => None,
        }
    }

    pub fn value(&self) -> NonZeroU8 {
        self.0
    }
}

/// The channel on which a module or sensor is present.
#[derive(Copy, Clone, Debug, PartialEq)]
pub enum Channel {
    Primary,
    Numbered(ChannelNumber),
    System,
    Current,
}

impl Channel {
    /// `None` for Ch and Dh, which are reserved, and over Fh.
    pub fn new(value: u8) -> Option<Self> {
        let answer = ffi::channel(value);
        (answer.number == 0).then(|| Self::decoded(answer.value as u8))
    }

    /// Of a number that the library accepted.
    pub(crate) fn decoded(number: u8) -> Self {
        match NonZeroU8::new(number) {
            None => Self::Primary,
            Some(number) => match number.get() {
                0xE => Self::Current,
                0xF => Self::System,
                _ => Self::Numbered(ChannelNumber(number)),
            },
        }
    }

    pub fn value(&self) -> u8 {
        match self {
            Self::Primary => 0x0,
            Self::Numbered(number) => number.value().get(),
            Self::Current => 0xE,
            Self::System => 0xF,
        }
    }
}

impl fmt::Display for Channel {
    fn fmt(&self, f: &mut fmt::Formatter<'_>) -> fmt::Result {
        match self {
            Self::Primary => write!(f, "Primary channel"),
            Self::Numbered(number) => write!(f, "Channel 0x{:01X}", number.value()),
            Self::Current => write!(f, "Current channel"),
            Self::System => write!(f, "System channel"),
        }
    }
}

/// The logical unit of a module or sensor.
#[derive(Clone, Copy, Debug, PartialEq)]
pub enum LogicalUnit {
    Zero,
    One,
    Two,
    Three,
}

impl LogicalUnit {
    /// The unit that the two lowest bits name; the others do not count.
    pub fn from_low_bits(value: u8) -> Self {
        Self::decoded(ffi::unit(value & 0b11).value as u8)
    }

    /// Of a number that the library accepted.
    pub(crate) fn decoded(number: u8) -> Self {
        match number {
            0 => Self::Zero,
            1 => Self::One,
            2 => Self::Two,
            _ => Self::Three,
        }
    }

    pub fn value(&self) -> u8 {
        match self {
            Self::Zero => 0,
            Self::One => 1,
            Self::Two => 2,
            Self::Three => 3,
        }
    }
}

impl TryFrom<u8> for LogicalUnit {
    type Error = ();

    fn try_from(value: u8) -> Result<Self, Self::Error> {
        let answer = ffi::unit(value);
        if answer.number == 0 {
            Ok(Self::decoded(answer.value as u8))
        } else {
            Err(())
        }
    }
}

impl From<LogicalUnit> for u8 {
    fn from(value: LogicalUnit) -> Self {
        value.value()
    }
}
