//! Why an answer is refused, as the library tells it; and by the library's own mapping, and no other, as the original does.
//! Beside it the one refusal of an entry that is to be written, those of an index, those of a record that is read by
//! parts, and those of a Platform Event Message.

use std::error::Error;
use std::fmt;

use crate::connection::NotEnoughData;
use crate::ffi::{self, Answer};
use crate::storage::sel::ParseEntryError;

// The library's numbers: docs/SCOPE.md, "Numbers handed back".
const TOO_SHORT: u32 = 1;
const UNKNOWN_TYPE: u32 = 2;
const INVALID_CHANNEL: u32 = 3;
pub(crate) const NO_ROOM: u32 = 4;
const BAD_CAPTURE: u32 = 5;
const NO_SUCH_RECORD: u32 = 7;
const TOO_LONG: u32 = 8;
const NO_RESERVATION: u32 = 9;
const WRONG_INDEX: u32 = 10;
const NO_BYTES: u32 = 13;
const UNRESERVED: u32 = 14;
const NEXT_DIFFERS: u32 = 15;
const NO_SUCH_PART: u32 = 16;

/// Why an answer is refused, as finely as the library tells it. Not in ipmi-rs-core, which tells `TooShort`, `TooLong` and `NoReservation` all as
/// `NotEnoughData`: its error is `From` this one.
#[derive(Debug, Clone, Copy, PartialEq, Eq)]
pub enum Refusal {
    /// It has fewer bytes than its kind needs, which are so many.
    TooShort {
        needed: usize,
    },
    UnknownRecordType(u8),
    InvalidChannel(u8),
    /// An info answer has more than its 14 bytes.
    TooLong,
    /// The reservation is 0, which is none.
    NoReservation,
}

impl Refusal {
    /// Of a number that the library refuses an answer with.
    pub(crate) fn told(answer: Answer) -> Self {
        match answer.number {
            UNKNOWN_TYPE => Self::UnknownRecordType(answer.value as u8),
            INVALID_CHANNEL => Self::InvalidChannel(answer.value as u8),
            TOO_LONG => Self::TooLong,
            NO_RESERVATION => Self::NoReservation,
            _ => Self::TooShort { needed: answer.value },
        }
    }

    /// The number of the refusal, as the project's docs/SCOPE.md has it.
    pub fn number(&self) -> u32 {
        self.answer().number
    }

    fn answer(&self) -> Answer {
        match *self {
            Self::TooShort { needed } => Answer { number: TOO_SHORT, value: needed },
            Self::UnknownRecordType(value) => Answer { number: UNKNOWN_TYPE, value: value.into() },
            Self::InvalidChannel(value) => Answer { number: INVALID_CHANNEL, value: value.into() },
            Self::TooLong => Answer { number: TOO_LONG, value: 0 },
            Self::NoReservation => Answer { number: NO_RESERVATION, value: 0 },
        }
    }
}

impl fmt::Display for Refusal {
    fn fmt(&self, f: &mut fmt::Formatter<'_>) -> fmt::Result {
        match self {
            Self::TooShort { needed } => write!(f, "too short, {needed} bytes are needed"),
            Self::UnknownRecordType(record_type) => write!(f, "unknown record type {record_type:02X}h"),
            Self::InvalidChannel(channel) => write!(f, "invalid channel {channel:X}h"),
            Self::TooLong => write!(f, "too long"),
            Self::NoReservation => write!(f, "a reservation of 0"),
        }
    }
}

impl Error for Refusal {}

impl From<Answer> for ParseEntryError {
    #[cold]
    fn from(refused: Answer) -> Self {
        match Refusal::told(ffi::ported(refused.number, refused.value)) {
            Refusal::UnknownRecordType(record_type) => Self::UnknownRecordType(record_type),
            Refusal::InvalidChannel(channel) => Self::InvalidChannel(channel),
            _ => Self::NotEnoughData,
        }
    }
}

impl From<Refusal> for ParseEntryError {
    fn from(refusal: Refusal) -> Self {
        refusal.answer().into()
    }
}

/// Of an answer that holds no record, which no other error refuses.
impl From<Answer> for NotEnoughData {
    #[cold]
    fn from(refused: Answer) -> Self {
        let error = ParseEntryError::from(refused);
        debug_assert_eq!(error, ParseEntryError::NotEnoughData);
        NotEnoughData
    }
}

/// No record parses to the entry, with the bytes that it keeps. Not in ipmi-rs-core, which writes no records.
#[derive(Debug, Clone, Copy, PartialEq, Eq)]
pub struct NoSuchRecord;

impl NoSuchRecord {
    /// The number of the refusal, as the project's docs/SCOPE.md has it.
    pub fn number(&self) -> u32 {
        NO_SUCH_RECORD
    }
}

impl fmt::Display for NoSuchRecord {
    fn fmt(&self, f: &mut fmt::Formatter<'_>) -> fmt::Result {
        write!(f, "no such record")
    }
}

impl Error for NoSuchRecord {}

/// Of an entry for which there is room, which no other number refuses.
impl From<Answer> for NoSuchRecord {
    #[cold]
    fn from(refused: Answer) -> Self {
        debug_assert_eq!(refused.number, NO_SUCH_RECORD);
        NoSuchRecord
    }
}

/// Why an index of a capture's slots is refused. Not in ipmi-rs-core, which keeps none.
#[derive(Debug, Clone, Copy, PartialEq, Eq)]
pub enum IndexError {
    /// The slots' bytes are not a multiple of [`SLOT`](crate::capture::SLOT), or over 60,000.
    BadCapture,
    /// It is not the index of these slots.
    WrongIndex,
}

impl IndexError {
    /// Of a number that the library refuses slots or their index with.
    pub(crate) fn told(number: u32) -> Self {
        match number {
            WRONG_INDEX => Self::WrongIndex,
            _ => Self::BadCapture,
        }
    }

    /// The number of the refusal, as the project's docs/SCOPE.md has it.
    pub fn number(&self) -> u32 {
        match self {
            Self::BadCapture => BAD_CAPTURE,
            Self::WrongIndex => WRONG_INDEX,
        }
    }
}

impl fmt::Display for IndexError {
    fn fmt(&self, f: &mut fmt::Formatter<'_>) -> fmt::Result {
        match self {
            Self::BadCapture => write!(f, "bad capture"),
            Self::WrongIndex => write!(f, "wrong index"),
        }
    }
}

impl Error for IndexError {}

/// Why a record is not read by parts: the reads are not listed, a part is not asked for, or an answer is not joined. Not in ipmi-rs-core, which
/// asks for whole records.
#[derive(Debug, Clone, Copy, PartialEq, Eq)]
pub enum PartError {
    /// The answer has fewer bytes than the next id and those of its read, which are so many.
    TooShort { needed: usize },
    /// The answer has more bytes than that.
    TooLong,
    /// At most 0 bytes of a record at once.
    NoBytes,
    /// A part is asked for without a reservation.
    Unreserved,
    /// The answer's next id is not that of the answers before it.
    NextDiffers,
    /// A part of no byte, or one that goes past the sixteenth; or an answer after the last read.
    NoSuchPart,
}

impl PartError {
    /// Of a number that the library refuses the reads, the request or an answer with.
    pub(crate) fn told(answer: Answer) -> Self {
        match answer.number {
            TOO_LONG => Self::TooLong,
            NO_BYTES => Self::NoBytes,
            UNRESERVED => Self::Unreserved,
            NEXT_DIFFERS => Self::NextDiffers,
            NO_SUCH_PART => Self::NoSuchPart,
            _ => Self::TooShort { needed: answer.value },
        }
    }

    /// The number of the refusal, as the project's docs/SCOPE.md has it.
    pub fn number(&self) -> u32 {
        match self {
            Self::TooShort { .. } => TOO_SHORT,
            Self::TooLong => TOO_LONG,
            Self::NoBytes => NO_BYTES,
            Self::Unreserved => UNRESERVED,
            Self::NextDiffers => NEXT_DIFFERS,
            Self::NoSuchPart => NO_SUCH_PART,
        }
    }
}

impl fmt::Display for PartError {
    fn fmt(&self, f: &mut fmt::Formatter<'_>) -> fmt::Result {
        match self {
            Self::TooShort { needed } => write!(f, "too short, {needed} bytes are needed"),
            Self::TooLong => write!(f, "too long"),
            Self::NoBytes => write!(f, "no bytes at once"),
            Self::Unreserved => write!(f, "no reservation"),
            Self::NextDiffers => write!(f, "next ids differ"),
            Self::NoSuchPart => write!(f, "no such part of a record, or an answer after the last"),
        }
    }
}

impl Error for PartError {}

/// Why a Platform Event Message is not made a record, or a record not a message. Not in ipmi-rs-core, which has no such messages.
#[derive(Debug, Clone, Copy, PartialEq, Eq)]
pub enum EventError {
    /// The message has fewer bytes than its seven, or the record fewer than its sixteen: so many are needed.
    TooShort { needed: usize },
    /// The record is no system record, but of this type, which may be that of an OEM record.
    NoSystemRecord(u8),
    /// No channel, but this number stands in the second byte of the generator.
    InvalidChannel(u8),
    /// The message has more than seven bytes.
    TooLong,
}

impl EventError {
    /// Of a number that the library refuses a message or its record with.
    pub(crate) fn told(answer: Answer) -> Self {
        match answer.number {
            UNKNOWN_TYPE => Self::NoSystemRecord(answer.value as u8),
            INVALID_CHANNEL => Self::InvalidChannel(answer.value as u8),
            TOO_LONG => Self::TooLong,
            _ => Self::TooShort { needed: answer.value },
        }
    }

    /// The number of the refusal, as the project's docs/SCOPE.md has it.
    pub fn number(&self) -> u32 {
        match self {
            Self::TooShort { .. } => TOO_SHORT,
            Self::NoSystemRecord(_) => UNKNOWN_TYPE,
            Self::InvalidChannel(_) => INVALID_CHANNEL,
            Self::TooLong => TOO_LONG,
        }
    }
}

impl fmt::Display for EventError {
    fn fmt(&self, f: &mut fmt::Formatter<'_>) -> fmt::Result {
        match self {
            Self::TooShort { needed } => write!(f, "too short, {needed} bytes are needed"),
            Self::NoSystemRecord(record_type) => write!(f, "no system record, but type {record_type:02X}h"),
            Self::InvalidChannel(channel) => write!(f, "invalid channel {channel:X}h"),
            Self::TooLong => write!(f, "too long"),
        }
    }
}

impl Error for EventError {}
