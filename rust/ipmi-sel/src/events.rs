//! What ipmi-rs-core does not have: Platform Event Messages, which machines send that do not log their events themselves.
//!
//! [`EventMessage::to_record`] makes a record of one, with what stands [`Beside`] it, and [`EventMessage::from_record`] the message of a system
//! record. Both ways the seven bytes of a message are bytes 9 to 15 of the record, as they came.

use crate::ffi::{self, Answer};
use crate::storage::sel::RecordId;
use crate::storage::Timestamp;

pub use crate::refusal::EventError;

/// The bytes of a message.
pub const MESSAGE: usize = 7;

const RECORD: usize = 16;

/// A message as it is sent over IPMB: event message revision, sensor type, sensor number, direction (bit 7) with event type (bits 6 to 0), and
/// three bytes of event data. Any seven bytes are one.
#[derive(Debug, Clone, Copy, PartialEq, Eq)]
pub struct EventMessage(pub [u8; MESSAGE]);

/// What a record has, and a message has not.
#[derive(Debug, Clone, Copy, PartialEq)]
pub struct Beside {
    pub record_id: RecordId,
    pub timestamp: Timestamp,
    /// Bytes 7 and 8 of the record, with the channel in bits 7 to 4 of the second.
    pub generator: [u8; 2],
}

impl EventMessage {
    /// The message of a system record, of sixteen bytes or more; what follows them is not looked at, and no channel is refused.
    ///
    /// [`EventError::TooShort`] under sixteen bytes; then [`EventError::NoSystemRecord`] for any type but 02h.
    pub fn from_record(record: &[u8]) -> Result<Self, EventError> {
        let mut message = [0; MESSAGE];
        match ffi::record_to_event(record, &mut message) {
            Answer { number: 0, .. } => Ok(Self(message)),
            refused => Err(EventError::told(refused)),
        }
    }

    /// The record of the message. [`Entry::parse`](crate::storage::sel::Entry::parse) accepts it, and [`from_record`](Self::from_record) gives the
    /// message back.
    ///
    /// [`EventError::InvalidChannel`] for channel Ch or Dh.
    pub fn to_record(&self, beside: Beside) -> Result<[u8; RECORD], EventError> {
        record_of(&self.0, beside)
    }
}

/// The record of a message as it came, of any number of bytes: that of [`EventMessage::to_record`] where they are seven.
///
/// [`EventError::TooShort`] under seven bytes, also for the forms of five and six that the standard allows, or [`EventError::TooLong`] over seven;
/// then [`EventError::InvalidChannel`].
pub fn record_of(message: &[u8], beside: Beside) -> Result<[u8; RECORD], EventError> {
    let Beside { record_id, timestamp, generator } = beside;
    let mut record = [0; RECORD];
    match ffi::event_to_record(record_id.value(), timestamp.value(), generator, message, &mut record) {
        Answer { number: 0, .. } => Ok(record),
        refused => Err(EventError::told(refused)),
    }
}
