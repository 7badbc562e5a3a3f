use std::num::NonZeroU16;

use crate::ffi::{self, Answer};

/// The most bytes of a payload.
const MOST: usize = 6;

/// A request to the storage function (0Ah): the number of a command and its payload. Added: in ipmi-rs-core a command becomes a `Message` alone.
#[derive(Clone, Copy, Debug, PartialEq, Eq)]
pub struct Request {
    command: u8,
    bytes: [u8; MOST],
    length: usize,
}

impl Request {
    pub(crate) fn new(command: u8, reservation_id: Option<NonZeroU16>, argument: u16) -> Self {
        let mut bytes = [0; MOST];
        let answer = ffi::request(command, reservation_id.map_or(0, NonZeroU16::get), argument, &mut bytes);
        Self { command, bytes, length: answer.value.min(MOST) }
    }

    /// Of a payload that a function of the library writes to its output; the refusal where there is one.
    pub(crate) fn written(command: u8, by: impl FnOnce(&mut [u8]) -> Answer) -> Result<Self, Answer> {
        let mut bytes = [0; MOST];
        match by(&mut bytes) {
            Answer { number: 0, value } => Ok(Self { command, bytes, length: value.min(MOST) }),
            refused => Err(refused),
        }
    }

    /// The number of the command.
    pub fn command(&self) -> u8 {
        self.command
    }

    /// What follows the command in the request.
    pub fn payload(&self) -> &[u8] {
        &self.bytes[..self.length]
    }
}
