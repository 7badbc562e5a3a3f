//! What ipmi-rs-core does not have: a record read by parts, from a controller that answers a few bytes of it at once.
//!
//! [`reads`] lists the parts to ask for, [`GetEntryPart`] asks for one of them, and [`Joining`] takes the answers one at a time. Joined, they
//! are the answer to a request for the whole record, which [`GetSelEntry`](crate::storage::sel::GetSelEntry) reads.

use std::num::NonZeroU16;

use crate::ffi::{self, Answer};
use crate::storage::sel::RecordId;
use crate::Request;

pub use crate::refusal::PartError;

/// The most bytes of a list of reads.
const READS: usize = 32;

const RECORD: usize = 16;
const WHOLE: usize = 18;

/// A part of a record: its first byte, from 0, and how many bytes it has.
#[derive(Debug, Clone, Copy, PartialEq, Eq)]
pub struct Part {
    pub offset: u8,
    pub bytes_to_read: u8,
}

/// The reads of a record from a controller that answers at most `m` bytes of it at once: in order they cover its sixteen bytes with no gap and
/// no overlap, each of the smaller of `m` and 16, the last of what is left. No list of reads of 1 to `m` bytes that covers the record is shorter.
///
/// [`PartError::NoBytes`] where `m` is 0.
pub fn reads(m: u8) -> Result<Vec<Part>, PartError> {
    let mut list = [0; READS];
    let answer = ffi::reads(m, &mut list);
    if answer.number != 0 {
        return Err(PartError::told(answer));
    }
    let read = |bytes: &[u8]| Part { offset: bytes[0], bytes_to_read: bytes[1] };
    Ok(list[..answer.value.min(READS)].chunks_exact(2).map(read).collect())
}

/// Asks for a part of a record, by the command that [`GetSelEntry`](crate::storage::sel::GetSelEntry) asks for the whole with.
#[derive(Clone, Debug, PartialEq, Eq)]
pub struct GetEntryPart {
    request: Request,
}

impl GetEntryPart {
    /// [`PartError::Unreserved`] without a reservation, which a part needs; then [`PartError::NoSuchPart`] for no byte, or one past the sixteenth.
    pub fn new(reservation_id: Option<NonZeroU16>, record_id: RecordId, part: Part) -> Result<Self, PartError> {
        let request = Request::written(0x43, |out| {
            ffi::request_part(reservation_id.map_or(0, NonZeroU16::get), record_id.value(), part.offset, part.bytes_to_read, out)
        });
        request.map(|request| Self { request }).map_err(PartError::told)
    }

    pub fn request(&self) -> Request {
        self.request
    }
}

/// A record that is being joined from the answers to its [`reads`].
#[derive(Clone, Debug, PartialEq, Eq)]
pub struct Joining {
    most: u8,
    got: u8,
    next: u16,
    record: [u8; RECORD],
}

impl Joining {
    /// Nothing is there yet. `m` is that of [`reads`]; with 0 every answer is refused.
    pub fn new(m: u8) -> Self {
        Self { most: m, got: 0, next: 0, record: [0; RECORD] }
    }

    /// Takes the answer to the next read, without its completion code: the next id, which must be that of the answers before it, and exactly the
    /// bytes of the read. A refused answer leaves the joining as it was, so that another one can be handed in for the same read. An answer does not
    /// say which read it is the answer to: one that is handed in twice is taken for the next where its length is due.
    ///
    /// In this order: [`PartError::NoBytes`] where `m` is 0, [`PartError::NoSuchPart`] after the last read, [`PartError::TooShort`] or
    /// [`PartError::TooLong`] by its length, and [`PartError::NextDiffers`].
    pub fn take(&mut self, answer: &[u8]) -> Result<(), PartError> {
        let joined = ffi::join(self.most, self.got, self.next, answer, &mut self.record);
        // Those of before where it is refused.
        (self.got, self.next) = (joined.got, joined.next);
        match joined.number {
            0 => Ok(()),
            number => Err(PartError::told(Answer { number, value: joined.value as usize })),
        }
    }

    /// How many bytes of the record are there.
    pub fn got(&self) -> usize {
        self.got.into()
    }

    /// Once all sixteen bytes are there, the answer that they are joined to, as if the whole record had been asked for: the next id and the record.
    pub fn answer(&self) -> Option<[u8; WHOLE]> {
        let mut whole = [0; WHOLE];
        whole[..2].copy_from_slice(&self.next.to_le_bytes());
        whole[2..].copy_from_slice(&self.record);
        (self.got() == RECORD).then_some(whole)
    }
}
