//! Get SEL Entry. After src/storage/sel/get_entry.rs of ipmi-rs-core 0.6.0, changed: the library reads the answer and writes the request.

use std::num::NonZeroU16;

use super::{Entry, ParseEntryError, RecordId};
use crate::connection::Version;
use crate::ffi;
use crate::flat::Flat;
use crate::nonmax::NonMaxU8;
use crate::{Refusal, Request};

/// Asks for a whole record.
#[derive(Clone, Debug, PartialEq)]
pub struct GetEntry {
    reservation_id: Option<NonZeroU16>,
    record_id: RecordId,
    // Always these, as in the original, where `{:?}` shows them.
    offset: u8,
    bytes_to_read: Option<NonMaxU8>,
}

/// A record, and the id of the one after it.
#[derive(Clone, Debug, PartialEq)]
pub struct EntryInfo {
    pub next_entry: RecordId,
    pub entry: Entry,
}

impl GetEntry {
    pub fn new(reservation_id: Option<NonZeroU16>, record_id: RecordId) -> Self {
        Self { reservation_id, record_id, offset: 0, bytes_to_read: None }
    }

    pub fn request(&self) -> Request {
        Request::new(0x43, self.reservation_id, self.record_id.value())
    }

    pub fn parse_success_response(data: &[u8]) -> Result<EntryInfo, ParseEntryError> {
        let mut flat = Flat::decode(b'g', data)?;
        Ok(EntryInfo::decoded(&mut flat, data))
    }

    /// As [`parse_success_response`](Self::parse_success_response), which is the 2.0 case, by the channels of a version; a record is refused as by
    /// [`Entry::parse_in`]. Not in ipmi-rs-core.
    pub fn parse_success_response_in(version: Version, data: &[u8]) -> Result<EntryInfo, Refusal> {
        let mut flat = Flat::written(|out| ffi::get_entry_of(version.number(), data, out)).map_err(Refusal::told)?;
        Ok(EntryInfo::decoded(&mut flat, data))
    }
}

impl EntryInfo {
    /// The record stands behind the next id.
    // In both of its callers, as `Entry::decoded` is in its own.
    #[inline(always)]
    fn decoded(flat: &mut Flat, data: &[u8]) -> Self {
        Self { next_entry: RecordId::new_raw(flat.u16()), entry: Entry::decoded(flat, data.get(2..).unwrap_or(&[])) }
    }
}
