//! Timestamps and allocation. After src/storage/mod.rs of ipmi-rs-core 0.6.0, changed: the library reads the answer and writes the text.

use std::fmt;
use std::num::NonZeroU16;

use crate::flat::Flat;
use crate::text;

pub mod sdr;
pub mod sel;

/// A time as a log has it. Its text is `Unknown` for 0, else the number, as in the original; for people, `log_text` is the better one.
#[derive(Debug, Clone, Copy, PartialEq)]
pub struct Timestamp(u32);

impl Timestamp {
    pub(crate) fn value(&self) -> u32 {
        self.0
    }

    /// The text that `seldump` prints: `Unknown` for 0; `+` and the number for 1 to 20000000h, which count seconds since the log was initialised; the
    /// number for 20000001h to FFFFFFFEh, seconds since 1970; `none` for FFFFFFFFh, an unspecified time. Not in ipmi-rs-core.
    pub fn log_text(&self) -> LogText {
        LogText(self.0)
    }
}

/// The log's text of a time, to be formatted with `{}`.
#[derive(Debug, Clone, Copy, PartialEq)]
pub struct LogText(u32);

impl fmt::Display for LogText {
    fn fmt(&self, f: &mut fmt::Formatter<'_>) -> fmt::Result {
        text::log_time(f, self.0)
    }
}

impl fmt::Display for Timestamp {
    fn fmt(&self, f: &mut fmt::Formatter<'_>) -> fmt::Result {
        text::time(f, self.0)
    }
}

impl From<u32> for Timestamp {
    fn from(value: u32) -> Self {
        Self(value)
    }
}

/// What an allocation answer says; a number of 0 units, or of 0 bytes a unit, is none.
#[derive(Debug, Clone)]
pub struct AllocInfo {
    pub num_alloc_units: Option<NonZeroU16>,
    pub alloc_unit_size: Option<NonZeroU16>,
    pub num_free_units: u16,
    pub largest_free_blk: u16,
    pub max_record_size: u8,
}

impl AllocInfo {
    /// `None` under 9 bytes.
    pub fn parse(data: &[u8]) -> Option<Self> {
        let mut flat = Flat::decode(b'a', data).ok()?;
        Some(Self {
            num_alloc_units: NonZeroU16::new(flat.u16()),
            alloc_unit_size: NonZeroU16::new(flat.u16()),
            num_free_units: flat.u16(),
            largest_free_blk: flat.u16(),
            max_record_size: flat.byte(),
        })
    }
}
