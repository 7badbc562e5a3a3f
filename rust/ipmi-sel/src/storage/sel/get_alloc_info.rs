//! Get SEL Allocation Info. After src/storage/sel/get_alloc_info.rs of ipmi-rs-core 0.6.0, changed: the library reads the answer.

use std::ops::{Deref, DerefMut};

use crate::connection::NotEnoughData;
use crate::storage;
use crate::Request;

/// Asks how the log's space is divided.
pub struct GetAllocInfo;

impl GetAllocInfo {
    pub fn request(&self) -> Request {
        Request::new(0x41, None, 0)
    }

    pub fn parse_success_response(data: &[u8]) -> Result<AllocInfo, NotEnoughData> {
        AllocInfo::parse(data).ok_or(NotEnoughData)
    }
}

pub struct AllocInfo {
    inner: storage::AllocInfo,
}

impl AllocInfo {
    /// `None` under 9 bytes; the original panics at 8.
    pub fn parse(data: &[u8]) -> Option<Self> {
        Some(Self { inner: storage::AllocInfo::parse(data)? })
    }
}

impl Deref for AllocInfo {
    type Target = storage::AllocInfo;

    fn deref(&self) -> &Self::Target {
        &self.inner
    }
}

impl DerefMut for AllocInfo {
    fn deref_mut(&mut self) -> &mut Self::Target {
        &mut self.inner
    }
}
