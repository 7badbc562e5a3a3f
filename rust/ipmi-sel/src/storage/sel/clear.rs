//! Clear SEL. After src/storage/sel/clear.rs of ipmi-rs-core 0.6.0, changed: the library reads the answer and writes the request.

use std::num::NonZeroU16;

use crate::connection::NotEnoughData;
use crate::flat::Flat;
use crate::Request;

#[derive(Debug, Clone, Copy, PartialEq)]
pub enum ClearSelAction {
    InitiateErase,
    GetStatus,
}

#[derive(Debug, Clone, Copy, PartialEq)]
pub enum ErasureProgress {
    InProgress,
    Completed,
}

/// Erases all records, or asks how far that is. Needs a reservation, where the log has any.
pub struct ClearSel {
    reservation_id: Option<NonZeroU16>,
    action: ClearSelAction,
}

impl ClearSel {
    pub fn initiate(reservation_id: Option<NonZeroU16>) -> Self {
        Self { reservation_id, action: ClearSelAction::InitiateErase }
    }

    pub fn get_status(reservation_id: Option<NonZeroU16>) -> Self {
        Self { reservation_id, action: ClearSelAction::GetStatus }
    }

    pub fn request(&self) -> Request {
        let action = match self.action {
            ClearSelAction::InitiateErase => 0xAA,
            ClearSelAction::GetStatus => 0x00,
        };
        Request::new(0x47, self.reservation_id, action)
    }

    pub fn parse_success_response(data: &[u8]) -> Result<ErasureProgress, NotEnoughData> {
        let mut flat = Flat::decode(b'c', data)?;
        Ok(if flat.yes() { ErasureProgress::Completed } else { ErasureProgress::InProgress })
    }
}
