//! Reserve SEL. After src/storage/sel/reserve.rs of ipmi-rs-core 0.6.0, changed: the library reads the answer.

use std::num::NonZeroU16;

use crate::connection::NotEnoughData;
use crate::flat::Flat;
use crate::Request;

/// Asks for a reservation, which clearing needs.
pub struct ReserveSel;

impl ReserveSel {
    pub fn request(&self) -> Request {
        Request::new(0x42, None, 0)
    }

    /// A reservation of 0 is refused; [`refusal`](crate::capture::refusal) tells it from a short answer.
    pub fn parse_success_response(data: &[u8]) -> Result<NonZeroU16, NotEnoughData> {
        let mut flat = Flat::decode(b'r', data)?;
        NonZeroU16::new(flat.u16()).ok_or(NotEnoughData)
    }
}
