//! The request for a part of a record. It stands apart from the other kinds, since
//! what sets its two fields (app.rs of the stand-ins) is beside the original.

use std::num::NonZeroU16;

use ipmi_rs_core::app::get_entry::GetEntry;
use ipmi_rs_core::connection::Message;
use nonmax::NonMaxU8;

use crate::kinds::{accepted, any_id, hex};

/// The original has no room to lend, and refuses nothing: FFh is no number of
/// bytes there, and asks for all.
pub fn request([_room, low, high, id_low, id_high, offset, count]: [u8; 7]) -> String {
    let reservation = NonZeroU16::new(u16::from_le_bytes([low, high]));
    let id = any_id(u16::from_le_bytes([id_low, id_high]));
    let message: Message = GetEntry::new(reservation, id).partial(offset, NonMaxU8::new(count)).into();
    accepted(&hex(message.data()))
}
