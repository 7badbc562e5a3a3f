//! What a system entry keeps of its record beside the fields. Not in ipmi-rs-core.

use crate::ffi;

const KEPT: usize = 5;

/// Bytes 7 and 8 of a system record, its generator, and 13 to 15, its event data, as they came, with the bits that no
/// field holds. Any two are equal, so that `==` of two entries compares the fields alone, as the original's does.
#[derive(Debug, Clone, Copy, Default)]
pub struct Kept(Option<[u8; KEPT]>);

impl Kept {
    /// Of an entry that is made from fields. The library makes the bytes: 0 in each bit that no field holds, and kind 00
    /// and value FFh for unspecified event data.
    pub const FROM_FIELDS: Self = Self(None);

    /// Bytes 7, 8, 13, 14 and 15. An entry whose fields do not follow from them has no record.
    pub fn new(bytes: [u8; KEPT]) -> Self {
        Self(Some(bytes))
    }

    /// `None` where the entry is made from fields.
    pub fn bytes(&self) -> Option<[u8; KEPT]> {
        self.0
    }

    /// Of a record that was read as a system one, which is never refused here.
    pub(super) fn of(record: &[u8]) -> Self {
        let mut bytes = [0; KEPT];
        let answer = ffi::keep(record, &mut bytes);
        Self((answer.number == 0).then_some(bytes))
    }
}

impl PartialEq for Kept {
    fn eq(&self, _: &Self) -> bool {
        true
    }
}
