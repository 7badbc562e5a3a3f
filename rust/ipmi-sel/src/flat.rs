//! What the library decodes and writes, in its flat form: the fields one after another, numbers of several bytes from
//! the lowest up.

use crate::ffi::{self, Answer};

/// The most bytes that a kind has: those of a get-entry answer.
const MOST: usize = 24;

/// The fields of an accepted answer that are still to be taken.
pub(crate) struct Flat {
    bytes: [u8; MOST],
    taken: usize,
}

impl Flat {
    /// Of the bytes that are read as a kind, by its letter; the refusal where there is one.
    pub(crate) fn decode(kind: u8, data: &[u8]) -> Result<Self, Answer> {
        // These three have functions of their own, which are the shorter way.
        Self::written(|out| match kind {
            b'e' => ffi::entry(data, out),
            b'g' => ffi::get_entry(data, out),
            b'a' => ffi::allocation(data, out),
            _ => ffi::decode(kind, data, out),
        })
    }

    /// Of what a function of the library writes to its output.
    #[inline]
    pub(crate) fn written(by: impl FnOnce(&mut [u8]) -> Answer) -> Result<Self, Answer> {
        let mut bytes = [0; MOST];
        let answer = by(&mut bytes);
        if answer.number == 0 {
            Ok(Self { bytes, taken: 0 })
        } else {
            Err(answer)
        }
    }

    #[inline]
    pub(crate) fn bytes<const N: usize>(&mut self) -> [u8; N] {
        let from = self.taken;
        self.taken += N;
        std::array::from_fn(|i| self.bytes.get(from + i).copied().unwrap_or(0))
    }

    #[inline]
    pub(crate) fn byte(&mut self) -> u8 {
        let [byte] = self.bytes();
        byte
    }

    /// A byte that says yes or no.
    #[inline]
    pub(crate) fn yes(&mut self) -> bool {
        self.byte() == 1
    }

    #[inline]
    pub(crate) fn u16(&mut self) -> u16 {
        u16::from_le_bytes(self.bytes())
    }

    #[inline]
    pub(crate) fn u32(&mut self) -> u32 {
        u32::from_le_bytes(self.bytes())
    }
}

/// The fields of an entry, put one after another as the library takes them.
pub(crate) struct Fields {
    bytes: [u8; MOST],
    put: usize,
}

impl Fields {
    pub(crate) fn new() -> Self {
        Self { bytes: [0; MOST], put: 0 }
    }

    /// An entry's fields have at most 22 bytes in all.
    #[inline]
    pub(crate) fn put<const N: usize>(mut self, field: [u8; N]) -> Self {
        self.bytes[self.put..][..N].copy_from_slice(&field);
        self.put += N;
        self
    }

    pub(crate) fn bytes(&self) -> &[u8] {
        &self.bytes[..self.put]
    }
}
