//! Stands in for the crate nonmax, so that there is no dependency.

use std::fmt;

/// A byte that is not FFh.
#[derive(Clone, Copy, PartialEq, Eq)]
pub struct NonMaxU8(u8);

impl NonMaxU8 {
    pub const fn new(value: u8) -> Option<Self> {
        if value == u8::MAX {
            None
        } else {
            Some(Self(value))
        }
    }

    pub const fn get(self) -> u8 {
        self.0
    }
}

impl fmt::Debug for NonMaxU8 {
    fn fmt(&self, f: &mut fmt::Formatter<'_>) -> fmt::Result {
        fmt::Debug::fmt(&self.0, f)
    }
}
