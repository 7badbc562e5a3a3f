//! Stand-in for the crate nonmax: a byte that is not FFh.

use std::fmt;

#[derive(Clone, Copy, PartialEq)]
pub struct NonMaxU8(u8);

/// The number alone, as the numbers of std that cannot be 0 have it.
impl fmt::Debug for NonMaxU8 {
    fn fmt(&self, f: &mut fmt::Formatter<'_>) -> fmt::Result {
        fmt::Debug::fmt(&self.0, f)
    }
}

impl NonMaxU8 {
    pub fn new(value: u8) -> Option<Self> {
        (value != u8::MAX).then_some(Self(value))
    }

    pub fn get(self) -> u8 {
        self.0
    }
}
