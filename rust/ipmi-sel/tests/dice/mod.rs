//! Random numbers that are the same in every run.

pub struct Dice(u64);

impl Dice {
    pub fn new(seed: u64) -> Self {
        Self(seed | 1 << 63)
    }

    pub fn number(&mut self) -> u32 {
        self.0 ^= self.0 << 13;
        self.0 ^= self.0 >> 7;
        self.0 ^= self.0 << 17;
        (self.0 >> 32) as u32
    }

    pub fn byte(&mut self) -> u8 {
        self.number() as u8
    }

    pub fn below(&mut self, limit: usize) -> usize {
        self.number() as usize % limit
    }

    /// In a place of its own, of exactly so many bytes.
    pub fn bytes(&mut self, length: usize) -> Box<[u8]> {
        (0..length).map(|_| self.byte()).collect()
    }

    /// An answer of that length, mostly with a record type that there is, at the place that it has in a record or in a get-entry answer.
    pub fn answer(&mut self, length: usize) -> Box<[u8]> {
        let mut answer = self.bytes(length);
        let types = [0x02, 0x02, 0x02, 0xC0 + self.byte() % 64, self.byte()];
        if let Some(byte) = answer.get_mut([2, 4][self.below(2)]) {
            *byte = types[self.below(types.len())];
        }
        answer
    }
}
