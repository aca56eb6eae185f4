//! A small generator of random inputs (splitmix64): the same seed, the same inputs.

pub struct Random {
    state: u64,
}

impl Random {
    pub fn new(seed: u64) -> Self {
        Self { state: seed }
    }

    pub fn number(&mut self) -> u64 {
        self.state = self.state.wrapping_add(0x9e37_79b9_7f4a_7c15);
        let mut mixed = self.state;
        mixed = (mixed ^ (mixed >> 30)).wrapping_mul(0xbf58_476d_1ce4_e5b9);
        mixed = (mixed ^ (mixed >> 27)).wrapping_mul(0x94d0_49bb_1331_11eb);
        mixed ^ (mixed >> 31)
    }

    /// A number of `bits` bits, over the whole range; every fourth is 0, 1 or one of the two at the
    /// top, or has a single byte that is not 0.
    fn of_bits(&mut self, bits: u32) -> u64 {
        let most = u64::MAX >> (u64::BITS - bits);
        match self.below(8) {
            0 => [0, 1, most - 1, most][self.below(4)],
            1 => (1 + self.below(255) as u64) << (8 * self.below(bits as usize / 8)),
            _ => self.number() & most,
        }
    }

    pub fn any_u8(&mut self) -> u8 {
        self.of_bits(8) as u8
    }

    pub fn any_u16(&mut self) -> u16 {
        self.of_bits(16) as u16
    }

    pub fn any_u32(&mut self) -> u32 {
        self.of_bits(32) as u32
    }

    pub fn any_u64(&mut self) -> u64 {
        self.of_bits(64)
    }

    /// A count above this one: the next, or any.
    pub fn above(&mut self, count: usize) -> usize {
        match self.below(2) {
            0 => count + 1,
            _ => (self.any_u64() as usize).max(count + 1),
        }
    }

    /// Another byte than this: often in one bit alone.
    pub fn other_byte(&mut self, byte: u8) -> u8 {
        byte ^ match self.below(2) {
            0 => 1 << self.below(8),
            _ => 1 + self.below(255) as u8,
        }
    }

    /// A number below `bound`. (Not quite evenly spread, which a comparison does not need.)
    pub fn below(&mut self, bound: usize) -> usize {
        (self.number() % bound as u64) as usize
    }

    /// A length up to `most`, as often of few digits as of many.
    pub fn length(&mut self, most: usize) -> usize {
        let bits = self.below(usize::BITS as usize - most.leading_zeros() as usize + 1);
        self.below(1 << bits) % (most + 1)
    }

    /// Bytes of one of four kinds: any; all 0xff, where sums carry most; 0x00 and 0xff mixed;
    /// mostly 0x00.
    pub fn bytes(&mut self, length: usize) -> Vec<u8> {
        let kind = self.below(4);
        let byte = |number: u64| match kind {
            0 => number as u8,
            1 => 0xff,
            2 if number & 1 == 1 => 0xff,
            3 if number >> 60 == 0 => number as u8,
            _ => 0,
        };
        (0..length).map(|_| byte(self.number())).collect()
    }
}
