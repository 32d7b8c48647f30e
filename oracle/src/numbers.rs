//! Numbers by a seed, and the words worth trying.

/// Words at the limits: of a word, of its sign, of its halves.
pub const LIMITS: [u64; 11] = [
    0,
    1,
    u64::MAX,
    u64::MAX - 1,
    1 << 63,
    (1 << 63) - 1,
    1 << 31,
    (1 << 32) - 1,
    1 << 32,
    0xffff_ffff_0000_0000,
    0x8000_0000_8000_0000,
];

/// SplitMix64: the same seed gives the same numbers on every machine.
pub struct Numbers(u64);

impl Numbers {
    pub fn new(seed: u64) -> Self {
        Numbers(seed)
    }

    pub fn word(&mut self) -> u64 {
        self.0 = self.0.wrapping_add(0x9e37_79b9_7f4a_7c15);
        let z = (self.0 ^ (self.0 >> 30)).wrapping_mul(0xbf58_476d_1ce4_e5b9);
        let z = (z ^ (z >> 27)).wrapping_mul(0x94d0_49bb_1331_11eb);
        z ^ (z >> 31)
    }

    /// A number below `n`, which is not 0. Not quite evenly spread, which does not matter here.
    pub fn below(&mut self, n: u64) -> u64 {
        self.word() % n
    }

    /// True once in `n` times.
    pub fn once_in(&mut self, n: u64) -> bool {
        self.below(n) == 0
    }

    pub fn pick<T: Copy>(&mut self, list: &[T]) -> T {
        list[self.below(list.len() as u64) as usize]
    }

    /// A limit, a single bit, a short or a whole random word.
    pub fn any_word(&mut self) -> u64 {
        match self.below(4) {
            0 => self.pick(&LIMITS),
            1 => 1 << self.below(64),
            2 => {
                let dropped = self.below(64);
                self.word() >> dropped
            }
            _ => self.word(),
        }
    }
}
