//! A small seeded source of random numbers (splitmix64) for the cases.

pub struct Random(u64);

impl Random {
    pub fn new(seed: u64) -> Self {
        Self(seed)
    }

    /// A source of its own for each round of a seed.
    pub fn of_round(seed: u64, round: u64) -> Self {
        let mut start = Self(seed);
        let mixed = start.next() ^ round.wrapping_mul(0xD134_2543_DE82_EF95);
        Self(mixed)
    }

    fn next(&mut self) -> u64 {
        self.0 = self.0.wrapping_add(0x9E37_79B9_7F4A_7C15);
        let mut mixed = self.0;
        mixed = (mixed ^ (mixed >> 30)).wrapping_mul(0xBF58_476D_1CE4_E5B9);
        mixed = (mixed ^ (mixed >> 27)).wrapping_mul(0x94D0_49BB_1331_11EB);
        mixed ^ (mixed >> 31)
    }

    /// A number below the bound; zero if the bound is zero.
    pub fn below(&mut self, bound: usize) -> usize {
        let bound = bound.max(1) as u64;
        (self.next() % bound) as usize
    }

    /// A number from the first to the last.
    pub fn between(&mut self, first: u16, last: u16) -> u16 {
        let span = usize::from(last.saturating_sub(first)) + 1;
        first.saturating_add(self.below(span) as u16)
    }

    /// True once in so many times.
    pub fn one_in(&mut self, times: usize) -> bool {
        self.below(times) == 0
    }

    pub fn word(&mut self) -> u16 {
        self.next() as u16
    }

    pub fn byte(&mut self) -> u8 {
        self.next() as u8
    }

    pub fn words(&mut self, count: usize) -> Vec<u16> {
        (0..count).map(|_| self.word()).collect()
    }

    pub fn bytes(&mut self, count: usize) -> Vec<u8> {
        (0..count).map(|_| self.byte()).collect()
    }

    /// One of the things, of which there must be some.
    pub fn pick<'a, T>(&mut self, things: &'a [T]) -> &'a T {
        &things[self.below(things.len())]
    }
}
