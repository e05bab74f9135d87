//! Numbers by chance, the same at every run from one seed (splitmix64).

use std::ops::RangeInclusive;

pub struct Chance(u64);

impl Chance {
    /// A source of its own for each round, so that a round can be run again alone.
    pub fn of_round(seed: u64, round: u64) -> Chance {
        let mut of_seed = Chance(seed);
        let mut of_round = Chance(of_seed.number() ^ round);
        Chance(of_round.number())
    }

    pub fn number(&mut self) -> u64 {
        self.0 = self.0.wrapping_add(0x9E37_79B9_7F4A_7C15);
        let mixed = (self.0 ^ (self.0 >> 30)).wrapping_mul(0xBF58_476D_1CE4_E5B9);
        let mixed = (mixed ^ (mixed >> 27)).wrapping_mul(0x94D0_49BB_1331_11EB);
        mixed ^ (mixed >> 31)
    }

    /// A number below the bound, which is not 0.
    pub fn below(&mut self, bound: usize) -> usize {
        ((u128::from(self.number()) * bound as u128) >> 64) as usize
    }

    pub fn within(&mut self, range: RangeInclusive<usize>) -> usize {
        range.start() + self.below(range.end() - range.start() + 1)
    }

    pub fn one_in(&mut self, many: usize) -> bool {
        self.below(many) == 0
    }

    pub fn of<T: Copy>(&mut self, choices: &[T]) -> T {
        choices[self.below(choices.len())]
    }

    pub fn bytes(&mut self, length: usize) -> Vec<u8> {
        (0..length).map(|_| self.number() as u8).collect()
    }

    /// A length near the one that is needed: often that one, at times none, one less, one more, or any other.
    pub fn near(&mut self, need: usize) -> usize {
        match self.below(10) {
            0 => 0,
            1 | 2 => need.saturating_sub(1),
            3 | 4 => need + 1,
            5 => need + self.below(40),
            6 => self.below(need + 1),
            _ => need,
        }
    }
}
