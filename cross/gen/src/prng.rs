//! A small generator of numbers (SplitMix64).

/// The state: one number.
#[derive(Clone, Debug)]
pub struct Prng(u64);

impl Prng {
    /// A generator for this seed number; near seeds give unlike numbers.
    pub fn new(seed: u64) -> Prng {
        let mut prng = Prng(seed);
        prng.bits();
        prng
    }

    /// A generator for a part of a seed: the same two numbers, the same part.
    pub fn part(seed: u64, number: u64) -> Prng {
        let mut prng = Prng::new(seed);
        Prng::new(prng.bits() ^ number.wrapping_mul(0xD6E8_FEB8_6659_FD93))
    }

    /// The next 64 bits.
    pub fn bits(&mut self) -> u64 {
        self.0 = self.0.wrapping_add(0x9E37_79B9_7F4A_7C15);
        let mut z = self.0;
        z = (z ^ (z >> 30)).wrapping_mul(0xBF58_476D_1CE4_E5B9);
        z = (z ^ (z >> 27)).wrapping_mul(0x94D0_49BB_1331_11EB);
        z ^ (z >> 31)
    }

    /// A number below `bound`, which is not 0.
    pub fn below(&mut self, bound: usize) -> usize {
        ((u128::from(self.bits()) * bound as u128) >> 64) as usize
    }

    /// A number from `low` to `high`, both included.
    pub fn within(&mut self, low: usize, high: usize) -> usize {
        low + self.below(high - low + 1)
    }

    /// A byte from `low` to `high`, both included.
    pub fn byte_within(&mut self, low: u8, high: u8) -> u8 {
        self.within(usize::from(low), usize::from(high)) as u8
    }

    /// Any byte.
    pub fn byte(&mut self) -> u8 {
        (self.bits() >> 56) as u8
    }

    /// True `part` times in a hundred.
    pub fn percent(&mut self, part: usize) -> bool {
        self.below(100) < part
    }

    /// One of the list, which is not empty.
    pub fn pick<T: Copy>(&mut self, list: &[T]) -> T {
        list[self.below(list.len())]
    }
}

#[cfg(test)]
mod tests {
    use super::*;

    #[test]
    fn the_same_seed_gives_the_same_numbers() {
        let numbers = |seed| {
            let mut prng = Prng::new(seed);
            [prng.bits(), prng.bits(), prng.bits()]
        };
        assert_eq!(numbers(7), numbers(7));
        assert_ne!(numbers(7), numbers(8));
    }

    #[test]
    fn bounds_hold() {
        let mut prng = Prng::new(1);
        for _ in 0..10_000 {
            assert!(prng.below(3) < 3);
            assert!((5..=7).contains(&prng.within(5, 7)));
        }
    }
}
