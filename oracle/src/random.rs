//! A small generator of random numbers, always the same from the same seed.

/// The generator known as splitmix64.
#[derive(Clone, Debug)]
pub struct Random {
    state: u64,
}

impl Random {
    pub fn new(seed: u64) -> Random {
        Random { state: seed }
    }

    pub fn next(&mut self) -> u64 {
        self.state = self.state.wrapping_add(0x9e37_79b9_7f4a_7c15);
        let mut mixed = self.state;
        mixed = (mixed ^ (mixed >> 30)).wrapping_mul(0xbf58_476d_1ce4_e5b9);
        mixed = (mixed ^ (mixed >> 27)).wrapping_mul(0x94d0_49bb_1331_11eb);
        mixed ^ (mixed >> 31)
    }

    /// A number from 0 to `highest`, both included.
    pub fn up_to(&mut self, highest: u64) -> u64 {
        // The upper half of the product is evenly spread, also where `highest` is the highest
        // number.
        let product = u128::from(self.next()) * (u128::from(highest) + 1);
        (product >> 64) as u64
    }

    /// A number from `lowest` to `highest`, both included.
    pub fn between(&mut self, lowest: u64, highest: u64) -> u64 {
        lowest.saturating_add(self.up_to(highest.saturating_sub(lowest)))
    }

    /// True once in `times` on average.
    pub fn once_in(&mut self, times: u64) -> bool {
        self.up_to(times.saturating_sub(1)) == 0
    }

    /// One of `choices`; None only where there are none.
    pub fn pick<'a, T>(&mut self, choices: &'a [T]) -> Option<&'a T> {
        let last = choices.len().checked_sub(1)?;
        choices.get(self.index_up_to(last))
    }

    /// An index from 0 to `highest`, both included.
    pub fn index_up_to(&mut self, highest: usize) -> usize {
        self.up_to(highest as u64) as usize
    }

    /// A number of any magnitude: small ones are as likely as large ones.
    pub fn of_any_size(&mut self) -> u64 {
        let bits = self.up_to(64) as u32;
        self.next().checked_shr(64 - bits).unwrap_or(0)
    }
}

#[cfg(test)]
mod tests {
    use super::*;

    #[test]
    fn numbers_stay_within_their_bounds() {
        let mut random = Random::new(0);
        for _ in 0..10_000 {
            assert!(random.up_to(6) <= 6);
            assert!((3..=5).contains(&random.between(3, 5)));
            assert_eq!(random.up_to(0), 0);
        }
        let numbers: Vec<u64> = (0..1000).map(|_| random.of_any_size()).collect();
        assert!(numbers.contains(&0) && numbers.iter().any(|&number| number > u64::MAX / 2));
        assert_eq!(random.pick::<u8>(&[]), None);
    }

    #[test]
    fn the_same_seed_gives_the_same_numbers() {
        let first: Vec<u64> = std::iter::repeat_with({
            let mut random = Random::new(7);
            move || random.next()
        })
        .take(5)
        .collect();
        let mut again = Random::new(7);
        assert!(first.iter().all(|&number| number == again.next()));
        assert_ne!(Random::new(8).next(), first[0]);
    }
}
