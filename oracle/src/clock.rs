//! A machine's clock, which may run fast or slow.

const MILLION: u32 = 1_000_000;

/// The highest count at which a clock still shows a number that is not above the highest one.
const HIGHEST_COUNT: u128 = (u64::MAX as u128 + 1) * MILLION as u128 - 1;

/// Which way a clock is off.
#[derive(Clone, Copy, Debug, PartialEq, Eq)]
pub enum Drift {
    Fast,
    Slow,
}

/// Counts millionths of a microsecond from 0 on, so that a change of its rate loses nothing.
#[derive(Clone, Debug)]
pub struct Clock {
    count: u128,
    /// How many millionths it counts in a microsecond of true time.
    rate: u32,
}

impl Clock {
    pub fn new() -> Clock {
        Clock {
            count: 0,
            rate: MILLION,
        }
    }

    /// The whole microseconds.
    pub fn reading(&self) -> u64 {
        // The count is at most HIGHEST_COUNT, so nothing is cut off here.
        (self.count / u128::from(MILLION)) as u64
    }

    /// From now on the clock is off by `parts` in a million, which are fewer than a million.
    pub fn set_drift(&mut self, drift: Drift, parts: u32) {
        self.rate = match drift {
            Drift::Fast => MILLION.saturating_add(parts),
            Drift::Slow => MILLION.saturating_sub(parts),
        };
    }

    /// The clock after `duration` microseconds of true time; None where it would go above the
    /// highest number.
    pub fn after(&self, duration: u64) -> Option<Clock> {
        // At most 2^84 + 2^64 * 2^32: far from the end of a u128.
        let count = self.count + u128::from(duration) * u128::from(self.rate);
        (count <= HIGHEST_COUNT).then_some(Clock {
            count,
            rate: self.rate,
        })
    }
}

#[cfg(test)]
mod tests {
    use super::*;

    fn passed(clock: &Clock, durations: &[u64]) -> Option<u64> {
        let mut clock = clock.clone();
        for &duration in durations {
            clock = clock.after(duration)?;
        }
        Some(clock.reading())
    }

    #[test]
    fn a_new_clock_is_exact() {
        assert_eq!(passed(&Clock::new(), &[5, 0, 7]), Some(12));
        assert_eq!(passed(&Clock::new(), &[u64::MAX]), Some(u64::MAX));
        assert_eq!(passed(&Clock::new(), &[u64::MAX, 1]), None);
    }

    #[test]
    fn nothing_is_lost_where_the_rate_changes() {
        let mut clock = Clock::new();
        clock.set_drift(Drift::Fast, 1000);
        assert_eq!(passed(&clock, &[999]), Some(999));
        assert_eq!(passed(&clock, &[1000]), Some(1001));
        assert_eq!(passed(&clock, &[1; 1000]), Some(1001));

        // 0.5 from the first half and 0.5 from the second make one whole microsecond.
        let mut clock = clock.after(500).unwrap_or_else(Clock::new);
        assert_eq!(clock.reading(), 500);
        clock.set_drift(Drift::Fast, 500);
        assert_eq!(passed(&clock, &[999]), Some(1499));
        assert_eq!(passed(&clock, &[1000]), Some(1501));
    }

    #[test]
    fn a_slow_clock_shows_whole_microseconds_only() {
        let mut clock = Clock::new();
        clock.set_drift(Drift::Slow, 1);
        assert_eq!(passed(&clock, &[1]), Some(0));
        assert_eq!(passed(&clock, &[1_000_000]), Some(999_999));
        assert_eq!(passed(&clock, &[1_000_001]), Some(999_999));
        assert_eq!(passed(&clock, &[1_000_002]), Some(1_000_000));
    }

    #[test]
    fn a_fast_clock_reaches_the_highest_number_before_the_true_time_does() {
        let mut clock = Clock::new();
        clock.set_drift(Drift::Fast, 1000);
        // The whole part of (2^64 * 1000000 - 1) / 1001000. The clock then counts 0.015 more than
        // the highest number, which it still shows.
        let last = 18_428_315_757_951_600_015;
        assert_eq!(passed(&clock, &[last]), Some(u64::MAX));
        assert_eq!(passed(&clock, &[last, 1]), None);
    }
}
