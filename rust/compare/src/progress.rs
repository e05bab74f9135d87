//! How far a long comparison is, told on standard error.

/// Whoever waits for so many calls is told at every tenth part of them.
const LONG: u64 = 100_000;

pub struct Progress {
    calls: u64,
    tenths: u64,
}

impl Progress {
    pub fn of(calls: u64) -> Progress {
        Progress { calls, tenths: 0 }
    }

    /// Tells how many calls are compared, once a further tenth of them is; the end is told by the caller.
    pub fn tell(&mut self, compared: u64) {
        if let Some(tenths) = self.reached(compared) {
            eprintln!("compare: {tenths} of 10 parts, {compared} calls");
        }
    }

    /// The tenths that are compared, when they are more than were told before.
    fn reached(&mut self, compared: u64) -> Option<u64> {
        let tenths = (u128::from(compared) * 10 / u128::from(self.calls.max(1))).min(10) as u64;
        if self.calls < LONG || tenths <= self.tenths || tenths == 10 {
            return None;
        }
        self.tenths = tenths;
        Some(tenths)
    }
}

#[cfg(test)]
mod tests {
    use super::*;

    fn told(calls: u64, step: usize) -> Vec<u64> {
        let mut progress = Progress::of(calls);
        (0..=calls + 500).step_by(step).filter_map(|compared| progress.reached(compared)).collect()
    }

    #[test]
    fn every_tenth_part_is_told_once() {
        assert_eq!(told(LONG, 300), [1, 2, 3, 4, 5, 6, 7, 8, 9]);
        assert_eq!(told(LONG, 25_000), [2, 5, 7]);
    }

    #[test]
    fn a_short_comparison_tells_nothing() {
        assert_eq!(told(LONG - 1, 300), []);
        assert_eq!(told(0, 300), []);
    }

    #[test]
    fn no_number_of_calls_is_too_large() {
        assert_eq!(Progress::of(u64::MAX).reached(u64::MAX / 2), Some(4));
    }
}
