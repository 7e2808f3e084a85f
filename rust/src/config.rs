//! Set-ups (01, "What is returned, and for what"; 02, 2.1 and 2.6 to 2.8), and what
//! may be proposed and decided under them.

use std::ops::RangeInclusive;

use crate::fields::MOST_SEATS;
use crate::numbers::Offset;
use crate::refusal::Refusal;

/// Policy 0: all is permitted.
pub const BARE: u64 = 0;
/// Policy 1: only cas, with an offset that is not the mark.
pub const WEAK: u64 = 1;
/// Policy 2: an offset that t + 1 seats proposed, or else the mark.
pub const DEFAULT: u64 = 2;
/// Policy 3: one of k choices, which t + 1 seats proposed.
pub const STRONG: u64 = 3;
/// Policy 4: a list of shifts, filled position by position.
pub const LIST: u64 = 4;
/// Policy 5: the same, but first what a seat has announced, in its turn.
pub const WAIT_FREE: u64 = 5;

/// How many choices there may be under policy 3.
pub const CHOICES: RangeInclusive<u64> = 2..=8;

/// A set-up as a plain value that can hold anything.
#[derive(Clone, Copy, Debug, Default, PartialEq, Eq, Hash)]
pub struct Config {
    /// How many seats there are.
    pub n: u64,
    /// How many of them may stray.
    pub t: u64,
    /// The policy's number.
    pub policy: u64,
    /// How many choices there are under policy 3; 0 under the others.
    pub k: u64,
}

impl Config {
    /// Refused 1 unless n is 1 to 31, and under policy 3 k is 2 to 8 and n at
    /// least (k + 1)t + 1, under the policies 0 to 2, 4 and 5 k is 0 and n at
    /// least 3t + 1.
    pub fn check(&self) -> Result<(), Refusal> {
        let times = match self.policy {
            STRONG if CHOICES.contains(&self.k) => self.k + 1,
            BARE..=DEFAULT | LIST | WAIT_FREE if self.k == 0 => 3,
            _ => return Err(Refusal::Unsound),
        };
        // n >= times * t + 1 without a sum or product that wraps: t <= (n - 1) / times.
        let sound = (1..=MOST_SEATS).contains(&self.n) && self.t <= (self.n - 1) / times;
        sound.then_some(()).ok_or(Refusal::Unsound)
    }

    /// Whether this is a seat from 1 to n.
    pub fn has_seat(&self, seat: u64) -> bool {
        (1..=self.n).contains(&seat)
    }

    /// Whether a seat may propose the offset with this travelling number: under
    /// policy 3 the offsets 0 to k - 1, else all in range, and never the mark.
    pub fn may_propose(&self, offset: u64) -> bool {
        match Offset::from_travelling(offset) {
            Some(Offset::Number(z)) => {
                self.policy != STRONG || u64::try_from(z).is_ok_and(|choice| choice < self.k)
            }
            Some(Offset::Mark) | None => false,
        }
    }

    /// Whether a decision may have the offset with this travelling number: what
    /// may be proposed, and the mark except under policy 3.
    pub fn may_decide(&self, offset: u64) -> bool {
        self.may_propose(offset) || (self.policy != STRONG && offset == Offset::MARK)
    }
}

#[cfg(test)]
pub(crate) mod making {
    use super::Config;

    /// A set-up without choices.
    pub(crate) fn config(n: u64, t: u64, policy: u64) -> Config {
        Config { n, t, policy, k: 0 }
    }

    /// A set-up of policy 3.
    pub(crate) fn strong(n: u64, t: u64, k: u64) -> Config {
        Config { n, t, policy: 3, k }
    }
}

#[cfg(test)]
mod tests {
    use super::making::{config, strong};
    use super::*;
    use Refusal::Unsound;

    #[test]
    fn set_ups() {
        for (n, t) in [(4, 1), (1, 0), (31, 10), (31, 0), (30, 9), (16, 5), (7, 2), (6, 1)] {
            for policy in [0, 1, 2, 4, 5] {
                assert_eq!(config(n, t, policy).check(), Ok(()));
                for k in [1, 2, 3, 8, u64::MAX] {
                    assert_eq!(Config { k, ..config(n, t, policy) }.check(), Err(Unsound));
                }
            }
            for (policy, k) in [(3, 0), (6, 0), (6, 2), (u64::MAX, 0), (u64::MAX, 2)] {
                assert_eq!(Config { k, ..config(n, t, policy) }.check(), Err(Unsound));
            }
        }
        // 3t + 1 wraps to small numbers for the last few.
        let third = u64::MAX / 3;
        let wrapping = [third, third + 1, u64::MAX, 1 << 63];
        for policy in [0, 4, 5] {
            for (n, t) in [(0, 0), (32, 0), (32, 10), (3, 1), (30, 10), (31, 11), (u64::MAX, 0)] {
                assert_eq!(config(n, t, policy).check(), Err(Unsound));
            }
            for t in wrapping {
                assert_eq!(config(31, t, policy).check(), Err(Unsound));
            }
        }
        assert_eq!(config(4, 0, u64::MAX).check(), Err(Unsound));
    }

    #[test]
    fn set_ups_among_choices() {
        // The least n for each k and t, and one seat fewer.
        for k in 2..=8 {
            for t in 0..=(MOST_SEATS - 1) / (k + 1) {
                let least = (k + 1) * t + 1;
                assert_eq!(strong(least, t, k).check(), Ok(()));
                assert_eq!(strong(MOST_SEATS, t, k).check(), Ok(()));
                assert_eq!(strong(least - 1, t, k).check(), Err(Unsound));
                assert_eq!(strong(MOST_SEATS + 1, t, k).check(), Err(Unsound));
            }
            // (k + 1)t + 1 wraps to small numbers for the first two.
            let part = u64::MAX / (k + 1) + 1;
            for t in [part, 2 * part, (MOST_SEATS - 1) / (k + 1) + 1, u64::MAX] {
                assert_eq!(strong(MOST_SEATS, t, k).check(), Err(Unsound), "{t} {k}");
            }
        }
        for k in [0, 1, 9, 4_294_967_295, (1 << 32) + 2, u64::MAX - 1, u64::MAX] {
            for t in [0, 1, 10, u64::MAX] {
                assert_eq!(strong(MOST_SEATS, t, k).check(), Err(Unsound), "{t} {k}");
            }
        }
    }

    #[test]
    fn how_many_may_stray() {
        let most = |sound: &dyn Fn(u64) -> bool| (0..=MOST_SEATS).filter(|t| sound(*t)).max();
        for policy in [0, 1, 2, 4, 5] {
            assert_eq!(most(&|t| config(31, t, policy).check().is_ok()), Some(10));
        }
        for (k, expected) in (2..=8).zip([10, 7, 6, 5, 4, 3, 3]) {
            assert_eq!(most(&|t| strong(31, t, k).check().is_ok()), Some(expected), "{k}");
        }
    }

    #[test]
    fn what_may_be_proposed_and_decided() {
        for offset in (0..20).chain([200_000, 200_001, 200_002, u64::MAX]) {
            let number = (1..=200_001).contains(&offset);
            assert_eq!(config(4, 1, 2).may_propose(offset), number);
            assert_eq!(config(4, 1, 2).may_decide(offset), number || offset == 0);
            for k in 2..=8 {
                // 0 to k - 1 travel as the odd numbers below 2k.
                let choice = offset % 2 == 1 && offset < 2 * k;
                assert_eq!(strong(10, 1, k).may_propose(offset), choice);
                assert_eq!(strong(10, 1, k).may_decide(offset), choice);
            }
        }
    }
}
