//! The time that the user gives to a search, and what of it one question may take.

use std::time::{Duration, Instant};

/// What of the whole time one question may take, so that a hard question does not take it all.
#[derive(Clone, Copy)]
pub struct Share {
    /// One part of so many.
    parts: u32,
}

pub const WHOLE: Share = Share { parts: 1 };

/// The shares that a question has in turn, as long as it has no reply.
pub const SHARES: [Share; 3] = [Share { parts: 40 }, Share { parts: 8 }, WHOLE];

#[derive(Clone, Copy)]
pub struct Limit {
    whole: Duration,
    end: Instant,
}

impl Limit {
    /// So many seconds from now on.
    pub fn seconds(seconds: u32) -> Limit {
        let whole = Duration::from_secs(seconds.into());
        Limit { whole, end: Instant::now() + whole }
    }

    pub fn is_over(&self) -> bool {
        Instant::now() >= self.end
    }

    /// When the time of a question ends that begins now.
    pub fn until(&self, share: Share) -> Instant {
        self.end.min(Instant::now() + self.whole / share.parts)
    }
}

#[cfg(test)]
mod tests {
    use super::*;

    #[test]
    fn a_question_has_its_share_and_never_more_than_is_left() {
        let limit = Limit::seconds(80);
        let left = |share| limit.until(share).saturating_duration_since(Instant::now());
        let seconds = SHARES.map(|share| left(share).as_secs_f64().round());
        assert_eq!(seconds, [2.0, 10.0, 80.0]);
        let late = Limit { whole: Duration::from_secs(80), end: Instant::now() };
        assert!(late.is_over() && late.until(SHARES[0]) <= Instant::now());
    }
}
