//! How much was done in how long.
use std::fmt;
use std::time::{Duration, Instant};

/// So many things, in so long, with a number that tells whether both sides did the same.
pub struct Timing {
    count: u64,
    unit: &'static str,
    elapsed: Duration,
    check: u64,
}

impl Timing {
    /// The same with this check number.
    pub fn checked(self, check: u64) -> Timing {
        Timing { check, ..self }
    }
}

/// Times what the closure does. The check number is 0.
pub fn timed(count: u64, unit: &'static str, work: impl FnOnce() -> Option<()>) -> Option<Timing> {
    let start = Instant::now();
    work()?;
    let elapsed = start.elapsed();
    Some(Timing {
        count,
        unit,
        elapsed,
        check: 0,
    })
}

impl fmt::Display for Timing {
    fn fmt(&self, f: &mut fmt::Formatter) -> fmt::Result {
        let nanoseconds = self.elapsed.as_nanos().max(1);
        let rate = self.count as u128 * 1_000_000_000 / nanoseconds;
        write!(f, "{rate} {} a second, check {}", self.unit, self.check)
    }
}
