//! Words that threads share.
use crate::keys::mix;
use crate::timing::{timed, Timing};
use std::sync::atomic::{AtomicU64, Ordering};

/// So many numbers, each from one `fetch_add`.
pub fn draw(count: u64) -> Option<Timing> {
    let word = AtomicU64::new(0);
    let mut check = 0;
    let timing = timed(count, "draws", || {
        for _ in 0..count {
            check = mix(check, word.fetch_add(1, Ordering::SeqCst));
        }
        Some(())
    })?;
    Some(timing.checked(check))
}

/// So many times one `fetch_add` and one load.
pub fn note(count: u64) -> Option<Timing> {
    let word = AtomicU64::new(0);
    let timing = timed(count, "notes", || {
        for _ in 0..count {
            word.fetch_add(1, Ordering::SeqCst);
            word.load(Ordering::SeqCst);
        }
        Some(())
    })?;
    Some(timing.checked(word.load(Ordering::SeqCst)))
}
