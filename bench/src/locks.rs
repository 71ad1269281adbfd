//! Locks on keys, over ordered maps.
use crate::keys::below;
use crate::timing::{timed, Timing};
use std::collections::BTreeMap;
use std::ops::Bound;

const CLIENTS: u64 = 64;
const KEYS: u64 = 100_000;
/// How many requests a transaction makes before it gives its locks back.
const REQUESTS: u64 = 100;

#[derive(Clone, Copy, PartialEq, Eq)]
pub enum Mode {
    Shared,
    Exclusive,
}

pub enum Answer {
    Granted,
    Wait,
    Busy,
}

impl Answer {
    pub fn is_granted(&self) -> bool {
        matches!(self, Answer::Granted)
    }
}

/// Who holds which key: by transaction and key, and by key and transaction.
#[derive(Default)]
pub struct LockTable {
    held: BTreeMap<(u64, u64), Mode>,
    holders: BTreeMap<(u64, u64), Mode>,
}

impl LockTable {
    /// An older transaction may wait for younger ones, and a younger one is refused where an older one is in its way.
    pub fn request(&mut self, txn: u64, key: u64, mode: Mode) -> Answer {
        match self.oldest_other(txn, key) {
            Some((holder, held)) if mode == Mode::Exclusive || held == Mode::Exclusive => {
                if holder < txn {
                    Answer::Busy
                } else {
                    Answer::Wait
                }
            }
            _ => {
                self.grant(txn, key, mode);
                Answer::Granted
            }
        }
    }

    fn oldest_other(&self, txn: u64, key: u64) -> Option<(u64, Mode)> {
        let below = self.holders.range((key, 0)..(key, txn)).next();
        let above = (Bound::Excluded((key, txn)), Bound::Included((key, u64::MAX)));
        let (&(_, holder), &mode) = below.or_else(|| self.holders.range(above).next())?;
        Some((holder, mode))
    }

    fn grant(&mut self, txn: u64, key: u64, mode: Mode) {
        let mode = match self.held.get(&(txn, key)) {
            Some(Mode::Exclusive) => Mode::Exclusive,
            _ => mode,
        };
        self.held.insert((txn, key), mode);
        self.holders.insert((key, txn), mode);
    }

    pub fn release_all(&mut self, txn: u64) {
        let keys: Vec<u64> = self
            .held
            .range((txn, 0)..=(txn, u64::MAX))
            .map(|(&(_, key), _)| key)
            .collect();
        for key in keys {
            self.held.remove(&(txn, key));
            self.holders.remove(&(key, txn));
        }
    }
}

/// So many requests by 64 transactions in turn, each of which gives its locks back after a hundred.
pub fn run(count: u64) -> Option<Timing> {
    let mut locks = LockTable::default();
    let mut granted = 0;
    let timing = timed(count, "requests", || {
        for place in 0..count {
            let client = place % CLIENTS;
            let step = place / CLIENTS + client;
            let txn = step / REQUESTS * CLIENTS + client + 1;
            let mode = if place % 4 == 0 {
                Mode::Exclusive
            } else {
                Mode::Shared
            };
            if locks.request(txn, below(KEYS, place), mode).is_granted() {
                granted += 1;
            }
            if step % REQUESTS == REQUESTS - 1 {
                locks.release_all(txn);
            }
        }
        Some(())
    })?;
    (granted > 0).then_some(timing.checked(granted))
}
