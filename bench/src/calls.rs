//! Record calls of one client over regions, locks, undo lists and a log in memory: the same blocks, in the same bytes, as
//! the plans of dali make.
use crate::codec::{self, Answer, Call, Op, Outcome, Record, Undo, Value};
use crate::keys::{mix_bytes, scattered};
use crate::locks::{LockTable, Mode};
use crate::regions::Region;
use crate::timing::{timed, Timing};
use std::collections::BTreeMap;

/// How many calls a transaction makes.
const CALLS: u64 = 5;
const ENTRIES: usize = 21;
const LIVE: u64 = 1;
const DEAD: u64 = 2;

/// What is done with each key.
#[derive(Clone, Copy, PartialEq, Eq)]
pub enum Kind {
    Insert,
    Get,
    Update,
    Delete,
}

/// What an operation does to the words of its region: the new words stand in the order of the mask.
struct Effect {
    read: u64,
    write: u64,
    words: [u64; 8],
    outcome: Outcome,
    undo: Option<Undo>,
}

impl Effect {
    fn reads(read: u64, outcome: Outcome) -> Effect {
        Effect {
            read,
            write: 0,
            words: [0; 8],
            outcome,
            undo: None,
        }
    }

    fn after(&self) -> &[u64] {
        &self.words[..self.write.count_ones() as usize]
    }
}

/// The set of `count` words from `first` on.
fn bits(first: usize, count: usize) -> u64 {
    ((1 << count) - 1) << first
}

fn array(words: &[u64]) -> [u64; 8] {
    let mut all = [0; 8];
    all[..words.len()].copy_from_slice(words);
    all
}

fn look(words: &[u64; 64], key: u64) -> Effect {
    let mut read = 0;
    for entry in 0..ENTRIES {
        let at = 1 + 3 * entry;
        read |= 1 << at;
        if words[at] == LIVE {
            read |= 1 << (at + 1);
            if words[at + 1] == key {
                read |= 1 << (at + 2);
                let place = words[at + 2];
                let entry = entry as u8;
                return Effect::reads(read, Outcome::Found { entry, place });
            }
        }
    }
    let overflow = words[0] != 0;
    Effect::reads(read | 1, Outcome::Absent { overflow })
}

fn add(words: &[u64; 64], key: u64, place: u64) -> Effect {
    let mut read = 0;
    for entry in 0..ENTRIES {
        let at = 1 + 3 * entry;
        read |= 1 << at;
        if words[at] == 0 {
            let entry = entry as u8;
            return Effect {
                read: read | bits(at, 3),
                write: bits(at, 3),
                words: array(&[LIVE, key, place]),
                outcome: Outcome::Added { entry },
                undo: Some(Undo::FreeEntry { entry }),
            };
        }
    }
    let raises = words[0] == 0;
    Effect {
        write: raises as u64,
        words: array(&[1]),
        ..Effect::reads(read | 1, Outcome::NoEntry)
    }
}

fn put(words: &[u64; 64], key: u64, value: &Value) -> Effect {
    let mut read = 0;
    for cell in 1..8 {
        let at = 8 * cell;
        read |= 1 << at;
        if words[at] == 0 {
            let [a, b, c, d, e] = value.words();
            let cell = cell as u8;
            return Effect {
                read: read | bits(at, 8),
                write: bits(at, 8),
                words: [LIVE, key, value.bytes().len() as u64, a, b, c, d, e],
                outcome: Outcome::Put { cell },
                undo: Some(Undo::FreeCell { cell }),
            };
        }
    }
    Effect::reads(read, Outcome::NoCell)
}

/// Whether the cell is live, has this key and the length of a value.
fn is_sound(words: &[u64; 64], at: usize, key: u64) -> bool {
    words[at] == LIVE && words[at + 1] == key && (1..=40).contains(&words[at + 2])
}

/// The value in a cell.
fn value_at(words: &[u64; 64], at: usize) -> Option<Value> {
    let mut bytes = [0; 40];
    for (into, word) in bytes.chunks_exact_mut(8).zip(&words[at + 3..at + 8]) {
        into.copy_from_slice(&word.to_be_bytes());
    }
    Value::from_bytes(&bytes[..words[at + 2] as usize])
}

fn read(words: &[u64; 64], cell: u8, key: u64) -> Option<Effect> {
    let at = 8 * cell as usize;
    if !is_sound(words, at, key) {
        return None;
    }
    let value = value_at(words, at)?;
    Some(Effect::reads(bits(at, 8), Outcome::Value { value }))
}

fn change(words: &[u64; 64], cell: u8, key: u64, value: &Value) -> Option<Effect> {
    let at = 8 * cell as usize;
    if !is_sound(words, at, key) {
        return None;
    }
    let [a, b, c, d, e] = value.words();
    Some(Effect {
        read: bits(at, 8),
        write: bits(at + 2, 6),
        words: array(&[value.bytes().len() as u64, a, b, c, d, e]),
        outcome: Outcome::Changed,
        undo: Some(Undo::Restore {
            cell,
            length: words[at + 2],
            words: [
                words[at + 3],
                words[at + 4],
                words[at + 5],
                words[at + 6],
                words[at + 7],
            ],
        }),
    })
}

fn kill_cell(words: &[u64; 64], cell: u8, key: u64) -> Option<Effect> {
    let at = 8 * cell as usize;
    if !is_sound(words, at, key) {
        return None;
    }
    Some(Effect {
        read: bits(at, 3),
        write: 1 << at,
        words: array(&[DEAD]),
        outcome: Outcome::Killed,
        undo: Some(Undo::ReviveCell { cell }),
    })
}

fn kill_entry(words: &[u64; 64], entry: u8, key: u64) -> Option<Effect> {
    let at = 1 + 3 * entry as usize;
    if words[at] != LIVE || words[at + 1] != key {
        return None;
    }
    Some(Effect {
        read: bits(at, 2),
        write: 1 << at,
        words: array(&[DEAD]),
        outcome: Outcome::Killed,
        undo: Some(Undo::ReviveEntry { entry }),
    })
}

/// What frees a cell or an entry whose state stands at that word.
fn free(at: usize) -> Effect {
    Effect {
        write: 1 << at,
        ..Effect::reads(1 << at, Outcome::Undone)
    }
}

/// What takes a block back.
struct Pending {
    key: u64,
    region: u32,
    undo: Undo,
}

/// Who logs a block.
#[derive(Clone, Copy)]
enum Owner {
    Txn { txn: u64 },
    Solo { txn: u64, parent: u64 },
}

struct Database {
    index: u64,
    heap: u64,
    limit: u64,
    regions: Vec<Region>,
    locks: LockTable,
    undos: BTreeMap<u64, Vec<Pending>>,
    log: Vec<u8>,
    next: u64,
    /// Whether codewords are kept.
    coded: bool,
}

impl Database {
    fn new(index: u64, heap: u64, coded: bool) -> Database {
        let mut regions: Vec<Region> = (0..index).map(|_| Region::load([0; 64])).collect();
        let mut words = [0; 64];
        words[0] = 1;
        regions.extend((0..heap).map(|_| Region::load(words)));
        Database {
            index,
            heap,
            limit: 1 << 28,
            regions,
            locks: LockTable::default(),
            undos: BTreeMap::new(),
            log: Vec::new(),
            next: 1,
            coded,
        }
    }

    /// Logs a record that uses room, where there is some.
    fn log_within(&mut self, record: &Record) -> Option<()> {
        let before = self.log.len();
        codec::encode(record, &mut self.log);
        if self.log.len() as u64 > self.limit {
            self.log.truncate(before);
            return None;
        }
        Some(())
    }

    /// Makes an operation on a region under its latch, and logs its block.
    fn operate(&mut self, owner: Owner, key: u64, number: u64, op: &Op, effect: &Effect) -> Option<()> {
        let region = &mut self.regions[number as usize];
        let holder = match owner {
            Owner::Txn { txn } => txn,
            Owner::Solo { parent, .. } => parent,
        };
        region.latch(holder).ok()?;
        region.note_reads(effect.read);
        let xor = region.noted();
        let mut left = effect.write;
        for word in effect.after() {
            let place = left.trailing_zeros() as usize;
            if self.coded {
                region.update_coded(place, *word);
            } else {
                region.update(place, *word);
            }
            left &= left - 1;
        }
        let before = self.log.len();
        match owner {
            Owner::Txn { txn } => {
                self.log.push(3);
                codec::put64(&mut self.log, txn);
            }
            Owner::Solo { txn, parent } => {
                self.log.push(7);
                codec::put64(&mut self.log, txn);
                codec::put64(&mut self.log, parent);
            }
        }
        codec::put64(&mut self.log, key);
        codec::put32(&mut self.log, number as u32);
        codec::put_op(&mut self.log, op);
        codec::put64(&mut self.log, effect.read);
        codec::put64(&mut self.log, xor);
        codec::put64(&mut self.log, effect.write);
        codec::put_words(&mut self.log, effect.after());
        codec::put_outcome(&mut self.log, &effect.outcome);
        codec::put_undo(&mut self.log, &effect.undo);
        if let Owner::Txn { txn } = owner {
            if self.log.len() as u64 > self.limit {
                self.log.truncate(before);
                return None;
            }
            if let Some(undo) = &effect.undo {
                self.undos.get_mut(&txn)?.push(Pending {
                    key,
                    region: number as u32,
                    undo: undo.clone(),
                });
            }
        }
        self.regions[number as usize].touch();
        Some(())
    }

    fn begin(&mut self) -> Option<u64> {
        let txn = self.next;
        self.log_within(&Record::Begin { txn })?;
        self.next += 1;
        self.undos.insert(txn, Vec::new());
        Some(txn)
    }

    /// Looks for a key along its walk: the region, the entry and the place, where it is found.
    fn find(&mut self, txn: u64, key: u64) -> Option<Option<(u64, u8, u64)>> {
        let home = key % self.index;
        for step in 0..self.index {
            let number = (home + step) % self.index;
            let effect = look(self.regions[number as usize].words(), key);
            self.operate(Owner::Txn { txn }, key, number, &Op::Look, &effect)?;
            match effect.outcome {
                Outcome::Found { entry, place } => return Some(Some((number, entry, place))),
                Outcome::Absent { overflow: true } => {}
                _ => return Some(None),
            }
        }
        Some(None)
    }

    fn put_somewhere(&mut self, txn: u64, key: u64, value: Value) -> Option<u64> {
        for step in 0..self.heap {
            let number = self.index + (txn % self.heap + step) % self.heap;
            let effect = put(self.regions[number as usize].words(), key, &value);
            self.operate(Owner::Txn { txn }, key, number, &Op::Put { value }, &effect)?;
            if let Outcome::Put { cell } = effect.outcome {
                return Some(8 * number + u64::from(cell));
            }
        }
        None
    }

    fn add_somewhere(&mut self, txn: u64, key: u64, place: u64) -> Option<()> {
        let home = key % self.index;
        for step in 0..self.index {
            let number = (home + step) % self.index;
            let effect = add(self.regions[number as usize].words(), key, place);
            self.operate(Owner::Txn { txn }, key, number, &Op::Add { place }, &effect)?;
            if let Outcome::Added { .. } = effect.outcome {
                return Some(());
            }
        }
        None
    }

    /// One call. None where it has no good answer: no call of a bench has.
    fn call(&mut self, txn: u64, call: Call) -> Option<()> {
        let (key, mode) = match call {
            Call::Get { key } => (key, Mode::Shared),
            Call::Insert { key, .. } | Call::Update { key, .. } | Call::Delete { key } => {
                (key, Mode::Exclusive)
            }
        };
        if !self.locks.request(txn, key, mode).is_granted() {
            return None;
        }
        let found = self.find(txn, key)?;
        let owner = Owner::Txn { txn };
        let answer = match (&call, found) {
            (Call::Insert { value, .. }, None) => {
                let place = self.put_somewhere(txn, key, *value)?;
                self.add_somewhere(txn, key, place)?;
                Answer::Ok
            }
            (Call::Get { .. }, Some((_, _, place))) => {
                let (number, cell) = (place / 8, (place % 8) as u8);
                let effect = read(self.regions[number as usize].words(), cell, key)?;
                self.operate(owner, key, number, &Op::Read { cell }, &effect)?;
                match effect.outcome {
                    Outcome::Value { value } => Answer::Got { value },
                    _ => return None,
                }
            }
            (Call::Update { value, .. }, Some((_, _, place))) => {
                let (number, cell) = (place / 8, (place % 8) as u8);
                let effect = change(self.regions[number as usize].words(), cell, key, value)?;
                let op = Op::Change {
                    cell,
                    value: *value,
                };
                self.operate(owner, key, number, &op, &effect)?;
                Answer::Ok
            }
            (Call::Delete { .. }, Some((home, entry, place))) => {
                let (number, cell) = (place / 8, (place % 8) as u8);
                let effect = kill_cell(self.regions[number as usize].words(), cell, key)?;
                self.operate(owner, key, number, &Op::KillCell { cell }, &effect)?;
                let effect = kill_entry(self.regions[home as usize].words(), entry, key)?;
                self.operate(owner, key, home, &Op::KillEntry { entry }, &effect)?;
                Answer::Ok
            }
            _ => return None,
        };
        self.log_within(&Record::Done { txn, call, answer })
    }

    /// Commits, frees what was removed, and ends.
    fn commit(&mut self, txn: u64) -> Option<()> {
        codec::encode(&Record::Commit { txn }, &mut self.log);
        for pending in self.undos.remove(&txn)? {
            let (op, at) = match pending.undo {
                Undo::ReviveCell { cell } => (Op::FreeCell { cell }, 8 * cell as usize),
                Undo::ReviveEntry { entry } => (Op::FreeEntry { entry }, 1 + 3 * entry as usize),
                _ => continue,
            };
            let owner = Owner::Solo {
                txn: self.next,
                parent: txn,
            };
            self.operate(owner, pending.key, u64::from(pending.region), &op, &free(at))?;
            self.next += 1;
        }
        codec::encode(&Record::Ended { txn }, &mut self.log);
        self.locks.release_all(txn);
        Some(())
    }

    /// A transaction of calls with the keys from this place on.
    fn transaction(&mut self, kind: Kind, first: u64, calls: u64) -> Option<()> {
        let (old, new) = (Value::from_bytes(b"abc")?, Value::from_bytes(b"xyz")?);
        let txn = self.begin()?;
        for place in first..first + calls {
            let key = scattered(place);
            let call = match kind {
                Kind::Insert => Call::Insert { key, value: old },
                Kind::Get => Call::Get { key },
                Kind::Update => Call::Update { key, value: new },
                Kind::Delete => Call::Delete { key },
            };
            self.call(txn, call)?;
        }
        self.commit(txn)
    }

    fn transactions(&mut self, kind: Kind, count: u64, calls: u64) -> Option<()> {
        for number in 0..count / calls {
            self.transaction(kind, number * calls, calls)?;
        }
        Some(())
    }
}

/// So many calls on as many keys, in transactions of `calls`. Where they find keys these were inserted before.
fn run_in(kind: Kind, count: u64, calls: u64, coded: bool) -> Option<Timing> {
    let mut database = Database::new(count / 10 + 1, count / 5 + 1, coded);
    if kind != Kind::Insert {
        database.transactions(Kind::Insert, count, CALLS)?;
    }
    let unit = match kind {
        Kind::Insert => "inserts",
        Kind::Get => "gets",
        Kind::Update => "updates",
        Kind::Delete => "deletes",
    };
    let timing = timed(count / calls * calls, unit, || {
        database.transactions(kind, count, calls)
    })?;
    if coded && !database.regions.iter().all(Region::is_coded) {
        return None;
    }
    Some(timing.checked(mix_bytes(&database.log)))
}

/// So many calls in transactions of five.
pub fn run(kind: Kind, count: u64) -> Option<Timing> {
    run_in(kind, count, CALLS, true)
}

/// So many inserts in transactions of five, by an update that keeps no codeword.
pub fn run_uncoded(count: u64) -> Option<Timing> {
    run_in(Kind::Insert, count, CALLS, false)
}

/// So many inserts in transactions of ten: more than a heap region has cells.
pub fn run_tens(count: u64) -> Option<Timing> {
    run_in(Kind::Insert, count, 2 * CALLS, true)
}
