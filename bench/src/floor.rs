//! The floor of the whole program: a generated round over a hash map, which logs records of the same kinds and lengths, and
//! makes the same calls on files, one client after another. It keeps no regions and no codewords, takes no locks, and looks
//! for no cell or entry: what a log's block tells of its region's words is made up of the key.
use crate::codec::{self, Answer, Call, Op, Outcome, Record, Undo, Value};
use crate::keys::scattered;
use std::collections::HashMap;
use std::fs::{self, File, OpenOptions};
use std::io::{self, BufReader, Read};
use std::os::unix::fs::FileExt;
use std::path::Path;

const OPEN: u8 = 0xa5;
const CLOSED: u8 = 0;
const MULTIPLIER: u64 = 6_364_136_223_846_793_005;
const INCREMENT: u64 = 1_442_695_040_888_963_407;

/// How many bytes of a file are written or read at once.
const PART: usize = 65_536;

/// Where a record stands.
#[derive(Clone, Copy)]
struct Kept {
    value: Value,
    place: u64,
    entry: u8,
}

/// What is freed behind a transaction that deleted a record.
struct Freed {
    key: u64,
    place: u64,
    entry: u8,
}

/// The four files of a database.
struct Files {
    log: File,
    image: File,
    anchor: File,
    gate: u64,
}

fn make(folder: &Path, name: &str) -> io::Result<File> {
    OpenOptions::new()
        .read(true)
        .write(true)
        .create_new(true)
        .open(folder.join(name))
}

fn gated(file: &File, gate: u64, bytes: &[u8]) -> io::Result<()> {
    file.write_all_at(bytes, gate + 1)?;
    file.sync_data()?;
    file.write_all_at(&[OPEN], gate)?;
    file.sync_data()
}

impl Files {
    fn make(folder: &Path) -> io::Result<Files> {
        let files = Files {
            log: make(folder, "dali.log")?,
            image: make(folder, "dali.a")?,
            anchor: make(folder, "dali.anchor")?,
            gate: 0,
        };
        make(folder, "dali.b")?;
        File::open(folder)?.sync_all()?;
        Ok(files)
    }

    /// Adds a batch: these records, behind room for their length.
    fn add(&mut self, batch: &mut Vec<u8>) -> io::Result<()> {
        let length = batch.len() as u32 - 4;
        batch[..4].copy_from_slice(&length.to_be_bytes());
        batch.push(CLOSED);
        gated(&self.log, self.gate, batch)?;
        self.gate += batch.len() as u64;
        batch.truncate(4);
        Ok(())
    }
}

struct Floor {
    index: u64,
    heap: u64,
    map: HashMap<u64, Kept>,
    next: u64,
    batch: Vec<u8>,
}

impl Floor {
    /// Spells a block.
    fn block(
        &mut self,
        head: &[u64],
        key: u64,
        region: u64,
        op: &Op,
        after: &[u64],
        outcome: &Outcome,
        undo: &Option<Undo>,
    ) {
        self.batch.push(if head.len() == 1 { 3 } else { 7 });
        codec::put_words(&mut self.batch, head);
        codec::put64(&mut self.batch, key);
        codec::put32(&mut self.batch, region as u32);
        codec::put_op(&mut self.batch, op);
        codec::put64(&mut self.batch, key);
        codec::put64(&mut self.batch, scattered(key));
        codec::put64(&mut self.batch, region);
        codec::put_words(&mut self.batch, after);
        codec::put_outcome(&mut self.batch, outcome);
        codec::put_undo(&mut self.batch, undo);
    }

    fn done(&mut self, txn: u64, call: Call, answer: Answer) {
        codec::encode(&Record::Done { txn, call, answer }, &mut self.batch);
    }

    /// An insert of a key that is absent.
    fn insert(&mut self, txn: u64, key: u64, value: Value) {
        let home = key % self.index;
        let region = self.index + txn % self.heap;
        let (cell, entry) = ((1 + txn % 7) as u8, (txn % 21) as u8);
        let place = 8 * region + u64::from(cell);
        let [a, b, c, d, e] = value.words();
        let cells = [1, key, value.bytes().len() as u64, a, b, c, d, e];
        let absent = Outcome::Absent { overflow: false };
        self.block(&[txn], key, home, &Op::Look, &[], &absent, &None);
        let undo = Some(Undo::FreeCell { cell });
        self.block(
            &[txn],
            key,
            region,
            &Op::Put { value },
            &cells,
            &Outcome::Put { cell },
            &undo,
        );
        let undo = Some(Undo::FreeEntry { entry });
        self.block(
            &[txn],
            key,
            home,
            &Op::Add { place },
            &[1, key, place],
            &Outcome::Added { entry },
            &undo,
        );
        self.map.insert(key, Kept { value, place, entry });
        self.done(txn, Call::Insert { key, value }, Answer::Ok);
    }

    /// Looks for a key that may be absent.
    fn look(&mut self, txn: u64, key: u64) -> Option<Kept> {
        let home = key % self.index;
        let kept = self.map.get(&key).copied();
        let outcome = match kept {
            Some(Kept { entry, place, .. }) => Outcome::Found { entry, place },
            None => Outcome::Absent { overflow: false },
        };
        self.block(&[txn], key, home, &Op::Look, &[], &outcome, &None);
        kept
    }

    fn update(&mut self, txn: u64, key: u64, value: Value) {
        let call = Call::Update { key, value };
        let Some(kept) = self.look(txn, key) else {
            return self.done(txn, call, Answer::Missing);
        };
        let cell = (kept.place % 8) as u8;
        let [a, b, c, d, e] = value.words();
        let after = [value.bytes().len() as u64, a, b, c, d, e];
        let undo = Some(Undo::Restore {
            cell,
            length: kept.value.bytes().len() as u64,
            words: kept.value.words(),
        });
        self.block(
            &[txn],
            key,
            kept.place / 8,
            &Op::Change { cell, value },
            &after,
            &Outcome::Changed,
            &undo,
        );
        self.map.insert(key, Kept { value, ..kept });
        self.done(txn, call, Answer::Ok);
    }

    fn get(&mut self, txn: u64, key: u64) {
        let call = Call::Get { key };
        let Some(kept) = self.look(txn, key) else {
            return self.done(txn, call, Answer::Missing);
        };
        let cell = (kept.place % 8) as u8;
        let value = kept.value;
        self.block(
            &[txn],
            key,
            kept.place / 8,
            &Op::Read { cell },
            &[],
            &Outcome::Value { value },
            &None,
        );
        self.done(txn, call, Answer::Got { value });
    }

    fn delete(&mut self, txn: u64, key: u64) -> Option<Freed> {
        let call = Call::Delete { key };
        let Some(Kept { place, entry, .. }) = self.look(txn, key) else {
            self.done(txn, call, Answer::Missing);
            return None;
        };
        let cell = (place % 8) as u8;
        let undo = Some(Undo::ReviveCell { cell });
        self.block(
            &[txn],
            key,
            place / 8,
            &Op::KillCell { cell },
            &[2],
            &Outcome::Killed,
            &undo,
        );
        let undo = Some(Undo::ReviveEntry { entry });
        self.block(
            &[txn],
            key,
            key % self.index,
            &Op::KillEntry { entry },
            &[2],
            &Outcome::Killed,
            &undo,
        );
        self.map.remove(&key);
        self.done(txn, call, Answer::Ok);
        Some(Freed { key, place, entry })
    }

    /// What frees the cell and the entry of a record that a committed transaction deleted.
    fn free(&mut self, txn: u64, freed: Freed) {
        let Freed { key, place, entry } = freed;
        let cell = (place % 8) as u8;
        self.next += 2;
        self.block(
            &[self.next - 2, txn],
            key,
            place / 8,
            &Op::FreeCell { cell },
            &[0],
            &Outcome::Undone,
            &None,
        );
        self.block(
            &[self.next - 1, txn],
            key,
            key % self.index,
            &Op::FreeEntry { entry },
            &[0],
            &Outcome::Undone,
            &None,
        );
    }

    /// One transaction of a client, for which this number was drawn. Its commit is flushed, or waits for a later one's flush.
    fn transaction(&mut self, files: &mut Files, key: u64, is_first: bool, drawn: u64, flushes: bool) -> Option<()> {
        let txn = self.next;
        self.next += 1;
        let value = Value::from_bytes(format!("v{}", drawn % 1_000_000).as_bytes())?;
        codec::encode(&Record::Begin { txn }, &mut self.batch);
        self.insert(txn, key, value);
        let mut freed = None;
        if !is_first {
            match drawn % 4 {
                1 => self.update(txn, key - 1, value),
                2 => freed = self.delete(txn, key - 1),
                3 => self.get(txn, key - 1),
                _ => {}
            }
        }
        codec::encode(&Record::Commit { txn }, &mut self.batch);
        if flushes {
            files.add(&mut self.batch).ok()?;
        }
        if let Some(freed) = freed {
            self.free(txn, freed);
        }
        codec::encode(&Record::Ended { txn }, &mut self.batch);
        Some(())
    }
}

/// What a restart behind the round does: it reads the log once, writes an image and its record, and counts the checkpoint.
fn restart(files: &mut Files, regions: u64, map: &HashMap<u64, Kept>) -> Option<()> {
    let mut part = vec![0; PART];
    let mut at = 0;
    while at < files.gate {
        let count = files.log.read_at(&mut part, at).ok()?;
        if count == 0 {
            break;
        }
        at += count as u64;
    }
    let mut batch = vec![0; 4];
    let restarted = Record::Restarted {
        rolled_back: Vec::new(),
        deleted: Vec::new(),
    };
    codec::encode(&restarted, &mut batch);
    files.add(&mut batch).ok()?;
    let length = 64 + 512 * regions + 4;
    let mut image = Vec::with_capacity(PART);
    let mut written = 0;
    let mut keys = map.iter().cycle();
    while written < length {
        image.clear();
        while image.len() < PART {
            let (key, kept) = keys.next()?;
            codec::put64(&mut image, *key);
            codec::put64(&mut image, kept.place);
            codec::put_words(&mut image, &kept.value.words());
        }
        let count = (length - written).min(PART as u64);
        files.image.write_all_at(&image[..count as usize], written).ok()?;
        written += count;
    }
    files.image.sync_data().ok()?;
    gated(&files.anchor, 0, &[CLOSED]).ok()
}

/// What the words `gen CLIENTS SIZE NUMBER` do, in a folder, where so many flushes serve all commits. The text is what `dali`
/// prints.
pub fn run(clients: u64, size: u64, number: u64, flushes: u64, folder: &Path) -> Option<String> {
    let mut files = Files::make(folder).ok()?;
    let mut floor = Floor {
        index: clients * size / 10 + 1,
        heap: clients * size / 5 + 1,
        map: HashMap::new(),
        next: 1,
        batch: vec![0; 4],
    };
    let format = Record::Format {
        index: floor.index as u32,
        heap: floor.heap as u32,
    };
    codec::encode(&format, &mut floor.batch);
    files.add(&mut floor.batch).ok()?;
    files.anchor.write_all_at(&[CLOSED], 0).ok()?;
    files.anchor.sync_data().ok()?;
    let count = clients * size;
    let mut made = 0;
    for client in 1..=clients {
        let mut state = number ^ client;
        for place in 0..size {
            state = state.wrapping_mul(MULTIPLIER).wrapping_add(INCREMENT);
            let key = client * 1_000_000 + place;
            let flushed = made * flushes / count;
            made += 1;
            floor.transaction(&mut files, key, place == 0, state >> 33, made * flushes / count > flushed)?;
        }
    }
    restart(&mut files, floor.index + floor.heap, &floor.map)?;
    let keys: u64 = floor.map.keys().fold(0, |sum, key| sum.wrapping_add(*key));
    Some(format!(
        "clients {clients}\ntransactions {}\nrecords {}\nkeys {keys}\n",
        count,
        floor.map.len()
    ))
}

/// How many batches a folder's log has. The log is read in parts, so that little of it becomes resident: what this program has
/// resident is counted in each that it starts.
pub fn batches(folder: &Path) -> Option<u64> {
    let mut log = BufReader::new(File::open(folder.join("dali.log")).ok()?);
    let mut count = 0;
    loop {
        let mut gate = [0];
        log.read_exact(&mut gate).ok()?;
        if gate == [CLOSED] {
            return Some(count);
        }
        let mut length = [0; 4];
        log.read_exact(&mut length).ok()?;
        log.seek_relative(i64::from(u32::from_be_bytes(length))).ok()?;
        count += 1;
    }
}

/// The files of a database are read once. The count is how many bytes they have.
pub fn read(folder: &Path) -> Option<u64> {
    let mut count = 0;
    for name in ["dali.log", "dali.a", "dali.b", "dali.anchor"] {
        count += fs::read(folder.join(name)).ok()?.len() as u64;
    }
    Some(count)
}
