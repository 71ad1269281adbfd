//! Records of the log as bytes, by structs, enums and `match`.
use crate::keys::mix_bytes;
use crate::timing::{timed, Timing};
use std::hint::black_box;

const RECORDS: u64 = 1000;
const VERSION: u8 = 1;

#[derive(Clone, Copy, Debug, PartialEq, Eq)]
pub struct Value {
    bytes: [u8; 40],
    count: u8,
}

impl Value {
    pub fn from_bytes(bytes: &[u8]) -> Option<Value> {
        if bytes.is_empty() || bytes.len() > 40 {
            return None;
        }
        let mut padded = [0; 40];
        padded[..bytes.len()].copy_from_slice(bytes);
        Some(Value {
            bytes: padded,
            count: bytes.len() as u8,
        })
    }

    pub fn bytes(&self) -> &[u8] {
        &self.bytes[..self.count as usize]
    }

    /// The value as five words, padded with zero bytes.
    pub fn words(&self) -> [u64; 5] {
        let mut words = [0; 5];
        for (word, bytes) in words.iter_mut().zip(self.bytes.chunks_exact(8)) {
            *word = u64::from_be_bytes(bytes.try_into().unwrap());
        }
        words
    }
}

#[derive(Clone, Debug, PartialEq, Eq)]
pub enum Op {
    Look,
    Add { place: u64 },
    KillEntry { entry: u8 },
    Put { value: Value },
    Read { cell: u8 },
    Change { cell: u8, value: Value },
    KillCell { cell: u8 },
    FreeCell { cell: u8 },
    ReviveCell { cell: u8 },
    Restore { cell: u8, length: u64, words: [u64; 5] },
    FreeEntry { entry: u8 },
    ReviveEntry { entry: u8 },
}

#[derive(Clone, Debug, PartialEq, Eq)]
pub enum Outcome {
    Found { entry: u8, place: u64 },
    Absent { overflow: bool },
    Added { entry: u8 },
    NoEntry,
    Killed,
    Put { cell: u8 },
    NoCell,
    Value { value: Value },
    Changed,
    NotLive { state: u64 },
    OtherKey { key: u64 },
    OddLength { length: u64 },
    Undone,
}

#[derive(Clone, Debug, PartialEq, Eq)]
pub enum Undo {
    FreeCell { cell: u8 },
    ReviveCell { cell: u8 },
    Restore { cell: u8, length: u64, words: [u64; 5] },
    FreeEntry { entry: u8 },
    ReviveEntry { entry: u8 },
}

#[derive(Clone, Debug, PartialEq, Eq)]
pub struct Block {
    key: u64,
    region: u32,
    op: Op,
    read: u64,
    xor: u64,
    write: u64,
    after: Vec<u64>,
    outcome: Outcome,
    undo: Option<Undo>,
}

#[derive(Clone, Debug, PartialEq, Eq)]
pub enum Call {
    Insert { key: u64, value: Value },
    Update { key: u64, value: Value },
    Delete { key: u64 },
    Get { key: u64 },
}

#[derive(Clone, Debug, PartialEq, Eq)]
pub enum Answer {
    Ok,
    Exists,
    Missing,
    Got { value: Value },
    FullHeap,
    FullIndex,
    Odd { place: u64 },
}

#[derive(Clone, Debug, PartialEq, Eq)]
pub enum Record {
    Format { index: u32, heap: u32 },
    Begin { txn: u64 },
    Op { txn: u64, block: Block },
    Done { txn: u64, call: Call, answer: Answer },
    Commit { txn: u64 },
    Ended { txn: u64 },
    Solo { txn: u64, parent: u64, block: Block },
    AuditBegin,
    AuditClean { begin: u64 },
    AuditFail { begin: u64, regions: Vec<u32> },
    Restarted { rolled_back: Vec<u64>, deleted: Vec<u64> },
    Back { txn: u64, block: Block },
}

pub fn put32(into: &mut Vec<u8>, number: u32) {
    into.extend_from_slice(&number.to_be_bytes());
}

pub fn put64(into: &mut Vec<u8>, number: u64) {
    into.extend_from_slice(&number.to_be_bytes());
}

pub fn put_words(into: &mut Vec<u8>, words: &[u64]) {
    for word in words {
        put64(into, *word);
    }
}

fn put_value(into: &mut Vec<u8>, value: &Value) {
    into.push(value.count);
    into.extend_from_slice(value.bytes());
}

pub fn put_op(into: &mut Vec<u8>, op: &Op) {
    match op {
        Op::Look => into.push(1),
        Op::Add { place } => {
            into.push(2);
            put64(into, *place);
        }
        Op::KillEntry { entry } => into.extend_from_slice(&[3, *entry]),
        Op::Put { value } => {
            into.push(4);
            put_value(into, value);
        }
        Op::Read { cell } => into.extend_from_slice(&[5, *cell]),
        Op::Change { cell, value } => {
            into.extend_from_slice(&[6, *cell]);
            put_value(into, value);
        }
        Op::KillCell { cell } => into.extend_from_slice(&[7, *cell]),
        Op::FreeCell { cell } => into.extend_from_slice(&[8, *cell]),
        Op::ReviveCell { cell } => into.extend_from_slice(&[9, *cell]),
        Op::Restore { cell, length, words } => {
            into.extend_from_slice(&[10, *cell]);
            put64(into, *length);
            put_words(into, words);
        }
        Op::FreeEntry { entry } => into.extend_from_slice(&[11, *entry]),
        Op::ReviveEntry { entry } => into.extend_from_slice(&[12, *entry]),
    }
}

pub fn put_outcome(into: &mut Vec<u8>, outcome: &Outcome) {
    match outcome {
        Outcome::Found { entry, place } => {
            into.extend_from_slice(&[1, *entry]);
            put64(into, *place);
        }
        Outcome::Absent { overflow } => into.extend_from_slice(&[2, *overflow as u8]),
        Outcome::Added { entry } => into.extend_from_slice(&[3, *entry]),
        Outcome::NoEntry => into.push(4),
        Outcome::Killed => into.push(5),
        Outcome::Put { cell } => into.extend_from_slice(&[6, *cell]),
        Outcome::NoCell => into.push(7),
        Outcome::Value { value } => {
            into.push(8);
            put_value(into, value);
        }
        Outcome::Changed => into.push(9),
        Outcome::NotLive { state } => {
            into.push(10);
            put64(into, *state);
        }
        Outcome::OtherKey { key } => {
            into.push(11);
            put64(into, *key);
        }
        Outcome::OddLength { length } => {
            into.push(12);
            put64(into, *length);
        }
        Outcome::Undone => into.push(13),
    }
}

pub fn put_undo(into: &mut Vec<u8>, undo: &Option<Undo>) {
    match undo {
        None => into.push(0),
        Some(Undo::FreeCell { cell }) => into.extend_from_slice(&[1, *cell]),
        Some(Undo::ReviveCell { cell }) => into.extend_from_slice(&[2, *cell]),
        Some(Undo::Restore { cell, length, words }) => {
            into.extend_from_slice(&[3, *cell]);
            put64(into, *length);
            put_words(into, words);
        }
        Some(Undo::FreeEntry { entry }) => into.extend_from_slice(&[4, *entry]),
        Some(Undo::ReviveEntry { entry }) => into.extend_from_slice(&[5, *entry]),
    }
}

fn put_block(into: &mut Vec<u8>, block: &Block) {
    put64(into, block.key);
    put32(into, block.region);
    put_op(into, &block.op);
    put64(into, block.read);
    put64(into, block.xor);
    put64(into, block.write);
    put_words(into, &block.after);
    put_outcome(into, &block.outcome);
    put_undo(into, &block.undo);
}

fn put_call(into: &mut Vec<u8>, call: &Call) {
    match call {
        Call::Insert { key, value } => {
            into.push(1);
            put64(into, *key);
            put_value(into, value);
        }
        Call::Update { key, value } => {
            into.push(2);
            put64(into, *key);
            put_value(into, value);
        }
        Call::Delete { key } => {
            into.push(3);
            put64(into, *key);
        }
        Call::Get { key } => {
            into.push(4);
            put64(into, *key);
        }
    }
}

fn put_answer(into: &mut Vec<u8>, answer: &Answer) {
    match answer {
        Answer::Ok => into.push(1),
        Answer::Exists => into.push(2),
        Answer::Missing => into.push(3),
        Answer::Got { value } => {
            into.push(4);
            put_value(into, value);
        }
        Answer::FullHeap => into.push(5),
        Answer::FullIndex => into.push(6),
        Answer::Odd { place } => {
            into.push(7);
            put64(into, *place);
        }
    }
}

pub fn encode(record: &Record, into: &mut Vec<u8>) {
    match record {
        Record::Format { index, heap } => {
            into.extend_from_slice(&[1, VERSION]);
            put32(into, *index);
            put32(into, *heap);
        }
        Record::Begin { txn } => {
            into.push(2);
            put64(into, *txn);
        }
        Record::Op { txn, block } => {
            into.push(3);
            put64(into, *txn);
            put_block(into, block);
        }
        Record::Done { txn, call, answer } => {
            into.push(4);
            put64(into, *txn);
            put_call(into, call);
            put_answer(into, answer);
        }
        Record::Commit { txn } => {
            into.push(5);
            put64(into, *txn);
        }
        Record::Ended { txn } => {
            into.push(6);
            put64(into, *txn);
        }
        Record::Solo { txn, parent, block } => {
            into.push(7);
            put64(into, *txn);
            put64(into, *parent);
            put_block(into, block);
        }
        Record::AuditBegin => into.push(8),
        Record::AuditClean { begin } => {
            into.push(9);
            put64(into, *begin);
        }
        Record::AuditFail { begin, regions } => {
            into.push(10);
            put64(into, *begin);
            put32(into, regions.len() as u32);
            for region in regions {
                put32(into, *region);
            }
        }
        Record::Restarted {
            rolled_back,
            deleted,
        } => {
            into.push(11);
            put32(into, rolled_back.len() as u32);
            put_words(into, rolled_back);
            put32(into, deleted.len() as u32);
            put_words(into, deleted);
        }
        Record::Back { txn, block } => {
            into.push(12);
            put64(into, *txn);
            put_block(into, block);
        }
    }
}

/// Takes fields from the front of a slice.
struct Reader<'a> {
    rest: &'a [u8],
}

impl<'a> Reader<'a> {
    fn take(&mut self, count: usize) -> Option<&'a [u8]> {
        let (front, rest) = self.rest.split_at_checked(count)?;
        self.rest = rest;
        Some(front)
    }

    fn byte(&mut self) -> Option<u8> {
        let (byte, rest) = self.rest.split_first()?;
        self.rest = rest;
        Some(*byte)
    }

    fn number32(&mut self) -> Option<u32> {
        let (front, rest) = self.rest.split_first_chunk()?;
        self.rest = rest;
        Some(u32::from_be_bytes(*front))
    }

    fn number64(&mut self) -> Option<u64> {
        let (front, rest) = self.rest.split_first_chunk()?;
        self.rest = rest;
        Some(u64::from_be_bytes(*front))
    }

    fn cell(&mut self) -> Option<u8> {
        self.byte().filter(|cell| (1..=7).contains(cell))
    }

    fn entry(&mut self) -> Option<u8> {
        self.byte().filter(|entry| *entry <= 20)
    }

    fn flag(&mut self) -> Option<bool> {
        match self.byte()? {
            0 => Some(false),
            1 => Some(true),
            _ => None,
        }
    }

    fn value(&mut self) -> Option<Value> {
        let length = self.byte()?;
        Value::from_bytes(self.take(length as usize)?)
    }

    fn five(&mut self) -> Option<[u64; 5]> {
        let mut words = [0; 5];
        for word in &mut words {
            *word = self.number64()?;
        }
        Some(words)
    }

    fn op(&mut self) -> Option<Op> {
        Some(match self.byte()? {
            1 => Op::Look,
            2 => Op::Add {
                place: self.number64()?,
            },
            3 => Op::KillEntry {
                entry: self.entry()?,
            },
            4 => Op::Put {
                value: self.value()?,
            },
            5 => Op::Read { cell: self.cell()? },
            6 => Op::Change {
                cell: self.cell()?,
                value: self.value()?,
            },
            7 => Op::KillCell { cell: self.cell()? },
            8 => Op::FreeCell { cell: self.cell()? },
            9 => Op::ReviveCell { cell: self.cell()? },
            10 => Op::Restore {
                cell: self.cell()?,
                length: self.number64()?,
                words: self.five()?,
            },
            11 => Op::FreeEntry {
                entry: self.entry()?,
            },
            12 => Op::ReviveEntry {
                entry: self.entry()?,
            },
            _ => return None,
        })
    }

    fn outcome(&mut self) -> Option<Outcome> {
        Some(match self.byte()? {
            1 => Outcome::Found {
                entry: self.entry()?,
                place: self.number64()?,
            },
            2 => Outcome::Absent {
                overflow: self.flag()?,
            },
            3 => Outcome::Added {
                entry: self.entry()?,
            },
            4 => Outcome::NoEntry,
            5 => Outcome::Killed,
            6 => Outcome::Put { cell: self.cell()? },
            7 => Outcome::NoCell,
            8 => Outcome::Value {
                value: self.value()?,
            },
            9 => Outcome::Changed,
            10 => Outcome::NotLive {
                state: self.number64()?,
            },
            11 => Outcome::OtherKey {
                key: self.number64()?,
            },
            12 => Outcome::OddLength {
                length: self.number64()?,
            },
            13 => Outcome::Undone,
            _ => return None,
        })
    }

    fn undo(&mut self) -> Option<Option<Undo>> {
        Some(match self.byte()? {
            0 => None,
            1 => Some(Undo::FreeCell { cell: self.cell()? }),
            2 => Some(Undo::ReviveCell { cell: self.cell()? }),
            3 => Some(Undo::Restore {
                cell: self.cell()?,
                length: self.number64()?,
                words: self.five()?,
            }),
            4 => Some(Undo::FreeEntry {
                entry: self.entry()?,
            }),
            5 => Some(Undo::ReviveEntry {
                entry: self.entry()?,
            }),
            _ => return None,
        })
    }

    fn call(&mut self) -> Option<Call> {
        Some(match self.byte()? {
            1 => Call::Insert {
                key: self.number64()?,
                value: self.value()?,
            },
            2 => Call::Update {
                key: self.number64()?,
                value: self.value()?,
            },
            3 => Call::Delete {
                key: self.number64()?,
            },
            4 => Call::Get {
                key: self.number64()?,
            },
            _ => return None,
        })
    }

    fn answer(&mut self) -> Option<Answer> {
        Some(match self.byte()? {
            1 => Answer::Ok,
            2 => Answer::Exists,
            3 => Answer::Missing,
            4 => Answer::Got {
                value: self.value()?,
            },
            5 => Answer::FullHeap,
            6 => Answer::FullIndex,
            7 => Answer::Odd {
                place: self.number64()?,
            },
            _ => return None,
        })
    }

    /// No more room is taken than the bytes that are left can fill.
    fn words(&mut self, count: u32) -> Option<Vec<u64>> {
        let mut words = Vec::with_capacity((count as usize).min(self.rest.len() / 8));
        for _ in 0..count {
            words.push(self.number64()?);
        }
        Some(words)
    }

    fn block(&mut self) -> Option<Block> {
        let key = self.number64()?;
        let region = self.number32()?;
        let op = self.op()?;
        let read = self.number64()?;
        let xor = self.number64()?;
        let write = self.number64()?;
        let block = Block {
            key,
            region,
            op,
            read,
            xor,
            write,
            after: self.words(write.count_ones())?,
            outcome: self.outcome()?,
            undo: self.undo()?,
        };
        fits(&block).then_some(block)
    }

    fn numbers(&mut self) -> Option<Vec<u64>> {
        let count = self.number32()?;
        let numbers = self.words(count)?;
        numbers.is_sorted_by(|a, b| a < b).then_some(numbers)
    }

    fn regions(&mut self) -> Option<Vec<u32>> {
        let count = self.number32()?;
        let regions: Vec<u32> = (0..count).map(|_| self.number32()).collect::<Option<_>>()?;
        (!regions.is_empty() && regions.is_sorted_by(|a, b| a < b)).then_some(regions)
    }

    fn record(&mut self) -> Option<Record> {
        Some(match self.byte()? {
            1 => {
                if self.byte()? != VERSION {
                    return None;
                }
                Record::Format {
                    index: self.number32().filter(|n| (1..=32_768).contains(n))?,
                    heap: self.number32().filter(|n| (1..=65_536).contains(n))?,
                }
            }
            2 => Record::Begin {
                txn: self.number64()?,
            },
            3 => Record::Op {
                txn: self.number64()?,
                block: self.block().filter(|block| is_forward(&block.op))?,
            },
            4 => {
                let txn = self.number64()?;
                let call = self.call()?;
                let answer = self.answer()?;
                if !is_answer_of(&call, &answer) {
                    return None;
                }
                Record::Done { txn, call, answer }
            }
            5 => Record::Commit {
                txn: self.number64()?,
            },
            6 => Record::Ended {
                txn: self.number64()?,
            },
            7 => Record::Solo {
                txn: self.number64()?,
                parent: self.number64()?,
                block: self.block().filter(|block| is_solo(&block.op))?,
            },
            8 => Record::AuditBegin,
            9 => Record::AuditClean {
                begin: self.number64()?,
            },
            10 => Record::AuditFail {
                begin: self.number64()?,
                regions: self.regions()?,
            },
            11 => Record::Restarted {
                rolled_back: self.numbers()?,
                deleted: self.numbers()?,
            },
            12 => Record::Back {
                txn: self.number64()?,
                block: self.block().filter(|block| !is_forward(&block.op))?,
            },
            _ => return None,
        })
    }
}

fn is_forward(op: &Op) -> bool {
    matches!(
        op,
        Op::Look
            | Op::Add { .. }
            | Op::KillEntry { .. }
            | Op::Put { .. }
            | Op::Read { .. }
            | Op::Change { .. }
            | Op::KillCell { .. }
    )
}

fn is_solo(op: &Op) -> bool {
    matches!(op, Op::FreeCell { .. } | Op::FreeEntry { .. })
}

fn is_answer_of(call: &Call, answer: &Answer) -> bool {
    match call {
        Call::Insert { .. } => matches!(
            answer,
            Answer::Ok | Answer::Exists | Answer::FullHeap | Answer::FullIndex
        ),
        Call::Update { .. } | Call::Delete { .. } => {
            matches!(answer, Answer::Ok | Answer::Missing | Answer::Odd { .. })
        }
        Call::Get { .. } => matches!(
            answer,
            Answer::Got { .. } | Answer::Missing | Answer::Odd { .. }
        ),
    }
}

fn is_outcome_of(op: &Op, outcome: &Outcome) -> bool {
    use Outcome::*;
    match op {
        Op::Look => matches!(outcome, Found { .. } | Absent { .. }),
        Op::Add { .. } => matches!(outcome, Added { .. } | NoEntry),
        Op::KillEntry { .. } => matches!(outcome, NotLive { .. } | OtherKey { .. } | Killed),
        Op::Put { .. } => matches!(outcome, Put { .. } | NoCell),
        Op::Read { .. } => matches!(
            outcome,
            NotLive { .. } | OtherKey { .. } | OddLength { .. } | Value { .. }
        ),
        Op::Change { .. } => matches!(
            outcome,
            NotLive { .. } | OtherKey { .. } | OddLength { .. } | Changed
        ),
        Op::KillCell { .. } => matches!(
            outcome,
            NotLive { .. } | OtherKey { .. } | OddLength { .. } | Killed
        ),
        _ => matches!(outcome, Undone),
    }
}

fn undoes(op: &Op, outcome: &Outcome, undo: &Option<Undo>) -> bool {
    match (op, outcome) {
        (Op::Add { .. }, Outcome::Added { entry }) => {
            matches!(undo, Some(Undo::FreeEntry { entry: freed }) if freed == entry)
        }
        (Op::KillEntry { entry }, Outcome::Killed) => {
            matches!(undo, Some(Undo::ReviveEntry { entry: revived }) if revived == entry)
        }
        (Op::Put { .. }, Outcome::Put { cell }) => {
            matches!(undo, Some(Undo::FreeCell { cell: freed }) if freed == cell)
        }
        (Op::Change { cell, .. }, Outcome::Changed) => {
            matches!(undo, Some(Undo::Restore { cell: restored, .. }) if restored == cell)
        }
        (Op::KillCell { cell }, Outcome::Killed) => {
            matches!(undo, Some(Undo::ReviveCell { cell: revived }) if revived == cell)
        }
        _ => undo.is_none(),
    }
}

/// Whether the masks lie one within the other, and outcome and undo belong to the operation.
fn fits(block: &Block) -> bool {
    block.write & !block.read == 0
        && is_outcome_of(&block.op, &block.outcome)
        && undoes(&block.op, &block.outcome, &block.undo)
}

/// The record at the front of the bytes, and how many bytes it has.
pub fn decode(bytes: &[u8]) -> Option<(Record, usize)> {
    let mut reader = Reader { rest: bytes };
    let record = reader.record()?;
    Some((record, bytes.len() - reader.rest.len()))
}

/// The set of `count` words from `first` on.
fn bits(first: u64, count: u64) -> u64 {
    ((1 << count) - 1) << first
}

/// The block of a put, a read or a change of three bytes, in one of the cells 1 to 7.
fn block(place: u64, value: Value) -> Block {
    let cell = 1 + place % 7;
    let first = 8 * cell;
    let key = 1000 + cell;
    let words = value.words();
    let number = cell as u8;
    // The state, key, length and words of the cell.
    let whole = [1, key, 3, words[0], words[1], words[2], words[3], words[4]];
    match place % 3 {
        0 => Block {
            key,
            region: 7,
            op: Op::Put { value },
            read: (1..cell).fold(bits(first, 8), |mask, full| mask | 1 << (8 * full)),
            xor: (cell - 1) % 2,
            write: bits(first, 8),
            after: whole.to_vec(),
            outcome: Outcome::Put { cell: number },
            undo: Some(Undo::FreeCell { cell: number }),
        },
        1 => Block {
            key,
            region: 7,
            op: Op::Read { cell: number },
            read: bits(first, 8),
            xor: whole.iter().fold(0, |all, word| all ^ word),
            write: 0,
            after: Vec::new(),
            outcome: Outcome::Value { value },
            undo: None,
        },
        _ => Block {
            key,
            region: 7,
            op: Op::Change {
                cell: number,
                value,
            },
            read: bits(first, 8),
            xor: whole.iter().fold(0, |all, word| all ^ word),
            write: bits(first + 2, 6),
            after: whole[2..].to_vec(),
            outcome: Outcome::Changed,
            undo: Some(Undo::Restore {
                cell: number,
                length: 3,
                words,
            }),
        },
    }
}

fn encode_all(records: &[Record], bytes: &mut Vec<u8>) {
    for record in records {
        encode(record, bytes);
    }
}

/// How many new words the blocks have.
fn decode_all(bytes: &[u8]) -> Option<u64> {
    let mut words = 0;
    let mut rest = bytes;
    while !rest.is_empty() {
        let (record, length) = decode(rest)?;
        if let Record::Op { block, .. } = black_box(&record) {
            words += block.after.len() as u64;
        }
        rest = &rest[length..];
    }
    Some(words)
}

/// Encodes and decodes so many records of blocks, a thousand at a time.
pub fn run(count: u64) -> Option<Timing> {
    let value = Value::from_bytes(b"abc")?;
    let records: Vec<Record> = (0..RECORDS)
        .map(|place| Record::Op {
            txn: place,
            block: block(place, value),
        })
        .collect();
    let mut bytes = Vec::new();
    let mut words = 0;
    let passes = count / RECORDS;
    let timing = timed(passes * RECORDS, "records", || {
        for _ in 0..passes {
            bytes.clear();
            encode_all(&records, &mut bytes);
            words += decode_all(&bytes)?;
        }
        Some(())
    })?;
    (words > 0).then_some(timing.checked(mix_bytes(&bytes).wrapping_add(words)))
}
