//! A script, and a parser of scripts.
// What is parsed is only handed on.
#![allow(dead_code)]
use crate::keys::mix_bytes;
use crate::timing::{timed, Timing};
use std::fmt::Write;
use std::hint::black_box;

/// How many bytes a script has at most.
const LIMIT: usize = 1 << 20;

#[derive(Clone, Copy)]
struct Value {
    bytes: [u8; 40],
    count: u8,
}

enum ClientCommand {
    Begin,
    Insert { key: u64, value: Value },
    Get { key: u64 },
    Commit,
    Poke { region: u32, word: u8, mask: u64 },
    Audit,
}

struct Block {
    client: u32,
    commands: Vec<ClientCommand>,
}

enum Command {
    Size { index: u32, heap: u32 },
    Open,
    Round { blocks: Vec<Block> },
    Poke { region: u32, word: u8, mask: u64 },
    Audit,
    Crash { choice: u32 },
    Restart,
    Show,
    Next,
    Fuse { passes: u64 },
}

#[derive(Debug, PartialEq, Eq)]
enum Kind {
    SizeOrOpenWanted,
    Unknown,
    Place,
    Arguments,
    Number,
    Value,
    Unended,
}

#[derive(Debug)]
struct ScriptError {
    line: u64,
    kind: Kind,
}

#[derive(Clone, Copy, PartialEq, Eq)]
enum Place {
    Start,
    Outside,
    InBlock,
    InTransaction,
}

fn number(text: &[u8]) -> Option<u64> {
    if text.is_empty() || text.len() > 20 {
        return None;
    }
    text.iter().try_fold(0u64, |number, byte| {
        let digit = byte.checked_sub(b'0').filter(|digit| *digit < 10)?;
        number.checked_mul(10)?.checked_add(digit as u64)
    })
}

fn ranged(text: &[u8], low: u64, high: u64) -> Result<u64, Kind> {
    number(text)
        .filter(|number| (low..=high).contains(number))
        .ok_or(Kind::Number)
}

fn hex_digit(byte: u8) -> Option<u8> {
    (byte as char).to_digit(16).map(|digit| digit as u8)
}

fn mask(text: &[u8]) -> Option<u64> {
    if text.is_empty() || text.len() > 16 {
        return None;
    }
    let mask = text.iter().try_fold(0, |mask, byte| {
        Some(16 * mask + hex_digit(*byte)? as u64)
    })?;
    (mask != 0).then_some(mask)
}

fn value(text: &[u8]) -> Option<Value> {
    let mut bytes = [0; 40];
    let mut count = 0;
    let mut rest = text;
    while let Some(first) = rest.first() {
        let (byte, behind) = match rest {
            [b'\\', b'x', high, low, behind @ ..] => {
                (16 * hex_digit(*high)? + hex_digit(*low)?, behind)
            }
            [b'\\', ..] => return None,
            [0x21..=0x7e, behind @ ..] => (*first, behind),
            _ => return None,
        };
        *bytes.get_mut(count)? = byte;
        count += 1;
        rest = behind;
    }
    (count > 0).then_some(Value {
        bytes,
        count: count as u8,
    })
}

fn poke(region: &[u8], word: &[u8], text: &[u8]) -> Result<(u32, u8, u64), Kind> {
    Ok((
        ranged(region, 0, u32::MAX as u64)? as u32,
        ranged(word, 0, 63)? as u8,
        mask(text).ok_or(Kind::Number)?,
    ))
}

struct Parser {
    place: Place,
    opened: u64,
    client: u32,
    clients: Vec<u32>,
    blocks: Vec<Block>,
    steps: Vec<ClientCommand>,
    commands: Vec<Command>,
}

impl Parser {
    fn new() -> Parser {
        Parser {
            place: Place::Start,
            opened: 0,
            client: 0,
            clients: Vec::new(),
            blocks: Vec::new(),
            steps: Vec::new(),
            commands: Vec::new(),
        }
    }

    fn step(&mut self, command: ClientCommand) {
        self.steps.push(command);
    }

    fn single(&mut self, command: Command) {
        self.end_round();
        self.commands.push(command);
    }

    fn end_round(&mut self) {
        self.clients.clear();
        if !self.blocks.is_empty() {
            self.commands.push(Command::Round {
                blocks: std::mem::take(&mut self.blocks),
            });
        }
    }

    fn is_in_block(&self) -> bool {
        matches!(self.place, Place::InBlock | Place::InTransaction)
    }

    fn at(&self, place: Place) -> Result<(), Kind> {
        if self.place == place {
            Ok(())
        } else {
            Err(Kind::Place)
        }
    }

    fn between_calls(&self) -> Result<(), Kind> {
        match self.place {
            Place::Outside | Place::InBlock => Ok(()),
            _ => Err(Kind::Place),
        }
    }

    fn line(&mut self, line: u64, words: &[&[u8]]) -> Result<(), Kind> {
        let [name, arguments @ ..] = words else {
            return Ok(());
        };
        if self.place == Place::Start && *name != b"size" && *name != b"open" {
            return Err(Kind::SizeOrOpenWanted);
        }
        match (*name, arguments) {
            (b"size", _) => {
                self.at(Place::Start)?;
                let [index, heap] = arguments else {
                    return Err(Kind::Arguments);
                };
                let index = ranged(index, 1, 32_768)? as u32;
                let heap = ranged(heap, 1, 65_536)? as u32;
                self.single(Command::Size { index, heap });
                self.place = Place::Outside;
            }
            (b"open", []) => {
                self.at(Place::Start)?;
                self.single(Command::Open);
                self.place = Place::Outside;
            }
            (b"client", _) => {
                if self.place == Place::Outside && !self.clients.is_empty() {
                    return Err(Kind::Unknown);
                }
                self.at(Place::Outside)?;
                let [number] = arguments else {
                    return Err(Kind::Arguments);
                };
                self.client = ranged(number, 1, 64)? as u32;
                self.clients.push(self.client);
                self.opened = line;
                self.place = Place::InBlock;
            }
            (b"end", []) => {
                if self.place == Place::InTransaction {
                    return Err(Kind::Unknown);
                }
                self.at(Place::InBlock)?;
                self.blocks.push(Block {
                    client: self.client,
                    commands: std::mem::take(&mut self.steps),
                });
                self.place = Place::Outside;
            }
            (b"begin", []) => {
                self.at(Place::InBlock)?;
                self.step(ClientCommand::Begin);
                self.place = Place::InTransaction;
            }
            (b"insert", _) => {
                self.at(Place::InTransaction)?;
                let [key, text] = arguments else {
                    return Err(Kind::Arguments);
                };
                let key = number(key).ok_or(Kind::Number)?;
                let value = value(text).ok_or(Kind::Value)?;
                self.step(ClientCommand::Insert { key, value });
            }
            (b"get", _) => {
                self.at(Place::InTransaction)?;
                let [key] = arguments else {
                    return Err(Kind::Arguments);
                };
                let key = number(key).ok_or(Kind::Number)?;
                self.step(ClientCommand::Get { key });
            }
            (b"commit", []) => {
                self.at(Place::InTransaction)?;
                self.step(ClientCommand::Commit);
                self.place = Place::InBlock;
            }
            (b"poke", _) => {
                self.between_calls()?;
                let [region, word, text] = arguments else {
                    return Err(Kind::Arguments);
                };
                let (region, word, mask) = poke(region, word, text)?;
                if self.is_in_block() {
                    self.step(ClientCommand::Poke { region, word, mask });
                } else {
                    self.single(Command::Poke { region, word, mask });
                }
            }
            (b"audit", []) => {
                self.between_calls()?;
                if self.is_in_block() {
                    self.step(ClientCommand::Audit);
                } else {
                    self.single(Command::Audit);
                }
            }
            (b"crash", _) => {
                self.at(Place::Outside)?;
                let [choice] = arguments else {
                    return Err(Kind::Arguments);
                };
                let choice = ranged(choice, 0, 1_000_000)? as u32;
                self.single(Command::Crash { choice });
            }
            (b"restart", []) => {
                self.at(Place::Outside)?;
                self.single(Command::Restart);
            }
            (b"show", []) => {
                self.at(Place::Outside)?;
                self.single(Command::Show);
            }
            (b"next", []) => {
                self.at(Place::Outside)?;
                self.single(Command::Next);
            }
            (b"fuse", _) => {
                self.at(Place::Outside)?;
                let [passes] = arguments else {
                    return Err(Kind::Arguments);
                };
                let passes = ranged(passes, 0, 1_000_000_000)?;
                self.single(Command::Fuse { passes });
            }
            (b"open" | b"end" | b"begin" | b"commit" | b"audit" | b"restart" | b"show" | b"next", _) => {
                return Err(Kind::Arguments);
            }
            _ => return Err(Kind::Unknown),
        }
        Ok(())
    }

    fn finish(mut self, line: u64) -> Result<Vec<Command>, ScriptError> {
        match self.place {
            Place::Start => Err(ScriptError {
                line,
                kind: Kind::SizeOrOpenWanted,
            }),
            Place::Outside => {
                self.end_round();
                Ok(self.commands)
            }
            Place::InBlock | Place::InTransaction => Err(ScriptError {
                line: self.opened,
                kind: Kind::Unended,
            }),
        }
    }
}

fn parse(bytes: &[u8]) -> Result<Vec<Command>, ScriptError> {
    let mut parser = Parser::new();
    let mut words = Vec::new();
    let mut lines = 0;
    for text in bytes.split(|byte| *byte == b'\n') {
        lines += 1;
        if text.first() == Some(&b'#') {
            continue;
        }
        words.clear();
        words.extend(
            text.split(|byte| matches!(byte, b' ' | b'\t' | b'\r'))
                .filter(|word| !word.is_empty()),
        );
        if let Err(kind) = parser.line(lines, &words) {
            return Err(ScriptError { line: lines, kind });
        }
    }
    parser.finish(lines)
}

/// Rounds of one client, each with a transaction of ten inserts and a get, up to the limit.
fn text(limit: usize) -> String {
    let mut text = String::from("size 1024 2048\n");
    let mut round = String::new();
    let mut key = 0;
    loop {
        round.clear();
        round.push_str("client 1\nbegin\n");
        for _ in 0..10 {
            key += 1;
            let _ = writeln!(round, "insert {key} hello\\x20world");
        }
        let _ = writeln!(round, "get {key}\ncommit\nend\nnext");
        if text.len() + round.len() > limit {
            return text;
        }
        text.push_str(&round);
    }
}

/// How many commands there are, with those of the blocks.
fn commands_in(script: &[Command]) -> u64 {
    let in_blocks = |command: &Command| match command {
        Command::Round { blocks } => blocks.iter().map(|block| block.commands.len() as u64).sum(),
        _ => 0,
    };
    script.len() as u64 + script.iter().map(in_blocks).sum::<u64>()
}

/// A script of 1 MiB is parsed, so many times.
pub fn run(passes: u64) -> Option<Timing> {
    let text = text(LIMIT);
    let mut commands: u64 = 0;
    let timing = timed(passes * text.len() as u64, "bytes", || {
        for _ in 0..passes {
            let script = black_box(parse(text.as_bytes()).ok()?);
            commands += commands_in(&script);
        }
        Some(())
    })?;
    Some(timing.checked(mix_bytes(text.as_bytes()).wrapping_add(commands)))
}
