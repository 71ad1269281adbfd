//! Regions of 64 words. The codeword is kept by the calls alone.
use crate::keys::{below, mix};
use crate::timing::{timed, Timing};
use std::hint::black_box;

/// So many regions have 64 MiB of words.
pub const REGIONS: u64 = 131_072;
const WORDS: u64 = 64;

#[derive(Clone, Copy)]
struct Hold {
    txn: u64,
    dead: bool,
    read: u64,
    xor: u64,
    write: u64,
}

/// What a region keeps: the latch with what was read and written, the words' old values, the count
/// of operations and the two flags.
#[derive(Clone)]
pub struct Region {
    words: [u64; 64],
    codeword: u64,
    olds: [u64; 64],
    hold: Option<Hold>,
    touches: u64,
    dirty_a: bool,
    dirty_b: bool,
}

impl Region {
    pub fn load(words: [u64; 64]) -> Region {
        Region {
            words,
            codeword: words.iter().fold(0, |all, word| all ^ word),
            olds: words,
            hold: None,
            touches: 0,
            dirty_a: true,
            dirty_b: true,
        }
    }

    /// The transaction that has the latch, if it is refused.
    pub fn latch(&mut self, txn: u64) -> Result<(), u64> {
        match &self.hold {
            Some(hold) => Err(hold.txn),
            None => {
                self.hold = Some(Hold {
                    txn,
                    dead: false,
                    read: 0,
                    xor: 0,
                    write: 0,
                });
                Ok(())
            }
        }
    }

    pub fn note_reads(&mut self, mask: u64) {
        if let Some(hold) = &mut self.hold {
            let mut unread = mask & !hold.read;
            hold.read |= mask;
            while unread != 0 {
                hold.xor ^= self.words[unread.trailing_zeros() as usize];
                unread &= unread - 1;
            }
        }
    }

    pub fn words(&self) -> &[u64; 64] {
        &self.words
    }

    /// The exclusive-or of the words that were noted as read.
    pub fn noted(&self) -> u64 {
        self.hold.map_or(0, |hold| hold.xor)
    }

    /// Whether the codeword is that of the words.
    pub fn is_coded(&self) -> bool {
        self.codeword == self.words.iter().fold(0, |all, word| all ^ word)
    }

    /// Updates a word, and keeps the codeword.
    pub fn update_coded(&mut self, word: usize, value: u64) {
        self.codeword ^= self.words[word] ^ value;
        self.update(word, value);
    }

    /// Updates a word, and keeps no codeword.
    pub fn update(&mut self, word: usize, value: u64) {
        if let Some(hold) = &mut self.hold {
            let bit = 1 << word;
            if hold.write & bit == 0 {
                self.olds[word] = self.words[word];
                hold.write |= bit;
            }
            self.words[word] = value;
        }
    }

    pub fn touch(&mut self) {
        if let Some(hold) = self.hold.take() {
            if hold.write != 0 && !hold.dead {
                self.dirty_a = true;
                self.dirty_b = true;
            }
            self.touches = self.touches.saturating_add(1);
        }
    }
}

fn words_of(region: u64) -> [u64; 64] {
    std::array::from_fn(|word| region * WORDS + word as u64)
}

/// The check number of words.
fn words_check<'a>(words: impl Iterator<Item = &'a u64>) -> u64 {
    words.fold(0, |check, word| mix(check, *word))
}

/// One word of some region is updated, so many times.
pub fn update(count: u64, regions: u64) -> Option<Timing> {
    let mut all: Vec<Region> = (0..regions)
        .map(|region| Region::load(words_of(region)))
        .collect();
    let timing = timed(count, "updates", || {
        for place in 0..count {
            let region = &mut all[below(regions, place) as usize];
            let word = place % WORDS;
            region.latch(place).ok()?;
            region.note_reads(1 << word);
            region.update(word as usize, place);
            region.touch();
        }
        black_box(&mut all);
        Some(())
    })?;
    let words = all.iter().flat_map(|region| &region.words);
    Some(timing.checked(words_check(words)))
}

/// The words of all regions, which lie in one piece, are copied, so many times.
pub fn copy(passes: u64, regions: u64) -> Option<Timing> {
    let from: Vec<u64> = (0..regions).flat_map(words_of).collect();
    let mut to = vec![1; from.len()];
    let timing = timed(passes * regions * WORDS * 8, "bytes", || {
        for _ in 0..passes {
            to.copy_from_slice(black_box(&from));
            black_box(&mut to);
        }
        Some(())
    })?;
    Some(timing.checked(words_check(to.iter())))
}

/// The words of all regions, which lie in one piece, are read ten times. The check number is how many regions there are.
pub fn read(regions: u64) -> Option<Timing> {
    let words: Vec<u64> = (0..regions).flat_map(words_of).collect();
    let timing = timed(10 * regions, "regions", || {
        for _ in 0..10 {
            black_box(black_box(&words).iter().fold(0, |all, word| all ^ word));
        }
        Some(())
    })?;
    Some(timing.checked(regions))
}
