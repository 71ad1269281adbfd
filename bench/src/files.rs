//! What the store's files cost by themselves.
use crate::timing::{timed, Timing};
use std::fs::{self, File, OpenOptions};
use std::hint::black_box;
use std::io;
use std::os::unix::fs::FileExt;
use std::path::Path;

const OPEN: u8 = 0xa5;

/// The bytes of a log with the batch of its making and the next closed gate.
const MADE: usize = 16;

/// The bytes of the Ended of one transaction.
const ENDED: usize = 9;

/// The bytes of a transaction of one insert of three bytes: its Begin, three operations (the key is looked for, the cell put,
/// the entry added), the answer, and the Commit.
const TRANSACTION: usize = 9 + 49 + 118 + 82 + 23 + 9;

/// The bytes of a batch with one transaction, with the length before it and the next closed gate behind; each but the first has the
/// Ended of the transaction before too.
const BATCH: usize = 5 + ENDED + TRANSACTION;

/// How a file is made durable.
type Sync = fn(&File) -> io::Result<()>;

fn write_batch(log: &File, gate: u64, batch: &[u8], sync: Sync) -> io::Result<()> {
    log.write_all_at(batch, gate + 1)?;
    sync(log)?;
    log.write_all_at(&[OPEN], gate)?;
    sync(log)
}

fn time_commits(log: &File, count: u64, sync: Sync) -> Option<Timing> {
    log.write_all_at(&[1; MADE], 0).ok()?;
    log.sync_data().ok()?;
    let batch: [u8; BATCH] = std::array::from_fn(|place| place as u8);
    let mut gate = MADE as u64 - 1;
    let timing = timed(count, "commits", || {
        for place in 0..count {
            let batch = if place == 0 { &batch[ENDED..] } else { &batch[..] };
            write_batch(log, gate, black_box(batch), sync).ok()?;
            gate += batch.len() as u64;
        }
        Some(())
    })?;
    Some(timing.checked(log.metadata().ok()?.len()))
}

/// The four store calls of a commit, so many times, on a file of its own in the folder.
pub fn commit(count: u64, folder: &Path) -> Option<Timing> {
    commit_by(count, File::sync_data, folder)
}

/// The same with all that the system keeps of a file.
pub fn commit_all(count: u64, folder: &Path) -> Option<Timing> {
    commit_by(count, File::sync_all, folder)
}

fn commit_by(count: u64, sync: Sync, folder: &Path) -> Option<Timing> {
    let path = folder.join(format!("bare.{}.log", std::process::id()));
    let log = OpenOptions::new()
        .write(true)
        .create_new(true)
        .open(&path)
        .ok()?;
    let timing = time_commits(&log, count, sync);
    fs::remove_file(path).ok()?;
    timing
}

/// How many bytes an image file has beside the words of its regions.
const AROUND: u64 = 64 + 4;

/// The bytes of a region's words.
const REGION: u64 = 512;

fn make(path: &Path) -> Option<File> {
    OpenOptions::new()
        .write(true)
        .create_new(true)
        .open(path)
        .ok()
}

/// The bytes of an image of so many regions are written into a file of their own in the folder, in one piece, and synced.
/// The check number is the file's length.
pub fn image(regions: u64, folder: &Path) -> Option<Timing> {
    let path = folder.join(format!("bare.{}.image", std::process::id()));
    let bytes: Vec<u8> = (0..AROUND + REGION * regions)
        .map(|place| place as u8)
        .collect();
    let file = make(&path)?;
    let timing = timed(regions, "regions", || {
        file.write_all_at(black_box(&bytes), 0).ok()?;
        file.sync_data().ok()
    });
    let length = file.metadata().ok()?.len();
    fs::remove_file(path).ok()?;
    Some(timing?.checked(length))
}
