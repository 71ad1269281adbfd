//! The rows of the whole program: its words and its scripts over real files, each run a process of its own, which is timed from
//! its start to its end.
use crate::floor;
use crate::keys::mix_bytes;
use crate::table::{self, in_threes, make_anew, wait, OwnFolder};
use std::fs::{self, File};
use std::io::{self, Write};
use std::path::{Path, PathBuf};
use std::process::{Command, Stdio};
use std::time::{Duration, Instant};

/// How many turns a row has, and one of rounds over real files, each of which takes some seconds.
const TURNS: usize = 9;
const FILE_TURNS: usize = 5;

/// The words of the generated round: 64 clients with 1,000 transactions each, on 19,202 regions.
const ROUND: [&str; 4] = ["gen", "64", "1000", "7"];
const TRANSACTIONS: u64 = 64_000;
const REGIONS: u64 = 19_202;

/// The bytes of a region's words.
const REGION: u64 = 512;

/// How often a script repeats what is timed of it. The first two checkpoints behind a restart write all regions, one to each image;
/// those behind them none.
const REPEATS: u32 = 50;
const WHOLE_CHECKPOINTS: u32 = 2;

/// The transactions of the script with and without prechecks, which has nearly a MiB.
const SCRIPTED: u32 = 6_000;

const HEAD: &str = "\
| what is timed | beside | dali | the other | ratio | half of the turns | goal | met | dali's MiB | the other's MiB |
|---|---|---|---|---|---|---|---|---|---|";

/// What a line has that tells of an audit or a checkpoint that failed or wasn't made.
const FAILURES: [&str; 5] = [" failed", " stopped", " full", " in progress", " down"];

/// One run: how long it took, how much was resident at most, and of what it printed the check number, the count of lines, and the
/// count of those that tell of a failure or a refusal.
struct Run {
    time: Duration,
    kibibytes: i64,
    check: u64,
    lines: u64,
    failures: u64,
}

/// How dali's time is compared with that of the other side.
enum Goal {
    /// It is at most so many times as long.
    Times(f64),
    /// Its rate is at least so much of the other's.
    Share(f64),
    /// None: its rate is told by the other's.
    Unset,
}

struct Programs {
    dali: PathBuf,
    beside: PathBuf,
}

/// Runs a program with this on its standard input, in this folder.
fn run(program: &Path, words: &[&str], input: &str, folder: &Path) -> io::Result<Run> {
    let mut command = Command::new(program);
    command.args(words).current_dir(folder);
    // both ways go over files, so that no pipe fills
    let (given, printed) = (folder.join("bench.in"), folder.join("bench.out"));
    File::create(&given)?.write_all(input.as_bytes())?;
    command.stdin(Stdio::from(File::open(&given)?));
    command.stdout(Stdio::from(File::create(&printed)?));
    let start = Instant::now();
    let child = command.spawn()?;
    let kibibytes = wait(&child, &format!("{command:?}"))?;
    let time = start.elapsed();
    let printed = fs::read(printed)?;
    let check = mix_bytes(&printed);
    let text = String::from_utf8_lossy(&printed);
    let lines = text.lines().count() as u64;
    let tells_failure = |line: &&str| FAILURES.iter().any(|words| line.contains(words));
    let failures = text.lines().filter(tells_failure).count() as u64;
    Ok(Run {
        time,
        kibibytes,
        check,
        lines,
        failures,
    })
}

fn copy(from: &Path, to: &Path) -> io::Result<()> {
    make_anew(to)?;
    for file in fs::read_dir(from)? {
        let file = file?;
        let copy = to.join(file.file_name());
        fs::copy(file.path(), &copy)?;
        File::open(copy)?.sync_all()?;
    }
    Ok(())
}

fn median(mut numbers: Vec<f64>) -> f64 {
    numbers.sort_unstable_by(f64::total_cmp);
    numbers[numbers.len() / 2]
}

fn milliseconds(time: f64) -> String {
    format!("{}.{:02} ms", in_threes(time as u64), (time.fract() * 100.0) as u64)
}

fn mebibytes(runs: &[Run]) -> String {
    let sizes = runs.iter().map(|run| run.kibibytes as f64 / 1024.0).collect();
    format!("{:.1}", median(sizes))
}

fn times(runs: &[Run]) -> Vec<f64> {
    runs.iter().map(|run| run.time.as_secs_f64() * 1000.0).collect()
}

/// Prints a row of runs, of which the two of one turn stand at one place.
fn print_row(what: &str, beside: &str, goal: Goal, dali: &[f64], other: &[f64], resident: [String; 2]) {
    let ratio = |dali: f64, other: f64| match goal {
        Goal::Times(_) => dali / other,
        Goal::Share(_) | Goal::Unset => other / dali,
    };
    let mut ratios: Vec<f64> = dali
        .iter()
        .zip(other)
        .map(|(dali, other)| ratio(*dali, *other))
        .collect();
    ratios.sort_unstable_by(f64::total_cmp);
    let last = ratios.len() - 1;
    let half = format!("{:.2} to {:.2}", ratios[last / 4], ratios[last - last / 4]);
    let (dali, other) = (median(dali.to_vec()), median(other.to_vec()));
    let ratio = ratio(dali, other);
    let (ratio, goal, is_met) = match goal {
        Goal::Times(most) => (
            format!("{ratio:.2} times"),
            format!("at most {most} times"),
            if ratio <= most { "yes" } else { "no" },
        ),
        Goal::Share(least) => (
            format!("{ratio:.2} of its rate"),
            format!("at least {least} of its rate"),
            if ratio >= least { "yes" } else { "no" },
        ),
        Goal::Unset => (format!("{ratio:.2} of its rate"), "none".to_string(), ""),
    };
    println!(
        "| {what} | {beside} | {} | {} | {ratio} | {half} | {goal} | {is_met} | {} | {} |",
        milliseconds(dali),
        milliseconds(other),
        resident[0],
        resident[1],
    );
}

/// Both sides in turn; each begins every other one, so that what one run leaves to the next falls on both.
fn in_turn<T>(
    turns: usize,
    mut dali: impl FnMut() -> io::Result<T>,
    mut other: impl FnMut() -> io::Result<T>,
) -> io::Result<(Vec<T>, Vec<T>)> {
    let mut runs = (Vec::new(), Vec::new());
    for turn in 0..turns {
        if turn % 2 == 0 {
            runs.0.push(dali()?);
            runs.1.push(other()?);
        } else {
            runs.1.push(other()?);
            runs.0.push(dali()?);
        }
    }
    Ok(runs)
}

/// Runs the round by dali, by the other side that flushes as often, and by the other side that flushes each transaction by itself; all
/// print the same. The first two leave logs of one length but for one part in a thousand: where clients take turns, other records
/// stand behind the last commit, which are lost, and some index regions fill, which the other side has none of. Two batches of
/// dali's log are none of commits, its first one and the restart's.
fn print_round(programs: &Programs, where_to: &str, least: f64, turns: usize, folder: &Path) -> io::Result<()> {
    let [new, bare, each] = ["new", "bare", "each"].map(|name| folder.join(name));
    let beside = |flushes: u64, at: &Path| {
        make_anew(at)?;
        let flushes = flushes.to_string();
        run(
            &programs.beside,
            &[ROUND[0], ROUND[1], ROUND[2], ROUND[3], &flushes, "."],
            "",
            at,
        )
    };
    let mut runs = [const { Vec::new() }; 3];
    for turn in 0..turns {
        for place in 0..3 {
            // The order is turned around every other turn, so that what one run leaves to the next falls on all.
            let side = if turn % 2 == 0 { place } else { 2 - place };
            runs[side].push(match side {
                0 => {
                    make_anew(&new)?;
                    run(&programs.dali, &ROUND, "", &new)?
                }
                1 => {
                    let batches = floor::batches(&new).ok_or_else(|| io::Error::other("dali's log doesn't end"))?;
                    beside(batches.saturating_sub(2), &bare)?
                }
                _ => beside(TRANSACTIONS, &each)?,
            });
        }
    }
    let [dali, other, serial] = &runs;
    let lengths = [&new, &bare].map(|folder| fs::metadata(folder.join("dali.log")).map(|it| it.len()));
    let [Ok(length), Ok(bare_length)] = lengths else {
        return Err(io::Error::other("a log lacks"));
    };
    if runs.iter().flatten().any(|run| run.check != dali[0].check) || length.abs_diff(bare_length) > length / 1000 {
        return Err(io::Error::other(format!(
            "the rounds differ: {length} and {bare_length} bytes of log"
        )));
    }
    let what = format!("`gen 64 1000 7`, {where_to}");
    for (beside, goal, other) in [
        (
            "plain Rust with a hash map, the same calls on files, log bytes of the same kinds",
            Goal::Share(least),
            other,
        ),
        ("the same with a flush for each transaction", Goal::Unset, serial),
    ] {
        print_row(
            &what,
            beside,
            goal,
            &times(dali),
            &times(other),
            [mebibytes(dali), mebibytes(other)],
        );
    }
    Ok(())
}

/// The files as they would be without a checkpoint: the log alone, and an anchor that counts none.
fn copy_log(from: &Path, to: &Path) -> io::Result<()> {
    copy(from, to)?;
    fs::write(to.join("dali.anchor"), [0])?;
    fs::write(to.join("dali.a"), [])
}

/// A restart of files that were left so, copied for each run; it is to take at most so many times as long as reading them. The other side prints how many bytes it read.
fn print_restart(
    programs: &Programs,
    what: &str,
    most: f64,
    copy: fn(&Path, &Path) -> io::Result<()>,
    made: &Path,
    folder: &Path,
) -> io::Result<()> {
    let at = folder.join("copy");
    let (dali, other) = in_turn(
        TURNS,
        || {
            copy(made, &at)?;
            run(&programs.dali, &["run"], "open\n", &at)
        },
        || {
            copy(made, &at)?;
            run(&programs.beside, &["read", "."], "", &at)
        },
    )?;
    for runs in [&dali, &other] {
        if runs.iter().any(|run| run.check != runs[0].check || run.failures > 0) {
            return Err(io::Error::other(format!("{what}: the runs printed different texts")));
        }
    }
    print_row(
        what,
        "reading the files once",
        Goal::Times(most),
        &times(&dali),
        &times(&other),
        [mebibytes(&dali), mebibytes(&other)],
    );
    Ok(())
}

/// How many milliseconds this line of a script takes, as the difference of a script that has it so often and one that lacks it.
/// Each of them has printed a line, and none that it failed.
fn once(programs: &Programs, line: &str, repeats: u32, made: &Path, at: &Path) -> io::Result<f64> {
    copy(made, at)?;
    let without = run(&programs.dali, &["run"], "open\n", at)?;
    copy(made, at)?;
    let script = format!("open\n{}", format!("{line}\n").repeat(repeats as usize));
    let with = run(&programs.dali, &["run"], &script, at)?;
    if with.lines != without.lines + u64::from(repeats) || with.failures > 0 {
        return Err(io::Error::other(format!(
            "{line}: {} lines with it, {} without, and {} of a failure",
            with.lines, without.lines, with.failures
        )));
    }
    Ok((with.time.as_secs_f64() - without.time.as_secs_f64()) * 1000.0 / f64::from(repeats))
}

/// How many milliseconds the other side takes for so many things, by the rate that it prints.
fn spent(programs: &Programs, words: &[&str], count: u64) -> io::Result<f64> {
    let rate = table::run(Command::new(&programs.beside).args(words))?.rate;
    Ok(count as f64 * 1000.0 / rate as f64)
}

/// A line of a script that is repeated so often, as this tells.
struct Line {
    line: &'static str,
    repeats: u32,
    told: &'static str,
    beside: &'static str,
    goal: Goal,
}

fn print_line(
    programs: &Programs,
    line: Line,
    other: impl FnMut() -> io::Result<f64>,
    made: &Path,
    folder: &Path,
) -> io::Result<()> {
    let at = folder.join("copy");
    let (dali, other) = in_turn(TURNS, || once(programs, line.line, line.repeats, made, &at), other)?;
    let what = format!(
        "`{}` behind it, {} regions, {}in memory",
        line.line,
        in_threes(REGIONS),
        line.told
    );
    print_row(
        &what,
        line.beside,
        line.goal,
        &dali,
        &other,
        [String::new(), String::new()],
    );
    Ok(())
}

fn script() -> String {
    let mut text = String::from("size 3001 6001\nclient 1\n");
    for number in 0..SCRIPTED {
        text.push_str("begin\n");
        for place in 0..5 {
            text.push_str(&format!("insert {} valueof{place}\n", 5 * number + place));
        }
        text.push_str("commit\n");
    }
    text.push_str("end\n");
    text
}

/// Updates of so many records of the script's database, five a transaction, behind the image that a restart makes; and an audit that
/// fails behind them, where the database is damaged.
fn updates(count: u64, is_damaged: bool) -> String {
    let mut text = String::from("open\nclient 1\n");
    for number in 0..count / 5 {
        text.push_str("begin\n");
        for place in 0..5 {
            text.push_str(&format!("update {} new{place}\n", (5 * number + place) % (5 * u64::from(SCRIPTED))));
        }
        text.push_str("commit\n");
    }
    text.push_str("end\n");
    if is_damaged {
        text.push_str("poke 3001 11 1\naudit\n");
    }
    text
}

/// Restarts behind an image, with so many updates in the log behind it.
fn print_behind(programs: &Programs, folder: &Path) -> io::Result<()> {
    let made = folder.join("behind");
    for (count, size) in [(4_230, "1 MB"), (42_300, "10 MB")] {
        for is_damaged in [false, true] {
            make_anew(&made)?;
            for (text, failures) in [(script(), 0), (updates(count, is_damaged), u64::from(is_damaged))] {
                if run(&programs.dali, &["run"], &text, &made)?.failures != failures {
                    return Err(io::Error::other("the database behind whose image updates stand wasn't made"));
                }
            }
            let audit = if is_damaged { ", and an audit there that failed" } else { "" };
            let what = format!("restart of 30,000 records with {size} of log behind the image{audit}, in memory");
            let most = if is_damaged { 9.0 } else { 4.0 };
            print_restart(programs, &what, most, copy, &made, folder)?;
        }
    }
    Ok(())
}

fn print_precheck(programs: &Programs, folder: &Path) -> io::Result<()> {
    let (new, text) = (folder.join("new"), script());
    let with_words = |words: &[&str]| {
        make_anew(&new)?;
        run(&programs.dali, words, &text, &new)
    };
    let (with, without) = in_turn(TURNS, || with_words(&["run", "--precheck"]), || with_words(&["run"]))?;
    if with.iter().chain(&without).any(|run| run.check != with[0].check) {
        return Err(io::Error::other("prechecks change what is printed"));
    }
    print_row(
        &format!(
            "a script of {} transactions with five inserts, with `--precheck`, in memory",
            in_threes(u64::from(SCRIPTED))
        ),
        "the same without",
        Goal::Times(1.1),
        &times(&with),
        &times(&without),
        [mebibytes(&with), mebibytes(&without)],
    );
    Ok(())
}

/// The names of the rows.
const NAMES: [&str; 7] = ["gen", "memory", "restart", "behind", "audit", "checkpoint", "precheck"];

/// Prints the rows, or those with these names: `gen`, `memory`, `restart`, `behind`, `audit`, `checkpoint`, `precheck`. The second folder
/// is one whose files lie in memory.
pub fn print(program: &Path, folder: &Path, memory: &Path, names: &[&str]) -> io::Result<()> {
    table::know(names, |name| NAMES.contains(&name))?;
    let (own, own_memory) = (OwnFolder::make(folder)?, OwnFolder::make(memory)?);
    let programs = Programs {
        dali: fs::canonicalize(program)?,
        beside: std::env::current_exe()?,
    };
    let (disk, memory) = (fs::canonicalize(&own.path)?, fs::canonicalize(&own_memory.path)?);
    let asked = |name: &str| names.is_empty() || names.contains(&name);
    println!("Medians of {TURNS} runs each, over real files {FILE_TURNS}. Memory is the most that was resident, in MiB (2^20 bytes). Near 2 or 3 MiB");
    println!("it says nothing, since what this program has resident is counted in each that it starts.\n\n{HEAD}");
    if asked("gen") {
        print_round(&programs, "real files", 0.9, FILE_TURNS, &disk)?;
    }
    if asked("memory") {
        print_round(&programs, "in memory", 0.5, TURNS, &memory)?;
    }
    let made = memory.join("made");
    if ["restart", "audit", "checkpoint"].into_iter().any(asked) {
        make_anew(&made)?;
        run(&programs.dali, &ROUND, "", &made)?;
    }
    if asked("restart") {
        print_restart(&programs, "restart of the files that it left, in memory", 4.0, copy, &made, &memory)?;
        let whole = "restart from its whole log, without an image, in memory";
        print_restart(&programs, whole, 4.0, copy_log, &made, &memory)?;
    }
    if asked("behind") {
        print_behind(&programs, &memory)?;
    }
    if asked("audit") {
        let words = ["copy", &REPEATS.to_string(), &REGIONS.to_string()];
        let other = || spent(&programs, &words, REGIONS * REGION);
        let audit = Line {
            line: "audit",
            repeats: REPEATS,
            told: "",
            beside: "copying its regions' words",
            goal: Goal::Times(2.0),
        };
        print_line(&programs, audit, other, &made, &memory)?;
    }
    if asked("checkpoint") {
        let words = ["checkpoint", &REGIONS.to_string(), &memory.to_string_lossy()];
        let checkpoint = |repeats, told, goal| Line {
            line: "checkpoint",
            repeats,
            told,
            beside: "writing the bytes of an image in one piece",
            goal,
        };
        let whole = checkpoint(WHOLE_CHECKPOINTS, "all of which it writes, ", Goal::Times(2.0));
        print_line(&programs, whole, || spent(&programs, &words, REGIONS), &made, &memory)?;
        let most = checkpoint(REPEATS, "most of fifty with nothing to write, ", Goal::Unset);
        print_line(&programs, most, || spent(&programs, &words, REGIONS), &made, &memory)?;
    }
    if asked("precheck") {
        print_precheck(&programs, &memory)?;
    }
    Ok(())
}
