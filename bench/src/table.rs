//! Runs both sides in turn, and prints the table of their medians.
use std::fs;
use std::io::{self, Read};
use std::path::{Path, PathBuf};
use std::process::{Child, Command, Stdio};

/// How many turns most rows have. It is odd, as are those of each row, so that one run is the median.
const TURNS: usize = 5;

/// How many turns commits, syncs, codewords, growth and the script have. A disk varies from moment to moment by more than the goal allows, and
/// so does a run of some 50 milliseconds: many short turns meet the machine in the same moments on both sides.
const SHORT_TURNS: usize = 25;

const HEAD: &str = "\
| what is timed | beside | dali | the other | ratio | half of the turns | goal | met | dali's MiB | the other's MiB |
|---|---|---|---|---|---|---|---|---|---|";

/// What one run of a program gave: its rate, its check number, and the most memory that was resident.
#[derive(Clone, Copy)]
pub struct Run {
    pub rate: u64,
    check: u64,
    kibibytes: i64,
}

/// How a row's two medians are compared.
enum Goal {
    /// dali's time is at most so many times that of the other side.
    Times(f64),
    /// dali's rate is at least so much of that of the other side.
    Share(f64),
    /// None: dali's time is told by that of the other side.
    Unset,
}

/// Which files both sides work on.
enum Files {
    /// None.
    Absent,
    /// New ones, which each run removes.
    New,
}

struct Row {
    name: &'static str,
    /// How often both sides do it.
    count: u64,
    files: Files,
    /// How often each side is run.
    turns: usize,
    dali: &'static str,
    beside: &'static str,
    unit: &'static str,
    goal: Goal,
}

const ROWS: [Row; 13] = [
    Row {
        name: "codec",
        count: 1_000_000,
        files: Files::Absent,
        turns: TURNS,
        dali: "encode and decode a million block records of three-byte values",
        beside: "Rust structs and `match`",
        unit: "records",
        goal: Goal::Times(2.0),
    },
    Row {
        name: "locks",
        count: 1_000_000,
        files: Files::Absent,
        turns: TURNS,
        dali: "a million lock requests and their releases, 64 transactions, 100,000 keys",
        beside: "Rust over `BTreeMap`",
        unit: "requests",
        goal: Goal::Times(2.0),
    },
    Row {
        name: "update",
        count: 1_000_000,
        files: Files::Absent,
        turns: TURNS,
        dali: "update and touch one word of a region, a million times over 64 MiB of regions",
        beside: "the same in Rust, without a codeword",
        unit: "updates",
        goal: Goal::Times(1.5),
    },
    Row {
        name: "check",
        count: 10,
        files: Files::Absent,
        turns: TURNS,
        dali: "check every region of 64 MiB, ten times",
        beside: "`copy_from_slice` of 64 MiB in one piece",
        unit: "bytes",
        goal: Goal::Times(2.0),
    },
    Row {
        name: "parse",
        count: 20,
        files: Files::Absent,
        turns: TURNS,
        dali: "parse a script of 1 MiB, twenty times",
        beside: "a Rust parser",
        unit: "bytes",
        goal: Goal::Times(3.0),
    },
    Row {
        name: "claims",
        count: 10_000_000,
        files: Files::Absent,
        turns: TURNS,
        dali: "draw ten million numbers, each once",
        beside: "one `fetch_add` each",
        unit: "draws",
        goal: Goal::Times(3.0),
    },
    Row {
        name: "notes",
        count: 10_000_000,
        files: Files::Absent,
        turns: TURNS,
        dali: "add ten million entries to a history, and let another note meet each",
        beside: "one `fetch_add` and one load each",
        unit: "notes",
        goal: Goal::Times(3.0),
    },
    Row {
        name: "insert",
        count: 100_000,
        files: Files::Absent,
        turns: TURNS,
        dali: "insert 100,000 records by calls, five a transaction, one thread, in memory",
        beside: "Rust with the same regions, codewords, locks, undos and bytes of the log",
        unit: "inserts",
        goal: Goal::Times(2.0),
    },
    Row {
        name: "get",
        count: 100_000,
        files: Files::Absent,
        turns: TURNS,
        dali: "get each of 100,000 records by calls, five a transaction",
        beside: "Rust with the same regions, codewords, locks, undos and bytes of the log",
        unit: "gets",
        goal: Goal::Times(2.0),
    },
    Row {
        name: "change",
        count: 100_000,
        files: Files::Absent,
        turns: TURNS,
        dali: "update each of 100,000 records by calls, five a transaction",
        beside: "Rust with the same regions, codewords, locks, undos and bytes of the log",
        unit: "updates",
        goal: Goal::Times(2.0),
    },
    Row {
        name: "delete",
        count: 100_000,
        files: Files::Absent,
        turns: TURNS,
        dali: "delete each of 100,000 records by calls, five a transaction",
        beside: "Rust with the same regions, codewords, locks, undos and bytes of the log",
        unit: "deletes",
        goal: Goal::Times(2.0),
    },
    Row {
        name: "tens",
        count: 5_000,
        files: Files::Absent,
        turns: TURNS,
        dali: "insert 5,000 records by calls, ten a transaction",
        beside: "Rust with the same regions, codewords, locks, undos and bytes of the log",
        unit: "inserts",
        goal: Goal::Unset,
    },
    Row {
        name: "commit",
        count: 500,
        files: Files::New,
        turns: SHORT_TURNS,
        dali: "500 durable commits of one insert, one client, real files",
        beside: "the bare four store calls",
        unit: "commits",
        goal: Goal::Share(0.9),
    },
];

const GROWTH: [u64; 3] = [1_000, 10_000, 100_000];

const MOST_GROWTH: f64 = 1.3;

/// How many transactions are committed to one database of 10,000 records, whose size is to stay.
const STEADY: [u64; 2] = [100_000, 1_000_000];

/// How much more memory the greater count may take.
const MOST_STEADY: f64 = 1.05;

/// How many commits the row of syncs has.
const SYNCED: u64 = 500;

/// The transactions of the script, which has nearly a MiB.
const SCRIPTED: u64 = 6_000;

const MOST_SCRIPTED: f64 = 1.5;

/// The inserts of the row of the codewords' share. Both of its sides are the plain Rust side, since dali's own update always keeps
/// codewords. Of the calls an insert writes the most words.
const CODED: u64 = 100_000;

const MOST_CODED: f64 = 1.05;

/// The layout of `struct rusage` on Linux with 64 bits.
#[repr(C)]
#[derive(Default)]
struct Usage {
    times: [i64; 4],
    most_resident: i64,
    rest: [i64; 13],
}

extern "C" {
    fn wait4(process: i32, status: *mut i32, options: i32, usage: *mut Usage) -> i32;
}

/// Waits for a program that ends well, and answers how many KiB were resident at most.
pub fn wait(child: &Child, what: &str) -> io::Result<i64> {
    let mut status = 0;
    let mut usage = Usage::default();
    // SAFETY: both pointers are to values that live on, and `Usage` has the size of the system's struct.
    let waited = unsafe { wait4(child.id() as i32, &mut status, 0, &mut usage) };
    if waited < 0 {
        return Err(io::Error::last_os_error());
    }
    if status != 0 {
        return Err(io::Error::other(format!("{what} failed")));
    }
    Ok(usage.most_resident)
}

fn output(command: &mut Command) -> io::Result<(String, i64)> {
    let what = format!("{command:?}");
    let mut child = command.stdout(Stdio::piped()).spawn()?;
    let mut text = String::new();
    if let Some(stdout) = &mut child.stdout {
        stdout.read_to_string(&mut text)?;
    }
    let kibibytes = wait(&child, &what)?;
    Ok((text, kibibytes))
}

/// Runs a program that prints `RATE UNIT a second, check CHECK`.
pub fn run(command: &mut Command) -> io::Result<Run> {
    let (text, kibibytes) = output(command)?;
    let mut words = text.split_whitespace();
    let rate = words.next().and_then(|word| word.parse().ok());
    let check = words.next_back().and_then(|word| word.parse().ok());
    match (rate, check) {
        (Some(rate), Some(check)) => Ok(Run {
            rate,
            check,
            kibibytes,
        }),
        _ => Err(io::Error::other(format!("{command:?} printed {text:?}"))),
    }
}

/// Refuses runs that didn't all do the same work.
fn compare<'a>(what: &str, runs: impl IntoIterator<Item = &'a Run>) -> io::Result<()> {
    let mut checks: Vec<u64> = runs.into_iter().map(|run| run.check).collect();
    checks.dedup();
    match checks.as_slice() {
        [_] => Ok(()),
        _ => Err(io::Error::other(format!(
            "{what}: the runs did different work, with the check numbers {checks:?}"
        ))),
    }
}

/// The medians of the rates and of the sizes, of runs that did the same work.
fn median(runs: &[Run]) -> Run {
    let mut rates: Vec<u64> = runs.iter().map(|run| run.rate).collect();
    let mut sizes: Vec<i64> = runs.iter().map(|run| run.kibibytes).collect();
    rates.sort_unstable();
    sizes.sort_unstable();
    Run {
        rate: rates[rates.len() / 2],
        check: runs[0].check,
        kibibytes: sizes[sizes.len() / 2],
    }
}

/// The ratio's form in the table: of times, or of rates.
fn ratio_of(goal: &Goal, dali: u64, beside: u64) -> f64 {
    match goal {
        Goal::Times(_) | Goal::Unset => beside as f64 / dali as f64,
        Goal::Share(_) => dali as f64 / beside as f64,
    }
}

/// Between which two ratios half of the turns lie.
fn middle_half(goal: &Goal, dali: &[Run], beside: &[Run]) -> String {
    let mut ratios: Vec<f64> = dali
        .iter()
        .zip(beside)
        .map(|(dali, beside)| ratio_of(goal, dali.rate, beside.rate))
        .collect();
    ratios.sort_unstable_by(f64::total_cmp);
    let last = ratios.len() - 1;
    format!("{:.2} to {:.2}", ratios[last / 4], ratios[last - last / 4])
}

/// The number with its digits in threes.
pub fn in_threes(number: u64) -> String {
    let digits = number.to_string();
    let mut text = String::new();
    for (place, digit) in digits.chars().enumerate() {
        if place > 0 && (digits.len() - place) % 3 == 0 {
            text.push(',');
        }
        text.push(digit);
    }
    text
}

fn mebibytes(run: Run) -> String {
    format!("{:.1}", run.kibibytes as f64 / 1024.0)
}

/// Prints a row of runs that did the same work, of which the two of one turn stand at one place.
fn print_row(row: &Row, dali_runs: &[Run], beside_runs: &[Run]) {
    let (what, goal) = (row.dali, &row.goal);
    let dali = median(dali_runs);
    let beside = median(beside_runs);
    let ratio = ratio_of(goal, dali.rate, beside.rate);
    let half = middle_half(goal, dali_runs, beside_runs);
    let (ratio, goal, met) = match goal {
        Goal::Times(most) => (
            format!("{ratio:.2} times"),
            format!("at most {most} times"),
            if ratio <= *most { "yes" } else { "no" },
        ),
        Goal::Share(least) => (
            format!("{ratio:.2} of its rate"),
            format!("at least {least} of its rate"),
            if ratio >= *least { "yes" } else { "no" },
        ),
        Goal::Unset => (format!("{ratio:.2} times"), "none".to_string(), ""),
    };
    println!(
        "| {what} | {} | {} {} | {} | {ratio} | {half} | {goal} | {met} | {} | {} |",
        row.beside,
        in_threes(dali.rate),
        row.unit,
        in_threes(beside.rate),
        mebibytes(dali),
        mebibytes(beside),
    );
}

/// Prints the row of the greater count, beside that of the smaller one.
fn print_growth(counts: [u64; 2], grown: [&[Run]; 2]) {
    let runs = grown.map(median);
    let times = runs[0].rate as f64 / runs[1].rate as f64;
    println!(
        "| insert {} records in memory, in durable transactions of five | dali with {} records | {} inserts | {} | {times:.2} times | {} | at most {MOST_GROWTH} times | {} | {} | {} |",
        in_threes(counts[1]),
        in_threes(counts[0]),
        in_threes(runs[1].rate),
        in_threes(runs[0].rate),
        middle_half(&Goal::Times(MOST_GROWTH), grown[1], grown[0]),
        if times <= MOST_GROWTH { "yes" } else { "no" },
        mebibytes(runs[1]),
        mebibytes(runs[0]),
    );
}

/// Prints the row of the greater count of commits, beside that of the smaller one. Its goal is of memory.
fn print_steady(steady: [&[Run]; 2]) {
    let runs = steady.map(median);
    let times = runs[0].rate as f64 / runs[1].rate as f64;
    let grown = runs[1].kibibytes as f64 / runs[0].kibibytes as f64;
    println!(
        "| commit {} updates of 10,000 records, one a transaction, a hundred a flush, real files | dali with {} | {} commits | {} | {times:.2} times | {} | at most {MOST_STEADY} times the MiB | {} | {} | {} |",
        in_threes(STEADY[1]),
        in_threes(STEADY[0]),
        in_threes(runs[1].rate),
        in_threes(runs[0].rate),
        middle_half(&Goal::Unset, steady[1], steady[0]),
        if grown <= MOST_STEADY { "yes" } else { "no" },
        mebibytes(runs[1]),
        mebibytes(runs[0]),
    );
}

/// Prints the row of the script, beside the same transactions without script and lines.
fn print_script(script: &[Run], direct: &[Run]) {
    let runs = [script, direct].map(median);
    let times = runs[1].rate as f64 / runs[0].rate as f64;
    println!(
        "| run a script of 1 MiB with {} transactions of five inserts, over a store in memory | dali's core with the same transactions, without script and lines | {} transactions | {} | {times:.2} times | {} | at most {MOST_SCRIPTED} times | {} | {} | {} |",
        in_threes(SCRIPTED),
        in_threes(runs[0].rate),
        in_threes(runs[1].rate),
        middle_half(&Goal::Times(MOST_SCRIPTED), script, direct),
        if times <= MOST_SCRIPTED { "yes" } else { "no" },
        mebibytes(runs[0]),
        mebibytes(runs[1]),
    );
}

/// Prints the row of inserts that keep codewords, beside those that keep none.
fn print_share(coded: &[Run], uncoded: &[Run]) {
    let runs = [coded, uncoded].map(median);
    let times = runs[1].rate as f64 / runs[0].rate as f64;
    println!(
        "| insert {} records by calls, five a transaction, in plain Rust with codewords | the same without | {} inserts | {} | {times:.3} times | {} | at most {MOST_CODED} times | {} | {} | {} |",
        in_threes(CODED),
        in_threes(runs[0].rate),
        in_threes(runs[1].rate),
        middle_half(&Goal::Times(MOST_CODED), coded, uncoded),
        if times <= MOST_CODED { "yes" } else { "no" },
        mebibytes(runs[0]),
        mebibytes(runs[1]),
    );
}

/// The device and the kind of the file system in which the folder stands.
fn disk_of(folder: &Path) -> io::Result<String> {
    let folder = fs::canonicalize(folder)?;
    let mounts = fs::read_to_string("/proc/mounts")?;
    let found = mounts
        .lines()
        .filter_map(|line| {
            let mut words = line.split(' ');
            Some((words.next()?, words.next()?, words.next()?))
        })
        .filter(|(_, place, _)| folder.starts_with(place))
        .max_by_key(|(_, place, _)| place.len());
    Ok(match found {
        Some((device, _, kind)) => format!("{kind} on {device}"),
        None => "an unknown disk".to_string(),
    })
}

fn print_machine(folder: &Path) -> io::Result<()> {
    let cores = std::thread::available_parallelism()?;
    let processors = fs::read_to_string("/proc/cpuinfo")?;
    let model = processors
        .lines()
        .find_map(|line| line.strip_prefix("model name")?.split_once(": "))
        .map_or("an unknown processor", |(_, model)| model);
    println!("{cores} cores of {model}; files on {}.", disk_of(folder)?);
    println!("Medians of {TURNS} runs each, of commits, syncs, codewords, growth and the script {SHORT_TURNS}. `half of the turns` says");
    println!("between which two ratios half of them lie.");
    println!("Rates are a second.");
    println!("Memory is the most that was resident, in MiB (2^20 bytes). Near 2 or 3 MiB it says nothing, since what this");
    println!("program has resident is counted in each that it starts.");
    println!();
    Ok(())
}

/// A folder that was made for this run, and goes with it.
pub struct OwnFolder {
    pub path: PathBuf,
}

impl OwnFolder {
    /// Makes a folder within this one, with the first name that is free.
    pub fn make(within: &Path) -> io::Result<OwnFolder> {
        fs::create_dir_all(within)?;
        for number in 0..1000 {
            let path = within.join(format!("dali_bench.{number}"));
            match fs::create_dir(&path) {
                Ok(()) => return Ok(OwnFolder { path }),
                Err(error) if error.kind() == io::ErrorKind::AlreadyExists => {}
                Err(error) => return Err(error),
            }
        }
        Err(io::Error::other("too many folders were left by runs that were cut off"))
    }
}

impl Drop for OwnFolder {
    fn drop(&mut self) {
        if let Err(error) = fs::remove_dir_all(&self.path) {
            eprintln!("bench: {} can't be removed: {error}", self.path.display());
        }
    }
}

/// Makes a folder anew.
pub fn make_anew(folder: &Path) -> io::Result<()> {
    match fs::remove_dir_all(folder) {
        Err(error) if error.kind() != io::ErrorKind::NotFound => Err(error),
        _ => fs::create_dir(folder),
    }
}

/// The programs, and the folders of their files.
struct Sides<'a> {
    dali: &'a Path,
    /// dali's program that runs a script.
    script: &'a Path,
    beside: PathBuf,
    /// Where runs make files and remove them.
    new: PathBuf,
}

impl Sides<'_> {
    fn folder_of(&self, row: &Row) -> Option<&Path> {
        match row.files {
            Files::Absent => None,
            Files::New => Some(&self.new),
        }
    }

    fn dali(&self, row: &Row) -> io::Result<Run> {
        let mut command = Command::new(self.dali);
        command.arg(row.name).arg("--count").arg(row.count.to_string());
        if let Some(folder) = self.folder_of(row) {
            command.arg("--folder").arg(folder);
        }
        run(&mut command)
    }

    fn beside(&self, row: &Row) -> io::Result<Run> {
        let mut command = Command::new(&self.beside);
        command.arg(row.name).arg(row.count.to_string());
        command.args(self.folder_of(row));
        run(&mut command)
    }

    fn share(&self, name: &str) -> io::Result<Run> {
        let mut command = Command::new(&self.beside);
        command.arg(name).arg(CODED.to_string());
        run(&mut command)
    }

    /// A script of so many transactions is run, in memory.
    fn script(&self, transactions: u64) -> io::Result<Run> {
        run(Command::new(self.script).arg(transactions.to_string()))
    }

    /// dali's program alone, which does so much of this in memory.
    fn alone(&self, name: &str, count: u64) -> io::Result<Run> {
        let mut command = Command::new(self.dali);
        command.arg(name).arg("--count").arg(count.to_string());
        run(&mut command)
    }

    /// The same over files in a new folder.
    fn in_files(&self, name: &str, count: u64) -> io::Result<Run> {
        let mut command = Command::new(self.dali);
        command.arg(name).arg("--count").arg(count.to_string());
        command.arg("--folder").arg(&self.new);
        run(&mut command)
    }
}

fn print_turns(sides: &Sides, row: &Row) -> io::Result<()> {
    let mut dali = Vec::new();
    let mut beside = Vec::new();
    for turn in 0..row.turns {
        // Each side begins every other turn, so that what one run leaves to the next falls on both.
        if turn % 2 == 0 {
            dali.push(sides.dali(row)?);
            beside.push(sides.beside(row)?);
        } else {
            beside.push(sides.beside(row)?);
            dali.push(sides.dali(row)?);
        }
    }
    compare(row.name, dali.iter().chain(&beside))?;
    print_row(row, &dali, &beside);
    Ok(())
}

/// Prints the rows whose names are asked for.
fn print_rows(sides: &Sides, is_asked: impl Fn(&str) -> bool) -> io::Result<()> {
    for row in ROWS.iter().filter(|row| is_asked(row.name)) {
        print_turns(sides, row)?;
    }
    Ok(())
}

fn print_codewords(sides: &Sides) -> io::Result<()> {
    let mut coded = Vec::new();
    let mut uncoded = Vec::new();
    for turn in 0..SHORT_TURNS {
        if turn % 2 == 0 {
            coded.push(sides.share("insert")?);
            uncoded.push(sides.share("uncoded")?);
        } else {
            uncoded.push(sides.share("uncoded")?);
            coded.push(sides.share("insert")?);
        }
    }
    compare("codewords", coded.iter().chain(&uncoded))?;
    print_share(&coded, &uncoded);
    Ok(())
}

/// What `fdatasync` takes beside `fsync`, by this program alone.
fn print_syncs(sides: &Sides) -> io::Result<()> {
    let mut runs = [const { Vec::new() }; 2];
    for turn in 0..SHORT_TURNS {
        for place in 0..2 {
            let side = if turn % 2 == 0 { place } else { 1 - place };
            let mut command = Command::new(&sides.beside);
            command.arg(["commit", "fsync"][side]).arg(SYNCED.to_string()).arg(&sides.new);
            runs[side].push(run(&mut command)?);
        }
    }
    compare("syncs", runs.iter().flatten())?;
    let [data, all] = &runs;
    let rates = [median(data), median(all)];
    println!(
        "| the bare four store calls of {SYNCED} commits, by `fdatasync`, real files | the same by `fsync` | {} commits | {} | {:.2} times | {} | none | | {} | {} |",
        in_threes(rates[0].rate),
        in_threes(rates[1].rate),
        ratio_of(&Goal::Unset, rates[0].rate, rates[1].rate),
        middle_half(&Goal::Unset, data, all),
        mebibytes(rates[0]),
        mebibytes(rates[1]),
    );
    Ok(())
}

fn print_growths(sides: &Sides) -> io::Result<()> {
    let mut grown = [const { Vec::new() }; GROWTH.len()];
    for turn in 0..SHORT_TURNS {
        for place in 0..GROWTH.len() {
            // The order is turned around every other turn, as in the other rows.
            let place = if turn % 2 == 0 { place } else { GROWTH.len() - 1 - place };
            grown[place].push(sides.alone("growth", GROWTH[place])?);
        }
    }
    for runs in &grown {
        compare("growth", runs)?;
    }
    for (counts, runs) in GROWTH.windows(2).zip(grown.windows(2)) {
        print_growth([counts[0], counts[1]], [&runs[0], &runs[1]]);
    }
    Ok(())
}

fn print_steadies(sides: &Sides) -> io::Result<()> {
    let mut steady = [const { Vec::new() }; STEADY.len()];
    for turn in 0..TURNS {
        for place in 0..STEADY.len() {
            let place = if turn % 2 == 0 { place } else { STEADY.len() - 1 - place };
            steady[place].push(sides.in_files("steady", STEADY[place])?);
        }
    }
    for runs in &steady {
        compare("steady", runs)?;
    }
    let [fewer, more] = &steady;
    print_steady([fewer, more]);
    Ok(())
}

fn print_scripts(sides: &Sides) -> io::Result<()> {
    let mut script = Vec::new();
    let mut direct = Vec::new();
    for turn in 0..SHORT_TURNS {
        if turn % 2 == 0 {
            script.push(sides.script(SCRIPTED)?);
            direct.push(sides.alone("direct", SCRIPTED)?);
        } else {
            direct.push(sides.alone("direct", SCRIPTED)?);
            script.push(sides.script(SCRIPTED)?);
        }
    }
    compare("script", script.iter().chain(&direct))?;
    print_script(&script, &direct);
    Ok(())
}

/// The names of rows that stand in a function of their own.
const OTHERS: [&str; 5] = ["syncs", "codewords", "growth", "steady", "script"];

/// Refuses names that no row has.
pub fn know(names: &[&str], is_known: impl Fn(&str) -> bool) -> io::Result<()> {
    match names.iter().find(|name| !is_known(name)) {
        Some(name) => Err(io::Error::other(format!("no row is named {name}"))),
        None => Ok(()),
    }
}

/// Runs dali's two programs and this one in turn, with files in a new folder within this one, and prints the table, or the rows with
/// these names alone: those of `ROWS` and of `OTHERS`.
pub fn print(program: &Path, script: &Path, folder: &Path, names: &[&str]) -> io::Result<()> {
    know(names, |name| OTHERS.contains(&name) || ROWS.iter().any(|row| row.name == name))?;
    let own = OwnFolder::make(folder)?;
    let sides = Sides {
        dali: program,
        script,
        beside: std::env::current_exe()?,
        new: own.path.join("new"),
    };
    fs::create_dir(&sides.new)?;
    print_machine(&own.path)?;
    println!("{HEAD}");
    let is_asked = |name: &str| names.is_empty() || names.contains(&name);
    print_rows(&sides, is_asked)?;
    if is_asked("syncs") {
        print_syncs(&sides)?;
    }
    if is_asked("codewords") {
        print_codewords(&sides)?;
    }
    if is_asked("growth") {
        print_growths(&sides)?;
    }
    if is_asked("steady") {
        print_steadies(&sides)?;
    }
    if is_asked("script") {
        print_scripts(&sides)?;
    }
    Ok(())
}
