//! The plain Rust side of the benches: the same work as `dali_bench` on the same data, and the table of both.
mod calls;
mod codec;
mod files;
mod floor;
mod keys;
mod locks;
mod regions;
mod script;
mod shared;
mod table;
mod timing;
mod whole;

use std::path::Path;
use std::process::ExitCode;
use timing::Timing;

/// What a subcommand times. None where there is no such subcommand, or where it failed.
fn time(words: &[&str]) -> Option<Timing> {
    match *words {
        ["codec", count] => codec::run(count.parse().ok()?),
        ["locks", count] => locks::run(count.parse().ok()?),
        ["update", count] => regions::update(count.parse().ok()?, regions::REGIONS),
        ["check", count] => regions::copy(count.parse().ok()?, regions::REGIONS),
        ["copy", count, regions] => regions::copy(count.parse().ok()?, regions.parse().ok()?),
        ["parse", count] => script::run(count.parse().ok()?),
        ["claims", count] => shared::draw(count.parse().ok()?),
        ["notes", count] => shared::note(count.parse().ok()?),
        ["insert", count] => calls::run(calls::Kind::Insert, count.parse().ok()?),
        ["get", count] => calls::run(calls::Kind::Get, count.parse().ok()?),
        ["change", count] => calls::run(calls::Kind::Update, count.parse().ok()?),
        ["delete", count] => calls::run(calls::Kind::Delete, count.parse().ok()?),
        ["tens", count] => calls::run_tens(count.parse().ok()?),
        ["uncoded", count] => calls::run_uncoded(count.parse().ok()?),
        ["audit", count] => regions::read(count.parse().ok()?),
        ["checkpoint", count, folder] => files::image(count.parse().ok()?, Path::new(folder)),
        ["commit", count, folder] => files::commit(count.parse().ok()?, Path::new(folder)),
        ["fsync", count, folder] => files::commit_all(count.parse().ok()?, Path::new(folder)),
        _ => None,
    }
}

const USAGE: &str = "usage: bench codec|locks|update|check|parse|claims|notes|insert|get|change|delete|tens|uncoded|audit COUNT, \
    bench commit|fsync|checkpoint COUNT FOLDER, bench gen CLIENTS SIZE NUMBER FLUSHES FOLDER, bench read FOLDER, \
    bench copy COUNT REGIONS, bench table PROGRAM SCRIPT FOLDER [ROW..], or bench whole PROGRAM FOLDER MEMORY [ROW..]";

/// The floor of the generated round.
fn generate(numbers: [&str; 4], folder: &Path) -> Result<(), String> {
    let [Ok(clients), Ok(size), Ok(number), Ok(flushes)] = numbers.map(str::parse) else {
        return Err(USAGE.to_string());
    };
    match floor::run(clients, size, number, flushes, folder) {
        Some(text) => {
            print!("{text}");
            Ok(())
        }
        None => Err("gen failed".to_string()),
    }
}

fn main() -> ExitCode {
    let words: Vec<String> = std::env::args().skip(1).collect();
    let words: Vec<&str> = words.iter().map(String::as_str).collect();
    let outcome = match words.as_slice() {
        [] => Err(USAGE.to_string()),
        ["table", program, script, folder, names @ ..] => {
            table::print(Path::new(program), Path::new(script), Path::new(folder), names).map_err(|error| error.to_string())
        }
        ["whole", program, folder, memory, names @ ..] => {
            whole::print(Path::new(program), Path::new(folder), Path::new(memory), names).map_err(|error| error.to_string())
        }
        ["gen", clients, size, number, flushes, folder] => {
            generate([clients, size, number, flushes], Path::new(folder))
        }
        ["read", folder] => match floor::read(Path::new(folder)) {
            Some(count) => {
                println!("{count}");
                Ok(())
            }
            None => Err("read failed".to_string()),
        },
        [name, ..] => match time(&words) {
            Some(timing) => {
                println!("{timing}");
                Ok(())
            }
            None => Err(format!("{name} failed; {USAGE}")),
        },
    };
    match outcome {
        Ok(()) => ExitCode::SUCCESS,
        Err(text) => {
            eprintln!("bench: {text}");
            ExitCode::FAILURE
        }
    }
}
