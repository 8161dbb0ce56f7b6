//! Writes generated cases, lists, mixes and streams, also with what must come of them, and
//! shows what they cover.

use std::env;
use std::io::{self, BufWriter, Write};
use std::process::ExitCode;

use reference::coverage::cover;
use reference::coverage::docks::cover_docks;
use reference::generator::cases::{cases, Case};
use reference::generator::lists::list;
use reference::generator::mixes::pair;
use reference::generator::streams::{self, streams};
use reference::whole;

const USAGE: &str = "usage: generate cases SEED COUNT
       generate lists SEED INDEX
       generate mixes SEED COUNT
       generate coverage SEED COUNT
       generate streams SEED COUNT
       generate dock-coverage SEED COUNT
       generate whole SEED COUNT
       generate whole-streams SEED COUNT";

fn main() -> ExitCode {
    let arguments: Vec<String> = env::args().skip(1).collect();
    let Some((mode, seed, number)) = read_arguments(&arguments) else {
        eprintln!("{USAGE}");
        return ExitCode::from(2);
    };
    let written = match mode {
        "cases" => write_cases(seed, number),
        "lists" => write_list(seed, number),
        "mixes" => write_mixes(seed, number),
        "streams" => write_streams(seed, number),
        "whole" => write_whole(seed, number),
        "whole-streams" => write_whole_streams(seed, number),
        "coverage" => return show_coverage(seed, number),
        "dock-coverage" => return show_dock_coverage(seed, number),
        _ => {
            eprintln!("{USAGE}");
            return ExitCode::from(2);
        }
    };
    match written {
        Ok(()) => ExitCode::SUCCESS,
        Err(error) => {
            eprintln!("generate: {error}");
            ExitCode::FAILURE
        }
    }
}

fn read_arguments(arguments: &[String]) -> Option<(&str, u64, u64)> {
    match arguments {
        [mode, seed, number] => Some((mode, seed.parse().ok()?, number.parse().ok()?)),
        _ => None,
    }
}

fn write_cases(seed: u64, count: u64) -> io::Result<()> {
    let mut output = BufWriter::with_capacity(1 << 16, io::stdout().lock());
    let mut write_case = |case: Case| case.item.write(&mut output);
    cases(seed, count as usize, &mut write_case)?;
    output.flush()
}

fn write_list(seed: u64, index: u64) -> io::Result<()> {
    let mut output = io::stdout().lock();
    output.write_all(&list(seed, index))?;
    output.flush()
}

fn write_mixes(seed: u64, count: u64) -> io::Result<()> {
    let mut output = BufWriter::with_capacity(1 << 16, io::stdout().lock());
    for index in 0..count {
        for item in pair(seed, index).items() {
            item.write(&mut output)?;
        }
    }
    output.flush()
}

fn write_streams(seed: u64, count: u64) -> io::Result<()> {
    let mut output = BufWriter::with_capacity(1 << 16, io::stdout().lock());
    let mut write_case = |case: streams::Case| case.item.write(&mut output);
    streams(seed, count as usize, &mut write_case)?;
    output.flush()
}

fn write_whole(seed: u64, count: u64) -> io::Result<()> {
    let mut output = BufWriter::with_capacity(1 << 16, io::stdout().lock());
    whole::write_cases(seed, count as usize, &mut output)?;
    output.flush()
}

fn write_whole_streams(seed: u64, count: u64) -> io::Result<()> {
    let mut output = BufWriter::with_capacity(1 << 16, io::stdout().lock());
    whole::write_streams(seed, count as usize, &mut output)?;
    output.flush()
}

/// Prints the tables; fails if something reachable never occurred.
fn show_coverage(seed: u64, count: u64) -> ExitCode {
    let coverage = cover(seed, count as usize);
    print!("{}", coverage.table());
    show_lacks(&coverage.missing(), coverage.errors())
}

fn show_dock_coverage(seed: u64, count: u64) -> ExitCode {
    let coverage = cover_docks(seed, count as usize);
    print!("{coverage}");
    show_lacks(&coverage.missing(), coverage.errors())
}

fn show_lacks(missing: &[String], errors: &[String]) -> ExitCode {
    for missing in missing {
        println!("never occurred: {missing}");
    }
    for error in errors {
        println!("error: {error}");
    }
    match missing.is_empty() && errors.is_empty() {
        true => ExitCode::SUCCESS,
        false => ExitCode::FAILURE,
    }
}
