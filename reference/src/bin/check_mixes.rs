//! Compares the three orders of each pair of lists in what `replay` printed for
//! `generate mixes` of the same seed and count.

use std::env;
use std::io;
use std::process::ExitCode;

use reference::mix_check::check;

fn main() -> ExitCode {
    let arguments: Vec<String> = env::args().skip(1).collect();
    let Some((seed, count)) = read_arguments(&arguments) else {
        eprintln!("usage: check_mixes SEED COUNT");
        return ExitCode::from(2);
    };
    match check(seed, count, io::stdin().lock()) {
        Ok(summary) => {
            println!("{summary}");
            ExitCode::SUCCESS
        }
        Err(failure) => {
            println!("{failure}");
            ExitCode::FAILURE
        }
    }
}

fn read_arguments(arguments: &[String]) -> Option<(u64, u64)> {
    match arguments {
        [seed, count] => Some((seed.parse().ok()?, count.parse().ok()?)),
        _ => None,
    }
}
