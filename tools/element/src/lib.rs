//! The tool `element`: it formats, parses and explains. What is well formed and what a command does, the library `element` decides.
#![deny(missing_docs)]
#![cfg_attr(
    not(test),
    deny(
        clippy::unwrap_used,
        clippy::expect_used,
        clippy::indexing_slicing,
        clippy::panic
    )
)]

pub mod answer;
pub mod args;
pub mod check;
pub mod command;
pub mod counter;
pub mod description;
pub mod expression;
pub mod faults;
pub mod files;
pub mod help;
pub mod hex;
pub mod keep;
pub mod list;
pub mod make;
pub mod metadata;
pub mod names;
pub mod queue;
pub mod record;
pub mod run;
pub mod scan;
pub mod show;
pub mod trouble;

use std::ffi::OsString;
use std::io::{self, ErrorKind, Write};
use std::process::ExitCode;

use args::Request;
use trouble::{Report, Status, Trouble};

/// Carries out what the arguments ask for.
pub fn main(arguments: Vec<OsString>) -> ExitCode {
    let status = match args::parse(&arguments).and_then(carry_out) {
        Ok(report) => match written(&report.text) {
            Ok(()) => report.status,
            Err(trouble) => told(&trouble),
        },
        Err(trouble) => told(&trouble),
    };
    ExitCode::from(status.number())
}

fn carry_out(request: Request) -> Result<Report, Trouble> {
    match request {
        Request::Text(text) => Ok(Report::done(text)),
        Request::New { file, force } => make::new(&file, force),
        Request::Make {
            file,
            description,
            force,
        } => make::make(&file, &description, force),
        Request::Check { file } => check::check(&file),
        Request::Show { file, description } => show::show(&file, description),
        Request::Run {
            file,
            list,
            options,
        } => run::run(&file, &list, &options),
    }
}

/// A reader that has seen enough closes the pipe: that is no trouble.
fn written(text: &str) -> Result<(), Trouble> {
    let mut out = io::stdout().lock();
    match out.write_all(text.as_bytes()).and_then(|()| out.flush()) {
        Err(error) if error.kind() != ErrorKind::BrokenPipe => Err(Trouble::one(format!(
            "standard output cannot be written: {error}"
        ))),
        _ => Ok(()),
    }
}

/// Nothing can be done where standard error fails too.
fn told(trouble: &Trouble) -> Status {
    let mut out = io::stderr().lock();
    for line in &trouble.0 {
        let _ = writeln!(out, "element: {line}");
    }
    Status::Bad
}
