//! The command line tool `element`; `element --help` says how to use it.
use std::process::ExitCode;

fn main() -> ExitCode {
    element_tool::main(std::env::args_os().skip(1).collect())
}
