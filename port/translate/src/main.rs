//! Translates the MIR of the library to the C files of an interface.
//!
//! usage: translate INTERFACE HEADERS OUT KIT LIBRARIES MIR..
//!
//! The table, the folder of the headers, the folder to write to, the kit's version, the folder of its libraries, and the mir.json of each crate.
//!
//! Whatever is not known, or does not fit, is refused: no C file is written then.

use std::fs;
use std::path::{Path, PathBuf};
use std::process::ExitCode;
use translate::interface::{self, Interface};
use translate::mir::Program;
use translate::{file, header, instances, libraries, Answer};

fn text_of(path: &Path) -> Answer<String> {
    fs::read_to_string(path).map_err(|why| format!("{}: {why}", path.display()))
}

/// The MIR of what the interfaces name and what that calls.
fn program(kit: &str, crates: &[String], interfaces: &[Interface]) -> Answer<Program> {
    let texts = crates.iter().map(|file| text_of(Path::new(file)));
    let texts = texts.collect::<Answer<Vec<_>>>()?;
    let libraries = libraries::Libraries::new(&texts, Some(PathBuf::from(kit)))?;
    let first = interfaces.iter().flat_map(|one| one.functions.clone());
    instances::program(&libraries, &first.collect::<Vec<_>>())
}

fn run() -> Answer<()> {
    let words: Vec<String> = std::env::args().skip(1).collect();
    let [table, headers, out, kit, folder, crates @ ..] = words.as_slice() else {
        return Err("usage: translate INTERFACE HEADERS OUT KIT LIBRARIES MIR..".to_string());
    };
    let interfaces = interface::read(&text_of(Path::new(table))?)?;
    let program = program(folder, crates, &interfaces)?;
    let mut files = Vec::new();
    for interface in interfaces {
        let named = |why| format!("{}: {why}", interface.header);
        let header =
            header::read(&text_of(&Path::new(headers).join(&interface.header))?).map_err(named)?;
        let text = file::print(&program, &interface, &header, kit)?;
        files.push((Path::new(out).join(&interface.file), text));
    }
    for (path, text) in files {
        fs::write(&path, text).map_err(|why| format!("{}: {why}", path.display()))?;
    }
    Ok(())
}

fn main() -> ExitCode {
    match run() {
        Ok(()) => ExitCode::SUCCESS,
        Err(why) => {
            eprintln!("translate: {why}");
            ExitCode::FAILURE
        }
    }
}
