//! Compares the MIR that the libraries hold, for each function that is translated, with the modules of antt that they carry, and where it is given
//! the terms of our own functions, with these.
//!
//! usage: same [--terms TERMS] INTERFACE LIBRARIES MIR..
//!
//! The folder to which `rt check --generated` wrote each crate, the table, the folder of the kit's libraries, and the mir.json of each crate.

use std::collections::BTreeSet;
use std::path::{Path, PathBuf};
use std::process::ExitCode;
use translate::json::Json;
use translate::libraries::Libraries;
use translate::same::difference::difference;
use translate::same::library::{code, spelled};
use translate::same::modules::Modules;
use translate::same::terms;
use translate::{instances, interface, Answer};

fn main() -> ExitCode {
    let words: Vec<String> = std::env::args().skip(1).collect();
    let (terms, words) = match &words[..] {
        [flag, terms, rest @ ..] if flag == "--terms" => (Some(Path::new(terms)), rest),
        all => (None, all),
    };
    let [table, kit, crates @ ..] = words else {
        eprintln!("usage: same [--terms TERMS] INTERFACE LIBRARIES MIR..");
        return ExitCode::from(2);
    };
    match all(table, terms, Path::new(kit), crates) {
        Ok((own, kit)) => {
            let where_own = match terms {
                Some(_) => "in the terms that are checked",
                None => "in the modules that the crates carry",
            };
            let said = "functions: the MIR that is translated is the MIR";
            println!("{own} {said} {where_own}");
            println!("{kit} of the kit's {said} in the modules that its libraries carry");
            ExitCode::SUCCESS
        }
        Err(wrong) => {
            eprintln!("same: {wrong}");
            ExitCode::FAILURE
        }
    }
}

fn text_of(file: &String) -> Answer<String> {
    std::fs::read_to_string(file).map_err(|wrong| format!("{file}: {wrong}"))
}

/// The name of the library that a mir.json lies in, and the library.
fn library(file: &String) -> Answer<(String, PathBuf)> {
    let library = Path::new(file).ancestors().nth(2);
    let name = library.and_then(|library| library.file_stem()?.to_str());
    match (library, name) {
        (Some(library), Some(name)) => Ok((name.to_string(), library.to_path_buf())),
        _ => Err(format!("{file} lies in no library")),
    }
}

/// The names of the functions that are translated.
fn translated(table: &String, libraries: &Libraries) -> Answer<BTreeSet<String>> {
    let interfaces = interface::read(&text_of(table)?)?;
    let first = interfaces.into_iter().flat_map(|one| one.functions);
    let program = instances::program(libraries, &first.collect::<Vec<_>>())?;
    let functions = program.functions.into_iter();
    Ok(functions.map(|function| function.instance.name).collect())
}

/// How many of our functions and of the kit's were compared, if all are the same. Each that is not the same is said.
fn all(
    table: &String,
    terms: Option<&Path>,
    kit: &Path,
    crates: &[String],
) -> Answer<(usize, usize)> {
    let texts: Vec<String> = crates.iter().map(text_of).collect::<Answer<_>>()?;
    let libraries = Libraries::new(&texts, Some(kit.to_path_buf()))?;
    let folders: Vec<_> = crates.iter().map(library).collect::<Answer<_>>()?;
    let modules = Modules::new(folders.into_iter(), kit);
    let names = translated(table, &libraries)?;
    let (mut own, mut wrong) = (0, 0);
    for name in &names {
        let ((is_own, ..), function) = libraries.function(name)?;
        own += usize::from(is_own);
        if let Err(why) = one(name, &function, &modules, terms.filter(|_| is_own)) {
            eprintln!("same: {name}: {why}");
            wrong += 1;
        }
    }
    match (own, wrong) {
        (0, _) => Err("no function was compared, for the table names none".to_string()),
        (_, 0) => Ok((own, names.len() - own)),
        _ => Err(format!(
            "{wrong} of {} functions are not shown to be the same",
            names.len()
        )),
    }
}

/// Whether the function that a library holds is the one in its module, and in its term, where there are terms.
fn one(name: &str, function: &Json, modules: &Modules, terms: Option<&Path>) -> Answer<()> {
    let held = code(function).map_err(|wrong| format!("in the library: {wrong}"))?;
    let held = spelled(held);
    let module = modules.function(name).and_then(|module| code(&module));
    let module = module.map_err(|wrong| format!("in the module: {wrong}"))?;
    difference(&held, "module", &module).map_or(Ok(()), Err)?;
    let Some(terms) = terms else {
        return Ok(());
    };
    let term = terms::code(terms, modules, name);
    let term = term.map_err(|wrong| format!("in the term: {wrong}"))?;
    difference(&held, "term", &term).map_or(Ok(()), Err)
}
