//! `new` and `make`: stores from the factory's table and from a description.
use std::fs::File;
use std::path::Path;

use element::{Element, Session, FACTORY_STORE_SIZE};

use crate::check;
use crate::description;
use crate::files;
use crate::keep::Place;
use crate::names;
use crate::record;
use crate::trouble::{Report, Status, Trouble};

/// `new FILE`.
pub fn new(file: &Path, force: bool) -> Result<Report, Trouble> {
    let mut store = vec![0; FACTORY_STORE_SIZE];
    let mut session = Session::fresh();
    Element::factory(&mut store, &mut session)
        .map_err(|_| Trouble::one("the library makes no factory store".into()))?;
    put(file, &store, force)
}

/// `make FILE DESCRIPTION`.
pub fn make(file: &Path, description: &Path, force: bool) -> Result<Report, Trouble> {
    if files::are_same(file, description) {
        return Err(Trouble::one(format!(
            "{} is FILE and DESCRIPTION, expected two files",
            file.display()
        )));
    }
    let text = files::read_text(description)?;
    let name = files::text_name(description);
    let store = description::to_store(&text).map_err(|slips| Trouble::slips(&name, &slips))?;
    let judged = check::judged(&format!("the store that {name} describes"), &store);
    match judged.status {
        Status::Done => put(file, &store, force),
        _ => {
            let mut lines: Vec<String> = judged.text.lines().map(str::to_owned).collect();
            lines.push(format!("{} is not written", file.display()));
            Err(Trouble(lines))
        }
    }
}

fn put(file: &Path, store: &[u8], force: bool) -> Result<Report, Trouble> {
    let place = Place::new(file);
    let _held = place.hold(File::lock);
    if let Some(taken) = place.taken().filter(|_| !force) {
        return Err(Trouble::one(format!(
            "{} is there already, expected a new name, or --force to replace store and session",
            taken.display()
        )));
    }
    place.replace(store)?;
    let objects = names::count(record::records(store).len(), "object");
    let text = format!("{}: {objects}, {} bytes\n", file.display(), store.len());
    Ok(Report::done(text))
}
