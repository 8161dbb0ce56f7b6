//! Files read and written whole, with what is told where that fails.
use std::fs::{self, File};
use std::io::{self, ErrorKind, Read, Write};
use std::path::Path;

use crate::trouble::Trouble;

const LARGEST_TEXT: usize = 16 << 20;

/// At most so many bytes of a file.
pub fn read(file: &Path, most: usize) -> Result<Vec<u8>, Trouble> {
    let opened = File::open(file).map_err(|error| trouble(file, "read", &error))?;
    read_from(opened, most).map_err(|error| trouble(file, "read", &error))
}

fn read_from(source: impl Read, most: usize) -> io::Result<Vec<u8>> {
    let mut bytes = Vec::new();
    source.take(most as u64).read_to_end(&mut bytes)?;
    Ok(bytes)
}

/// The text of a file, `-` for standard input; bytes that are no UTF-8 become a mark that no grammar takes.
pub fn read_text(file: &Path) -> Result<String, Trouble> {
    let bytes = match file == Path::new("-") {
        true => read_from(io::stdin(), LARGEST_TEXT + 1)
            .map_err(|error| Trouble::one(format!("standard input cannot be read: {error}")))?,
        false => read(file, LARGEST_TEXT + 1)?,
    };
    if bytes.len() > LARGEST_TEXT {
        return Err(Trouble::one(format!(
            "{} has more than {LARGEST_TEXT} bytes, expected a text of at most that",
            text_name(file)
        )));
    }
    Ok(String::from_utf8_lossy(&bytes).into_owned())
}

/// Whether two names lead to one file that is there.
pub fn are_same(one: &Path, other: &Path) -> bool {
    match (fs::canonicalize(one), fs::canonicalize(other)) {
        (Ok(one), Ok(other)) => one == other,
        _ => false,
    }
}

/// What a text is called in errors.
pub fn text_name(file: &Path) -> String {
    match file == Path::new("-") {
        true => "standard input".into(),
        false => file.display().to_string(),
    }
}

/// Writes a whole file for the place of another, whose permissions it takes on.
pub fn write(file: &Path, bytes: &[u8], place: &Path) -> Result<(), Trouble> {
    let permissions = fs::metadata(place).map(|there| there.permissions()).ok();
    if permissions.as_ref().is_some_and(fs::Permissions::readonly) {
        return Err(Trouble::one(format!(
            "{} is read-only, expected a file that may be written; nothing is kept",
            place.display()
        )));
    }
    let written = || -> io::Result<()> {
        let mut out = File::create(file)?;
        if let Some(permissions) = permissions {
            out.set_permissions(permissions)?;
        }
        out.write_all(bytes)?;
        out.sync_all()
    };
    written().map_err(|error| {
        let said = format!(
            "{} cannot be written: {error}; nothing is kept",
            file.display()
        );
        Trouble::one(said)
    })
}

/// Puts a finished file in the place of another.
pub fn rename(from: &Path, to: &Path) -> Result<(), Trouble> {
    fs::rename(from, to).map_err(|error| {
        Trouble::one(format!(
            "{} cannot be put in its place from {}: {error}",
            to.display(),
            from.display()
        ))
    })
}

/// Removes a file, if it is there.
pub fn remove(file: &Path) -> Result<(), Trouble> {
    match fs::remove_file(file) {
        Err(error) if error.kind() != ErrorKind::NotFound => Err(trouble(file, "removed", &error)),
        _ => Ok(()),
    }
}

fn trouble(file: &Path, done: &str, error: &io::Error) -> Trouble {
    Trouble::one(format!(
        "{} cannot be {done}, expected a file: {error}",
        file.display()
    ))
}
