//! Store and session in their files. Both change together: first whole new files are written beside them, then one rename decides, then the new files
//! take their places by rename. After an interruption at any point, either both old files count or both new ones.
use std::ffi::OsString;
use std::fs::{self, File};
use std::io::{self, ErrorKind};
use std::path::{Path, PathBuf};

use element::Session;

use crate::files::{read, remove, rename, write};
use crate::record::LARGEST_STORE;
use crate::trouble::Trouble;

/// A store and its session.
#[derive(Debug, PartialEq, Eq)]
pub struct Kept {
    /// The bytes of the store; where the file has more than a store can have, one byte more than that.
    pub store: Vec<u8>,
    /// The session; fresh where there is no file.
    pub session: Session,
}

impl Kept {
    /// Reads both, and waits while a run changes them.
    pub fn load(file: &Path) -> Result<Kept, Trouble> {
        let place = Place::new(file);
        let _held = place.hold(File::lock_shared);
        place.load()
    }

    /// Reads the store alone, whatever stands in the session's file.
    pub fn load_store(file: &Path) -> Result<Vec<u8>, Trouble> {
        let place = Place::new(file);
        let _held = place.hold(File::lock_shared);
        place.load_store()
    }
}

/// Where an element is kept. `next_session` stands only from the deciding rename on until both new files are in their places.
pub struct Place {
    store: PathBuf,
    session: PathBuf,
    next_store: PathBuf,
    next_session: PathBuf,
    part_session: PathBuf,
}

impl Place {
    /// The files of an element; a link to a store is followed.
    pub fn new(file: &Path) -> Place {
        let store = match file.is_symlink() {
            true => fs::canonicalize(file).unwrap_or_else(|_| file.to_path_buf()),
            false => file.to_path_buf(),
        };
        let beside = |ending: &str| {
            let mut name = OsString::from(&store);
            name.push(ending);
            PathBuf::from(name)
        };
        Place {
            session: beside(".session"),
            next_store: beside(".element-next"),
            next_session: beside(".session.element-next"),
            part_session: beside(".session.element-part"),
            store,
        }
    }

    /// Holds the folder until the value is dropped, so that no other run comes between; without effect where folders cannot be held.
    pub fn hold(&self, how: fn(&File) -> io::Result<()>) -> Option<File> {
        let folder = self.folder()?;
        how(&folder).ok()?;
        Some(folder)
    }

    fn folder(&self) -> Option<File> {
        let folder = self.store.parent()?;
        let here = folder.as_os_str().is_empty();
        File::open(if here { Path::new(".") } else { folder }).ok()
    }

    /// Makes renames last; not every system can.
    fn sync_folder(&self) {
        if let Some(folder) = self.folder() {
            let _ = folder.sync_all();
        }
    }

    /// Reads store and session as the last finished run left them.
    pub fn load(&self) -> Result<Kept, Trouble> {
        Ok(Kept {
            store: self.load_store()?,
            session: read_session(match self.is_decided() {
                true => &self.next_session,
                false => &self.session,
            })?,
        })
    }

    fn load_store(&self) -> Result<Vec<u8>, Trouble> {
        let store = match self.is_decided() && self.next_store.exists() {
            true => &self.next_store,
            false => &self.store,
        };
        read(store, LARGEST_STORE + 1)
    }

    /// Whether a change is decided whose files are not all in their places.
    fn is_decided(&self) -> bool {
        self.next_session.exists()
    }

    /// Which of the files is there already, if any is.
    pub fn taken(&self) -> Option<&Path> {
        let files = [&self.store, &self.session, &self.next_session];
        files
            .into_iter()
            .find(|file| file.symlink_metadata().is_ok())
            .map(PathBuf::as_path)
    }

    /// Keeps a session and, where it is changed, a store.
    pub fn save(&self, store: Option<&[u8]>, session: Session) -> Result<(), Trouble> {
        self.settle()?;
        let written = self.write_next(store, session);
        let decided = written.and_then(|()| rename(&self.part_session, &self.next_session));
        if let Err(trouble) = decided {
            let _ = fs::remove_file(&self.next_store);
            let _ = fs::remove_file(&self.part_session);
            return Err(trouble);
        }
        self.sync_folder();
        self.settle().map_err(|Trouble(mut lines)| {
            lines.push("the change is decided all the same: the next run puts it in place".into());
            Trouble(lines)
        })
    }

    fn write_next(&self, store: Option<&[u8]>, session: Session) -> Result<(), Trouble> {
        remove(&self.next_store)?;
        if let Some(store) = store {
            write(&self.next_store, store, &self.store)?;
        }
        let bytes = [session.opened, session.lcsg, session.lcsa, session.error];
        write(&self.part_session, &bytes, &self.session)
    }

    /// Keeps a new store with the fresh session.
    pub fn replace(&self, store: &[u8]) -> Result<(), Trouble> {
        self.settle()?;
        if self.session.exists() {
            return self.save(Some(store), Session::fresh());
        }
        let written = write(&self.next_store, store, &self.store);
        let decided = written.and_then(|()| rename(&self.next_store, &self.store));
        if decided.is_err() {
            let _ = fs::remove_file(&self.next_store);
        }
        self.sync_folder();
        decided
    }

    /// Brings the new files of a decided change into their places.
    pub fn settle(&self) -> Result<(), Trouble> {
        if !self.is_decided() {
            return Ok(());
        }
        if self.next_store.exists() {
            rename(&self.next_store, &self.store)?;
        }
        rename(&self.next_session, &self.session)?;
        self.sync_folder();
        Ok(())
    }
}

fn read_session(file: &Path) -> Result<Session, Trouble> {
    let bytes = match fs::symlink_metadata(file) {
        Err(error) if error.kind() == ErrorKind::NotFound => return Ok(Session::fresh()),
        _ => read(file, 5)?,
    };
    let [opened, lcsg, lcsa, error] = bytes[..] else {
        let count = match bytes.len() {
            5 => "more than 4 bytes".into(),
            count => format!("{count} of 4 bytes"),
        };
        return Err(Trouble::one(format!(
            "{} has {count}, expected opened, LcsG, LcsA and last error, one byte each; without the file the session is fresh",
            file.display()
        )));
    };
    Ok(Session {
        opened,
        lcsg,
        lcsa,
        error,
    })
}

#[cfg(test)]
mod tests {
    use super::*;

    const LATER: Session = Session {
        opened: 1,
        lcsg: 3,
        lcsa: 7,
        error: 8,
    };

    /// A folder of its own for a test, removed at the end.
    struct Folder(PathBuf);

    impl Folder {
        fn new(name: &str) -> Folder {
            let folder =
                std::env::temp_dir().join(format!("element-{}-{name}", std::process::id()));
            fs::create_dir_all(&folder).unwrap();
            Folder(folder)
        }

        fn place(&self) -> Place {
            Place::new(&self.0.join("store"))
        }

        fn files(&self) -> Vec<String> {
            let mut names: Vec<String> = fs::read_dir(&self.0)
                .unwrap()
                .map(|entry| entry.unwrap().file_name().into_string().unwrap())
                .collect();
            names.sort();
            names
        }
    }

    impl Drop for Folder {
        fn drop(&mut self) {
            let _ = fs::remove_dir_all(&self.0);
        }
    }

    fn old() -> Kept {
        Kept {
            store: vec![1, 2],
            session: Session::fresh(),
        }
    }

    fn new() -> Kept {
        Kept {
            store: vec![3],
            session: LATER,
        }
    }

    #[test]
    fn both_are_kept_and_nothing_else() {
        let folder = Folder::new("both");
        let place = folder.place();
        place.replace(&[1, 2]).unwrap();
        assert_eq!(folder.files(), ["store"]);
        assert_eq!(place.load().unwrap(), old());
        place.save(Some(&[3]), LATER).unwrap();
        assert_eq!(folder.files(), ["store", "store.session"]);
        assert_eq!(place.load().unwrap(), new());
        place.save(None, Session::fresh()).unwrap();
        assert_eq!(place.load().unwrap().store, [3]);
        place.save(None, LATER).unwrap();
        place.replace(&[1, 2]).unwrap();
        assert_eq!(place.load().unwrap(), old());
    }

    /// Every point at which a change can stop: before the deciding rename the old files count, from then on the new ones.
    #[test]
    fn an_interrupted_change_loses_nothing() {
        let folder = Folder::new("interrupted");
        let place = folder.place();
        place.replace(&[1, 2]).unwrap();
        fs::write(&place.next_store, [3, 3]).unwrap();
        assert_eq!(place.load().unwrap(), old());
        place.write_next(Some(&[3]), LATER).unwrap();
        assert_eq!(place.load().unwrap(), old());
        place.settle().unwrap();
        assert_eq!(place.load().unwrap(), old());
        rename(&place.part_session, &place.next_session).unwrap();
        assert_eq!(place.load().unwrap(), new());
        rename(&place.next_store, &place.store).unwrap();
        assert_eq!(place.load().unwrap(), new());
        place.settle().unwrap();
        assert_eq!(place.load().unwrap(), new());
        assert_eq!(folder.files(), ["store", "store.session"]);
    }

    #[test]
    fn what_an_interrupted_change_left_is_not_taken_for_the_next() {
        let folder = Folder::new("left");
        let place = folder.place();
        place.replace(&[1, 2]).unwrap();
        fs::write(&place.next_store, [9]).unwrap();
        place.save(None, LATER).unwrap();
        assert_eq!(place.load().unwrap().store, [1, 2]);
        assert_eq!(folder.files(), ["store", "store.session"]);
    }

    #[test]
    fn a_session_has_four_bytes() {
        let folder = Folder::new("session");
        let place = folder.place();
        place.replace(&[1, 2]).unwrap();
        for bytes in [&[][..], &[1, 1, 1], &[1; 5], &[1; 100]] {
            fs::write(&place.session, bytes).unwrap();
            assert!(place.load().is_err());
        }
        fs::write(&place.session, [1, 3, 7, 8]).unwrap();
        assert_eq!(place.load().unwrap().session, LATER);
    }

    #[test]
    fn what_cannot_be_written_changes_nothing() {
        let folder = Folder::new("unwritten");
        let place = folder.place();
        place.replace(&[1, 2]).unwrap();
        fs::create_dir(&place.part_session).unwrap();
        assert!(place.save(Some(&[3]), LATER).is_err());
        assert_eq!(place.load().unwrap(), old());
        let mut permissions = fs::metadata(&place.store).unwrap().permissions();
        permissions.set_readonly(true);
        fs::set_permissions(&place.store, permissions).unwrap();
        assert!(place.replace(&[3]).is_err());
        assert_eq!(place.load().unwrap(), old());
    }
}
