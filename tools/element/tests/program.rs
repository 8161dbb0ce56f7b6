//! The built program: its exit statuses, and no panic on any file.
mod common;

use common::Numbers;
use std::fs;
use std::path::{Path, PathBuf};
use std::process::{Command, Output};

struct Folder(PathBuf);

impl Folder {
    fn new(name: &str) -> Folder {
        let folder = std::env::temp_dir().join(format!("element-{}-{name}", std::process::id()));
        fs::create_dir_all(&folder).unwrap();
        Folder(folder)
    }

    fn element(&self, arguments: &[&str]) -> Output {
        Command::new(env!("CARGO_BIN_EXE_element"))
            .args(arguments)
            .current_dir(&self.0)
            .output()
            .unwrap()
    }

    fn status(&self, arguments: &[&str]) -> Option<i32> {
        self.element(arguments).status.code()
    }

    fn read(&self, name: &str) -> Vec<u8> {
        fs::read(self.0.join(name)).unwrap()
    }

    fn write(&self, name: &str, bytes: &[u8]) {
        fs::write(self.0.join(name), bytes).unwrap();
    }
}

impl Drop for Folder {
    fn drop(&mut self) {
        let _ = fs::remove_dir_all(&self.0);
    }
}

#[test]
fn random_files_are_answered() {
    let folder = Folder::new("files");
    let mut numbers = Numbers::new(11);
    folder.element(&["new", "good"]);
    for _ in 0..60 {
        folder.write("bad", &numbers.bytes(300));
        folder.write("bad.session", &numbers.bytes(7));
        folder.write("good.session", &numbers.bytes(7));
        for arguments in [
            &["check", "bad"][..],
            &["show", "bad"],
            &["show", "bad", "--description"],
            &["run", "bad", "bad", "--dry"],
            &["run", "good", "bad"],
            &["make", "made", "bad"],
        ] {
            let status = folder.status(arguments);
            assert!(matches!(status, Some(0..=2)), "{arguments:?} {status:?}");
        }
    }
    folder.write("good.session", &[0, 1, 1, 0]);
    assert_eq!(folder.status(&["check", "good"]), Some(0));
}

#[test]
fn a_link_is_followed() {
    let folder = Folder::new("link");
    folder.element(&["new", "store"]);
    std::os::unix::fs::symlink("store", folder.0.join("link")).unwrap();
    folder.write("list", b"70000010D2760000044765 6E41757468 4170706C");
    assert_eq!(folder.status(&["run", "link", "list"]), Some(0));
    assert!(folder.0.join("link").is_symlink());
    assert_eq!(folder.read("store.session"), [1, 1, 1, 0]);
    assert!(!Path::exists(&folder.0.join("link.session")));
}

#[test]
fn runs_at_the_same_time_wait_for_each_other() {
    let folder = Folder::new("together");
    folder.element(&["new", "store"]);
    folder.write("open", b"70000010D276000004 47656E41757468 4170706C");
    folder.element(&["run", "store", "open"]);
    std::thread::scope(|scope| {
        for index in 0..8u8 {
            let folder = &folder;
            scope.spawn(move || {
                let list = format!("list{index}");
                folder.write(
                    &list,
                    format!("02000005F1D{index:X}0000A{index:X}").as_bytes(),
                );
                assert_eq!(folder.status(&["run", "store", &list]), Some(0));
            });
        }
    });
    let store = folder.read("store");
    for index in 0..8 {
        assert_eq!(usize::from(store[236 * index + 96]), 0xA0 + index);
    }
}

#[test]
fn a_reader_that_stops_early_is_no_trouble() {
    let folder = Folder::new("pipe");
    folder.element(&["new", "store"]);
    let mut child = Command::new(env!("CARGO_BIN_EXE_element"))
        .args(["show", "store"])
        .current_dir(&folder.0)
        .stdout(std::process::Stdio::piped())
        .spawn()
        .unwrap();
    drop(child.stdout.take());
    assert_eq!(child.wait().unwrap().code(), Some(0));
}
