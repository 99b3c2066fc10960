//! A folder of a test, and what a refusal is.
#![allow(dead_code)]
use geosvm::{Error, Fault, Session};
use std::path::{Path, PathBuf};
use std::sync::atomic::{AtomicU32, Ordering};
use std::{env, fmt::Debug, fs, io};

/// A folder that is gone with it.
pub struct Folder(PathBuf);

impl Folder {
    pub fn new() -> Folder {
        static NEXT: AtomicU32 = AtomicU32::new(0);
        let name = format!("geosvm-test-{}-{}", std::process::id(), NEXT.fetch_add(1, Ordering::Relaxed));
        let path = env::temp_dir().join(name);
        fs::create_dir(&path).unwrap();
        Folder(path)
    }

    pub fn path(&self, name: &str) -> PathBuf {
        self.0.join(name)
    }

    /// The names of its files, in order.
    pub fn names(&self) -> Vec<String> {
        let entries = fs::read_dir(&self.0).unwrap();
        let mut names: Vec<_> = entries.map(|it| it.unwrap().file_name().into_string().unwrap()).collect();
        names.sort();
        names
    }
}

impl Drop for Folder {
    fn drop(&mut self) {
        let _ = fs::remove_dir_all(&self.0);
    }
}

pub fn memory() -> Session {
    Session::in_memory().unwrap()
}

/// The fault of a refusal.
#[track_caller]
pub fn fault<T: Debug>(refused: Result<T, Error>) -> Fault {
    refused.expect_err("it is refused").fault()
}

/// What the system said of a refusal that is `File`.
#[track_caller]
pub fn io_kind<T: Debug>(refused: Result<T, Error>) -> io::ErrorKind {
    let error = refused.expect_err("it is refused");
    assert_eq!(error, Fault::File);
    error.io().expect("the system said why").kind()
}

/// A document with one raw block of these bytes, which is saved.
pub fn saved(path: &Path, bytes: &str) {
    let mut doc = geosvm::OpenOptions::new().create_new(true).open(path).unwrap();
    let block = doc.new_raw(7, 0).unwrap();
    doc.attach_raw(block, bytes).unwrap();
    doc.save().unwrap();
}

/// The bytes of the first block.
pub fn first_bytes(doc: &mut Session) -> Vec<u8> {
    let block = doc.blocks().unwrap()[0];
    doc.read_raw(block).unwrap()
}
