//! Files that a program opens itself, and hands over.
use crate::error::{Error, Result};
use std::ffi::c_int;
use std::fs::File;
use std::io;
use std::os::fd::AsRawFd;
use std::os::unix::fs::MetadataExt;
use std::sync::{Mutex, PoisonError};

/// By these numbers the system knows a file: those of its device and on it.
type Identity = (u64, u64);

/// The files that sessions of this program have. A lock isn't enough: it belongs to an open file, and so to each
/// [`File::try_clone`] of it.
static IN_USE: Mutex<Vec<Identity>> = Mutex::new(Vec::new());

/// A file that is locked, and that no other session of this program has. It is closed when it is dropped.
#[derive(Debug)]
pub(crate) struct OwnFile {
    file: File,
    identity: Identity,
}

unsafe extern "C" {
    safe fn flock(number: c_int, operation: c_int) -> c_int;
}

/// Takes the lock of a file for one session alone, without waiting.
fn take_lock(file: &File) -> io::Result<()> {
    const LOCK_EX: c_int = 2;
    const LOCK_NB: c_int = 4;
    match flock(file.as_raw_fd(), LOCK_EX | LOCK_NB) {
        0 => Ok(()),
        _ => Err(io::Error::last_os_error()),
    }
}

impl OwnFile {
    /// Locks a file, before anything else is done with it. One that is in use is [`io::ErrorKind::WouldBlock`].
    pub(crate) fn lock(file: File) -> Result<OwnFile> {
        take_lock(&file).map_err(Error::of_file)?;
        let about = file.metadata().map_err(Error::of_file)?;
        let identity = (about.dev(), about.ino());
        let mut in_use = IN_USE.lock().unwrap_or_else(PoisonError::into_inner);
        if in_use.contains(&identity) {
            return Err(Error::of_file(io::ErrorKind::WouldBlock.into()));
        }
        in_use.push(identity);
        Ok(OwnFile { file, identity })
    }

    /// Its descriptor.
    pub(crate) fn number(&self) -> i32 {
        self.file.as_raw_fd()
    }
}

impl Drop for OwnFile {
    fn drop(&mut self) {
        IN_USE.lock().unwrap_or_else(PoisonError::into_inner).retain(|it| *it != self.identity);
    }
}
