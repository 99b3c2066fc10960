//! How a session is opened, and how it goes on in another file.
use crate::error::{Error, Result};
use crate::files::OwnFile;
use crate::session::{call, Session};
use crate::BlockHandle;
use geosvm_sys as sys;
use std::ffi::CString;
use std::fs::File;
use std::io;
use std::os::unix::ffi::OsStrExt;
use std::path::Path;
use std::ptr;

/// How the file of a path is opened. At most one of these is set, and [`checksums`](OpenOptions::checksums) beside any
/// but [`read_only`](OpenOptions::read_only): else it is [`Fault::BadArgument`](crate::Fault).
///
/// Before anything is done with the file it is locked: one that another session has open, here or in another program,
/// is refused with [`io::ErrorKind::WouldBlock`], unless both only read.
///
/// ```
/// # fn main() -> geosvm::Result<()> {
/// # let folder = std::env::temp_dir().join(format!("geosvm-options-{}", std::process::id()));
/// # std::fs::create_dir_all(&folder).unwrap();
/// # let path = folder.join("my.document");
/// use geosvm::OpenOptions;
///
/// let mut doc = OpenOptions::new().create_new(true).open(&path)?;
/// let in_use = OpenOptions::new().read_only(true).open(&path).unwrap_err();
/// assert_eq!(in_use.io().unwrap().kind(), std::io::ErrorKind::WouldBlock);
/// # std::fs::remove_dir_all(&folder).unwrap();
/// # Ok(())
/// # }
/// ```
#[derive(Clone, Debug, Default, PartialEq, Eq)]
pub struct OpenOptions {
    flags: u32,
}

impl OpenOptions {
    /// A file that is there, to be read and written.
    pub fn new() -> OpenOptions {
        OpenOptions::default()
    }

    /// An empty document is made where no file is; one of 0 bytes becomes one too.
    pub fn create(&mut self, create: bool) -> &mut OpenOptions {
        self.set(sys::GEOSVM_PATH_CREATE, create)
    }

    /// An empty document is made in a new file. Where anything is there it is refused, with
    /// [`io::ErrorKind::AlreadyExists`].
    pub fn create_new(&mut self, create_new: bool) -> &mut OpenOptions {
        self.set(sys::GEOSVM_PATH_NEW, create_new)
    }

    /// An empty document is made, whatever is there. What was in the file is lost, also where this is refused after the
    /// file was locked; [`Session::save_as`] keeps the old file until the new one is whole.
    pub fn empty(&mut self, empty: bool) -> &mut OpenOptions {
        self.set(sys::GEOSVM_PATH_EMPTY, empty)
    }

    /// The file is read alone, by any number of sessions side by side. The document can be edited as long as nothing
    /// has to be written; what has to be is refused, with [`io::ErrorKind::ReadOnlyFilesystem`], and so is
    /// [`Session::save_as`], which writes to the file that is left.
    pub fn read_only(&mut self, read_only: bool) -> &mut OpenOptions {
        self.set(sys::GEOSVM_PATH_READ, read_only)
    }

    /// The file has checksums from its next commit on, and one that is made from the start. Where
    /// bytes of it were changed elsewhere it is refused then, mostly as `Damaged`, or opens to the commit before. It
    /// keeps them, and so has what it is saved into.
    pub fn checksums(&mut self, checksums: bool) -> &mut OpenOptions {
        self.set(sys::GEOSVM_PATH_CHECKSUMS, checksums)
    }

    fn set(&mut self, flag: u32, is_set: bool) -> &mut OpenOptions {
        self.flags = if is_set { self.flags | flag } else { self.flags & !flag };
        self
    }

    /// Opens the document of a file. `File`, `NotDocument`, `Damaged`, `Memory`, `BadArgument`.
    #[doc(alias = "geosvm_open_path")]
    pub fn open(&self, path: impl AsRef<Path>) -> Result<Session> {
        let path = c_path(path.as_ref())?;
        Session::opened_by(None, call!(geosvm_open_path(path.as_ptr(), self.flags)))
    }
}

/// A path as C has it. One with a zero in it is none.
fn c_path(path: &Path) -> Result<CString> {
    CString::new(path.as_os_str().as_bytes()).map_err(|error| Error::of_file(io::Error::from(error)))
}

impl Session {
    /// Opens the document of a file that is there. [`OpenOptions`] opens it in other ways.
    pub fn open(path: impl AsRef<Path>) -> Result<Session> {
        OpenOptions::new().open(path)
    }

    /// Makes an empty document in the system's memory, which is gone with the session. [`Session::save_as`] gives it a
    /// file.
    pub fn in_memory() -> Result<Session> {
        Session::opened_by(None, call!(geosvm_open_path(ptr::null(), sys::GEOSVM_PATH_MEMORY)))
    }

    /// Opens the document of a file that the program has opened, to be read and written, and without cutting it. It is
    /// the session's from here on, which locks it, and closes it at last. At most `frames` blocks are in memory at a
    /// time, 1 to 64.
    ///
    /// One that is in use is [`io::ErrorKind::WouldBlock`], also where this program has it by [`File::try_clone`].
    #[doc(alias = "geosvm_open")]
    pub fn open_file(file: File, frames: usize) -> Result<Session> {
        let file = OwnFile::lock(file)?;
        let number = file.number();
        Session::opened_by(Some(file), call!(geosvm_open(number, frames)))
    }

    /// Makes an empty document of such a file, whatever was in it. Who made the file syncs its folder, or a crash may
    /// lose its name.
    #[doc(alias = "geosvm_create")]
    pub fn create_in_file(file: File, frames: usize) -> Result<Session> {
        let file = OwnFile::lock(file)?;
        let number = file.number();
        Session::opened_by(Some(file), call!(geosvm_create(number, frames)))
    }

    /// Opens the document of such a file, which has checksums from its next commit on, as by
    /// [`OpenOptions::checksums`].
    #[doc(alias = "geosvm_open_checksums")]
    pub fn open_file_with_checksums(file: File, frames: usize) -> Result<Session> {
        let file = OwnFile::lock(file)?;
        let number = file.number();
        Session::opened_by(Some(file), call!(geosvm_open_checksums(number, frames)))
    }

    /// Makes an empty document of such a file, with checksums.
    #[doc(alias = "geosvm_create_checksums")]
    pub fn create_in_file_with_checksums(file: File, frames: usize) -> Result<Session> {
        let file = OwnFile::lock(file)?;
        let number = file.number();
        Session::opened_by(Some(file), call!(geosvm_create_checksums(number, frames)))
    }

    /// Saves into another file, and goes on in that, with all that can be undone; the file that is left goes back to
    /// its saved document, and is closed. `Worn`.
    ///
    /// It is written beside what is there, and takes its place once all of it is on the disk; so where this is refused
    /// the old file stays. One that a session has open is refused, the own one too. In one case of `File` the session
    /// has gone on all the same: all is written, but the new file can't take its place, or its folder not be synced.
    /// [`standing`](Session::standing) is `as_saved` then.
    #[doc(alias = "geosvm_save_as_path")]
    pub fn save_as(&mut self, path: impl AsRef<Path>) -> Result<()> {
        self.save_at(path.as_ref(), 0)
    }

    /// The same, where nothing may be there: else it is refused, with [`io::ErrorKind::AlreadyExists`].
    #[doc(alias = "geosvm_save_as_path")]
    pub fn save_as_new(&mut self, path: impl AsRef<Path>) -> Result<()> {
        self.save_at(path.as_ref(), sys::GEOSVM_PATH_NEW)
    }

    fn save_at(&mut self, path: &Path, flags: u32) -> Result<()> {
        let path = c_path(path)?;
        self.step(call!(geosvm_save_as_path(path.as_ptr(), flags)))?;
        // The library has the new file. Where it told `File` the old one may be left too, and stays open until the
        // close.
        self.file = None;
        Ok(())
    }

    /// Saves into a file that the program has opened, whatever was in it, and goes on in that. It is the session's from
    /// here on; where this is refused it is closed, and may have any bytes. `Worn`.
    #[doc(alias = "geosvm_save_as")]
    pub fn save_as_file(&mut self, file: File) -> Result<()> {
        let file = OwnFile::lock(file)?;
        self.step(call!(geosvm_save_as(file.number())))?;
        self.file = Some(file);
        Ok(())
    }

    /// Makes a block like one of another document: with the same bytes, or chunks under the same handles, and the same
    /// user ID. It is one step of undo here; the other document isn't changed. Handles of blocks in its bytes stay as
    /// they are.
    ///
    /// Of the other document `NoBlock`; `NoHandles`. Who keeps a copy of this document looks at all of the block:
    /// `touched` tells of the last of several edits alone.
    ///
    /// ```
    /// # fn main() -> geosvm::Result<()> {
    /// # let mut doc = geosvm::Session::in_memory()?;
    /// # let mut other = geosvm::Session::in_memory()?;
    /// let page = other.new_raw(7, 3)?;
    /// let copy = doc.copy_block_from(&mut other, page)?;
    /// assert_eq!(doc.read_raw(copy)?, [0; 3]);
    /// # Ok(())
    /// # }
    /// ```
    #[doc(alias = "geosvm_copy_block")]
    pub fn copy_block_from(&mut self, other: &mut Session, block: BlockHandle) -> Result<BlockHandle> {
        let from = other.as_mut_ptr();
        // SAFETY: both sessions are open and borrowed by the caller alone, and aren't the same one.
        self.made(|to, copy| unsafe { sys::geosvm_copy_block(from, block.get(), to, copy) })
    }
}
