//! A session, and how calls are made on it.
use crate::error::{check, Error, Fault, Result};
use crate::files::OwnFile;
use crate::groups::Groups;
use geosvm_sys::{self as sys, geosvm_session};
use std::fmt;
use std::sync::atomic::{AtomicU64, Ordering};

/// A document that is open: it is looked at, edited, undone and committed.
///
/// Each call takes `&mut self`, also one that only looks, since it may read the file. A session may be sent to another
/// thread, and isn't shared by several. When it is dropped it is closed, and what was edited since the last
/// [`save`](Session::save) or [`update`](Session::update) is given up.
///
/// Handles are numbers, and may be kept: one whose block is gone is [`Fault::NoBlock`], and after an undo it is that
/// block again. A number of bytes or elements may be as large as its type allows: what is too large is refused.
///
/// ```
/// # fn main() -> geosvm::Result<()> {
/// let mut doc = geosvm::Session::in_memory()?;
/// let notes = doc.new_heap(7)?;
/// let note = doc.alloc(notes, 5)?;
/// doc.write(notes, note, 0, "hello")?;
/// doc.undo()?;
/// assert_eq!(doc.read(notes, note)?, [0; 5]);
/// doc.redo()?;
/// assert_eq!(doc.read(notes, note)?, b"hello");
/// # Ok(())
/// # }
/// ```
///
/// It isn't shared by threads, but by a mutex:
///
/// ```compile_fail,E0277
/// # let doc = geosvm::Session::in_memory().unwrap();
/// std::thread::scope(|scope| {
///     scope.spawn(|| println!("{:?}", &doc));
/// });
/// ```
///
/// It isn't copied, and it isn't used once it is closed:
///
/// ```compile_fail,E0599
/// # let doc = geosvm::Session::in_memory().unwrap();
/// let second = doc.clone();
/// ```
///
/// ```compile_fail,E0382
/// # let mut doc = geosvm::Session::in_memory().unwrap();
/// doc.close();
/// doc.undo();
/// ```
pub struct Session {
    /// Open from when the session is made to when it is dropped.
    raw: geosvm_session,
    /// No other session has this number.
    number: u64,
    pub(crate) groups: Groups,
    /// The file, where it was opened as one. It is closed after the session.
    pub(crate) file: Option<OwnFile>,
}

// SAFETY: `geosvm.h` asks for one call at a time on a session, and takes these from any thread. It isn't `Sync`.
unsafe impl Send for Session {}

/// A number that no other call of this function gives.
pub(crate) fn next_number() -> u64 {
    static NEXT: AtomicU64 = AtomicU64::new(1);
    NEXT.fetch_add(1, Ordering::Relaxed)
}

/// Makes a closure that makes a call of the library on the session that it is passed: `call!(geosvm_undo())`. One that
/// hands out a value or a list is passed where these go: `-> one`, `-> many`.
macro_rules! call {
    ($name:ident($($given:expr),*)) => {
        // SAFETY: the session is open, and borrowed by the caller alone, so no other call on it runs, and no bytes of
        // it are lent. Pointers that are given are those of slices, with their lengths, or of variables that nothing
        // else has.
        |s| unsafe { geosvm_sys::$name(s, $($given),*) }
    };
    ($name:ident($($given:expr),*) -> one) => {
        // SAFETY: as above.
        |s, to| unsafe { geosvm_sys::$name(s, $($given,)* to) }
    };
    ($name:ident($($given:expr),*) -> many) => {
        // SAFETY: as above.
        |s, to, room, length| unsafe { geosvm_sys::$name(s, $($given,)* to, room, length) }
    };
}
pub(crate) use call;

type Raw = *mut geosvm_session;

impl Session {
    /// Makes a session by a call that opens a closed one.
    pub(crate) fn opened_by(file: Option<OwnFile>, open: impl FnOnce(Raw) -> i32) -> Result<Session> {
        let mut raw = sys::GEOSVM_CLOSED;
        check(open(&mut raw))?;
        Ok(Session { raw, number: next_number(), groups: Groups::default(), file })
    }

    /// Closes the session, and its file. It writes nothing: what was edited since the last commit is given up.
    #[doc(alias = "geosvm_close")]
    pub fn close(self) {}

    /// The session of `geosvm.h`, for calls of [`sys`] itself.
    ///
    /// Who makes some owes what that header says a caller owes, and leaves the session open.
    pub fn as_mut_ptr(&mut self) -> *mut geosvm_session {
        &mut self.raw
    }

    /// A session that was opened by calls of [`sys`] itself, as on a file of the program's own (`geosvm_io_*`).
    ///
    /// # Safety
    ///
    /// It is open, and nobody else uses it. Its file stays open until it is closed, and no other session has that.
    pub unsafe fn from_raw(raw: geosvm_session) -> Session {
        Session { raw, number: next_number(), groups: Groups::default(), file: None }
    }

    pub(crate) fn number(&self) -> u64 {
        self.number
    }

    /// Makes a call, whatever is open.
    pub(crate) fn call(&mut self, call: impl FnOnce(Raw) -> i32) -> Result<()> {
        check(call(&mut self.raw))
    }

    /// Makes a call once no group is left that was given up.
    pub(crate) fn step(&mut self, call: impl FnOnce(Raw) -> i32) -> Result<()> {
        self.settle()?;
        self.call(call)
    }

    /// Makes an edit.
    pub(crate) fn edit(&mut self, call: impl FnOnce(Raw) -> i32) -> Result<()> {
        self.step(call)?;
        self.groups.edits += 1;
        Ok(())
    }

    /// Makes an edit that tells what it made.
    pub(crate) fn made<T: FromNumber>(&mut self, call: impl FnOnce(Raw, *mut u16) -> i32) -> Result<T> {
        let mut number = 0;
        self.edit(|s| call(s, &mut number))?;
        T::from_number(number)
    }

    /// Makes a look-up that tells a number.
    pub(crate) fn told<N: Default>(&mut self, call: impl FnOnce(Raw, *mut N) -> i32) -> Result<N> {
        let mut number = N::default();
        self.call(|s| call(s, &mut number))?;
        Ok(number)
    }

    /// Makes a look-up that fills a buffer, which is made larger where it has too little room.
    pub(crate) fn listed<T: Clone + Default>(
        &mut self,
        mut call: impl FnMut(Raw, *mut T, usize, *mut usize) -> i32,
    ) -> Result<Vec<T>> {
        let (mut items, mut length) = (buffer(64)?, 0);
        loop {
            let code = call(&mut self.raw, items.as_mut_ptr(), items.len(), &mut length);
            if code != sys::GEOSVM_CUT_OFF || length <= items.len() {
                check(code)?;
                items.truncate(length);
                return Ok(items);
            }
            items = buffer(length)?;
        }
    }

    /// How many a look-up has for a buffer.
    pub(crate) fn length_of<T>(&mut self, call: impl FnOnce(Raw, *mut T, usize, *mut usize) -> i32) -> Result<usize> {
        let (mut none, mut length): ([T; 0], usize) = ([], 0);
        match call(&mut self.raw, none.as_mut_ptr(), 0, &mut length) {
            sys::GEOSVM_CUT_OFF => Ok(length),
            code => check(code).map(|()| length),
        }
    }
}

/// Room for so many; where there is no memory for them that is told.
pub(crate) fn buffer<T: Clone + Default>(length: usize) -> Result<Vec<T>> {
    let mut items = Vec::new();
    items.try_reserve_exact(length).map_err(|_| Error::from(Fault::Memory))?;
    items.resize(length, T::default());
    Ok(items)
}

/// A handle or a token, of the number that a call tells.
pub(crate) trait FromNumber: Sized {
    fn from_number(number: u16) -> Result<Self>;
}

macro_rules! from_number {
    ($($name:ident),+) => {
        $(impl FromNumber for crate::$name {
            /// No accepted call tells 0.
            fn from_number(number: u16) -> Result<Self> {
                Self::new(number).ok_or(Error::from(Fault::Unknown))
            }
        })+
    };
}
from_number!(BlockHandle, ChunkHandle);

impl FromNumber for crate::Token {
    fn from_number(number: u16) -> Result<Self> {
        Ok(Self::new(number))
    }
}

/// As much of a number as a call takes; where it is more it is refused as well, since nothing has so many bytes.
pub(crate) fn capped(number: usize) -> u32 {
    u32::try_from(number).unwrap_or(u32::MAX)
}

impl Drop for Session {
    fn drop(&mut self) {
        // SAFETY: the session is open and nobody else has it; it isn't used again. A close is refused only of a closed
        // one.
        unsafe { sys::geosvm_close(&mut self.raw) };
    }
}

impl fmt::Debug for Session {
    fn fmt(&self, out: &mut fmt::Formatter<'_>) -> fmt::Result {
        out.debug_struct("Session").field("number", &self.number).finish_non_exhaustive()
    }
}
