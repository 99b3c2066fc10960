//! Groups of edits, each of which is one step of undo.
use crate::error::{Error, Fault, Result};
use crate::session::{call, next_number, Session};
use std::fmt;
use std::ops::{Deref, DerefMut};

/// The most bytes of a step's name.
const MOST_NAME: usize = 64;

/// How the groups of guards stand in a session.
#[derive(Debug, Default)]
pub(crate) struct Groups {
    /// How many are open, each within the one before.
    depth: usize,
    /// By this the guards of a group know it; no other group has it.
    mark: u64,
    /// Whether the group is to be taken back: at once, or as soon as no block is locked.
    is_given_up: bool,
    /// How many edits were made in the session, and how many commands as text, which may have been edits.
    pub(crate) edits: u64,
    pub(crate) commands: u64,
    /// How many edits there were when the group began.
    edits_before: u64,
}

/// A group of edits, which is one step of undo, with a name. [`Session::group`] begins it.
///
/// It is used as the session. Unless it comes to [`end`](Group::end) its edits are taken back when it is dropped, as
/// where `?` leaves a function: at once, or, where a block is locked, with the last unlock; until then edits and steps
/// are refused as that is.
///
/// ```
/// # fn main() -> geosvm::Result<()> {
/// let mut doc = geosvm::Session::in_memory()?;
/// let mut making = doc.group("Make a note")?;
/// let notes = making.new_heap(7)?;
/// making.alloc(notes, 5)?;
/// making.end()?;
/// assert_eq!((doc.undo_count()?, doc.undo_name()?), (1, b"Make a note".to_vec()));
///
/// let mut again = doc.group("Make another")?;
/// again.alloc(notes, 9)?;
/// drop(again);
/// assert_eq!((doc.undo_count()?, doc.chunks(notes)?.len()), (1, 1));
/// # Ok(())
/// # }
/// ```
///
/// The session isn't used beside it, which would look as if it were outside of the group:
///
/// ```compile_fail,E0499
/// # let mut doc = geosvm::Session::in_memory().unwrap();
/// let group = doc.group("Make").unwrap();
/// doc.new_heap(7).unwrap();
/// group.end().unwrap();
/// ```
#[must_use = "a group that is dropped is taken back: `end` it"]
pub struct Group<'s> {
    session: &'s mut Session,
    name: Vec<u8>,
    mark: u64,
    /// How many groups are open with this one.
    level: usize,
    /// How many edits and commands there were before it.
    before: (u64, u64),
}

impl Session {
    /// Opens a group: the edits from here on are one step of undo. [`group`](Session::group) is a guard for that.
    #[doc(alias = "geosvm_begin")]
    pub fn begin(&mut self) -> Result<()> {
        self.step(call!(geosvm_begin()))?;
        self.forget_groups();
        Ok(())
    }

    /// Closes the group: its edits are one step.
    #[doc(alias = "geosvm_end")]
    pub fn end(&mut self) -> Result<()> {
        if self.groups.depth > 0 {
            return self.end_group(1, &[]);
        }
        self.step(call!(geosvm_end()))?;
        self.forget_groups();
        Ok(())
    }

    /// Closes the group, and takes its edits back.
    #[doc(alias = "geosvm_abandon")]
    pub fn abandon(&mut self) -> Result<()> {
        self.call(call!(geosvm_abandon()))?;
        self.forget_groups();
        Ok(())
    }

    /// Begins a group of edits, which is one step of undo with this name, at most 64 bytes; with none it has no name.
    /// One without an edit leaves no step.
    ///
    /// A group within a group is a part of it, and the whole has the name of the outermost one. Where one within is
    /// dropped after an edit the whole can't be ended any more: its `end` is [`Fault::NoGroup`] then, and all of it is
    /// taken back. None stands within a group that was opened by [`begin`](Session::begin): that is
    /// [`Fault::GroupOpen`].
    ///
    /// What a command as text does to groups isn't seen here.
    pub fn group(&mut self, name: impl AsRef<[u8]>) -> Result<Group<'_>> {
        let name = name.as_ref();
        if name.len() > MOST_NAME {
            return Err(Error::from(Fault::TooBig));
        }
        self.settle()?;
        if self.groups.depth == 0 {
            self.call(call!(geosvm_begin()))?;
            self.forget_groups();
            self.groups.edits_before = self.groups.edits;
        }
        self.groups.depth += 1;
        let (mark, level) = (self.groups.mark, self.groups.depth);
        let before = (self.groups.edits, self.groups.commands);
        Ok(Group { session: self, name: name.to_vec(), mark, level, before })
    }

    /// Makes the edits of a closure one step with this name; where it gives an error, or panics, they are taken back.
    ///
    /// ```
    /// # fn main() -> geosvm::Result<()> {
    /// let mut doc = geosvm::Session::in_memory()?;
    /// let notes = doc.grouped("Make notes", |doc| {
    ///     let notes = doc.new_heap(7)?;
    ///     doc.alloc(notes, 5)?;
    ///     Ok::<_, geosvm::Error>(notes)
    /// })?;
    /// assert_eq!((doc.undo_count()?, doc.chunks(notes)?.len()), (1, 1));
    /// # Ok(())
    /// # }
    /// ```
    pub fn grouped<T, E: From<Error>>(
        &mut self,
        name: impl AsRef<[u8]>,
        edits: impl FnOnce(&mut Session) -> std::result::Result<T, E>,
    ) -> std::result::Result<T, E> {
        let mut group = self.group(name)?;
        let made = edits(&mut group)?;
        group.end()?;
        Ok(made)
    }

    /// No group is open, or another one.
    fn forget_groups(&mut self) {
        let Groups { edits, commands, .. } = self.groups;
        self.groups = Groups { mark: next_number(), edits, commands, ..Groups::default() };
    }

    /// Takes a group back that was given up. Until then nothing else is done, or it would be taken back with it.
    pub(crate) fn settle(&mut self) -> Result<()> {
        if !self.groups.is_given_up || self.groups.depth > 0 {
            return Ok(());
        }
        match self.call(call!(geosvm_abandon())) {
            Err(error) if error.fault() != Fault::NoGroup => Err(error),
            _ => {
                self.forget_groups();
                Ok(())
            }
        }
    }

    /// Whether the open group has an edit. Those of commands aren't counted, so its places are asked for.
    fn is_step(&mut self) -> bool {
        self.groups.edits != self.groups.edits_before
            || self.length_of(call!(geosvm_abandon_places(0) -> many)).is_ok_and(|count| count > 0)
    }

    /// Ends the groups from this level on; with the first of them the step is made. Where there is no memory for its
    /// name it has none.
    fn end_group(&mut self, level: usize, name: &[u8]) -> Result<()> {
        if level > 1 {
            self.groups.depth = level - 1;
            return Ok(());
        }
        if self.groups.is_given_up {
            self.groups.depth = 0;
            // Where it is refused it is done later.
            let _ = self.settle();
            return Err(Error::from(Fault::NoGroup));
        }
        let is_named = !name.is_empty() && self.is_step();
        self.call(call!(geosvm_end()))?;
        self.forget_groups();
        if is_named {
            let _ = self.call(call!(geosvm_name(name.as_ptr(), name.len())));
        }
        Ok(())
    }

    /// Gives up the groups from this level on, and so all of them. With the first of them they are taken back.
    fn give_up_group(&mut self, level: usize) -> Result<()> {
        self.groups.is_given_up = true;
        self.groups.depth = level - 1;
        self.settle()
    }
}

impl Group<'_> {
    /// Whether it is open: it may have been closed by [`Session::end`] or [`Session::abandon`].
    pub fn is_open(&self) -> bool {
        let groups = &self.session.groups;
        groups.mark == self.mark && groups.depth >= self.level
    }

    /// Ends the group: its edits are one step. Where a group within it was given up that is [`Fault::NoGroup`], and so
    /// it is where this one isn't open any more.
    pub fn end(mut self) -> Result<()> {
        if !self.is_open() {
            return Err(Error::from(Fault::NoGroup));
        }
        let name = std::mem::take(&mut self.name);
        self.session.end_group(self.level, &name)
    }

    /// Takes its edits back, as a drop does. Where that is refused, as while a block is locked, it is done later.
    pub fn abandon(mut self) -> Result<()> {
        self.give_up()
    }

    fn give_up(&mut self) -> Result<()> {
        if !self.is_open() {
            return Ok(());
        }
        if self.level > 1 && self.before == (self.session.groups.edits, self.session.groups.commands) {
            self.session.groups.depth = self.level - 1;
            return Ok(());
        }
        self.session.give_up_group(self.level)
    }
}

impl Drop for Group<'_> {
    fn drop(&mut self) {
        // Where it is refused it is done later.
        let _ = self.give_up();
    }
}

impl Deref for Group<'_> {
    type Target = Session;

    fn deref(&self) -> &Session {
        self.session
    }
}

impl DerefMut for Group<'_> {
    fn deref_mut(&mut self) -> &mut Session {
        self.session
    }
}

impl fmt::Debug for Group<'_> {
    fn fmt(&self, out: &mut fmt::Formatter<'_>) -> fmt::Result {
        let name = String::from_utf8_lossy(&self.name);
        out.debug_struct("Group").field("name", &name).field("is_open", &self.is_open()).finish_non_exhaustive()
    }
}
