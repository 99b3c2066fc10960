//! Steps, their names, commits, and commands as text.
use crate::error::{check, Error, Fault, Result};
use crate::session::{buffer, call, capped, Session};
use geosvm_sys as sys;

/// Whether the document is as it was committed. It goes by steps, and compares nothing.
#[derive(Clone, Copy, Debug, PartialEq, Eq, Hash)]
pub struct Standing {
    /// It is as it was saved: there is no star in the window's title.
    pub as_saved: bool,
    /// It is as it was updated, which is what its file opens to.
    pub as_updated: bool,
}

/// Undo and redo. While a group is open these but `forget` and `limit_undo` are `GroupOpen`.
impl Session {
    /// Takes the newest step back, an edit or a group of edits. `NothingToUndo`, `Locked`.
    #[doc(alias = "geosvm_undo")]
    pub fn undo(&mut self) -> Result<()> {
        self.step(call!(geosvm_undo()))
    }

    /// Makes the step again that the newest undo took back. `NothingToRedo`, `Locked`.
    #[doc(alias = "geosvm_redo")]
    pub fn redo(&mut self) -> Result<()> {
        self.step(call!(geosvm_redo()))
    }

    /// Makes the newest two steps to be undone one, as letters that are typed are a word. `NothingToUndo` where there
    /// are fewer than two.
    #[doc(alias = "geosvm_join")]
    pub fn join(&mut self) -> Result<()> {
        self.step(call!(geosvm_join()))
    }

    /// Names the newest step to be undone, in at most 64 bytes, for a menu's "Undo Typing"; with none it has no name.
    /// `NothingToUndo`, `TooBig`.
    #[doc(alias = "geosvm_name")]
    pub fn name_step(&mut self, name: impl AsRef<[u8]>) -> Result<()> {
        let name = name.as_ref();
        self.step(call!(geosvm_name(name.as_ptr(), name.len())))
    }

    /// Keeps the newest `most` steps to be undone, and gives the memory of the others back. It is never refused.
    #[doc(alias = "geosvm_forget")]
    pub fn forget(&mut self, most: usize) -> Result<()> {
        self.call(call!(geosvm_forget(capped(most))))
    }

    /// Keeps no more than so many steps from now on; with 0 all. It is never refused.
    #[doc(alias = "geosvm_limit_undo")]
    pub fn limit_undo(&mut self, most: usize) -> Result<()> {
        self.call(call!(geosvm_limit_undo(capped(most))))
    }

    /// How many steps can be undone. The open group is none yet.
    #[doc(alias = "geosvm_undos")]
    pub fn undo_count(&mut self) -> Result<usize> {
        self.told(call!(geosvm_undos() -> one))
    }

    /// How many steps can be redone.
    #[doc(alias = "geosvm_redos")]
    pub fn redo_count(&mut self) -> Result<usize> {
        self.told(call!(geosvm_redos() -> one))
    }

    /// The name of the step that an undo takes back, with no bytes where it has none. `NothingToUndo`.
    #[doc(alias = "geosvm_undo_name")]
    pub fn undo_name(&mut self) -> Result<Vec<u8>> {
        self.listed(call!(geosvm_undo_name() -> many))
    }

    /// The name of the step that a redo makes again, with no bytes where it has none. `NothingToRedo`.
    #[doc(alias = "geosvm_redo_name")]
    pub fn redo_name(&mut self) -> Result<Vec<u8>> {
        self.listed(call!(geosvm_redo_name() -> many))
    }
}

/// Commits. While a group is open they are `GroupOpen`, and while a block is locked `Locked`. One that is `File` may be
/// what the file opens to after a crash.
impl Session {
    /// Makes the document what the file opens to. Once it is accepted a crash doesn't lose it. `Worn`.
    #[doc(alias = "geosvm_update")]
    pub fn update(&mut self) -> Result<()> {
        self.step(call!(geosvm_update()))
    }

    /// Makes the document what the file opens to, and what a revert gives. Once it is accepted a crash doesn't lose it.
    /// `Worn`.
    #[doc(alias = "geosvm_save")]
    pub fn save(&mut self) -> Result<()> {
        self.step(call!(geosvm_save()))
    }

    /// Goes back to the saved document, with nothing to undo. `Worn`.
    #[doc(alias = "geosvm_revert")]
    pub fn revert(&mut self) -> Result<()> {
        self.step(call!(geosvm_revert()))
    }

    /// Whether the document is as it was saved, and as it was updated.
    #[doc(alias = "geosvm_modified")]
    pub fn standing(&mut self) -> Result<Standing> {
        let sum: usize = self.told(call!(geosvm_modified() -> one))?;
        Ok(Standing { as_saved: sum & sys::GEOSVM_AS_SAVED != 0, as_updated: sum & sys::GEOSVM_AS_UPDATED != 0 })
    }
}

impl Session {
    /// Carries out a command of `docs/SCRIPT.md`, and gives its reply, without a line feed. A refusal is an error; a
    /// blank line and a note have an empty reply.
    ///
    /// Where it is [`Fault::Untold`] there was no memory for the reply, and the command may be done.
    ///
    /// ```
    /// # fn main() -> geosvm::Result<()> {
    /// # let mut doc = geosvm::Session::in_memory()?;
    /// assert_eq!(doc.command("newheap 7")?, "block 0001");
    /// assert_eq!(doc.command("vfree 0002").unwrap_err(), geosvm::Fault::NoBlock);
    /// # Ok(())
    /// # }
    /// ```
    #[doc(alias = "geosvm_command")]
    pub fn command(&mut self, line: impl AsRef<[u8]>) -> Result<String> {
        let line = line.as_ref();
        let (mut reply, mut length) = (buffer(sys::GEOSVM_REPLY_MOST)?, 0);
        loop {
            self.settle()?;
            self.groups.commands += 1;
            let (to, room) = (reply.as_mut_ptr(), reply.len());
            let told = self.call(call!(geosvm_command(line.as_ptr(), line.len(), to, room, &mut length)));
            if length <= room {
                told?;
                break;
            }
            // Only what tells places has so long a reply, and it may be asked for anew.
            reply = buffer(length)?;
        }
        reply.truncate(length);
        reply_of(&reply)
    }
}

/// The text of a reply line. One that begins with `no ` is a refusal, with its number.
fn reply_of(line: &[u8]) -> Result<String> {
    let text = String::from_utf8_lossy(line.strip_suffix(b"\n").unwrap_or(line));
    match text.strip_prefix("no ") {
        None => Ok(text.into_owned()),
        Some(refusal) => {
            let code = refusal.split(' ').next().and_then(|number| number.parse().ok());
            check(code.unwrap_or(Fault::Unknown.code())).and(Err(Error::from(Fault::Unknown)))
        }
    }
}
