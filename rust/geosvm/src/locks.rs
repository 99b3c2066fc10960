//! Locks, and bytes that are lent where they lie.
use crate::error::{Error, Fault, Result};
use crate::session::{call, FromNumber, Session};
use crate::{BlockHandle, ChunkHandle};
use std::fmt;
use std::ops::{Deref, DerefMut};
use std::slice;

/// What a lock lends: a raw block, or a chunk of a heap.
#[derive(Clone, Copy, Debug, PartialEq, Eq, Hash)]
pub enum Lent {
    /// The bytes of a raw block.
    Raw(BlockHandle),
    /// The bytes of a chunk.
    Chunk(BlockHandle, ChunkHandle),
}

/// A lock of a block, which is unlocked when it is dropped. [`Session::locked`] takes it.
///
/// It is used as the session. Bytes that it lends lie where they lie in the document, so nothing is copied.
///
/// ```
/// # fn main() -> geosvm::Result<()> {
/// let mut doc = geosvm::Session::in_memory()?;
/// let page = doc.new_raw(7, 3)?;
/// doc.write_raw(page, 0, "abc")?;
/// let mut locked = doc.locked(page)?;
/// assert_eq!(locked.raw()?, b"abc");
/// locked.write_raw(page, 1, "x")?;
/// assert_eq!(locked.raw()?, b"axc");
/// # Ok(())
/// # }
/// ```
///
/// Nothing is called on a session while bytes of it are lent: no edit, no look-up, no other loan, no unlock, and it
/// isn't moved or closed.
///
/// ```compile_fail,E0499
/// # let mut doc = geosvm::Session::in_memory().unwrap();
/// # let page = doc.new_raw(7, 3).unwrap();
/// let mut locked = doc.locked(page).unwrap();
/// let bytes = locked.raw().unwrap();
/// locked.write_raw(page, 1, "x").unwrap();
/// println!("{bytes:?}");
/// ```
///
/// ```compile_fail,E0505
/// # let mut doc = geosvm::Session::in_memory().unwrap();
/// # let page = doc.new_raw(7, 3).unwrap();
/// let mut locked = doc.locked(page).unwrap();
/// let bytes = locked.raw().unwrap();
/// locked.unlock().unwrap();
/// println!("{bytes:?}");
/// ```
///
/// ```compile_fail,E0597
/// # let mut doc = geosvm::Session::in_memory().unwrap();
/// # let page = doc.new_raw(7, 3).unwrap();
/// let bytes;
/// {
///     let mut locked = doc.locked(page).unwrap();
///     bytes = locked.raw().unwrap();
/// }
/// println!("{bytes:?}");
/// ```
#[must_use = "a lock that is dropped is unlocked"]
pub struct Locked<'s> {
    session: &'s mut Session,
    block: BlockHandle,
    /// The number of the session.
    number: u64,
}

impl Session {
    /// Locks a block once more, 255 times at most, so that it stays in memory. [`locked`](Session::locked) is a guard
    /// for that.
    ///
    /// While any block is locked undo, redo, abandon, commits, `copy_chain` and `free_chain` are [`Fault::Locked`].
    #[doc(alias = "geosvm_lock")]
    pub fn lock(&mut self, block: BlockHandle) -> Result<()> {
        self.call(call!(geosvm_lock(block.get())))
    }

    /// Takes one lock of a block away.
    #[doc(alias = "geosvm_unlock")]
    pub fn unlock(&mut self, block: BlockHandle) -> Result<()> {
        let unlocked = self.call(call!(geosvm_unlock(block.get())));
        // A group that was given up meanwhile is taken back. Where that is refused it is done later.
        let _ = self.settle();
        unlocked
    }

    /// Has the next commit write a locked block, as if it had been edited.
    #[doc(alias = "geosvm_dirty")]
    pub fn mark_dirty(&mut self, block: BlockHandle) -> Result<()> {
        self.call(call!(geosvm_dirty(block.get())))
    }

    /// How often a block is locked.
    #[doc(alias = "geosvm_locks")]
    pub fn lock_count(&mut self, block: BlockHandle) -> Result<u8> {
        self.told(call!(geosvm_locks(block.get()) -> one))
    }

    /// Locks a block as long as the guard lives.
    pub fn locked(&mut self, block: BlockHandle) -> Result<Locked<'_>> {
        self.lock(block)?;
        let number = self.number();
        Ok(Locked { session: self, block, number })
    }

    /// The bytes of a chunk of a locked heap, where they lie. They are lent until the session is used again.
    ///
    /// ```compile_fail,E0499
    /// # let mut doc = geosvm::Session::in_memory().unwrap();
    /// # let notes = doc.new_heap(7).unwrap();
    /// # let note = doc.alloc(notes, 5).unwrap();
    /// doc.lock(notes).unwrap();
    /// let bytes = doc.locked_chunk(notes, note).unwrap();
    /// doc.unlock(notes).unwrap();
    /// println!("{bytes:?}");
    /// ```
    #[doc(alias = "geosvm_locked_chunk")]
    pub fn locked_chunk(&mut self, block: BlockHandle, chunk: ChunkHandle) -> Result<&[u8]> {
        let [bytes] = self.lent([Lent::Chunk(block, chunk)])?;
        Ok(bytes)
    }

    /// The bytes of a locked raw block, where they lie. They are lent until the session is used again.
    ///
    /// ```compile_fail,E0505
    /// # let mut doc = geosvm::Session::in_memory().unwrap();
    /// # let page = doc.new_raw(7, 3).unwrap();
    /// doc.lock(page).unwrap();
    /// let bytes = doc.locked_raw(page).unwrap();
    /// let moved = doc;
    /// println!("{bytes:?}");
    /// ```
    #[doc(alias = "geosvm_locked_raw")]
    pub fn locked_raw(&mut self, block: BlockHandle) -> Result<&[u8]> {
        let [bytes] = self.lent([Lent::Raw(block)])?;
        Ok(bytes)
    }

    /// Locks the block of a large array that has element `i`, whose elements have one size, and lends its elements from
    /// there to the last one in that block. The block is told, by which it is unlocked; where the call is refused
    /// nothing is locked. The bytes are lent until the session is used again, and then asked for anew by `locked_raw`.
    ///
    /// ```compile_fail,E0499
    /// # let mut doc = geosvm::Session::in_memory().unwrap();
    /// # let root = doc.new_raw(7, 3).unwrap();
    /// let (block, elements) = doc.lock_run(root, 0).unwrap();
    /// doc.unlock(block).unwrap();
    /// println!("{elements:?}");
    /// ```
    #[doc(alias = "geosvm_lock_run")]
    pub fn lock_run(&mut self, root: BlockHandle, i: u32) -> Result<(BlockHandle, &[u8])> {
        let (mut block, mut at, mut length) = (0, std::ptr::null(), 0);
        self.call(call!(geosvm_lock_run(root.get(), i, &mut block, &mut at, &mut length)))?;
        let block = BlockHandle::from_number(block)?;
        // SAFETY: the call is made, so none runs while the bytes are read: they are lent as long as the session is
        // borrowed mutably, of a block that is locked. The address is that of so many bytes, and isn't null.
        Ok((block, unsafe { slice::from_raw_parts(at, length) }))
    }

    /// Bytes of several chunks and raw blocks at a time, all of them locked, where they lie. They are lent until the
    /// session is used again.
    ///
    /// ```
    /// # fn main() -> geosvm::Result<()> {
    /// # let mut doc = geosvm::Session::in_memory()?;
    /// let (first, second) = (doc.new_raw(7, 3)?, doc.new_raw(7, 3)?);
    /// doc.lock(first)?;
    /// doc.lock(second)?;
    /// let [a, b] = doc.lent([geosvm::Lent::Raw(first), geosvm::Lent::Raw(second)])?;
    /// assert_eq!(a, b);
    /// # Ok(())
    /// # }
    /// ```
    pub fn lent<const COUNT: usize>(&mut self, parts: [Lent; COUNT]) -> Result<[&[u8]; COUNT]> {
        let mut places = [(std::ptr::null(), 0); COUNT];
        for (place, part) in places.iter_mut().zip(parts) {
            *place = self.place_of(part)?;
        }
        // SAFETY: all calls are made, so none runs while the bytes are read: they are lent as long as the session is
        // borrowed mutably. Until then none can free, move or write them. Each address is that of so many bytes, and of
        // none isn't null. No two references lead to one place that is written.
        Ok(places.map(|(at, length)| unsafe { slice::from_raw_parts(at, length) }))
    }

    /// Where the bytes of a locked part lie, and how many there are.
    fn place_of(&mut self, part: Lent) -> Result<(*const u8, usize)> {
        let (mut at, mut length) = (std::ptr::null(), 0);
        match part {
            Lent::Raw(block) => self.call(call!(geosvm_locked_raw(block.get(), &mut at, &mut length)))?,
            Lent::Chunk(block, chunk) => {
                self.call(call!(geosvm_locked_chunk(block.get(), chunk.get(), &mut at, &mut length)))?;
            }
        }
        Ok((at, length))
    }
}

impl Locked<'_> {
    /// The block that is locked.
    pub fn block(&self) -> BlockHandle {
        self.block
    }

    /// The bytes of the raw block, where they lie.
    pub fn raw(&mut self) -> Result<&[u8]> {
        self.session.locked_raw(self.block)
    }

    /// The bytes of a chunk of the heap, where they lie.
    pub fn chunk(&mut self, chunk: ChunkHandle) -> Result<&[u8]> {
        self.session.locked_chunk(self.block, chunk)
    }

    /// Has the next commit write the block, as if it had been edited.
    pub fn mark_dirty(&mut self) -> Result<()> {
        self.session.mark_dirty(self.block)
    }

    /// Takes the lock away, as a drop does, and tells how that went: [`Fault::NotLocked`] where it was taken away by
    /// hand.
    pub fn unlock(mut self) -> Result<()> {
        self.release()
    }

    /// Takes the lock away, once.
    fn release(&mut self) -> Result<()> {
        let is_own = self.number == self.session.number();
        self.number = 0;
        if is_own {
            self.session.unlock(self.block)
        } else {
            Err(Error::from(Fault::NotLocked))
        }
    }
}

impl Drop for Locked<'_> {
    fn drop(&mut self) {
        let _ = self.release();
    }
}

impl Deref for Locked<'_> {
    type Target = Session;

    fn deref(&self) -> &Session {
        self.session
    }
}

impl DerefMut for Locked<'_> {
    fn deref_mut(&mut self) -> &mut Session {
        self.session
    }
}

impl fmt::Debug for Locked<'_> {
    fn fmt(&self, out: &mut fmt::Formatter<'_>) -> fmt::Result {
        out.debug_struct("Locked").field("block", &self.block).finish_non_exhaustive()
    }
}
