//! Large arrays: elements in as many raw blocks as they need, named by the root that has the handles of these.
use crate::error::Result;
use crate::session::{call, capped, Session};
use crate::BlockHandle;

/// Large arrays. A view is made without a look at the root. Any call may be `Memory`, `File`, `Damaged` or `CacheFull`
/// too. What is for chains, as `copy_chain`, `free_chain` and `chain`, takes the root of a large array too.
impl Session {
    /// Makes a large array without elements, which will have `size` bytes each, at most 4,096, or any number with 0;
    /// and gives its root, which has the user ID. `Range`, `NoHandles`.
    #[doc(alias = "geosvm_hcreate")]
    pub fn new_large_array(&mut self, user_id: u16, size: usize) -> Result<BlockHandle> {
        self.made(call!(geosvm_hcreate(user_id, capped(size)) -> one))
    }

    /// The large array that has this root.
    pub fn large_array(&mut self, root: BlockHandle) -> LargeArray<'_> {
        LargeArray { session: self, root }
    }
}

/// A large array: a row of elements, which have numbers from 0 on, of far more bytes than a block has.
/// [`Session::large_array`] gives it.
///
/// Where all elements have one size, the bytes that `insert` and `set` take are as many elements as they have room for,
/// so that with elements of one byte it is a text; where sizes vary they are one element, of at most 65,508 bytes.
///
/// Each call is `NoBlock`, `WrongKind`, `NotArray` where the block is no root, then what stands there. Edits are
/// `Locked` while any block is. `BadChain` is a branch that isn't what the root says, `IsMap` one that would go and is
/// the map block.
///
/// ```
/// # fn main() -> geosvm::Result<()> {
/// # let mut doc = geosvm::Session::in_memory()?;
/// let root = doc.new_large_array(7, 1)?;
/// let mut text = doc.large_array(root);
/// text.insert(0, "it was a dark night".repeat(10_000))?;
/// text.set(0, "It")?;
/// text.delete(8, 5)?;
/// assert_eq!(text.read(0, 14)?, b"It was a night");
/// assert_eq!(text.count()?, 189_995);
/// # Ok(())
/// # }
/// ```
#[derive(Debug)]
pub struct LargeArray<'s> {
    session: &'s mut Session,
    root: BlockHandle,
}

impl LargeArray<'_> {
    /// Puts these bytes in before an element, or behind the last one. `Range`, `TooBig`, `BadChain`, `IsMap`,
    /// `NoHandles`.
    #[doc(alias = "geosvm_hinsert")]
    pub fn insert(&mut self, index: usize, bytes: impl AsRef<[u8]>) -> Result<()> {
        let (root, bytes) = (self.root.get(), bytes.as_ref());
        self.session.edit(call!(geosvm_hinsert(root, capped(index), bytes.as_ptr(), bytes.len())))
    }

    /// Puts these bytes in the place of as many elements, from this one on. `NoElement`, `Range`, `TooBig`, `BadChain`,
    /// `IsMap`, `NoHandles`.
    #[doc(alias = "geosvm_hset")]
    pub fn set(&mut self, index: usize, bytes: impl AsRef<[u8]>) -> Result<()> {
        let (root, bytes) = (self.root.get(), bytes.as_ref());
        self.session.edit(call!(geosvm_hset(root, capped(index), bytes.as_ptr(), bytes.len())))
    }

    /// Deletes `count` elements from this one on. `NoElement`, `BadChain`, `IsMap`, `NoHandles`.
    #[doc(alias = "geosvm_hdelete")]
    pub fn delete(&mut self, index: usize, count: usize) -> Result<()> {
        let root = self.root.get();
        self.session.edit(call!(geosvm_hdelete(root, capped(index), capped(count))))
    }

    /// How many elements there are. No branch is looked at.
    #[doc(alias = "geosvm_hcount")]
    pub fn count(&mut self) -> Result<usize> {
        let root = self.root.get();
        self.session.told(call!(geosvm_hcount(root) -> one))
    }

    /// The bytes of an element. `NoElement`, `BadChain`.
    #[doc(alias = "geosvm_hget")]
    pub fn get(&mut self, index: usize) -> Result<Vec<u8>> {
        let root = self.root.get();
        self.session.listed(call!(geosvm_hget(root, capped(index)) -> many))
    }

    /// The bytes of `count` elements of one size, from this one on, one behind the other. `NoElement`; `Range` where
    /// sizes vary, and where they have more than 65,520 bytes together; `BadChain`.
    #[doc(alias = "geosvm_hread")]
    pub fn read(&mut self, index: usize, count: usize) -> Result<Vec<u8>> {
        let root = self.root.get();
        self.session.listed(call!(geosvm_hread(root, capped(index), capped(count)) -> many))
    }
}
