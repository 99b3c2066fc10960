//! Blocks: made, freed, copied and looked at; and the bytes of raw ones.
use crate::error::Result;
use crate::session::{call, capped, Session};
use crate::BlockHandle;
use std::iter::FusedIterator;

/// What a block is.
#[derive(Clone, Copy, Debug, PartialEq, Eq, Hash)]
pub enum BlockKind {
    /// A heap of chunks.
    Heap,
    /// Raw bytes.
    Raw,
}

/// What [`Session::info`] tells of a block.
#[derive(Clone, Copy, Debug, PartialEq, Eq, Hash)]
pub struct BlockInfo {
    /// Whether it is a heap or raw.
    pub kind: BlockKind,
    /// Its user ID, by which [`Session::find_block`] finds it.
    pub user_id: u16,
    /// The bytes that a heap needs, or that a raw block has: at most 65,520.
    pub size: usize,
}

/// Edits of blocks. Any may be `Memory`, `File` or `Damaged` too.
impl Session {
    /// Makes a raw block of `size` zeros. `TooBig` past 65,520 bytes, `NoHandles`.
    #[doc(alias = "geosvm_newraw")]
    pub fn new_raw(&mut self, user_id: u16, size: usize) -> Result<BlockHandle> {
        self.made(call!(geosvm_newraw(user_id, capped(size)) -> one))
    }

    /// Makes a block with an empty heap. `NoHandles`.
    #[doc(alias = "geosvm_newheap")]
    pub fn new_heap(&mut self, user_id: u16) -> Result<BlockHandle> {
        self.made(call!(geosvm_newheap(user_id) -> one))
    }

    /// Frees a block. `NoBlock`, `IsMap`, and `Locked` where it is.
    #[doc(alias = "geosvm_vfree")]
    pub fn free_block(&mut self, block: BlockHandle) -> Result<()> {
        self.edit(call!(geosvm_vfree(block.get())))
    }

    /// Makes a block like another one. `NoBlock`, `NoHandles`.
    #[doc(alias = "geosvm_vcopy")]
    pub fn copy_block(&mut self, block: BlockHandle) -> Result<BlockHandle> {
        self.made(call!(geosvm_vcopy(block.get()) -> one))
    }

    /// Sets the user ID of a block. `NoBlock`.
    #[doc(alias = "geosvm_uid")]
    pub fn set_user_id(&mut self, block: BlockHandle, user_id: u16) -> Result<()> {
        self.edit(call!(geosvm_uid(block.get(), user_id)))
    }

    /// Sets the type of a heap, which means what the program likes. `NoBlock`, `WrongKind`.
    #[doc(alias = "geosvm_settype")]
    pub fn set_heap_type(&mut self, block: BlockHandle, heap_type: u16) -> Result<()> {
        self.edit(call!(geosvm_settype(block.get(), heap_type)))
    }

    /// Makes a block the map block, from which a program finds the others; `None` leaves none. `NoBlock`.
    #[doc(alias = "geosvm_map")]
    pub fn set_map_block(&mut self, block: Option<BlockHandle>) -> Result<()> {
        self.edit(call!(geosvm_map(block.map_or(0, BlockHandle::get))))
    }

    /// Writes over the bytes of a raw block from `at` on. `NoBlock`, `WrongKind`, `Range`.
    #[doc(alias = "geosvm_vwrite")]
    pub fn write_raw(&mut self, block: BlockHandle, at: usize, bytes: impl AsRef<[u8]>) -> Result<()> {
        let bytes = bytes.as_ref();
        self.edit(call!(geosvm_vwrite(block.get(), capped(at), bytes.as_ptr(), bytes.len())))
    }

    /// Puts these bytes in the place of `count` of a raw block from `at` on. `NoBlock`, `WrongKind`, `Range`, `TooBig`.
    #[doc(alias = "geosvm_vsplice")]
    pub fn splice_raw(&mut self, block: BlockHandle, at: usize, count: usize, bytes: impl AsRef<[u8]>) -> Result<()> {
        let bytes = bytes.as_ref();
        self.edit(call!(geosvm_vsplice(block.get(), capped(at), capped(count), bytes.as_ptr(), bytes.len())))
    }

    /// Gives a raw block these bytes in place of its own. `NoBlock`, `WrongKind`, `TooBig`.
    #[doc(alias = "geosvm_attach")]
    pub fn attach_raw(&mut self, block: BlockHandle, bytes: impl AsRef<[u8]>) -> Result<()> {
        let bytes = bytes.as_ref();
        self.edit(call!(geosvm_attach(block.get(), bytes.as_ptr(), bytes.len())))
    }
}

/// Look-ups of blocks. Those that look into one may be `Memory`, `File`, `Damaged` or `CacheFull` too.
impl Session {
    /// Whether a block is a heap or raw, its user ID and its size. `NoBlock`.
    #[doc(alias = "geosvm_info")]
    pub fn info(&mut self, block: BlockHandle) -> Result<BlockInfo> {
        let (mut is_heap, mut user_id, mut size) = (0, 0, 0);
        self.call(call!(geosvm_info(block.get(), &mut is_heap, &mut user_id, &mut size)))?;
        let kind = if is_heap == 0 { BlockKind::Raw } else { BlockKind::Heap };
        Ok(BlockInfo { kind, user_id, size: size as usize })
    }

    /// The type of a heap. `NoBlock`, `WrongKind`.
    #[doc(alias = "geosvm_gettype")]
    pub fn heap_type(&mut self, block: BlockHandle) -> Result<u16> {
        self.told(call!(geosvm_gettype(block.get()) -> one))
    }

    /// All blocks, rising.
    #[doc(alias = "geosvm_list")]
    pub fn blocks(&mut self) -> Result<Vec<BlockHandle>> {
        let numbers = self.listed(call!(geosvm_list() -> many))?;
        Ok(numbers.into_iter().filter_map(BlockHandle::new).collect())
    }

    /// The block with this user ID that has the least handle, above `after` where that is one.
    #[doc(alias = "geosvm_find")]
    pub fn find_block(&mut self, user_id: u16, after: Option<BlockHandle>) -> Result<Option<BlockHandle>> {
        let number = self.told(call!(geosvm_find(user_id, after.map_or(0, BlockHandle::get)) -> one))?;
        Ok(BlockHandle::new(number))
    }

    /// The blocks with this user ID, rising.
    pub fn blocks_of(&mut self, user_id: u16) -> BlocksOf<'_> {
        BlocksOf { session: self, user_id, last: None, is_done: false }
    }

    /// The map block, if there is one.
    #[doc(alias = "geosvm_mapblock")]
    pub fn map_block(&mut self) -> Result<Option<BlockHandle>> {
        let number = self.told(call!(geosvm_mapblock() -> one))?;
        Ok(BlockHandle::new(number))
    }

    /// The bytes of a raw block. `NoBlock`, `WrongKind`.
    #[doc(alias = "geosvm_vread")]
    pub fn read_raw(&mut self, block: BlockHandle) -> Result<Vec<u8>> {
        self.listed(call!(geosvm_vread(block.get()) -> many))
    }
}

/// The blocks with a user ID, rising. [`Session::blocks_of`] makes it. It ends behind the first refusal.
#[derive(Debug)]
pub struct BlocksOf<'s> {
    session: &'s mut Session,
    user_id: u16,
    last: Option<BlockHandle>,
    is_done: bool,
}

impl Iterator for BlocksOf<'_> {
    type Item = Result<BlockHandle>;

    fn next(&mut self) -> Option<Result<BlockHandle>> {
        if self.is_done {
            return None;
        }
        let found = self.session.find_block(self.user_id, self.last).transpose();
        self.is_done = !matches!(found, Some(Ok(_)));
        self.last = found.as_ref().and_then(|block| block.as_ref().ok().copied());
        found
    }
}

impl FusedIterator for BlocksOf<'_> {}
