//! Chains and trees of raw blocks: each block begins with the handle of the next one, or with its branches.
use crate::error::Result;
use crate::session::{call, Session};
use crate::BlockHandle;

/// Chains: each call is `NoBlock`, `WrongKind`, `BadChain`, and then what stands there. Any may be `Memory`, `File`,
/// `Damaged` or `CacheFull` too.
impl Session {
    /// Copies each block of the chain that begins at a root, and gives the root's copy. `NoHandles`; `Locked` where any
    /// block is.
    #[doc(alias = "geosvm_chcopy")]
    pub fn copy_chain(&mut self, root: BlockHandle) -> Result<BlockHandle> {
        self.made(call!(geosvm_chcopy(root.get()) -> one))
    }

    /// Frees all blocks of a chain. `IsMap`; `Locked` where any block is.
    #[doc(alias = "geosvm_chfree")]
    pub fn free_chain(&mut self, root: BlockHandle) -> Result<()> {
        self.edit(call!(geosvm_chfree(root.get())))
    }

    /// The blocks of a chain, each before those that it links to, branches in order.
    #[doc(alias = "geosvm_walk")]
    pub fn chain(&mut self, root: BlockHandle) -> Result<Vec<BlockHandle>> {
        let numbers = self.listed(call!(geosvm_walk(root.get()) -> many))?;
        Ok(numbers.into_iter().filter_map(BlockHandle::new).collect())
    }

    /// How many bytes the blocks of a chain have together.
    #[doc(alias = "geosvm_chsize")]
    pub fn chain_size(&mut self, root: BlockHandle) -> Result<usize> {
        self.told(call!(geosvm_chsize(root.get()) -> one))
    }

    /// Whether two chains are equal, but for handles and user IDs.
    #[doc(alias = "geosvm_chequal")]
    pub fn are_equal_chains(&mut self, root: BlockHandle, other: BlockHandle) -> Result<bool> {
        let equal: u8 = self.told(call!(geosvm_chequal(root.get(), other.get()) -> one))?;
        Ok(equal != 0)
    }
}
