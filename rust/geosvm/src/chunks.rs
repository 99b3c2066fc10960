//! Chunks of heaps, and their bytes.
use crate::error::Result;
use crate::session::{call, capped, Session};
use crate::{BlockHandle, ChunkHandle};

/// Edits of chunks: each is `NoBlock`, `WrongKind`, `NoChunk`, and then what stands there. Any may be `Memory`, `File`,
/// `Damaged` or `CacheFull` too.
impl Session {
    /// Makes a chunk of `size` zeros. `Full`.
    #[doc(alias = "geosvm_alloc")]
    pub fn alloc(&mut self, block: BlockHandle, size: usize) -> Result<ChunkHandle> {
        self.made(call!(geosvm_alloc(block.get(), capped(size)) -> one))
    }

    /// Frees a chunk.
    #[doc(alias = "geosvm_free")]
    pub fn free(&mut self, block: BlockHandle, chunk: ChunkHandle) -> Result<()> {
        self.edit(call!(geosvm_free(block.get(), chunk.get())))
    }

    /// Cuts a chunk at its end, or adds zeros there. `Full`.
    #[doc(alias = "geosvm_resize")]
    pub fn resize(&mut self, block: BlockHandle, chunk: ChunkHandle, size: usize) -> Result<()> {
        self.edit(call!(geosvm_resize(block.get(), chunk.get(), capped(size))))
    }

    /// Puts `size` zeros in before the byte at `at`. `Range`, `Full`.
    #[doc(alias = "geosvm_insert")]
    pub fn insert(&mut self, block: BlockHandle, chunk: ChunkHandle, at: usize, size: usize) -> Result<()> {
        self.edit(call!(geosvm_insert(block.get(), chunk.get(), capped(at), capped(size))))
    }

    /// Takes `size` bytes out from `at` on. `Range`.
    #[doc(alias = "geosvm_delete")]
    pub fn delete(&mut self, block: BlockHandle, chunk: ChunkHandle, at: usize, size: usize) -> Result<()> {
        self.edit(call!(geosvm_delete(block.get(), chunk.get(), capped(at), capped(size))))
    }

    /// Writes over the bytes from `at` on. `Range`.
    #[doc(alias = "geosvm_write")]
    pub fn write(&mut self, block: BlockHandle, chunk: ChunkHandle, at: usize, bytes: impl AsRef<[u8]>) -> Result<()> {
        let bytes = bytes.as_ref();
        self.edit(call!(geosvm_write(block.get(), chunk.get(), capped(at), bytes.as_ptr(), bytes.len())))
    }

    /// Puts these bytes in the place of `count` from `at` on, as one edit. `Range`, `Full`.
    #[doc(alias = "geosvm_splice")]
    pub fn splice(
        &mut self,
        block: BlockHandle,
        chunk: ChunkHandle,
        at: usize,
        count: usize,
        bytes: impl AsRef<[u8]>,
    ) -> Result<()> {
        let (bytes, count) = (bytes.as_ref(), capped(count));
        self.edit(call!(geosvm_splice(block.get(), chunk.get(), capped(at), count, bytes.as_ptr(), bytes.len())))
    }
}

/// Look-ups of chunks. They may be `Memory`, `File`, `Damaged` or `CacheFull` too.
impl Session {
    /// The chunks of a heap, rising. `NoBlock`, `WrongKind`.
    #[doc(alias = "geosvm_chunks")]
    pub fn chunks(&mut self, block: BlockHandle) -> Result<Vec<ChunkHandle>> {
        let numbers = self.listed(call!(geosvm_chunks(block.get()) -> many))?;
        Ok(numbers.into_iter().filter_map(ChunkHandle::new).collect())
    }

    /// The bytes of a chunk. `NoBlock`, `WrongKind`, `NoChunk`.
    #[doc(alias = "geosvm_read")]
    pub fn read(&mut self, block: BlockHandle, chunk: ChunkHandle) -> Result<Vec<u8>> {
        self.listed(call!(geosvm_read(block.get(), chunk.get()) -> many))
    }

    /// How many bytes a chunk has. `NoBlock`, `WrongKind`, `NoChunk`.
    pub fn chunk_size(&mut self, block: BlockHandle, chunk: ChunkHandle) -> Result<usize> {
        self.length_of(call!(geosvm_read(block.get(), chunk.get()) -> many))
    }
}
