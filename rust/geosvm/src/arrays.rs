//! The three kinds of arrays that a chunk can hold, each as a view of its chunk.
use crate::error::{Fault, Result};
use crate::session::{call, capped, Session};
use crate::{BlockHandle, ChunkHandle, Token};
use std::iter::FusedIterator;

/// Arrays. Those that make one are `NoBlock`, `WrongKind`, `Range` and `Full`; a view is made without a look at the
/// chunk, and each call on it is `NoBlock`, `WrongKind`, `NoChunk`, `NotArray`, then what stands there, and of an edit
/// at last `Full`. Any may be `Memory`, `File`, `Damaged` or `CacheFull` too.
impl Session {
    /// Makes a chunk with a chunk array of elements of `size` bytes each, at most 4,096, or of any sizes with 0; and
    /// with `extra` zeros as extra bytes, at most 1,024, which begin at byte 8 of the chunk.
    #[doc(alias = "geosvm_acreate")]
    pub fn new_array(&mut self, block: BlockHandle, size: usize, extra: usize) -> Result<ChunkHandle> {
        self.made(call!(geosvm_acreate(block.get(), capped(size), capped(extra)) -> one))
    }

    /// Makes a chunk with an element array of data of `size` bytes, at most 4,096, or of any sizes with 0.
    #[doc(alias = "geosvm_ecreate")]
    pub fn new_element_array(&mut self, block: BlockHandle, size: usize) -> Result<ChunkHandle> {
        self.made(call!(geosvm_ecreate(block.get(), capped(size)) -> one))
    }

    /// Makes a chunk with a name array of parts of `size` bytes, at most 64.
    #[doc(alias = "geosvm_ncreate")]
    pub fn new_name_array(&mut self, block: BlockHandle, size: usize) -> Result<ChunkHandle> {
        self.made(call!(geosvm_ncreate(block.get(), capped(size)) -> one))
    }

    /// The chunk array in a chunk.
    pub fn array(&mut self, block: BlockHandle, chunk: ChunkHandle) -> Array<'_> {
        Array { session: self, block, chunk }
    }

    /// The element array in a chunk.
    pub fn element_array(&mut self, block: BlockHandle, chunk: ChunkHandle) -> ElementArray<'_> {
        ElementArray { session: self, block, chunk }
    }

    /// The name array in a chunk.
    pub fn name_array(&mut self, block: BlockHandle, chunk: ChunkHandle) -> NameArray<'_> {
        NameArray { session: self, block, chunk }
    }
}

/// A chunk array: a row of elements, which have numbers from 0 on. [`Session::array`] gives it.
///
/// Its look-ups, `count` and `get`, may be made of arrays of any kind.
///
/// ```
/// # fn main() -> geosvm::Result<()> {
/// # let mut doc = geosvm::Session::in_memory()?;
/// let heap = doc.new_heap(7)?;
/// let chunk = doc.new_array(heap, 0, 0)?;
/// let mut lines = doc.array(heap, chunk);
/// lines.insert(0, "first")?;
/// lines.insert(1, "second")?;
/// assert_eq!(lines.iter()?.collect::<geosvm::Result<Vec<_>>>()?, [&b"first"[..], b"second"]);
/// # Ok(())
/// # }
/// ```
#[derive(Debug)]
pub struct Array<'s> {
    session: &'s mut Session,
    block: BlockHandle,
    chunk: ChunkHandle,
}

impl<'s> Array<'s> {
    /// Makes these bytes an element before this one, or the last one. `Range`.
    #[doc(alias = "geosvm_ainsert")]
    pub fn insert(&mut self, index: usize, bytes: impl AsRef<[u8]>) -> Result<()> {
        let (block, chunk, bytes) = (self.block.get(), self.chunk.get(), bytes.as_ref());
        self.session.edit(call!(geosvm_ainsert(block, chunk, capped(index), bytes.as_ptr(), bytes.len())))
    }

    /// Gives an element these bytes in place of its own. `NoElement`, `Range`.
    #[doc(alias = "geosvm_aset")]
    pub fn set(&mut self, index: usize, bytes: impl AsRef<[u8]>) -> Result<()> {
        let (block, chunk, bytes) = (self.block.get(), self.chunk.get(), bytes.as_ref());
        self.session.edit(call!(geosvm_aset(block, chunk, capped(index), bytes.as_ptr(), bytes.len())))
    }

    /// Cuts an element at its end, or adds zeros there. `NoElement`, `Range` where all have one size.
    #[doc(alias = "geosvm_aresize")]
    pub fn resize(&mut self, index: usize, size: usize) -> Result<()> {
        let (block, chunk) = (self.block.get(), self.chunk.get());
        self.session.edit(call!(geosvm_aresize(block, chunk, capped(index), capped(size))))
    }

    /// Deletes `count` elements from this one on. `NoElement`.
    #[doc(alias = "geosvm_adelete")]
    pub fn delete(&mut self, index: usize, count: usize) -> Result<()> {
        let (block, chunk) = (self.block.get(), self.chunk.get());
        self.session.edit(call!(geosvm_adelete(block, chunk, capped(index), capped(count))))
    }

    /// Deletes all elements; the extra bytes stay.
    #[doc(alias = "geosvm_azero")]
    pub fn clear(&mut self) -> Result<()> {
        let (block, chunk) = (self.block.get(), self.chunk.get());
        self.session.edit(call!(geosvm_azero(block, chunk)))
    }

    /// How many elements there are.
    #[doc(alias = "geosvm_acount")]
    pub fn count(&mut self) -> Result<usize> {
        let (block, chunk) = (self.block.get(), self.chunk.get());
        self.session.told(call!(geosvm_acount(block, chunk) -> one))
    }

    /// The bytes of an element. `NoElement`.
    #[doc(alias = "geosvm_aget")]
    pub fn get(&mut self, index: usize) -> Result<Vec<u8>> {
        let (block, chunk) = (self.block.get(), self.chunk.get());
        self.session.listed(call!(geosvm_aget(block, chunk, capped(index)) -> many))
    }

    /// The elements that there are now, in order.
    pub fn iter(&mut self) -> Result<Elements<'_>> {
        let count = self.count()?;
        Ok(Elements { array: Array { session: &mut *self.session, ..*self }, next: 0, count })
    }
}

/// The elements of a chunk array. [`Array::iter`] makes it.
#[derive(Debug)]
pub struct Elements<'s> {
    array: Array<'s>,
    next: usize,
    count: usize,
}

impl Iterator for Elements<'_> {
    type Item = Result<Vec<u8>>;

    fn next(&mut self) -> Option<Result<Vec<u8>>> {
        let index = self.next;
        if index == self.count {
            return None;
        }
        self.next += 1;
        Some(self.array.get(index))
    }

    fn size_hint(&self) -> (usize, Option<usize>) {
        let left = self.count - self.next;
        (left, Some(left))
    }
}

impl ExactSizeIterator for Elements<'_> {}
impl FusedIterator for Elements<'_> {}

/// An element array: elements under tokens, each with a count of references. [`Session::element_array`] gives it.
///
/// ```
/// # fn main() -> geosvm::Result<()> {
/// # let mut doc = geosvm::Session::in_memory()?;
/// let heap = doc.new_heap(7)?;
/// let chunk = doc.new_element_array(heap, 0)?;
/// let mut colours = doc.element_array(heap, chunk);
/// let red = colours.add("red")?;
/// assert_eq!((colours.add("red")?, colours.references(red)?), (red, 2));
/// # Ok(())
/// # }
/// ```
#[derive(Debug)]
pub struct ElementArray<'s> {
    session: &'s mut Session,
    block: BlockHandle,
    chunk: ChunkHandle,
}

impl ElementArray<'_> {
    /// Gives the element with these bytes one more reference, or makes it; gives its token either way. `CountFull`,
    /// `Range`.
    #[doc(alias = "geosvm_eadd")]
    pub fn add(&mut self, bytes: impl AsRef<[u8]>) -> Result<Token> {
        let (block, chunk, bytes) = (self.block.get(), self.chunk.get(), bytes.as_ref());
        self.session.made(call!(geosvm_eadd(block, chunk, bytes.as_ptr(), bytes.len()) -> one))
    }

    /// Gives an element one reference more. `NoElement`, `CountFull`.
    #[doc(alias = "geosvm_eref")]
    pub fn reference(&mut self, token: Token) -> Result<()> {
        let (block, chunk) = (self.block.get(), self.chunk.get());
        self.session.edit(call!(geosvm_eref(block, chunk, token.get())))
    }

    /// Takes one reference of an element away, which frees it with the last one. `NoElement`.
    #[doc(alias = "geosvm_eunref")]
    pub fn release(&mut self, token: Token) -> Result<()> {
        let (block, chunk) = (self.block.get(), self.chunk.get());
        self.session.edit(call!(geosvm_eunref(block, chunk, token.get())))
    }

    /// Frees an element, whatever its references. `NoElement`.
    #[doc(alias = "geosvm_edelete")]
    pub fn delete(&mut self, token: Token) -> Result<()> {
        let (block, chunk) = (self.block.get(), self.chunk.get());
        self.session.edit(call!(geosvm_edelete(block, chunk, token.get())))
    }

    /// Gives an element these bytes; its references stay. `NoElement`, `Range`.
    #[doc(alias = "geosvm_echange")]
    pub fn set(&mut self, token: Token, bytes: impl AsRef<[u8]>) -> Result<()> {
        let (block, chunk, bytes) = (self.block.get(), self.chunk.get(), bytes.as_ref());
        self.session.edit(call!(geosvm_echange(block, chunk, token.get(), bytes.as_ptr(), bytes.len())))
    }

    /// How many references an element has. `NoElement`.
    #[doc(alias = "geosvm_ecount")]
    pub fn references(&mut self, token: Token) -> Result<usize> {
        let (block, chunk) = (self.block.get(), self.chunk.get());
        self.session.told(call!(geosvm_ecount(block, chunk, token.get()) -> one))
    }

    /// The bytes of an element. `NoElement`.
    #[doc(alias = "geosvm_edata")]
    pub fn get(&mut self, token: Token) -> Result<Vec<u8>> {
        let (block, chunk) = (self.block.get(), self.chunk.get());
        self.session.listed(call!(geosvm_edata(block, chunk, token.get()) -> many))
    }

    /// How many elements are used.
    #[doc(alias = "geosvm_eused")]
    pub fn count(&mut self) -> Result<usize> {
        let (block, chunk) = (self.block.get(), self.chunk.get());
        self.session.told(call!(geosvm_eused(block, chunk) -> one))
    }

    /// The token of a used element, by its number from 0 on. `NoElement`.
    #[doc(alias = "geosvm_etoken")]
    pub fn token(&mut self, index: usize) -> Result<Token> {
        let (block, chunk) = (self.block.get(), self.chunk.get());
        self.session.told(call!(geosvm_etoken(block, chunk, capped(index)) -> one)).map(Token::new)
    }

    /// How many used tokens are lower. `NoElement`.
    #[doc(alias = "geosvm_eindex")]
    pub fn index(&mut self, token: Token) -> Result<usize> {
        let (block, chunk) = (self.block.get(), self.chunk.get());
        self.session.told(call!(geosvm_eindex(block, chunk, token.get()) -> one))
    }

    /// The tokens that are used, rising.
    pub fn tokens(&mut self) -> Result<Vec<Token>> {
        let count = self.count()?;
        (0..count).map(|index| self.token(index)).collect()
    }
}

/// What becomes of the part of a name that is there already, where it is added once more.
#[derive(Clone, Copy, Debug, PartialEq, Eq, Hash)]
pub enum Existing {
    /// Its part stays.
    Keep,
    /// It gets the part that is given.
    Set,
}

/// A name array: names under tokens, each of 1 to 256 bytes, with a part of a fixed size and a count of references.
/// [`Session::name_array`] gives it.
///
/// ```
/// # fn main() -> geosvm::Result<()> {
/// # use geosvm::Existing;
/// # let mut doc = geosvm::Session::in_memory()?;
/// let heap = doc.new_heap(7)?;
/// let chunk = doc.new_name_array(heap, 2)?;
/// let mut styles = doc.name_array(heap, chunk);
/// let title = styles.add("title", [24, 0], Existing::Keep)?;
/// assert_eq!((styles.find("title")?, styles.part(title)?), (title, vec![24, 0]));
/// # Ok(())
/// # }
/// ```
#[derive(Debug)]
pub struct NameArray<'s> {
    session: &'s mut Session,
    block: BlockHandle,
    chunk: ChunkHandle,
}

impl NameArray<'_> {
    /// Gives a name that is there one more reference, or makes it with this part; gives its token either way.
    /// `CountFull`, `Range`.
    #[doc(alias = "geosvm_nadd")]
    pub fn add(&mut self, name: impl AsRef<[u8]>, part: impl AsRef<[u8]>, existing: Existing) -> Result<Token> {
        let (block, chunk, sets) = (self.block.get(), self.chunk.get(), existing == Existing::Set);
        let (name, part) = (name.as_ref(), part.as_ref());
        let (part_at, part_size) = (part.as_ptr(), part.len());
        self.session.made(call!(geosvm_nadd(block, chunk, name.as_ptr(), name.len(), part_at, part_size, sets) -> one))
    }

    /// Gives a token another name. `NoElement`, `NameInUse`, `Range`.
    #[doc(alias = "geosvm_nname")]
    pub fn rename(&mut self, token: Token, name: impl AsRef<[u8]>) -> Result<()> {
        let (block, chunk, name) = (self.block.get(), self.chunk.get(), name.as_ref());
        self.session.edit(call!(geosvm_nname(block, chunk, token.get(), name.as_ptr(), name.len())))
    }

    /// Gives the name of a token this part. `NoElement`, `Range`.
    #[doc(alias = "geosvm_nset")]
    pub fn set_part(&mut self, token: Token, part: impl AsRef<[u8]>) -> Result<()> {
        let (block, chunk, part) = (self.block.get(), self.chunk.get(), part.as_ref());
        self.session.edit(call!(geosvm_nset(block, chunk, token.get(), part.as_ptr(), part.len())))
    }

    /// Takes one reference of a name away, which frees it with the last one. `NoElement`.
    #[doc(alias = "geosvm_nunref")]
    pub fn release(&mut self, token: Token) -> Result<()> {
        let (block, chunk) = (self.block.get(), self.chunk.get());
        self.session.edit(call!(geosvm_nunref(block, chunk, token.get())))
    }

    /// The lowest token that has the name. `NoName`.
    #[doc(alias = "geosvm_nfind")]
    pub fn find(&mut self, name: impl AsRef<[u8]>) -> Result<Token> {
        let (block, chunk, name) = (self.block.get(), self.chunk.get(), name.as_ref());
        self.session.told(call!(geosvm_nfind(block, chunk, name.as_ptr(), name.len()) -> one)).map(Token::new)
    }

    /// How many references a name has. `NoElement`.
    #[doc(alias = "geosvm_ncount")]
    pub fn references(&mut self, token: Token) -> Result<usize> {
        let (block, chunk) = (self.block.get(), self.chunk.get());
        self.session.told(call!(geosvm_ncount(block, chunk, token.get()) -> one))
    }

    /// The name of a token. `NoElement`.
    #[doc(alias = "geosvm_ntext")]
    pub fn name(&mut self, token: Token) -> Result<Vec<u8>> {
        let (block, chunk) = (self.block.get(), self.chunk.get());
        self.session.listed(call!(geosvm_ntext(block, chunk, token.get()) -> many))
    }

    /// The part of a token's name. `NoElement`.
    #[doc(alias = "geosvm_ndata")]
    pub fn part(&mut self, token: Token) -> Result<Vec<u8>> {
        let (block, chunk) = (self.block.get(), self.chunk.get());
        self.session.listed(call!(geosvm_ndata(block, chunk, token.get()) -> many))
    }

    /// The names that there are, each with its token, by these.
    pub fn names(&mut self) -> Result<Vec<(Token, Vec<u8>)>> {
        let count = self.session.array(self.block, self.chunk).count()?;
        let mut names = Vec::new();
        for token in (0..count).filter_map(|number| u16::try_from(number).ok()).map(Token::new) {
            match self.name(token) {
                Ok(name) => names.push((token, name)),
                Err(error) if error == Fault::NoElement => {}
                Err(error) => return Err(error),
            }
        }
        Ok(names)
    }
}
