//! Where the document was changed, or would be.
use crate::error::Result;
use crate::session::{call, Session};
use crate::{BlockHandle, ChunkHandle};
use geosvm_sys::{self as sys, geosvm_place, geosvm_session};

/// A place of the document that is to be looked at anew.
///
/// Whoever keeps a copy of the document, as a window does, and looks again at the places that are told and at nothing
/// else, has the document. They are told in order, a later one in the coordinates after the earlier ones.
#[derive(Clone, Copy, Debug, PartialEq, Eq, Hash)]
pub enum Place {
    /// The whole document.
    All,
    /// Which block is the map block.
    MapBlock,
    /// The user ID or the type of a block.
    Attributes(BlockHandle),
    /// A block, which came or went, or is another one now.
    Block(BlockHandle),
    /// A chunk of a block, likewise.
    Chunk(BlockHandle, ChunkHandle),
    /// Bytes: from `at` on `after` are in the place of `before`.
    Run {
        /// The block that they are in.
        block: BlockHandle,
        /// The chunk, or `None` for the bytes of a raw block.
        chunk: Option<ChunkHandle>,
        /// Where they begin.
        at: usize,
        /// How many were there.
        before: usize,
        /// How many are there.
        after: usize,
    },
}

impl Place {
    /// A place as the library tells it. One that this crate doesn't know is the whole document, which is always enough.
    fn of(told: geosvm_place) -> Place {
        Place::known(told).unwrap_or(Place::All)
    }

    fn known(told: geosvm_place) -> Option<Place> {
        let (block, chunk) = (BlockHandle::new(told.block), ChunkHandle::new(told.chunk));
        Some(match told.kind {
            sys::GEOSVM_PLACE_MAP_BLOCK => Place::MapBlock,
            sys::GEOSVM_PLACE_ATTRIBUTES => Place::Attributes(block?),
            sys::GEOSVM_PLACE_BLOCK => Place::Block(block?),
            sys::GEOSVM_PLACE_CHUNK => Place::Chunk(block?, chunk?),
            sys::GEOSVM_PLACE_RUN => {
                let [at, before, after] = [told.at, told.before, told.after].map(|number| number as usize);
                Place::Run { block: block?, chunk, at, before, after }
            }
            _ => Place::All,
        })
    }
}

impl Session {
    /// Where the last accepted edit, undo, redo, abandon or revert changed the document. It is to be asked after each
    /// of these, before the next one, and gone by once.
    ///
    /// Where it is [`Fault::Memory`](crate::Fault::Memory) ask again before the next edit, or look at the whole
    /// document.
    ///
    /// ```
    /// # fn main() -> geosvm::Result<()> {
    /// # use geosvm::Place;
    /// # let mut doc = geosvm::Session::in_memory()?;
    /// let page = doc.new_raw(7, 3)?;
    /// assert_eq!(doc.touched()?, [Place::Block(page)]);
    /// doc.splice_raw(page, 1, 1, "xy")?;
    /// assert_eq!(doc.touched()?, [Place::Run { block: page, chunk: None, at: 1, before: 1, after: 2 }]);
    /// # Ok(())
    /// # }
    /// ```
    #[doc(alias = "geosvm_touched")]
    pub fn touched(&mut self) -> Result<Vec<Place>> {
        self.places(call!(geosvm_touched(0) -> many))
    }

    /// Where an undo would change it.
    #[doc(alias = "geosvm_undo_places")]
    pub fn undo_places(&mut self) -> Result<Vec<Place>> {
        self.places(call!(geosvm_undo_places(0) -> many))
    }

    /// Where a redo would change it.
    #[doc(alias = "geosvm_redo_places")]
    pub fn redo_places(&mut self) -> Result<Vec<Place>> {
        self.places(call!(geosvm_redo_places(0) -> many))
    }

    /// Where an abandon of the open group would change it.
    #[doc(alias = "geosvm_abandon_places")]
    pub fn abandon_places(&mut self) -> Result<Vec<Place>> {
        self.places(call!(geosvm_abandon_places(0) -> many))
    }

    fn places(
        &mut self,
        call: impl FnMut(*mut geosvm_session, *mut geosvm_place, usize, *mut usize) -> i32,
    ) -> Result<Vec<Place>> {
        Ok(self.listed(call)?.into_iter().map(Place::of).collect())
    }
}
