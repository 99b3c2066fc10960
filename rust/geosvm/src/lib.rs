//! Documents of blocks and heaps in a file, with exact undo: the library for C of geosvm, in safe Rust.
//!
//! A [`Session`] is an open document. Its blocks are heaps of chunks or raw bytes, each under a handle that stays; a
//! chunk holds bytes, or an [`Array`], an [`ElementArray`] or a [`NameArray`]; a [`LargeArray`] has many raw blocks.
//! Each edit is a step that can be undone; a [`Group`] of edits is one step; a [`Locked`] block lends its bytes where
//! they lie. `docs/SCRIPT.md` of geosvm says what each command does, and the search of this page finds each call by its
//! name in `geosvm.h`.
//!
//! ```
//! use geosvm::{OpenOptions, Session};
//!
//! # fn main() -> geosvm::Result<()> {
//! # let folder = std::env::temp_dir().join(format!("geosvm-doc-{}", std::process::id()));
//! # std::fs::create_dir_all(&folder).unwrap();
//! # let path = folder.join("notes.document");
//! let mut doc = OpenOptions::new().create(true).open(&path)?;
//! let notes = doc.new_heap(7)?;
//! let note = doc.grouped("Make a note", |doc| {
//!     let note = doc.alloc(notes, 5)?;
//!     doc.write(notes, note, 0, "hello")?;
//!     Ok::<_, geosvm::Error>(note)
//! })?;
//! doc.save()?;
//! doc.close();
//!
//! let mut again = Session::open(&path)?;
//! assert_eq!(again.read(notes, note)?, b"hello");
//! # std::fs::remove_dir_all(&folder).unwrap();
//! # Ok(())
//! # }
//! ```
//!
//! What `geosvm.h` asks of a caller is kept here by Rust's own rules: safe code can't break it, but that nobody else
//! may write the file, which harms the document and not the program's memory. Nothing of this is proved, unlike the
//! library: what lies between is thin, and tested.

mod arrays;
mod blocks;
mod chains;
mod chunks;
mod error;
mod files;
mod groups;
mod handles;
mod large_arrays;
mod locks;
mod open;
mod places;
mod session;
mod steps;

pub use arrays::{Array, ElementArray, Elements, Existing, NameArray};
pub use blocks::{BlockInfo, BlockKind, BlocksOf};
pub use error::{Error, Fault, Result};
pub use geosvm_sys as sys;
pub use groups::Group;
pub use handles::{BlockHandle, ChunkHandle, Token};
pub use large_arrays::LargeArray;
pub use locks::{Lent, Locked};
pub use open::OpenOptions;
pub use places::Place;
pub use session::Session;
pub use steps::Standing;

/// The version of the library that is linked, as `0.1.0`: a shared library may be of another version than this crate.
#[doc(alias = "geosvm_version")]
pub fn version() -> &'static str {
    // SAFETY: the library's text stays, and ends in a zero.
    unsafe { error::text_at(sys::geosvm_version()) }
}

/// The page of both crates, whose examples are tried as those of this one are.
#[cfg(doctest)]
#[doc = include_str!("../../README.md")]
struct Page;
