//! The declarations of `geosvm.h`, the library for C of geosvm: documents of blocks and heaps in a file, with exact
//! undo.
//!
//! Names, types and numbers are those of the header, which says what each call does and what a caller owes; what is
//! said here is a reminder. `tests/header.rs` compares all of it with the header. The crate `geosvm` has these calls in
//! safe Rust.
//!
//! The library is found by `pkg-config`, or in the folder that `GEOSVM_LIB_DIR` names; with the feature `static` it
//! goes into the program. The functions `geosvm_io_*`, which a program may define for files of its own, aren't
//! declared: one that does exports them by `#[no_mangle]`, as the header has them.
#![cfg_attr(not(test), no_std)]
#![allow(non_camel_case_types)]

use core::ffi::{c_char, c_int, c_void};

/// The version of the header, in numbers.
pub const GEOSVM_VERSION_MAJOR: i32 = 0;
/// See [`GEOSVM_VERSION_MAJOR`].
pub const GEOSVM_VERSION_MINOR: i32 = 2;
/// See [`GEOSVM_VERSION_MAJOR`].
pub const GEOSVM_VERSION_PATCH: i32 = 0;

/// A session, in the caller's own memory. It begins as [`GEOSVM_CLOSED`], and its fields are private.
///
/// It may be moved, but it is never copied and then used in both places.
#[repr(C)]
#[derive(Debug)]
pub struct geosvm_session {
    private_at: *mut c_void,
    private_is_open: bool,
    private_file: isize,
}

/// A session before the first call.
pub const GEOSVM_CLOSED: geosvm_session =
    geosvm_session { private_at: core::ptr::null_mut(), private_is_open: false, private_file: 0 };

/// It was done.
pub const GEOSVM_OK: i32 = 0;
/// No memory.
pub const GEOSVM_MEMORY: i32 = 1;
/// A call on the file has failed.
pub const GEOSVM_FILE: i32 = 2;
/// The file is a damaged document.
pub const GEOSVM_DAMAGED: i32 = 3;
/// The file is no document.
pub const GEOSVM_NOT_DOCUMENT: i32 = 4;
/// No block has this handle.
pub const GEOSVM_NO_BLOCK: i32 = 5;
/// No chunk of the block has this handle.
pub const GEOSVM_NO_CHUNK: i32 = 6;
/// A heap where a raw block is wanted, or the reverse.
pub const GEOSVM_WRONG_KIND: i32 = 7;
/// The heap would need more than 65,520 bytes.
pub const GEOSVM_FULL: i32 = 8;
/// Over 65,520 bytes in a raw block, 64 in a step's name, or 65,508 in an element.
pub const GEOSVM_TOO_BIG: i32 = 9;
/// Fewer block handles are free than are needed.
pub const GEOSVM_NO_HANDLES: i32 = 10;
/// A place, length or size is outside its bounds.
pub const GEOSVM_RANGE: i32 = 11;
/// The chunk is no array of the kind that is wanted, or the block no root of a large array.
pub const GEOSVM_NOT_ARRAY: i32 = 12;
/// There is no such element, or the token isn't used.
pub const GEOSVM_NO_ELEMENT: i32 = 13;
/// The element has as many references as any can have.
pub const GEOSVM_COUNT_FULL: i32 = 14;
/// No element has the name.
pub const GEOSVM_NO_NAME: i32 = 15;
/// Another token has the name.
pub const GEOSVM_NAME_IN_USE: i32 = 16;
/// No chain begins at the block, or a branch isn't what the root of a large array says.
pub const GEOSVM_BAD_CHAIN: i32 = 17;
/// The map block would be freed.
pub const GEOSVM_IS_MAP: i32 = 18;
/// A block is locked.
pub const GEOSVM_LOCKED: i32 = 19;
/// The block isn't locked.
pub const GEOSVM_NOT_LOCKED: i32 = 20;
/// Every frame has a locked block.
pub const GEOSVM_CACHE_FULL: i32 = 21;
/// No step is left to undo, or no two to be joined.
pub const GEOSVM_NOTHING_TO_UNDO: i32 = 22;
/// No undo is left to take back.
pub const GEOSVM_NOTHING_TO_REDO: i32 = 23;
/// A saveas as a command, which has no target: call geosvm_save_as.
pub const GEOSVM_NO_TARGET: i32 = 24;
/// The line is no command.
pub const GEOSVM_BAD_COMMAND: i32 = 25;
/// The block is locked 255 times.
pub const GEOSVM_LOCK_LIMIT: i32 = 26;
/// The file's sequence number is at its last value.
pub const GEOSVM_WORN: i32 = 27;
/// A group is open.
pub const GEOSVM_GROUP_OPEN: i32 = 28;
/// No group is open.
pub const GEOSVM_NO_GROUP: i32 = 29;
/// The session is closed.
pub const GEOSVM_NOT_OPEN: i32 = 100;
/// The session is open.
pub const GEOSVM_OPEN_ALREADY: i32 = 101;
/// A number is out of its bounds, or the session's own.
pub const GEOSVM_BAD_ARGUMENT: i32 = 102;
/// The buffer took a part; all was done.
pub const GEOSVM_CUT_OFF: i32 = 103;
/// No memory for a reply; the command may be done.
pub const GEOSVM_UNTOLD: i32 = 104;

/// A file that is there, to be read and written.
pub const GEOSVM_PATH_EXISTING: u32 = 0;
/// That, or an empty document where no file is, or one of 0 bytes.
pub const GEOSVM_PATH_CREATE: u32 = 1;
/// An empty document in a new file.
pub const GEOSVM_PATH_NEW: u32 = 2;
/// An empty document, whatever is there.
pub const GEOSVM_PATH_EMPTY: u32 = 4;
/// A file that is there, to be read alone.
pub const GEOSVM_PATH_READ: u32 = 8;
/// An empty document in a file of the system's memory. The path is null.
pub const GEOSVM_PATH_MEMORY: u32 = 16;
/// Beside one of the others but `GEOSVM_PATH_READ`: the file has checksums from its next commit on.
pub const GEOSVM_PATH_CHECKSUMS: u32 = 32;

/// The most bytes of a reply, but for those that tell places.
pub const GEOSVM_REPLY_MOST: usize = 131072;

/// The document is as it was saved.
pub const GEOSVM_AS_SAVED: usize = 1;
/// The document is as it was updated.
pub const GEOSVM_AS_UPDATED: usize = 2;

/// The whole document.
pub const GEOSVM_PLACE_ALL: u8 = 0;
/// Which block is the map block.
pub const GEOSVM_PLACE_MAP_BLOCK: u8 = 1;
/// The user ID or the type of `block`.
pub const GEOSVM_PLACE_ATTRIBUTES: u8 = 2;
/// `block`, which came or went, or is another one now.
pub const GEOSVM_PLACE_BLOCK: u8 = 3;
/// `chunk` of `block`, likewise.
pub const GEOSVM_PLACE_CHUNK: u8 = 4;
/// Bytes of `chunk` or, where that is 0, of the raw block: from `at` on `after` are in the place of `before`.
pub const GEOSVM_PLACE_RUN: u8 = 5;

/// A place of the document that was changed. Numbers that the kind has no use for are 0.
#[repr(C)]
#[derive(Clone, Copy, Debug, Default, PartialEq, Eq)]
pub struct geosvm_place {
    /// One of `GEOSVM_PLACE_ALL` and so on.
    pub kind: u8,
    /// The block.
    pub block: u16,
    /// The chunk.
    pub chunk: u16,
    /// Where a run begins.
    pub at: u32,
    /// How many bytes were there.
    pub before: u32,
    /// How many bytes are there.
    pub after: u32,
}

unsafe extern "C" {
    /// The version of the library that is linked, as text that stays.
    pub fn geosvm_version() -> *const c_char;
    /// The name of a code, as `NothingToUndo`: a text that stays, never null.
    pub fn geosvm_code_name(code: i32) -> *const c_char;
    /// What a code means, for people: a text that stays, never null.
    pub fn geosvm_code_text(code: i32) -> *const c_char;
    /// The errno of the call on a file that failed last in this thread; 0 where none has yet.
    pub fn geosvm_last_error() -> c_int;
    /// Opens the document of a file by its path, with 64 frames; the flags are one of `GEOSVM_PATH_EXISTING` and so on.
    pub fn geosvm_open_path(s: *mut geosvm_session, path: *const c_char, flags: u32) -> i32;
    /// Puts the name of a fault, at most 13 bytes, into the buffer.
    pub fn geosvm_fault_name(code: i32, name: *mut u8, room: usize, length: *mut usize) -> i32;
    /// Opens the document of the file with this number, with at most so many blocks in memory, 1 to 64.
    pub fn geosvm_open(s: *mut geosvm_session, number: i32, frames: usize) -> i32;
    /// Makes an empty document of a file, whatever was in it.
    pub fn geosvm_create(s: *mut geosvm_session, number: i32, frames: usize) -> i32;
    /// Opens a document likewise, whose file has checksums from its next commit on.
    pub fn geosvm_open_checksums(s: *mut geosvm_session, number: i32, frames: usize) -> i32;
    /// Makes an empty document of a file likewise, with checksums.
    pub fn geosvm_create_checksums(s: *mut geosvm_session, number: i32, frames: usize) -> i32;
    /// Closes the session, and writes nothing.
    pub fn geosvm_close(s: *mut geosvm_session) -> i32;
    /// Carries out a command as text, and puts its reply line into the buffer.
    pub fn geosvm_command(
        s: *mut geosvm_session,
        line: *const u8,
        size: usize,
        reply: *mut u8,
        room: usize,
        length: *mut usize,
    ) -> i32;
    /// Takes the newest step back.
    pub fn geosvm_undo(s: *mut geosvm_session) -> i32;
    /// Makes the step again that the newest undo took back.
    pub fn geosvm_redo(s: *mut geosvm_session) -> i32;
    /// Makes the newest two steps one.
    pub fn geosvm_join(s: *mut geosvm_session) -> i32;
    /// Names the newest step, in at most 64 bytes.
    pub fn geosvm_name(s: *mut geosvm_session, name: *const u8, size: usize) -> i32;
    /// Keeps the newest `most` steps to be undone.
    pub fn geosvm_forget(s: *mut geosvm_session, most: u32) -> i32;
    /// Keeps no more than `most` steps from now on; with 0 all.
    pub fn geosvm_limit_undo(s: *mut geosvm_session, most: u32) -> i32;
    /// Opens a group.
    pub fn geosvm_begin(s: *mut geosvm_session) -> i32;
    /// Closes the group: its edits are one step.
    pub fn geosvm_end(s: *mut geosvm_session) -> i32;
    /// Closes the group, and takes its edits back.
    pub fn geosvm_abandon(s: *mut geosvm_session) -> i32;
    /// Makes the document what the file opens to.
    pub fn geosvm_update(s: *mut geosvm_session) -> i32;
    /// Makes the document what the file opens to and what a revert gives.
    pub fn geosvm_save(s: *mut geosvm_session) -> i32;
    /// Goes back to the saved document.
    pub fn geosvm_revert(s: *mut geosvm_session) -> i32;
    /// Saves into the file with this number, whatever was in it, and goes on in that.
    pub fn geosvm_save_as(s: *mut geosvm_session, number: i32) -> i32;
    /// Saves into another file by its path, and goes on in that; the flags are 0 or `GEOSVM_PATH_NEW`.
    pub fn geosvm_save_as_path(s: *mut geosvm_session, path: *const c_char, flags: u32) -> i32;
    /// Locks a block once more.
    pub fn geosvm_lock(s: *mut geosvm_session, block: u16) -> i32;
    /// Takes one lock of a block away.
    pub fn geosvm_unlock(s: *mut geosvm_session, block: u16) -> i32;
    /// Has the next commit write a locked block.
    pub fn geosvm_dirty(s: *mut geosvm_session, block: u16) -> i32;
    /// Tells how often a block is locked.
    pub fn geosvm_locks(s: *mut geosvm_session, block: u16, count: *mut u8) -> i32;
    /// Lends the bytes of a chunk of a locked heap.
    pub fn geosvm_locked_chunk(
        s: *mut geosvm_session,
        block: u16,
        chunk: u16,
        bytes: *mut *const u8,
        length: *mut usize,
    ) -> i32;
    /// Lends the bytes of a locked raw block.
    pub fn geosvm_locked_raw(s: *mut geosvm_session, block: u16, bytes: *mut *const u8, length: *mut usize) -> i32;
    /// Locks the block of a large array that has an element, and lends its elements from there on.
    pub fn geosvm_lock_run(
        s: *mut geosvm_session,
        root: u16,
        i: u32,
        block: *mut u16,
        bytes: *mut *const u8,
        length: *mut usize,
    ) -> i32;
    /// Makes a raw block of zeros.
    pub fn geosvm_newraw(s: *mut geosvm_session, user_id: u16, size: u32, block: *mut u16) -> i32;
    /// Makes a block with an empty heap.
    pub fn geosvm_newheap(s: *mut geosvm_session, user_id: u16, block: *mut u16) -> i32;
    /// Frees a block.
    pub fn geosvm_vfree(s: *mut geosvm_session, block: u16) -> i32;
    /// Makes a block like another one.
    pub fn geosvm_vcopy(s: *mut geosvm_session, block: u16, copy: *mut u16) -> i32;
    /// Writes over bytes of a raw block.
    pub fn geosvm_vwrite(s: *mut geosvm_session, block: u16, at: u32, bytes: *const u8, size: usize) -> i32;
    /// Puts these bytes in the place of `count` of a raw block.
    pub fn geosvm_vsplice(
        s: *mut geosvm_session,
        block: u16,
        at: u32,
        count: u32,
        bytes: *const u8,
        size: usize,
    ) -> i32;
    /// Gives a raw block these bytes in place of its own.
    pub fn geosvm_attach(s: *mut geosvm_session, block: u16, bytes: *const u8, size: usize) -> i32;
    /// Sets the user ID of a block.
    pub fn geosvm_uid(s: *mut geosvm_session, block: u16, user_id: u16) -> i32;
    /// Sets the type of a heap.
    pub fn geosvm_settype(s: *mut geosvm_session, block: u16, heap_type: u16) -> i32;
    /// Makes a block the map block; 0 leaves none.
    pub fn geosvm_map(s: *mut geosvm_session, block: u16) -> i32;
    /// Makes a chunk of zeros.
    pub fn geosvm_alloc(s: *mut geosvm_session, block: u16, size: u32, chunk: *mut u16) -> i32;
    /// Frees a chunk.
    pub fn geosvm_free(s: *mut geosvm_session, block: u16, chunk: u16) -> i32;
    /// Cuts a chunk at its end, or adds zeros there.
    pub fn geosvm_resize(s: *mut geosvm_session, block: u16, chunk: u16, size: u32) -> i32;
    /// Puts zeros in before the byte at `at`.
    pub fn geosvm_insert(s: *mut geosvm_session, block: u16, chunk: u16, at: u32, size: u32) -> i32;
    /// Takes bytes out from `at` on.
    pub fn geosvm_delete(s: *mut geosvm_session, block: u16, chunk: u16, at: u32, size: u32) -> i32;
    /// Writes over bytes of a chunk.
    pub fn geosvm_write(s: *mut geosvm_session, block: u16, chunk: u16, at: u32, bytes: *const u8, size: usize) -> i32;
    /// Puts these bytes in the place of `count` of a chunk.
    pub fn geosvm_splice(
        s: *mut geosvm_session,
        block: u16,
        chunk: u16,
        at: u32,
        count: u32,
        bytes: *const u8,
        size: usize,
    ) -> i32;
    /// Makes a chunk with a chunk array.
    pub fn geosvm_acreate(s: *mut geosvm_session, block: u16, size: u32, extra: u32, chunk: *mut u16) -> i32;
    /// Makes these bytes an element before element `i`.
    pub fn geosvm_ainsert(s: *mut geosvm_session, block: u16, chunk: u16, i: u32, bytes: *const u8, size: usize)
        -> i32;
    /// Gives an element these bytes.
    pub fn geosvm_aset(s: *mut geosvm_session, block: u16, chunk: u16, i: u32, bytes: *const u8, size: usize) -> i32;
    /// Cuts an element at its end, or adds zeros there.
    pub fn geosvm_aresize(s: *mut geosvm_session, block: u16, chunk: u16, i: u32, size: u32) -> i32;
    /// Deletes `count` elements.
    pub fn geosvm_adelete(s: *mut geosvm_session, block: u16, chunk: u16, i: u32, count: u32) -> i32;
    /// Deletes all elements.
    pub fn geosvm_azero(s: *mut geosvm_session, block: u16, chunk: u16) -> i32;
    /// Makes a chunk with an element array.
    pub fn geosvm_ecreate(s: *mut geosvm_session, block: u16, size: u32, chunk: *mut u16) -> i32;
    /// Gives the element with these bytes one more reference, or makes it.
    pub fn geosvm_eadd(
        s: *mut geosvm_session,
        block: u16,
        chunk: u16,
        bytes: *const u8,
        size: usize,
        token: *mut u16,
    ) -> i32;
    /// Gives an element one reference more.
    pub fn geosvm_eref(s: *mut geosvm_session, block: u16, chunk: u16, token: u16) -> i32;
    /// Takes one reference of an element away.
    pub fn geosvm_eunref(s: *mut geosvm_session, block: u16, chunk: u16, token: u16) -> i32;
    /// Frees an element.
    pub fn geosvm_edelete(s: *mut geosvm_session, block: u16, chunk: u16, token: u16) -> i32;
    /// Gives an element these bytes.
    pub fn geosvm_echange(
        s: *mut geosvm_session,
        block: u16,
        chunk: u16,
        token: u16,
        bytes: *const u8,
        size: usize,
    ) -> i32;
    /// Makes a chunk with a name array.
    pub fn geosvm_ncreate(s: *mut geosvm_session, block: u16, size: u32, chunk: *mut u16) -> i32;
    /// Gives a name one more reference, or makes it with this part.
    pub fn geosvm_nadd(
        s: *mut geosvm_session,
        block: u16,
        chunk: u16,
        name: *const u8,
        size: usize,
        part: *const u8,
        part_size: usize,
        sets: bool,
        token: *mut u16,
    ) -> i32;
    /// Gives a token another name.
    pub fn geosvm_nname(
        s: *mut geosvm_session,
        block: u16,
        chunk: u16,
        token: u16,
        name: *const u8,
        size: usize,
    ) -> i32;
    /// Gives the name of a token this part.
    pub fn geosvm_nset(
        s: *mut geosvm_session,
        block: u16,
        chunk: u16,
        token: u16,
        part: *const u8,
        part_size: usize,
    ) -> i32;
    /// Takes one reference of a name away.
    pub fn geosvm_nunref(s: *mut geosvm_session, block: u16, chunk: u16, token: u16) -> i32;
    /// Copies each block of a chain.
    pub fn geosvm_chcopy(s: *mut geosvm_session, block: u16, copy: *mut u16) -> i32;
    /// Frees each block of a chain.
    pub fn geosvm_chfree(s: *mut geosvm_session, block: u16) -> i32;
    /// Makes a large array, and tells its root.
    pub fn geosvm_hcreate(s: *mut geosvm_session, user_id: u16, size: u32, root: *mut u16) -> i32;
    /// Puts elements in before element `i` of a large array.
    pub fn geosvm_hinsert(s: *mut geosvm_session, root: u16, i: u32, bytes: *const u8, size: usize) -> i32;
    /// Puts elements in the place of those from element `i` on.
    pub fn geosvm_hset(s: *mut geosvm_session, root: u16, i: u32, bytes: *const u8, size: usize) -> i32;
    /// Deletes `count` elements.
    pub fn geosvm_hdelete(s: *mut geosvm_session, root: u16, i: u32, count: u32) -> i32;
    /// Makes a block of `to` like one of `from`.
    pub fn geosvm_copy_block(from: *mut geosvm_session, block: u16, to: *mut geosvm_session, copy: *mut u16) -> i32;
    /// Tells whether a block is a heap, its user ID and its size.
    pub fn geosvm_info(s: *mut geosvm_session, block: u16, is_heap: *mut u8, user_id: *mut u16, size: *mut u32) -> i32;
    /// Tells the type of a heap.
    pub fn geosvm_gettype(s: *mut geosvm_session, block: u16, heap_type: *mut u16) -> i32;
    /// Has all blocks, rising.
    pub fn geosvm_list(s: *mut geosvm_session, blocks: *mut u16, room: usize, length: *mut usize) -> i32;
    /// Finds the least handle above `start` with this user ID; 0 where there is none.
    pub fn geosvm_find(s: *mut geosvm_session, user_id: u16, start: u16, block: *mut u16) -> i32;
    /// Tells the map block; 0 where there is none.
    pub fn geosvm_mapblock(s: *mut geosvm_session, block: *mut u16) -> i32;
    /// Copies the bytes of a raw block.
    pub fn geosvm_vread(s: *mut geosvm_session, block: u16, buffer: *mut u8, room: usize, length: *mut usize) -> i32;
    /// Has the chunks of a heap, rising.
    pub fn geosvm_chunks(s: *mut geosvm_session, block: u16, chunks: *mut u16, room: usize, length: *mut usize) -> i32;
    /// Copies the bytes of a chunk.
    pub fn geosvm_read(
        s: *mut geosvm_session,
        block: u16,
        chunk: u16,
        buffer: *mut u8,
        room: usize,
        length: *mut usize,
    ) -> i32;
    /// Tells how many elements an array has.
    pub fn geosvm_acount(s: *mut geosvm_session, block: u16, chunk: u16, count: *mut usize) -> i32;
    /// Copies the bytes of an element.
    pub fn geosvm_aget(
        s: *mut geosvm_session,
        block: u16,
        chunk: u16,
        i: u32,
        buffer: *mut u8,
        room: usize,
        length: *mut usize,
    ) -> i32;
    /// Tells how many references an element has.
    pub fn geosvm_ecount(s: *mut geosvm_session, block: u16, chunk: u16, token: u16, count: *mut usize) -> i32;
    /// Copies the bytes of an element of an element array.
    pub fn geosvm_edata(
        s: *mut geosvm_session,
        block: u16,
        chunk: u16,
        token: u16,
        buffer: *mut u8,
        room: usize,
        length: *mut usize,
    ) -> i32;
    /// Tells how many elements are used.
    pub fn geosvm_eused(s: *mut geosvm_session, block: u16, chunk: u16, count: *mut usize) -> i32;
    /// Tells the token of a used element, by its number from 0 on.
    pub fn geosvm_etoken(s: *mut geosvm_session, block: u16, chunk: u16, k: u32, token: *mut u16) -> i32;
    /// Tells how many used tokens are lower.
    pub fn geosvm_eindex(s: *mut geosvm_session, block: u16, chunk: u16, token: u16, index: *mut usize) -> i32;
    /// Finds the token of a name.
    pub fn geosvm_nfind(
        s: *mut geosvm_session,
        block: u16,
        chunk: u16,
        name: *const u8,
        size: usize,
        token: *mut u16,
    ) -> i32;
    /// Tells how many references a name has.
    pub fn geosvm_ncount(s: *mut geosvm_session, block: u16, chunk: u16, token: u16, count: *mut usize) -> i32;
    /// Copies the name of a token.
    pub fn geosvm_ntext(
        s: *mut geosvm_session,
        block: u16,
        chunk: u16,
        token: u16,
        buffer: *mut u8,
        room: usize,
        length: *mut usize,
    ) -> i32;
    /// Copies the part of a name.
    pub fn geosvm_ndata(
        s: *mut geosvm_session,
        block: u16,
        chunk: u16,
        token: u16,
        buffer: *mut u8,
        room: usize,
        length: *mut usize,
    ) -> i32;
    /// Has the blocks of a chain.
    pub fn geosvm_walk(s: *mut geosvm_session, block: u16, blocks: *mut u16, room: usize, length: *mut usize) -> i32;
    /// Tells how many bytes the blocks of a chain have.
    pub fn geosvm_chsize(s: *mut geosvm_session, block: u16, size: *mut usize) -> i32;
    /// Tells whether two chains are equal.
    pub fn geosvm_chequal(s: *mut geosvm_session, block: u16, other: u16, equal: *mut u8) -> i32;
    /// Tells how many elements a large array has.
    pub fn geosvm_hcount(s: *mut geosvm_session, root: u16, count: *mut usize) -> i32;
    /// Copies the bytes of an element.
    pub fn geosvm_hget(
        s: *mut geosvm_session,
        root: u16,
        i: u32,
        buffer: *mut u8,
        room: usize,
        length: *mut usize,
    ) -> i32;
    /// Copies the bytes of `count` elements of one size.
    pub fn geosvm_hread(
        s: *mut geosvm_session,
        root: u16,
        i: u32,
        count: u32,
        buffer: *mut u8,
        room: usize,
        length: *mut usize,
    ) -> i32;
    /// Tells how many steps can be undone.
    pub fn geosvm_undos(s: *mut geosvm_session, count: *mut usize) -> i32;
    /// Tells how many steps can be redone.
    pub fn geosvm_redos(s: *mut geosvm_session, count: *mut usize) -> i32;
    /// Tells whether the document is as it was saved, and as it was updated.
    pub fn geosvm_modified(s: *mut geosvm_session, modified: *mut usize) -> i32;
    /// Copies the name of the step that an undo takes back.
    pub fn geosvm_undo_name(s: *mut geosvm_session, name: *mut u8, room: usize, length: *mut usize) -> i32;
    /// Copies the name of the step that a redo makes again.
    pub fn geosvm_redo_name(s: *mut geosvm_session, name: *mut u8, room: usize, length: *mut usize) -> i32;
    /// Tells where the last edit, undo, redo, abandon or revert changed the document.
    pub fn geosvm_touched(
        s: *mut geosvm_session,
        first: usize,
        places: *mut geosvm_place,
        room: usize,
        count: *mut usize,
    ) -> i32;
    /// Tells where an undo would change it.
    pub fn geosvm_undo_places(
        s: *mut geosvm_session,
        first: usize,
        places: *mut geosvm_place,
        room: usize,
        count: *mut usize,
    ) -> i32;
    /// Tells where a redo would change it.
    pub fn geosvm_redo_places(
        s: *mut geosvm_session,
        first: usize,
        places: *mut geosvm_place,
        room: usize,
        count: *mut usize,
    ) -> i32;
    /// Tells where an abandon would change it.
    pub fn geosvm_abandon_places(
        s: *mut geosvm_session,
        first: usize,
        places: *mut geosvm_place,
        room: usize,
        count: *mut usize,
    ) -> i32;
}

#[cfg(test)]
mod tests;
