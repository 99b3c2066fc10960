//! Sessions are opened, committed and closed: what becomes of the files.
mod common;
use common::{fault, first_bytes, io_kind, memory, saved, Folder};
use geosvm::{Fault, OpenOptions, Session, Standing};
use std::fs::{self, File};
use std::io::ErrorKind;

fn open_file(path: &std::path::Path) -> File {
    File::options().read(true).write(true).create(true).truncate(false).open(path).unwrap()
}

#[test]
fn what_is_saved_is_there_again() {
    let folder = Folder::new();
    saved(&folder.path("a"), "first");
    let mut doc = Session::open(folder.path("a")).unwrap();
    assert_eq!((first_bytes(&mut doc), doc.undo_count().unwrap()), (b"first".to_vec(), 0));
}

#[test]
fn what_is_not_committed_is_given_up() {
    let folder = Folder::new();
    saved(&folder.path("a"), "first");
    let mut doc = Session::open(folder.path("a")).unwrap();
    let block = doc.blocks().unwrap()[0];
    doc.attach_raw(block, "second").unwrap();
    doc.close();
    let mut again = Session::open(folder.path("a")).unwrap();
    assert_eq!(first_bytes(&mut again), b"first");
}

#[test]
fn a_file_that_is_missing() {
    let folder = Folder::new();
    assert_eq!(io_kind(Session::open(folder.path("a"))), ErrorKind::NotFound);
    assert_eq!(io_kind(OpenOptions::new().read_only(true).open(folder.path("a"))), ErrorKind::NotFound);
    assert_eq!(folder.names(), [""; 0]);
    for way in [OpenOptions::create, OpenOptions::create_new, OpenOptions::empty] {
        let mut doc = way(&mut OpenOptions::new(), true).open(folder.path("b")).unwrap();
        assert_eq!(doc.blocks().unwrap(), []);
        doc.close();
        Session::open(folder.path("b")).unwrap();
        fs::remove_file(folder.path("b")).unwrap();
    }
}

#[test]
fn a_file_that_is_there() {
    let folder = Folder::new();
    saved(&folder.path("a"), "first");
    let mut doc = OpenOptions::new().create(true).open(folder.path("a")).unwrap();
    assert_eq!(first_bytes(&mut doc), b"first");
    doc.close();
    assert_eq!(io_kind(OpenOptions::new().create_new(true).open(folder.path("a"))), ErrorKind::AlreadyExists);
    assert_eq!(first_bytes(&mut Session::open(folder.path("a")).unwrap()), b"first");
    OpenOptions::new().empty(true).open(folder.path("a")).unwrap();
    assert_eq!(Session::open(folder.path("a")).unwrap().blocks().unwrap(), []);
}

#[test]
fn options_are_set_and_taken_back() {
    let folder = Folder::new();
    let mut options = OpenOptions::new();
    options.create(true).create(false);
    assert_eq!(options, OpenOptions::new());
    assert_eq!(fault(options.create(true).read_only(true).open(folder.path("a"))), Fault::BadArgument);
    assert_eq!(folder.names(), [""; 0]);
}

// The version of the first slot, which counts in a new file.
fn version(path: &std::path::Path) -> u8 {
    fs::read(path).unwrap()[5]
}

#[test]
fn checksums_are_asked_for() {
    let folder = Folder::new();
    let (plain, summed, handed) = (folder.path("a"), folder.path("b"), folder.path("c"));
    OpenOptions::new().create_new(true).open(&plain).unwrap();
    OpenOptions::new().create_new(true).checksums(true).open(&summed).unwrap();
    Session::create_in_file_with_checksums(open_file(&handed), 64).unwrap();
    assert_eq!([version(&plain), version(&summed), version(&handed)], [2, 3, 3]);
    assert_eq!(fault(OpenOptions::new().checksums(true).read_only(true).open(&plain)), Fault::BadArgument);
}

#[test]
fn a_file_gets_checksums_with_its_next_commit_and_keeps_them() {
    let folder = Folder::new();
    let (old, new) = (folder.path("old"), folder.path("new"));
    saved(&old, "first");
    let before = fs::read(&old).unwrap();
    let mut doc = Session::open_file_with_checksums(open_file(&old), 64).unwrap();
    assert_eq!(fs::read(&old).unwrap(), before);
    // The third commit is in the first slot.
    doc.update().unwrap();
    doc.close();
    assert_eq!(version(&old), 3);
    assert_eq!(first_bytes(&mut Session::open(&old).unwrap()), b"first");
    Session::open(&old).unwrap().save_as_new(&new).unwrap();
    assert_eq!(version(&new), 3);
}

#[test]
fn a_file_that_is_no_document() {
    let folder = Folder::new();
    fs::write(folder.path("a"), "no document").unwrap();
    for way in [OpenOptions::create, OpenOptions::read_only] {
        assert_eq!(fault(way(&mut OpenOptions::new(), true).open(folder.path("a"))), Fault::NotDocument);
    }
    assert_eq!(fault(Session::open_file(open_file(&folder.path("a")), 64)), Fault::NotDocument);
    assert_eq!(fs::read(folder.path("a")).unwrap(), b"no document");
    assert_eq!(io_kind(Session::open(folder.path("."))), ErrorKind::IsADirectory);
    assert_eq!(io_kind(Session::open("a\0b")), ErrorKind::InvalidInput);
}

#[test]
fn a_file_is_in_use() {
    let folder = Folder::new();
    let path = folder.path("a");
    saved(&path, "first");
    let mut doc = Session::open(&path).unwrap();
    for way in [OpenOptions::create, OpenOptions::empty, OpenOptions::read_only] {
        assert_eq!(io_kind(way(&mut OpenOptions::new(), true).open(&path)), ErrorKind::WouldBlock);
    }
    assert_eq!(io_kind(Session::open(&path)), ErrorKind::WouldBlock);
    assert_eq!(io_kind(Session::open_file(open_file(&path), 64)), ErrorKind::WouldBlock);
    assert_eq!(io_kind(Session::create_in_file(open_file(&path), 64)), ErrorKind::WouldBlock);
    assert_eq!(io_kind(memory().save_as(&path)), ErrorKind::WouldBlock);
    assert_eq!(io_kind(memory().save_as_file(open_file(&path))), ErrorKind::WouldBlock);
    assert_eq!(io_kind(doc.save_as(&path)), ErrorKind::WouldBlock);
    assert_eq!(first_bytes(&mut doc), b"first");
    doc.close();
    assert_eq!(first_bytes(&mut Session::open(&path).unwrap()), b"first");
}

#[test]
fn a_file_that_is_handed_over_is_in_use_under_each_descriptor() {
    let folder = Folder::new();
    let path = folder.path("a");
    let file = open_file(&path);
    let clones = [file.try_clone().unwrap(), file.try_clone().unwrap(), file.try_clone().unwrap()];
    let mut doc = Session::create_in_file(file, 8).unwrap();
    let block = doc.new_raw(7, 3).unwrap();
    doc.save().unwrap();
    let [first, second, third] = clones;
    assert_eq!(io_kind(Session::open_file(first, 8)), ErrorKind::WouldBlock);
    assert_eq!(io_kind(Session::create_in_file(second, 8)), ErrorKind::WouldBlock);
    assert_eq!(io_kind(doc.save_as_file(third)), ErrorKind::WouldBlock);
    assert_eq!(io_kind(Session::open(&path)), ErrorKind::WouldBlock);
    assert_eq!(doc.read_raw(block).unwrap(), [0; 3]);
    doc.close();
    assert_eq!(Session::open_file(open_file(&path), 1).unwrap().blocks().unwrap(), [block]);
    Session::open(&path).unwrap();
}

#[test]
fn frames_have_bounds() {
    let folder = Folder::new();
    saved(&folder.path("a"), "first");
    for frames in [0, 65, usize::MAX] {
        assert_eq!(fault(Session::open_file(open_file(&folder.path("a")), frames)), Fault::BadArgument);
        assert_eq!(fault(Session::create_in_file(open_file(&folder.path("a")), frames)), Fault::BadArgument);
    }
    assert_eq!(first_bytes(&mut Session::open(folder.path("a")).unwrap()), b"first");
}

#[test]
fn sessions_read_one_file_side_by_side() {
    let folder = Folder::new();
    let path = folder.path("a");
    saved(&path, "first");
    let reading = || OpenOptions::new().read_only(true).open(&path).unwrap();
    let (mut one, mut other) = (reading(), reading());
    assert_eq!(first_bytes(&mut one), first_bytes(&mut other));
    assert_eq!(io_kind(Session::open(&path)), ErrorKind::WouldBlock);
    let block = one.blocks().unwrap()[0];
    one.attach_raw(block, "second").unwrap();
    assert_eq!(io_kind(one.save()), ErrorKind::ReadOnlyFilesystem);
    assert_eq!(io_kind(one.save_as(folder.path("b"))), ErrorKind::ReadOnlyFilesystem);
    assert_eq!(first_bytes(&mut one), b"second");
    assert_eq!(first_bytes(&mut other), b"first");
    one.close();
    assert_eq!(folder.names(), ["a"]);
}

#[test]
fn save_as_goes_on_in_the_other_file() {
    let folder = Folder::new();
    saved(&folder.path("a"), "first");
    saved(&folder.path("b"), "other");
    let mut doc = Session::open(folder.path("a")).unwrap();
    let block = doc.blocks().unwrap()[0];
    doc.attach_raw(block, "second").unwrap();
    assert_eq!(io_kind(doc.save_as_new(folder.path("b"))), ErrorKind::AlreadyExists);
    doc.save_as(folder.path("b")).unwrap();
    assert_eq!(first_bytes(&mut Session::open(folder.path("a")).unwrap()), b"first");
    assert_eq!(io_kind(Session::open(folder.path("b"))), ErrorKind::WouldBlock);
    doc.undo().unwrap();
    doc.save_as_new(folder.path("c")).unwrap();
    doc.close();
    assert_eq!(first_bytes(&mut Session::open(folder.path("b")).unwrap()), b"second");
    assert_eq!(first_bytes(&mut Session::open(folder.path("c")).unwrap()), b"first");
    assert_eq!(folder.names(), ["a", "b", "c"]);
}

#[test]
fn save_as_leaves_files_that_were_handed_over() {
    let folder = Folder::new();
    let mut doc = Session::create_in_file(open_file(&folder.path("a")), 64).unwrap();
    doc.new_raw(7, 1).unwrap();
    doc.save_as_file(open_file(&folder.path("b"))).unwrap();
    Session::open(folder.path("a")).unwrap();
    assert_eq!(io_kind(Session::open(folder.path("b"))), ErrorKind::WouldBlock);
    doc.save_as(folder.path("c")).unwrap();
    assert_eq!(first_bytes(&mut Session::open(folder.path("b")).unwrap()), [0]);
    doc.save_as_file(open_file(&folder.path("b"))).unwrap();
    assert_eq!(first_bytes(&mut Session::open(folder.path("c")).unwrap()), [0]);
}

#[test]
fn a_document_in_memory_gets_a_file() {
    let folder = Folder::new();
    let mut doc = memory();
    doc.new_raw(7, 2).unwrap();
    doc.save_as(folder.path("a")).unwrap();
    doc.close();
    assert_eq!(first_bytes(&mut Session::open(folder.path("a")).unwrap()), [0, 0]);
}

#[test]
fn a_refused_save_as_leaves_the_session_in_its_file() {
    let folder = Folder::new();
    let mut doc = OpenOptions::new().create(true).open(folder.path("a")).unwrap();
    doc.new_raw(7, 2).unwrap();
    assert_eq!(io_kind(doc.save_as(folder.path("missing/b"))), ErrorKind::NotFound);
    assert_eq!(io_kind(doc.save_as("a\0b")), ErrorKind::InvalidInput);
    doc.save().unwrap();
    doc.close();
    assert_eq!(first_bytes(&mut Session::open(folder.path("a")).unwrap()), [0, 0]);
}

#[test]
fn commits_and_standing() {
    let folder = Folder::new();
    saved(&folder.path("a"), "first");
    let mut doc = Session::open(folder.path("a")).unwrap();
    let block = doc.blocks().unwrap()[0];
    let both = Standing { as_saved: true, as_updated: true };
    assert_eq!(doc.standing().unwrap(), both);
    doc.attach_raw(block, "second").unwrap();
    assert_eq!(doc.standing().unwrap(), Standing { as_saved: false, as_updated: false });
    doc.update().unwrap();
    assert_eq!(doc.standing().unwrap(), Standing { as_saved: false, as_updated: true });
    doc.revert().unwrap();
    assert_eq!((doc.standing().unwrap(), first_bytes(&mut doc)), (both, b"first".to_vec()));
    doc.attach_raw(block, "third").unwrap();
    doc.update().unwrap();
    doc.close();
    assert_eq!(first_bytes(&mut Session::open(folder.path("a")).unwrap()), b"third");
}

#[test]
fn a_block_is_copied_to_another_document() {
    let (mut doc, mut other) = (memory(), memory());
    let heap = other.new_heap(9).unwrap();
    let chunk = other.alloc(heap, 2).unwrap();
    other.write(heap, chunk, 0, "ab").unwrap();
    other.set_heap_type(heap, 5).unwrap();
    doc.new_raw(7, 0).unwrap();
    let copy = doc.copy_block_from(&mut other, heap).unwrap();
    assert_eq!((doc.read(copy, chunk).unwrap(), doc.heap_type(copy).unwrap()), (b"ab".to_vec(), 5));
    assert_eq!((doc.info(copy).unwrap().user_id, doc.undo_count().unwrap()), (9, 2));
    doc.undo().unwrap();
    assert_eq!(fault(doc.read(copy, chunk)), Fault::NoBlock);
    assert_eq!(fault(doc.copy_block_from(&mut other, geosvm::BlockHandle::new(2).unwrap())), Fault::NoBlock);
}

#[test]
fn commands_as_text() {
    let mut doc = memory();
    assert_eq!(doc.command("newheap 7").unwrap(), "block 0001");
    assert_eq!(doc.command("alloc 0001 3").unwrap(), "chunk 0010");
    assert_eq!(doc.command(b"read 0001 0010").unwrap(), "bytes 000000");
    assert_eq!(doc.command("# a note").unwrap(), "");
    assert_eq!(doc.command("").unwrap(), "");
    assert_eq!(fault(doc.command("read 0001 0012")), Fault::NoChunk);
    assert_eq!(fault(doc.command("nonsense")), Fault::BadCommand);
    assert_eq!(fault(doc.command("list\nlist")), Fault::BadCommand);
    assert_eq!(fault(doc.command("saveas")), Fault::NoTarget);
    assert_eq!(fault(doc.command([0xff, 0xfe])), Fault::BadCommand);
}

#[test]
fn a_reply_may_be_long() {
    let mut doc = memory();
    let block = doc.new_raw(7, 1).unwrap();
    doc.grouped("", |doc| (0..9000).try_for_each(|_| doc.write_raw(block, 0, "x"))).unwrap();
    let reply = doc.command("undoplaces").unwrap();
    assert_eq!((reply.matches(" run ").count(), doc.undo_places().unwrap().len()), (9000, 9000));
    assert!(reply.len() > geosvm::sys::GEOSVM_REPLY_MOST);
}

#[test]
fn a_session_goes_to_another_thread() {
    let mut doc = memory();
    let block = doc.new_raw(7, 1).unwrap();
    let mut doc = std::thread::spawn(move || {
        doc.write_raw(block, 0, "x").unwrap();
        doc
    })
    .join()
    .unwrap();
    assert_eq!(doc.read_raw(block).unwrap(), b"x");
}

#[test]
fn versions_are_one() {
    assert_eq!(geosvm::version(), env!("CARGO_PKG_VERSION"));
}
