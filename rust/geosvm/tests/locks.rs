//! Locks, and bytes that are lent.
mod common;
use common::{fault, memory, saved, Folder};
use geosvm::{BlockHandle, Fault, Lent, Result, Session};

#[test]
fn lent_bytes_are_those_of_the_document() -> Result<()> {
    let mut doc = memory();
    let (raw, heap) = (doc.new_raw(7, 3)?, doc.new_heap(7)?);
    let (chunk, empty) = (doc.alloc(heap, 2)?, doc.alloc(heap, 0)?);
    doc.write_raw(raw, 0, "abc")?;
    doc.write(heap, chunk, 0, "xy")?;
    let mut locked = doc.locked(raw)?;
    assert_eq!((locked.block(), locked.raw()?), (raw, &b"abc"[..]));
    let mut both = locked.locked(heap)?;
    assert_eq!(both.chunk(chunk)?, b"xy");
    assert_eq!(both.chunk(empty)?, b"");
    both.write_raw(raw, 1, "z")?;
    let [a, b, c] = both.lent([Lent::Raw(raw), Lent::Chunk(heap, chunk), Lent::Raw(raw)])?;
    assert_eq!((a, b, c), (&b"azc"[..], &b"xy"[..], &b"azc"[..]));
    std::thread::scope(|scope| assert_eq!(scope.spawn(|| a.len() + b.len()).join().unwrap(), 5));
    Ok(())
}

#[test]
fn a_guard_unlocks() -> Result<()> {
    let mut doc = memory();
    let raw = doc.new_raw(7, 3)?;
    let mut locked = doc.locked(raw)?;
    assert_eq!(locked.lock_count(raw)?, 1);
    assert_eq!(locked.locked(raw)?.lock_count(raw)?, 2);
    assert_eq!(fault(locked.undo()), Fault::Locked);
    drop(locked);
    assert_eq!(doc.lock_count(raw)?, 0);
    doc.locked(raw)?.unlock()?;
    assert_eq!(doc.lock_count(raw)?, 0);
    let mut locked = doc.locked(raw)?;
    Session::unlock(&mut locked, raw)?;
    assert_eq!(fault(locked.unlock()), Fault::NotLocked);
    doc.undo()
}

#[test]
fn a_guard_whose_session_is_exchanged_unlocks_nothing() -> Result<()> {
    let (mut doc, mut other) = (memory(), memory());
    let raw = doc.new_raw(7, 3)?;
    assert_eq!(other.new_raw(7, 3)?, raw);
    other.lock(raw)?;
    let mut locked = doc.locked(raw)?;
    std::mem::swap(&mut *locked, &mut other);
    assert_eq!(fault(locked.unlock()), Fault::NotLocked);
    assert_eq!((doc.lock_count(raw)?, other.lock_count(raw)?), (1, 1));
    Ok(())
}

#[test]
fn refusals_of_locks() -> Result<()> {
    let mut doc = memory();
    let (raw, heap) = (doc.new_raw(7, 3)?, doc.new_heap(7)?);
    let chunk = doc.alloc(heap, 2)?;
    assert_eq!(fault(doc.locked_raw(raw)), Fault::NotLocked);
    assert_eq!(fault(doc.locked_chunk(heap, chunk)), Fault::NotLocked);
    assert_eq!((fault(doc.unlock(raw)), fault(doc.mark_dirty(raw))), (Fault::NotLocked, Fault::NotLocked));
    for _ in 0..255 {
        doc.lock(raw)?;
    }
    assert_eq!((fault(doc.lock(raw)), doc.lock_count(raw)?), (Fault::LockLimit, 255));
    doc.lock(heap)?;
    assert_eq!(fault(doc.locked_raw(heap)), Fault::WrongKind);
    doc.free(heap, chunk)?;
    assert_eq!(fault(doc.lent([Lent::Raw(raw), Lent::Chunk(heap, chunk)])), Fault::NoChunk);
    assert_eq!((fault(doc.free_block(raw)), fault(doc.save())), (Fault::Locked, Fault::Locked));
    Ok(())
}

#[test]
fn elements_are_lent_where_they_lie() -> Result<()> {
    let mut doc = memory();
    let made = doc.command("hcreate 5 2")?;
    let digits = made.split_whitespace().nth(1).unwrap().to_owned();
    let root = BlockHandle::new(u16::from_str_radix(&digits, 16).unwrap()).unwrap();
    doc.command(format!("hinsert {digits} 0 61626364"))?;
    let (block, elements) = doc.lock_run(root, 1)?;
    assert_eq!(elements, b"cd");
    assert_eq!(doc.lock_count(block)?, 1);
    doc.unlock(block)?;
    assert_eq!(fault(doc.lock_run(root, 2)), Fault::NoElement);
    assert_eq!(doc.lock_count(block)?, 0);
    Ok(())
}

#[test]
fn all_frames_are_locked() -> Result<()> {
    let folder = Folder::new();
    let file = std::fs::File::options().read(true).write(true).create_new(true).open(folder.path("a")).unwrap();
    let mut doc = Session::create_in_file(file, 1)?;
    let (first, second) = (doc.new_raw(7, 3)?, doc.new_raw(7, 3)?);
    doc.lock(first)?;
    assert_eq!(fault(doc.read_raw(second)), Fault::CacheFull);
    assert_eq!(doc.read_raw(first)?, [0; 3]);
    Ok(())
}

#[test]
fn a_dirty_block_is_written_by_the_next_commit() -> Result<()> {
    let folder = Folder::new();
    saved(&folder.path("a"), "first");
    let mut doc = Session::open(folder.path("a"))?;
    let block = doc.blocks()?[0];
    let clean = {
        doc.save()?;
        std::fs::metadata(folder.path("a")).unwrap().len()
    };
    let mut locked = doc.locked(block)?;
    locked.mark_dirty()?;
    locked.unlock()?;
    doc.save()?;
    assert!(std::fs::metadata(folder.path("a")).unwrap().len() >= clean);
    assert_eq!(doc.read_raw(block)?, b"first");
    Ok(())
}
