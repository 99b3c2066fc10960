//! Steps: undone, redone, grouped, named, joined, forgotten, and the places that they change.
mod common;
use common::{fault, memory};
use geosvm::{BlockHandle, Error, Fault, Place, Result, Session};

/// A document with a raw block of three bytes, and nothing to undo.
fn page() -> (Session, BlockHandle) {
    let mut doc = memory();
    let page = doc.new_raw(7, 3).unwrap();
    doc.forget(0).unwrap();
    (doc, page)
}

#[test]
fn undo_and_redo() -> Result<()> {
    let (mut doc, page) = page();
    doc.write_raw(page, 0, "abc")?;
    doc.splice_raw(page, 1, 1, "xy")?;
    assert_eq!((doc.undo_count()?, doc.redo_count()?), (2, 0));
    doc.undo()?;
    assert_eq!((doc.read_raw(page)?, doc.redo_count()?), (b"abc".to_vec(), 1));
    doc.redo()?;
    assert_eq!(doc.read_raw(page)?, b"axyc");
    assert_eq!(fault(doc.redo()), Fault::NothingToRedo);
    doc.undo()?;
    doc.undo()?;
    assert_eq!((doc.read_raw(page)?, fault(doc.undo())), (vec![0; 3], Fault::NothingToUndo));
    Ok(())
}

#[test]
fn steps_are_joined_named_and_forgotten() -> Result<()> {
    let (mut doc, page) = page();
    assert_eq!(fault(doc.undo_name()), Fault::NothingToUndo);
    for letter in ["a", "b", "c", "d"] {
        doc.write_raw(page, 0, letter)?;
    }
    doc.join()?;
    doc.name_step("Typing")?;
    assert_eq!((doc.undo_count()?, doc.undo_name()?), (3, b"Typing".to_vec()));
    assert_eq!(fault(doc.name_step([0; 65])), Fault::TooBig);
    doc.undo()?;
    assert_eq!((doc.redo_name()?, doc.undo_name()?), (b"Typing".to_vec(), vec![]));
    doc.redo()?;
    doc.forget(2)?;
    assert_eq!((doc.undo_count()?, doc.read_raw(page)?), (2, b"d\0\0".to_vec()));
    doc.limit_undo(1)?;
    doc.write_raw(page, 0, "e")?;
    assert_eq!((doc.undo_count()?, fault(doc.join())), (1, Fault::NothingToUndo));
    doc.limit_undo(0)?;
    doc.forget(usize::MAX)?;
    doc.write_raw(page, 0, "f")?;
    assert_eq!(doc.undo_count()?, 2);
    Ok(())
}

#[test]
fn a_group_is_a_step() -> Result<()> {
    let (mut doc, page) = page();
    let mut group = doc.group("Write")?;
    group.write_raw(page, 0, "a")?;
    group.write_raw(page, 1, "b")?;
    assert!(group.is_open());
    assert_eq!(
        (group.undo_count()?, fault(group.undo()), fault(group.save())),
        (0, Fault::GroupOpen, Fault::GroupOpen)
    );
    group.end()?;
    assert_eq!((doc.undo_count()?, doc.undo_name()?), (1, b"Write".to_vec()));
    doc.undo()?;
    assert_eq!(doc.read_raw(page)?, [0; 3]);
    Ok(())
}

#[test]
fn a_group_that_is_dropped_is_taken_back() -> Result<()> {
    let (mut doc, page) = page();
    let mut group = doc.group("Write")?;
    group.write_raw(page, 0, "a")?;
    drop(group);
    assert_eq!((doc.undo_count()?, doc.redo_count()?, doc.read_raw(page)?), (0, 0, vec![0; 3]));
    let mut group = doc.group("Write")?;
    group.write_raw(page, 0, "a")?;
    group.abandon()?;
    assert_eq!((doc.undo_count()?, doc.read_raw(page)?), (0, vec![0; 3]));
    let panicked = std::panic::catch_unwind(std::panic::AssertUnwindSafe(|| {
        let mut group = doc.group("Write").unwrap();
        group.write_raw(page, 0, "a").unwrap();
        panic!("within a group");
    }));
    assert!(panicked.is_err());
    assert_eq!((doc.undo_count()?, doc.read_raw(page)?), (0, vec![0; 3]));
    Ok(())
}

#[test]
fn an_error_takes_a_closure_back() -> Result<()> {
    let (mut doc, page) = page();
    let refused = doc.grouped("Write", |doc| {
        doc.write_raw(page, 0, "a")?;
        doc.write_raw(page, 3, "b")
    });
    assert_eq!(fault(refused), Fault::Range);
    assert_eq!((doc.undo_count()?, doc.read_raw(page)?), (0, vec![0; 3]));
    let written = doc.grouped("Write", |doc| doc.write_raw(page, 0, "a").map(|()| 5));
    assert_eq!((written?, doc.undo_name()?, doc.read_raw(page)?), (5, b"Write".to_vec(), b"a\0\0".to_vec()));
    Ok(())
}

#[test]
fn a_closure_may_have_errors_of_its_own() {
    #[derive(Debug, PartialEq)]
    enum Own {
        TooMany,
        Document(Fault),
    }
    impl From<Error> for Own {
        fn from(error: Error) -> Own {
            Own::Document(error.fault())
        }
    }
    let (mut doc, page) = page();
    let refused: std::result::Result<(), Own> = doc.grouped("Write", |doc| {
        doc.write_raw(page, 0, "a")?;
        Err(Own::TooMany)
    });
    assert_eq!((refused, doc.undo_count().unwrap()), (Err(Own::TooMany), 0));
    let refused: std::result::Result<(), Own> = doc.grouped([b'x'; 65], |_| Ok(()));
    assert_eq!(refused, Err(Own::Document(Fault::TooBig)));
}

#[test]
fn a_group_without_an_edit_leaves_no_step_and_names_none() -> Result<()> {
    let (mut doc, page) = page();
    doc.write_raw(page, 0, "a")?;
    doc.name_step("Before")?;
    doc.group("Nothing")?.end()?;
    doc.grouped("Nothing", |doc| doc.info(page))?;
    doc.grouped("Nothing", |doc| doc.command("list"))?;
    assert_eq!((doc.undo_count()?, doc.undo_name()?), (1, b"Before".to_vec()));
    doc.grouped("By command", |doc| doc.command("vwrite 0001 0 62"))?;
    assert_eq!((doc.undo_count()?, doc.undo_name()?), (2, b"By command".to_vec()));
    doc.grouped("", |doc| doc.write_raw(page, 0, "c"))?;
    assert_eq!((doc.undo_count()?, doc.undo_name()?), (3, vec![]));
    Ok(())
}

#[test]
fn a_name_goes_to_its_group_also_at_the_limit() -> Result<()> {
    let (mut doc, page) = page();
    doc.limit_undo(1)?;
    doc.grouped("First", |doc| doc.write_raw(page, 0, "a"))?;
    doc.grouped("Second", |doc| doc.write_raw(page, 0, "b"))?;
    assert_eq!((doc.undo_count()?, doc.undo_name()?), (1, b"Second".to_vec()));
    Ok(())
}

#[test]
fn groups_within_groups_count_as_one() -> Result<()> {
    let (mut doc, page) = page();
    let mut outer = doc.group("Outer")?;
    outer.write_raw(page, 0, "a")?;
    let mut inner = outer.group("Inner")?;
    inner.write_raw(page, 1, "b")?;
    inner.end()?;
    outer.grouped("Inner", |doc| doc.write_raw(page, 2, "c"))?;
    outer.end()?;
    assert_eq!((doc.undo_count()?, doc.undo_name()?, doc.read_raw(page)?), (1, b"Outer".to_vec(), b"abc".to_vec()));
    doc.undo()?;
    assert_eq!(doc.read_raw(page)?, [0; 3]);
    Ok(())
}

#[test]
fn a_group_within_that_is_given_up_gives_up_the_whole() -> Result<()> {
    let (mut doc, page) = page();
    let mut outer = doc.group("Outer")?;
    outer.write_raw(page, 0, "a")?;
    let mut inner = outer.group("Inner")?;
    inner.write_raw(page, 1, "b")?;
    drop(inner);
    outer.write_raw(page, 2, "c")?;
    assert_eq!(fault(outer.end()), Fault::NoGroup);
    assert_eq!((doc.undo_count()?, doc.read_raw(page)?), (0, vec![0; 3]));
    Ok(())
}

#[test]
fn a_group_within_that_is_given_up_before_an_edit_gives_up_nothing() -> Result<()> {
    let (mut doc, page) = page();
    let mut outer = doc.group("Outer")?;
    outer.write_raw(page, 0, "a")?;
    drop(outer.group("Inner")?);
    let refused = outer.grouped("Inner", |doc| doc.write_raw(page, 9, "b"));
    assert_eq!(fault(refused), Fault::Range);
    outer.end()?;
    assert_eq!((doc.undo_count()?, doc.read_raw(page)?), (1, b"a\0\0".to_vec()));
    Ok(())
}

#[test]
fn a_group_within_that_is_forgotten_is_a_part_of_the_whole() -> Result<()> {
    let (mut doc, page) = page();
    let mut outer = doc.group("Outer")?;
    let mut inner = outer.group("")?;
    inner.write_raw(page, 0, "a")?;
    std::mem::forget(inner);
    outer.end()?;
    assert_eq!((doc.undo_count()?, doc.undo_name()?), (1, b"Outer".to_vec()));
    doc.undo()
}

#[test]
fn a_group_that_is_given_up_while_a_block_is_locked_goes_with_the_last_unlock() -> Result<()> {
    let (mut doc, page) = page();
    let mut group = doc.group("Write")?;
    group.write_raw(page, 0, "a")?;
    group.lock(page)?;
    drop(group);
    assert_eq!((fault(doc.write_raw(page, 0, "b")), fault(doc.undo())), (Fault::Locked, Fault::Locked));
    assert_eq!((fault(doc.group("Write")), fault(doc.command("list"))), (Fault::Locked, Fault::Locked));
    assert_eq!(doc.read_raw(page)?, b"a\0\0");
    doc.unlock(page)?;
    assert_eq!((doc.undo_count()?, doc.read_raw(page)?), (0, vec![0; 3]));
    doc.write_raw(page, 0, "b")?;
    assert_eq!(doc.undo_count()?, 1);
    Ok(())
}

#[test]
fn groups_by_hand() -> Result<()> {
    let (mut doc, page) = page();
    doc.begin()?;
    doc.write_raw(page, 0, "a")?;
    assert_eq!((fault(doc.begin()), fault(doc.group("Within"))), (Fault::GroupOpen, Fault::GroupOpen));
    doc.end()?;
    doc.begin()?;
    doc.write_raw(page, 1, "b")?;
    doc.abandon()?;
    assert_eq!((doc.undo_count()?, doc.read_raw(page)?), (1, b"a\0\0".to_vec()));
    assert_eq!((fault(doc.end()), fault(doc.abandon())), (Fault::NoGroup, Fault::NoGroup));
    Ok(())
}

#[test]
fn a_group_of_a_guard_is_closed_by_hand() -> Result<()> {
    let (mut doc, page) = page();
    let by_hand: fn(&mut Session) -> Result<()> = Session::end;
    let mut group = doc.group("Write")?;
    group.write_raw(page, 0, "a")?;
    by_hand(&mut group)?;
    assert!(!group.is_open());
    assert_eq!(fault(group.end()), Fault::NoGroup);
    assert_eq!((doc.undo_count()?, doc.read_raw(page)?), (1, b"a\0\0".to_vec()));
    // A guard that is void takes nothing of a later group back.
    let mut group = doc.group("Write")?;
    by_hand(&mut group)?;
    let mut later = group.group("")?;
    later.write_raw(page, 1, "b")?;
    std::mem::forget(later);
    drop(group);
    doc.end()?;
    assert_eq!((doc.undo_count()?, doc.read_raw(page)?), (2, b"ab\0".to_vec()));
    Ok(())
}

#[test]
fn a_guard_whose_session_is_exchanged_does_nothing_to_the_other() -> Result<()> {
    let ((mut doc, page), (mut other, _)) = (page(), page());
    let mut others = other.group("")?;
    others.write_raw(page, 0, "a")?;
    std::mem::forget(others);
    let mut group = doc.group("Write")?;
    group.write_raw(page, 0, "b")?;
    std::mem::swap(&mut *group, &mut other);
    drop(group);
    doc.end()?;
    other.abandon()?;
    assert_eq!((doc.undo_count()?, doc.read_raw(page)?), (1, b"a\0\0".to_vec()));
    assert_eq!((other.undo_count()?, other.read_raw(page)?), (0, vec![0; 3]));
    Ok(())
}

#[test]
fn places_of_each_kind() -> Result<()> {
    let (mut doc, page) = page();
    let run = |chunk, at, before, after| Place::Run { block: page, chunk, at, before, after };
    doc.write_raw(page, 0, "ab")?;
    assert_eq!(doc.touched()?, [run(None, 0, 2, 2)]);
    doc.splice_raw(page, 1, 1, "xyz")?;
    assert_eq!((doc.touched()?, doc.undo_places()?), (vec![run(None, 1, 1, 3)], vec![run(None, 1, 3, 1)]));
    doc.undo()?;
    assert_eq!((doc.touched()?, doc.redo_places()?), (vec![run(None, 1, 3, 1)], vec![run(None, 1, 1, 3)]));
    doc.set_user_id(page, 9)?;
    assert_eq!(doc.touched()?, [Place::Attributes(page)]);
    doc.set_map_block(Some(page))?;
    assert_eq!(doc.touched()?, [Place::MapBlock]);
    let heap = doc.new_heap(7)?;
    assert_eq!(doc.touched()?, [Place::Block(heap)]);
    let chunk = doc.alloc(heap, 3)?;
    assert_eq!(doc.touched()?, [Place::Chunk(heap, chunk)]);
    doc.resize(heap, chunk, 5)?;
    let grown = Place::Run { block: heap, chunk: Some(chunk), at: 3, before: 0, after: 2 };
    assert_eq!(doc.touched()?, [grown]);
    let mut group = doc.group("Write")?;
    group.free(heap, chunk)?;
    assert_eq!(group.abandon_places()?, [Place::Chunk(heap, chunk)]);
    group.abandon()?;
    assert_eq!(fault(doc.abandon_places()), Fault::NoGroup);
    doc.revert()?;
    assert_eq!(doc.touched()?, [Place::All]);
    Ok(())
}

#[test]
fn a_name_and_its_bounds() -> Result<()> {
    let (mut doc, page) = page();
    assert_eq!(fault(doc.group([b'x'; 65])), Fault::TooBig);
    doc.grouped([b'x'; 64], |doc| doc.write_raw(page, 0, "a"))?;
    assert_eq!(doc.undo_name()?, [b'x'; 64]);
    doc.name_step("")?;
    assert_eq!(doc.undo_name()?, b"");
    Ok(())
}
