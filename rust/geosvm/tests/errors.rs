//! Faults and errors: their numbers, names and sentences, and what the system said.
mod common;
use common::{fault, memory};
use geosvm::{sys, BlockHandle, Error, Fault, Session};
use std::collections::HashSet;
use std::error::Error as _;
use std::io;

#[test]
fn each_fault_has_its_number_name_and_sentence() {
    let (mut names, mut texts) = (HashSet::new(), HashSet::new());
    for &fault in Fault::ALL {
        assert_eq!(Fault::from_code(fault.code()), Some(fault));
        assert_eq!(fault.name(), format!("{fault:?}"));
        assert_eq!(fault.to_string(), format!("{}: {}", fault.name(), fault.text()));
        assert!(names.insert(fault.name()) && texts.insert(fault.text()), "{fault}");
    }
    assert_eq!(Fault::ALL.len(), 34);
    let known = (0..200).filter(|&code| Fault::from_code(code).is_some()).count();
    assert_eq!((known, Fault::from_code(0), Fault::from_code(-1)), (34, None, None));
}

#[test]
fn names_are_those_of_replies() {
    for &fault in Fault::ALL.iter().filter(|it| it.code() < 100) {
        let (mut name, mut length) = ([0; 16], 0);
        // SAFETY: the buffer has as much room as is said.
        let code = unsafe { sys::geosvm_fault_name(fault.code(), name.as_mut_ptr(), name.len(), &mut length) };
        assert_eq!((code, &name[..length]), (0, fault.name().as_bytes()));
    }
}

#[test]
fn an_error_is_a_fault() {
    let error = memory().info(BlockHandle::new(1).unwrap()).unwrap_err();
    assert_eq!((error.fault(), error.code()), (Fault::NoBlock, 5));
    assert_eq!(error, Fault::NoBlock);
    assert!(error.io().is_none() && error.source().is_none());
    assert_eq!(error.to_string(), format!("NoBlock: {}", Fault::NoBlock.text()));
    assert_eq!(Error::from(Fault::Full).fault(), Fault::Full);
}

#[test]
fn an_error_of_the_system_is_its_source() {
    let error = Session::open("/nowhere/a.document").unwrap_err();
    assert_eq!(error, Fault::File);
    let cause = error.source().unwrap().downcast_ref::<io::Error>().unwrap();
    assert_eq!((cause.kind(), cause.raw_os_error()), (io::ErrorKind::NotFound, error.io().unwrap().raw_os_error()));
    assert_eq!(error.to_string(), format!("File: {}", Fault::File.text()));
    assert_eq!(format!("{error:#}"), format!("File: {}: {cause}", Fault::File.text()));
    // Not told with a fault that has no such cause.
    assert_eq!(fault(memory().undo()), Fault::NothingToUndo);
    assert!(memory().undo().unwrap_err().io().is_none());
}

#[test]
fn an_error_becomes_one_of_io() {
    let kind = |error: Error| io::Error::from(error).kind();
    assert_eq!(kind(Session::open("/nowhere/a.document").unwrap_err()), io::ErrorKind::NotFound);
    assert_eq!(kind(Error::from(Fault::Memory)), io::ErrorKind::OutOfMemory);
    assert_eq!(kind(Error::from(Fault::Damaged)), io::ErrorKind::InvalidData);
    assert_eq!(kind(Error::from(Fault::Range)), io::ErrorKind::InvalidInput);
    assert_eq!(kind(Error::from(Fault::NoBlock)), io::ErrorKind::Other);
    let kept = io::Error::from(Error::from(Fault::Full));
    assert_eq!(*kept.get_ref().unwrap().downcast_ref::<Error>().unwrap(), Fault::Full);
}

#[test]
fn errors_go_to_other_threads() {
    fn goes<T: Send + Sync + 'static>() {}
    fn is_sent<T: Send>() {}
    goes::<Error>();
    goes::<Fault>();
    is_sent::<Session>();
}

#[test]
fn calls_by_hand_on_the_session_of_c() {
    let mut doc = memory();
    let mut block = 0;
    // SAFETY: the session is open and borrowed alone.
    let code = unsafe { sys::geosvm_newheap(doc.as_mut_ptr(), 7, &mut block) };
    assert_eq!((code, block, doc.undo_count().unwrap()), (sys::GEOSVM_OK, 1, 1));
}

#[test]
fn a_session_that_was_opened_by_hand() {
    let mut raw = sys::GEOSVM_CLOSED;
    // SAFETY: the session is closed, and in memory there is no path.
    let code = unsafe { sys::geosvm_open_path(&mut raw, std::ptr::null(), sys::GEOSVM_PATH_MEMORY) };
    assert_eq!(code, sys::GEOSVM_OK);
    // SAFETY: it is open, and not used beside this.
    let mut doc = unsafe { Session::from_raw(raw) };
    assert_eq!(doc.command("newheap 7").unwrap(), "block 0001");
}
