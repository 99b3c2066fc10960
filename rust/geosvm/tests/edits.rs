//! Each edit and each look-up of blocks, chunks, arrays and chains.
mod common;
use common::{fault, memory};
use geosvm::{BlockHandle, BlockInfo, BlockKind, ChunkHandle, Existing, Fault, Result, Token};

const NO_BLOCK: BlockHandle = BlockHandle::new(9).unwrap();
const NO_CHUNK: ChunkHandle = ChunkHandle::new(0x20).unwrap();

#[test]
fn handles_are_numbers() {
    assert_eq!((BlockHandle::new(0), ChunkHandle::new(0)), (None, None));
    assert_eq!((NO_BLOCK.get(), u16::from(NO_CHUNK), Token::from(3).get()), (9, 32, 3));
    assert_eq!(format!("{NO_BLOCK} {NO_CHUNK} {}", Token::new(10)), "0009 0020 000a");
    assert_eq!(size_of::<Option<BlockHandle>>(), 2);
}

#[test]
fn raw_blocks() -> Result<()> {
    let mut doc = memory();
    let block = doc.new_raw(7, 4)?;
    assert_eq!(doc.info(block)?, BlockInfo { kind: BlockKind::Raw, user_id: 7, size: 4 });
    doc.write_raw(block, 1, "ab")?;
    assert_eq!(doc.read_raw(block)?, b"\0ab\0");
    doc.splice_raw(block, 0, 2, "xyz")?;
    assert_eq!(doc.read_raw(block)?, b"xyzb\0");
    doc.attach_raw(block, [])?;
    assert_eq!(doc.read_raw(block)?, b"");
    let long = vec![1; 65_520];
    doc.attach_raw(block, &long)?;
    assert_eq!(doc.read_raw(block)?, long);
    let copy = doc.copy_block(block)?;
    assert_eq!(doc.read_raw(copy)?, long);
    doc.free_block(block)?;
    assert_eq!(doc.blocks()?, [copy]);
    assert_eq!(fault(doc.read_raw(block)), Fault::NoBlock);
    Ok(())
}

#[test]
fn refusals_of_raw_blocks() -> Result<()> {
    let mut doc = memory();
    let (block, heap) = (doc.new_raw(7, 4)?, doc.new_heap(7)?);
    assert_eq!(fault(doc.new_raw(7, 65_521)), Fault::TooBig);
    assert_eq!(fault(doc.new_raw(7, usize::MAX)), Fault::TooBig);
    assert_eq!(fault(doc.write_raw(block, 3, "ab")), Fault::Range);
    assert_eq!(fault(doc.write_raw(block, (1 << 32) + 1, "a")), Fault::Range);
    assert_eq!(fault(doc.splice_raw(block, 0, (1 << 32) + 1, "")), Fault::Range);
    assert_eq!(fault(doc.attach_raw(block, vec![0; 65_521])), Fault::TooBig);
    assert_eq!(fault(doc.attach_raw(heap, "")), Fault::WrongKind);
    assert_eq!(fault(doc.info(NO_BLOCK)), Fault::NoBlock);
    assert_eq!(doc.read_raw(block)?, [0; 4]);
    Ok(())
}

#[test]
fn heaps_and_the_map_block() -> Result<()> {
    let mut doc = memory();
    let heap = doc.new_heap(7)?;
    assert_eq!(doc.heap_type(heap)?, 0);
    doc.set_heap_type(heap, 65_535)?;
    doc.set_user_id(heap, 8)?;
    let info = doc.info(heap)?;
    assert_eq!((doc.heap_type(heap)?, info.kind, info.user_id), (65_535, BlockKind::Heap, 8));
    assert_eq!(doc.map_block()?, None);
    doc.set_map_block(Some(heap))?;
    assert_eq!(doc.map_block()?, Some(heap));
    assert_eq!(fault(doc.free_block(heap)), Fault::IsMap);
    doc.set_map_block(None)?;
    assert_eq!(doc.map_block()?, None);
    assert_eq!(fault(doc.set_map_block(Some(NO_BLOCK))), Fault::NoBlock);
    Ok(())
}

#[test]
fn blocks_are_found_by_their_user_id() -> Result<()> {
    let mut doc = memory();
    let made = [doc.new_raw(7, 0)?, doc.new_heap(8)?, doc.new_heap(7)?];
    assert_eq!(doc.blocks()?, made);
    assert_eq!((doc.find_block(7, None)?, doc.find_block(7, Some(made[0]))?), (Some(made[0]), Some(made[2])));
    assert_eq!((doc.find_block(7, Some(made[2]))?, doc.find_block(9, None)?), (None, None));
    assert_eq!(doc.blocks_of(7).collect::<Result<Vec<_>>>()?, [made[0], made[2]]);
    let mut none = doc.blocks_of(9);
    assert!(none.next().is_none() && none.next().is_none());
    Ok(())
}

#[test]
fn more_blocks_than_a_buffer_takes_at_first() -> Result<()> {
    let mut doc = memory();
    let made = (0..500).map(|_| doc.new_raw(7, 0)).collect::<Result<Vec<_>>>()?;
    assert_eq!(doc.blocks()?, made);
    assert_eq!(doc.blocks_of(7).count(), 500);
    Ok(())
}

#[test]
fn chunks() -> Result<()> {
    let mut doc = memory();
    let heap = doc.new_heap(7)?;
    let (first, second) = (doc.alloc(heap, 3)?, doc.alloc(heap, 0)?);
    assert_eq!((first.get(), doc.chunks(heap)?), (16, vec![first, second]));
    doc.write(heap, first, 0, "abc")?;
    doc.insert(heap, first, 1, 2)?;
    assert_eq!(doc.read(heap, first)?, b"a\0\0bc");
    doc.delete(heap, first, 0, 2)?;
    doc.splice(heap, first, 0, 1, "xyz")?;
    doc.resize(heap, first, 6)?;
    assert_eq!((doc.read(heap, first)?, doc.chunk_size(heap, first)?), (b"xyzbc\0".to_vec(), 6));
    assert_eq!((doc.read(heap, second)?, doc.chunk_size(heap, second)?), (vec![], 0));
    doc.free(heap, first)?;
    assert_eq!(doc.chunks(heap)?, [second]);
    Ok(())
}

#[test]
fn refusals_of_chunks() -> Result<()> {
    let mut doc = memory();
    let (heap, raw) = (doc.new_heap(7)?, doc.new_raw(7, 0)?);
    let chunk = doc.alloc(heap, 3)?;
    assert_eq!(fault(doc.alloc(heap, 65_500)), Fault::Full);
    assert_eq!(fault(doc.alloc(raw, 1)), Fault::WrongKind);
    assert_eq!(fault(doc.free(heap, NO_CHUNK)), Fault::NoChunk);
    assert_eq!(fault(doc.resize(heap, chunk, usize::MAX)), Fault::Full);
    assert_eq!(fault(doc.insert(heap, chunk, 4, 1)), Fault::Range);
    assert_eq!(fault(doc.delete(heap, chunk, 2, 2)), Fault::Range);
    assert_eq!(fault(doc.write(heap, chunk, 3, "a")), Fault::Range);
    assert_eq!(fault(doc.splice(heap, chunk, 0, 3, vec![0; 65_520])), Fault::Full);
    assert_eq!(fault(doc.read(NO_BLOCK, chunk)), Fault::NoBlock);
    assert_eq!(fault(doc.chunk_size(heap, NO_CHUNK)), Fault::NoChunk);
    assert_eq!(fault(doc.chunks(raw)), Fault::WrongKind);
    Ok(())
}

#[test]
fn chunk_arrays() -> Result<()> {
    let mut doc = memory();
    let heap = doc.new_heap(7)?;
    let chunk = doc.new_array(heap, 0, 2)?;
    let mut array = doc.array(heap, chunk);
    for (i, text) in ["b", "ccc", "a"].iter().enumerate() {
        array.insert(i.min(1), text)?;
    }
    assert_eq!(array.iter()?.collect::<Result<Vec<_>>>()?, [&b"b"[..], b"a", b"ccc"]);
    array.set(0, "bb")?;
    array.resize(0, 3)?;
    assert_eq!((array.get(0)?, array.count()?, array.iter()?.len()), (b"bb\0".to_vec(), 3, 3));
    array.delete(0, 2)?;
    assert_eq!((array.get(0)?, fault(array.get(1))), (b"ccc".to_vec(), Fault::NoElement));
    array.clear()?;
    assert_eq!(array.count()?, 0);
    assert_eq!(fault(array.insert(1, "x")), Fault::Range);
    assert_eq!(fault(array.delete(0, 1)), Fault::NoElement);
    assert_eq!(fault(doc.new_array(heap, 4097, 0)), Fault::Range);
    let plain = doc.alloc(heap, 3)?;
    assert_eq!(fault(doc.array(heap, plain).count()), Fault::NotArray);
    Ok(())
}

#[test]
fn element_arrays() -> Result<()> {
    let mut doc = memory();
    let heap = doc.new_heap(7)?;
    let chunk = doc.new_element_array(heap, 0)?;
    let mut array = doc.element_array(heap, chunk);
    let (red, blue) = (array.add("red")?, array.add("blue")?);
    assert_eq!((red, array.add("red")?, array.references(red)?), (Token::new(0), red, 2));
    array.reference(blue)?;
    array.release(red)?;
    assert_eq!((array.references(red)?, array.references(blue)?), (1, 2));
    array.set(blue, "green")?;
    assert_eq!((array.get(blue)?, array.tokens()?), (b"green".to_vec(), vec![red, blue]));
    array.release(red)?;
    assert_eq!((array.count()?, array.token(0)?, array.index(blue)?), (1, blue, 0));
    array.delete(blue)?;
    assert_eq!(fault(array.get(blue)), Fault::NoElement);
    assert_eq!(fault(doc.array(heap, chunk).get(9)), Fault::NoElement);
    assert_eq!(fault(doc.new_element_array(heap, 5000)), Fault::Range);
    Ok(())
}

#[test]
fn name_arrays() -> Result<()> {
    let mut doc = memory();
    let heap = doc.new_heap(7)?;
    let chunk = doc.new_name_array(heap, 2)?;
    let mut names = doc.name_array(heap, chunk);
    let left = names.add("left", "ab", Existing::Keep)?;
    let right = names.add("right", "cd", Existing::Keep)?;
    assert_eq!((names.add("left", "xy", Existing::Keep)?, names.part(left)?), (left, b"ab".to_vec()));
    assert_eq!((names.add("left", "xy", Existing::Set)?, names.part(left)?), (left, b"xy".to_vec()));
    assert_eq!((names.find("right")?, names.references(left)?), (right, 3));
    names.rename(right, "below")?;
    names.set_part(right, "zz")?;
    assert_eq!((names.name(right)?, names.part(right)?), (b"below".to_vec(), b"zz".to_vec()));
    assert_eq!(fault(names.rename(right, "left")), Fault::NameInUse);
    assert_eq!(fault(names.set_part(right, "z")), Fault::Range);
    assert_eq!(names.names()?, [(left, b"left".to_vec()), (right, b"below".to_vec())]);
    for _ in 0..3 {
        names.release(left)?;
    }
    assert_eq!(names.names()?, [(right, b"below".to_vec())]);
    assert_eq!(fault(names.find("left")), Fault::NoName);
    assert_eq!(fault(names.name(left)), Fault::NoElement);
    assert_eq!(fault(doc.new_name_array(heap, 65)), Fault::Range);
    Ok(())
}

#[test]
fn chains() -> Result<()> {
    let mut doc = memory();
    let (root, next) = (doc.new_raw(7, 0)?, doc.new_raw(7, 0)?);
    doc.attach_raw(root, [next.get() as u8, 0, b'a'])?;
    doc.attach_raw(next, [0, 0, b'b', b'c'])?;
    assert_eq!((doc.chain(root)?, doc.chain_size(root)?), (vec![root, next], 7));
    let copy = doc.copy_chain(root)?;
    assert!(doc.are_equal_chains(root, copy)?);
    doc.write_raw(copy, 2, "x")?;
    assert!(!doc.are_equal_chains(root, copy)?);
    doc.free_chain(root)?;
    assert_eq!(doc.blocks()?.len(), 2);
    doc.attach_raw(copy, "")?;
    assert_eq!(fault(doc.chain(copy)), Fault::BadChain);
    assert_eq!(fault(doc.chain_size(root)), Fault::NoBlock);
    Ok(())
}

#[test]
fn large_arrays() -> Result<()> {
    let mut doc = memory();
    let root = doc.new_large_array(7, 1)?;
    let mut text = doc.large_array(root);
    text.insert(0, "x".repeat(70_000))?;
    text.set(65_509, "ab")?;
    assert_eq!((text.read(65_508, 4)?, text.get(65_510)?), (b"xabx".to_vec(), b"b".to_vec()));
    text.delete(0, 65_508)?;
    assert_eq!((text.count()?, text.read(0, 4)?, text.read(4_492, 0)?), (4_492, b"xabx".to_vec(), vec![]));
    assert_eq!(fault(text.get(4_492)), Fault::NoElement);
    assert_eq!(fault(text.get(usize::MAX)), Fault::NoElement);
    assert_eq!(fault(text.read(4_491, 2)), Fault::NoElement);
    assert_eq!(fault(text.set(4_491, "yy")), Fault::NoElement);
    assert_eq!(fault(text.delete(4_491, 2)), Fault::NoElement);
    assert_eq!(fault(text.insert(4_493, "y")), Fault::Range);
    doc.undo()?;
    assert_eq!((doc.large_array(root).count()?, doc.chain(root)?.len()), (70_000, 3));
    assert_eq!(doc.large_array(root).read(2, 65_520)?.len(), 65_520);
    assert_eq!(fault(doc.large_array(root).read(2, 65_521)), Fault::Range);
    assert_eq!(fault(doc.new_large_array(7, 4_097)), Fault::Range);
    Ok(())
}

#[test]
fn large_arrays_of_any_sizes() -> Result<()> {
    let mut doc = memory();
    let root = doc.new_large_array(7, 0)?;
    let mut lines = doc.large_array(root);
    lines.insert(0, "two")?;
    lines.insert(0, "one")?;
    lines.set(1, "")?;
    assert_eq!((lines.count()?, lines.get(0)?, lines.get(1)?), (2, b"one".to_vec(), vec![]));
    assert_eq!(fault(lines.read(0, 1)), Fault::Range);
    assert_eq!(fault(lines.insert(0, vec![0; 65_509])), Fault::TooBig);
    lines.insert(0, vec![0; 65_508])?;
    assert_eq!(lines.get(0)?.len(), 65_508);
    doc.undo()?;
    let branch = doc.chain(root)?[1];
    assert_eq!(fault(doc.large_array(branch).count()), Fault::NotArray);
    doc.lock(branch)?;
    assert_eq!(fault(doc.large_array(root).delete(0, 1)), Fault::Locked);
    doc.unlock(branch)?;
    doc.write_raw(branch, 2, [3])?;
    assert_eq!(fault(doc.large_array(root).get(0)), Fault::BadChain);
    doc.undo()?;
    doc.free_block(root)?;
    assert_eq!(fault(doc.large_array(root).get(0)), Fault::NoBlock);
    Ok(())
}
