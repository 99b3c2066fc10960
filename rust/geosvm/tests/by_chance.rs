//! Edits by chance beside a model: 2,000 of them lead to its blocks, undone and redone too, and groups go whole.
mod common;
use common::memory;
use geosvm::{BlockHandle, Error, Result, Session};
use std::collections::BTreeMap;

type Model = BTreeMap<BlockHandle, Vec<u8>>;

/// Numbers by chance, always the same ones.
struct Chance(u64);

impl Chance {
    fn below(&mut self, bound: usize) -> usize {
        self.0 = self.0.wrapping_mul(6_364_136_223_846_793_005).wrapping_add(1_442_695_040_888_963_407);
        (self.0 >> 33) as usize % bound
    }

    fn bytes(&mut self) -> Vec<u8> {
        (0..self.below(40)).map(|_| self.below(256) as u8).collect()
    }
}

fn content(doc: &mut Session) -> Result<Model> {
    doc.blocks()?.into_iter().map(|block| Ok((block, doc.read_raw(block)?))).collect()
}

/// One edit of the document and of the model.
fn edit(doc: &mut Session, model: &mut Model, chance: &mut Chance) -> Result<()> {
    let chosen = model.keys().nth(chance.below(model.len().max(1))).copied();
    let (bytes, kind) = (chance.bytes(), chance.below(8));
    let (Some(block), true) = (chosen, kind > 0) else {
        let block = doc.new_raw(7, bytes.len())?;
        model.insert(block, vec![0; bytes.len()]);
        return Ok(());
    };
    let many = model.len() > 5;
    let own = model.get_mut(&block).expect("the model has it");
    let at = chance.below(own.len() + 1);
    let count = chance.below(own.len() - at + 1);
    match kind {
        1 if many => {
            doc.free_block(block)?;
            model.remove(&block);
        }
        2 => {
            let copy = doc.copy_block(block)?;
            let own = own.clone();
            model.insert(copy, own);
        }
        3 => {
            doc.attach_raw(block, &bytes)?;
            *own = bytes;
        }
        4 => {
            let part = &bytes[..count.min(bytes.len())];
            doc.write_raw(block, at, part)?;
            own[at..at + part.len()].copy_from_slice(part);
        }
        _ => {
            doc.splice_raw(block, at, count, &bytes)?;
            own.splice(at..at + count, bytes);
        }
    }
    Ok(())
}

#[test]
fn edits_by_chance_are_those_of_a_model() -> Result<()> {
    let (mut doc, mut chance) = (memory(), Chance(7));
    let mut models = vec![Model::new()];
    for _ in 0..1000 {
        let mut model = models.last().expect("there is one").clone();
        match chance.below(6) {
            0 => doc.grouped("Group", |doc| (0..3).try_for_each(|_| edit(doc, &mut model, &mut chance)))?,
            1 => {
                let given_up = doc.grouped("Given up", |doc| {
                    (0..3).try_for_each(|_| edit(doc, &mut model, &mut chance))?;
                    Err::<(), _>(Error::from(geosvm::Fault::Range))
                });
                assert!(given_up.is_err());
                assert_eq!(content(&mut doc)?, *models.last().expect("there is one"));
                continue;
            }
            _ => edit(&mut doc, &mut model, &mut chance)?,
        }
        assert_eq!(content(&mut doc)?, model);
        models.push(model);
    }
    assert_eq!(doc.undo_count()?, models.len() - 1);
    for model in models.iter().rev().skip(1) {
        doc.undo()?;
        assert_eq!(content(&mut doc)?, *model);
    }
    for model in models.iter().skip(1) {
        doc.redo()?;
        assert_eq!(content(&mut doc)?, *model);
    }
    Ok(())
}
