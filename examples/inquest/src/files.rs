//! The files that were handed in: a record's plain words or the store's form, each read when it is needed.

use crate::form::{Cell, Form};
use quointrowel::{Block, Fallen, Kept, Lacked, Node, Record};
use std::fs;
use std::path::{Path, PathBuf};

/// A record that was handed in, without its words: a ring of 2,048 firms has 4 GB of them.
pub struct Handed {
    pub name: String,
    path: PathBuf,
    /// None for a watcher.
    pub own: Option<Node>,
    pub stakes: Vec<u64>,
    pub cells: Vec<Cell>,
    pub blocks: Vec<Block>,
    /// Own votes that do not stand.
    pub fallen: Vec<Fallen>,
    /// Votes of the own firm that the record's own certificates tell of and its own votes lack.
    pub against_itself: Vec<Lacked>,
}

impl Handed {
    pub fn read(path: &Path) -> Result<Handed, String> {
        let (record, own) = record_in(path)?;
        let form = Form::of(&record);
        let say = |refusal| format!("{}: {refusal}", path.display());
        Ok(Handed {
            name: path.display().to_string(),
            path: path.to_path_buf(),
            own,
            stakes: form.stakes().to_vec(),
            cells: own.map_or(Vec::new(), |node| form.cells(node)),
            blocks: form.blocks(),
            fallen: record.fallen().map_err(say)?,
            against_itself: record.lacked_by(&record).map_err(say)?,
        })
    }

    pub fn record(&self) -> Result<Record, String> {
        record_in(&self.path).map(|(record, _)| record)
    }
}

/// The record, and whose it is: none for a watcher.
fn record_in(path: &Path) -> Result<(Record, Option<Node>), String> {
    let name = path.display();
    let bytes = fs::read(path).map_err(|error| format!("{name}: it cannot be read: {error}"))?;
    let record = if Kept::is_marked(&bytes) {
        Kept::of_bytes(&bytes).map(|kept| kept.record).map_err(|why| format!("{name}: {why}"))?
    } else if bytes.len() % 8 == 0 {
        Record::from_words(bytes.chunks_exact(8).map(|word| u64::from_le_bytes(word.try_into().expect("8 bytes"))).collect())
    } else {
        return Err(format!("{name}: it has {} bytes, and a record's words have 8 each", bytes.len()));
    };
    let head = record.head().map_err(|_| format!("{name}: this is no node's record"))?;
    let own = Some(head.own).filter(|node| node.0 < head.nodes);
    Ok((record, own))
}
