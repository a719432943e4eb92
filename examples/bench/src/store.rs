//! Where a firm's record is kept between calls: in memory, or in a file by the crate's `Store`.

use quointrowel::{Kept, Record};
use std::io;
use std::path::Path;

/// The place of one firm's record.
#[derive(Debug)]
pub enum Store {
    Memory(Packed),
    File(quointrowel::Store),
}

impl Store {
    pub fn in_memory() -> Store {
        Store::Memory(Packed::default())
    }

    pub fn in_folder(folder: &Path, name: &str) -> Store {
        Store::File(quointrowel::Store::new(folder.join(name)))
    }

    /// When this returns, the record outlives the firm's fall.
    pub fn save(&mut self, record: &Record, notes: &[u64]) -> io::Result<()> {
        match self {
            Store::Memory(packed) => *packed = Packed::of(record.words(), notes),
            Store::File(store) => store.save(record, notes)?,
        }
        Ok(())
    }

    pub fn load(&self) -> io::Result<Kept> {
        match self {
            Store::Memory(packed) => Ok(packed.unpacked()),
            Store::File(store) => store.load().map_err(|why| io::Error::new(io::ErrorKind::InvalidData, why)),
        }
    }
}

/// Words of which most are 0: a bit a word, and the others.
#[derive(Debug, Default)]
pub struct Packed {
    count: usize,
    used: Vec<u64>,
    words: Vec<u64>,
    notes: Vec<u64>,
}

impl Packed {
    fn of(record: &[u64], notes: &[u64]) -> Packed {
        let mask = |chunk: &[u64]| chunk.iter().enumerate().fold(0, |mask, (i, &w)| mask | u64::from(w != 0) << i);
        Packed {
            count: record.len(),
            used: record.chunks(64).map(mask).collect(),
            words: record.iter().copied().filter(|&word| word != 0).collect(),
            notes: notes.to_vec(),
        }
    }

    fn unpacked(&self) -> Kept {
        let mut words = self.words.iter();
        let is_used = |i: usize| self.used[i / 64] >> (i % 64) & 1 != 0;
        let record = (0..self.count).map(|i| if is_used(i) { *words.next().unwrap() } else { 0 }).collect();
        Kept { record: Record::from_words(record), notes: self.notes.clone() }
    }
}

/// Words of 8 bytes, lowest byte first; None where a part of one is left.
pub fn words_of(bytes: &[u8]) -> Option<Vec<u64>> {
    let words = bytes.chunks_exact(8);
    words.remainder().is_empty().then(|| words.map(|word| u64::from_le_bytes(word.try_into().unwrap())).collect())
}

#[cfg(test)]
mod tests {
    use super::*;
    use quointrowel::Node;
    use std::fs;

    #[test]
    fn what_is_saved_is_loaded() {
        let record = |own| Record::start(&[4, 3, 3], Node(own), 1).unwrap();
        let folder = std::env::temp_dir().join(format!("bench-store-{}", std::process::id()));
        fs::create_dir_all(&folder).unwrap();
        for mut store in [Store::in_memory(), Store::in_folder(&folder, "firm")] {
            store.save(&record(0), &[]).unwrap();
            store.save(&record(2), &[5, 0]).unwrap();
            let kept = store.load().unwrap();
            assert_eq!((kept.record.words(), kept.notes), (record(2).words(), vec![5, 0]));
        }
        fs::remove_dir_all(&folder).unwrap();
    }
}
