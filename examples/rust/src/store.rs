//! A record in a file, so that a host that dies goes on from what it stored.
//!
//! A host stores its record after each call that made something, and sends only once [`Store::save`] has returned: then nothing that
//! it sent is unknown to the record that it starts again from.
//!
//! ```no_run
//! use quointrowel::{Node, Outbox, Record, Slot, Store};
//!
//! let store = Store::new("firm-2");
//! store.save(&Record::start(&[4, 3, 3], Node(2), 1)?, &[])?; // once, before anything else in these sixteen slots
//!
//! let mut record = store.load()?.record; // at every start of the process
//! for slot in 1..=16 {
//!     for vote in record.kept_votes(Slot(slot), Node(2))? {
//!         println!("to be sent again: {vote:?}");
//!     }
//! }
//! let mut outbox = Outbox::new();
//! record.look(&mut outbox)?;
//! store.save(&record, &[])?; // and only then
//! for event in outbox.events() {
//!     println!("to be sent, where it is a vote: {event:?}");
//! }
//! # Ok::<(), Box<dyn std::error::Error>>(())
//! ```
//!
//! # The form of a file
//!
//! Words of 8 bytes, lowest byte first:
//!
//! | word | what |
//! |---|---|
//! | 0 | the mark of this form: the bytes `qrecord1` |
//! | 1 | the version of the library that left the record, `qr_version()` |
//! | 2 | how many words the record has |
//! | 3 | how many words the host's notes have |
//! | 4 | the checksum of all bytes from word 6 on |
//! | 5 | the checksum of the 40 bytes of words 0 to 4 |
//! | 6 .. | the record's words, then the notes |
//!
//! The checksum is CRC-64/XZ: of the nine bytes `123456789` it is `995DC9BBDF1939FA`. It finds what broke by chance, not what
//! somebody forged: who can write the file can make it any record.

use crate::face;
use crate::record::Record;
use crate::refusal::Refusal;
use crate::words::Slot;
use std::error::Error;
use std::ffi::OsString;
use std::fmt;
use std::fs::{self, File};
use std::io::{self, BufWriter, Write};
use std::path::{Path, PathBuf};

const MARK: u64 = u64::from_le_bytes(*b"qrecord1");
const WORD: usize = 8;
const FRONT_WORDS: usize = 6;
const SUMMED_WORDS: usize = 5;

/// The place of one record on the disk. One process at a time writes there: it is the host's to see to that.
#[derive(Clone, Debug)]
pub struct Store {
    file: PathBuf,
    beside: PathBuf,
}

/// What was stored: a record, and what the host noted beside it.
#[derive(Clone, Debug)]
pub struct Kept {
    /// The record, which the library does not refuse.
    pub record: Record,
    /// The host's own words, of which the library knows nothing.
    pub notes: Vec<u64>,
}

/// Why a file gave no record.
#[derive(Clone, Copy, Debug, PartialEq, Eq)]
pub enum Unread {
    /// There is no such file. A host that has sent anything in these sixteen slots must not start afresh then: it would not know its
    /// own votes.
    Missing,
    /// It ends before what its front says, or before its front does.
    Cut,
    /// It does not begin as a stored record does, is longer than its front says, or a checksum is another.
    Altered,
    /// It is whole, and of this other version of the library.
    OtherVersion(u64),
    /// It is whole, and its words are no node's record: the library refuses them with 17.
    NoRecord,
    /// The machine could not read it.
    Unreadable(io::ErrorKind),
}

impl Store {
    /// The record that stands, or will stand, in this file. Beside it, with `.new` after its name, the next one is written.
    pub fn new(file: impl Into<PathBuf>) -> Store {
        let file = file.into();
        let mut beside = OsString::from(&file);
        beside.push(".new");
        Store { file, beside: beside.into() }
    }

    /// Stores the record with the host's notes in the place of what stood there. It is written beside and flushed to the disk, then
    /// takes the file's name, and the folder is flushed too: at every moment the file is the old record or the new one, and when
    /// this returns `Ok` it is the new one, whatever happens to the machine. After an error it may be either: nothing is to be sent.
    pub fn save(&self, record: &Record, notes: &[u64]) -> io::Result<()> {
        let mut out = BufWriter::new(File::create(&self.beside)?);
        for word in front(record.words(), notes).iter().chain(record.words()).chain(notes) {
            out.write_all(&word.to_le_bytes())?;
        }
        out.into_inner()?.sync_all()?;
        fs::rename(&self.beside, &self.file)?;
        File::open(folder_of(&self.file))?.sync_all()
    }

    /// Reads back what was stored, or says why there is none.
    pub fn load(&self) -> Result<Kept, Unread> {
        Kept::of_bytes(&fs::read(&self.file).map_err(|error| match error.kind() {
            io::ErrorKind::NotFound => Unread::Missing,
            kind => Unread::Unreadable(kind),
        })?)
    }
}

impl Kept {
    /// What the bytes of a stored file hold.
    pub fn of_bytes(bytes: &[u8]) -> Result<Kept, Unread> {
        let (front, behind) = bytes.split_at_checked(FRONT_WORDS * WORD).ok_or(Unread::Cut)?;
        let front_words = words_of(front);
        let [mark, version, record_words, note_words, sum, front_sum] = front_words[..] else {
            return Err(Unread::Cut);
        };
        if mark != MARK || front_sum != checksum(front_words[..SUMMED_WORDS].iter()) {
            return Err(Unread::Altered);
        }
        if version != face::version() {
            return Err(Unread::OtherVersion(version));
        }
        let wanted = (u128::from(record_words) + u128::from(note_words)) * WORD as u128;
        if (behind.len() as u128) < wanted {
            return Err(Unread::Cut);
        }
        let words = words_of(behind);
        if behind.len() as u128 > wanted || checksum(words.iter()) != sum {
            return Err(Unread::Altered);
        }
        let (record, notes) = words.split_at(record_words as usize);
        let record = Record::from_words(record.to_vec());
        match record.card(Slot(1)) {
            Err(Refusal::BadRecord) => Err(Unread::NoRecord),
            _ => Ok(Kept { record, notes: notes.to_vec() }),
        }
    }

    /// Whether bytes begin as a stored file does: plain words of a record, as the panel's `save` writes them, do not.
    pub fn is_marked(bytes: &[u8]) -> bool {
        bytes.starts_with(&MARK.to_le_bytes())
    }
}

fn front(record: &[u64], notes: &[u64]) -> [u64; FRONT_WORDS] {
    let sum = checksum(record.iter().chain(notes));
    let summed = [MARK, face::version(), record.len() as u64, notes.len() as u64, sum];
    let [mark, version, record_words, note_words, _] = summed;
    [mark, version, record_words, note_words, sum, checksum(summed.iter())]
}

/// Whole words of 8 bytes, lowest byte first.
fn words_of(bytes: &[u8]) -> Vec<u64> {
    bytes.chunks_exact(WORD).map(|word| u64::from_le_bytes(word.try_into().expect("8 bytes"))).collect()
}

/// A bare name stands in the folder that the process is in.
fn folder_of(file: &Path) -> &Path {
    file.parent().filter(|folder| !folder.as_os_str().is_empty()).unwrap_or(Path::new("."))
}

/// CRC-64/XZ over the bytes of the words.
fn checksum<'a>(words: impl Iterator<Item = &'a u64>) -> u64 {
    !words.flat_map(|word| word.to_le_bytes()).fold(!0, step)
}

fn step(sum: u64, byte: u8) -> u64 {
    STEPS[usize::from(sum as u8 ^ byte)] ^ sum >> 8
}

/// What eight steps of one bit make of a byte.
const STEPS: [u64; 256] = {
    let (mut steps, mut byte) = ([0; 256], 0);
    while byte < 256 {
        let (mut sum, mut bit) = (byte as u64, 0);
        while bit < 8 {
            sum = sum >> 1 ^ (sum & 1) * 0xC96C_5795_D787_0F42;
            bit += 1;
        }
        steps[byte] = sum;
        byte += 1;
    }
    steps
};

impl fmt::Display for Unread {
    fn fmt(&self, out: &mut fmt::Formatter<'_>) -> fmt::Result {
        match self {
            Unread::Missing => out.write_str("there is no such file"),
            Unread::Cut => out.write_str("it is cut: it ends before what it says it has"),
            Unread::Altered => out.write_str("it is altered, or no stored record at all"),
            Unread::OtherVersion(version) => {
                write!(
                    out,
                    "it is of version {version} of the library, and this is version {}",
                    face::version()
                )
            }
            Unread::NoRecord => out.write_str("this is no node's record"),
            Unread::Unreadable(kind) => write!(out, "it cannot be read: {kind}"),
        }
    }
}

impl Error for Unread {}

#[cfg(test)]
mod tests {
    use super::*;

    #[test]
    fn the_checksum_is_crc_64_xz() {
        assert_eq!(!b"123456789".iter().fold(!0, |sum, &byte| step(sum, byte)), 0x995D_C9BB_DF19_39FA);
    }

    #[test]
    fn a_bare_name_has_a_folder() {
        assert_eq!(folder_of(Path::new("firm")), Path::new("."));
        assert_eq!(folder_of(Path::new("a/firm")), Path::new("a"));
    }
}
