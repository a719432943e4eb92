//! A record in a file: what is read back is the record that was stored, or the reason why there is none; a process that is killed
//! while it stores leaves the old record or the new one.

use quointrowel::*;
use std::env;
use std::fs;
use std::io::{self, Read, Write};
use std::path::{Path, PathBuf};
use std::process::{Command, Stdio};
use std::thread::sleep;
use std::time::Duration;

/// An empty folder, and gone with all that is in it at the end.
struct Room(PathBuf);

impl Room {
    fn new(name: &str) -> Room {
        let folder = env::temp_dir().join(format!("quointrowel-{name}-{}", std::process::id()));
        let _ = fs::remove_dir_all(&folder);
        fs::create_dir_all(&folder).unwrap();
        Room(folder)
    }

    fn file(&self) -> PathBuf {
        self.0.join("record")
    }

    /// What is said of a file with these bytes.
    fn read(&self, bytes: &[u8]) -> Result<Kept, Unread> {
        fs::write(self.file(), bytes).unwrap();
        Store::new(self.file()).load()
    }
}

impl Drop for Room {
    fn drop(&mut self) {
        let _ = fs::remove_dir_all(&self.0);
    }
}

/// A member of a ring of so many that has announced a block.
fn lived(nodes: usize, number: u64) -> Record {
    let mut record = Record::start(&vec![1; nodes], Node(0), 1).unwrap();
    let block = Block { slot: Slot(1), number, parent_slot: Slot(0), parent: 1 };
    record.block(&mut Outbox::new(), block).unwrap();
    record
}

/// The bytes of a stored file.
fn stored(room: &Room, record: &Record, notes: &[u64]) -> Vec<u8> {
    Store::new(room.file()).save(record, notes).unwrap();
    fs::read(room.file()).unwrap()
}

/// The reason, where no record was read.
fn reason(read: Result<Kept, Unread>) -> Option<Unread> {
    read.err()
}

#[test]
fn what_is_stored_is_read_back() {
    let room = Room::new("back");
    let store = Store::new(room.file());
    assert_eq!(reason(store.load()), Some(Unread::Missing));
    for (nodes, notes) in [(1, vec![]), (3, vec![5, 0, u64::MAX]), (65, vec![0; 1000])] {
        let record = lived(nodes, 7);
        store.save(&record, &notes).unwrap();
        let kept = store.load().unwrap();
        assert_eq!((kept.record.words(), kept.notes), (record.words(), notes));
    }
    assert_eq!(fs::read_dir(&room.0).unwrap().count(), 1, "nothing is left beside it");
}

#[test]
fn a_folder_is_no_record() {
    let room = Room::new("folder");
    assert!(matches!(Store::new(&room.0).load(), Err(Unread::Unreadable(_))));
    assert!(Store::new(room.0.join("none/record")).save(&lived(1, 7), &[]).is_err());
}

#[test]
fn every_flipped_byte_is_told() {
    let room = Room::new("flips");
    let mut bytes = stored(&room, &lived(1, 7), &[3]);
    assert!(Kept::of_bytes(&bytes).is_ok());
    for at in 0..bytes.len() {
        for flipped in [0xFF, 1 << (at % 8)] {
            bytes[at] ^= flipped;
            assert_eq!(reason(Kept::of_bytes(&bytes)), Some(Unread::Altered), "byte {at} by {flipped}");
            bytes[at] ^= flipped;
        }
    }
}

#[test]
fn every_cut_is_told() {
    let room = Room::new("cuts");
    let mut bytes = stored(&room, &lived(1, 7), &[3]);
    for end in 0..bytes.len() {
        assert_eq!(reason(Kept::of_bytes(&bytes[..end])), Some(Unread::Cut), "{end} bytes");
    }
    assert_eq!(reason(room.read(&[])), Some(Unread::Cut));
    for _ in 0..9 {
        bytes.push(0);
        assert_eq!(reason(room.read(&bytes)), Some(Unread::Altered), "longer than it says");
    }
}

/// CRC-64/XZ once more, bit by bit.
fn checksum(bytes: &[u8]) -> u64 {
    let bit = |sum: u64| if sum & 1 == 1 { sum >> 1 ^ 0xC96C_5795_D787_0F42 } else { sum >> 1 };
    !bytes.iter().fold(!0, |sum, &byte| (0..8).fold(sum ^ u64::from(byte), |sum, _| bit(sum)))
}

/// A file of the documented form, put together here and not by the crate.
fn file_of(version: u64, record: &[u64], notes: &[u64]) -> Vec<u8> {
    let bytes = |words: &[u64]| words.iter().flat_map(|word| word.to_le_bytes()).collect::<Vec<u8>>();
    let behind = [bytes(record), bytes(notes)].concat();
    let mut file = b"qrecord1".to_vec();
    file.extend(bytes(&[version, record.len() as u64, notes.len() as u64, checksum(&behind)]));
    file.extend(bytes(&[checksum(&file)]));
    [file, behind].concat()
}

#[test]
fn the_form_is_the_documented_one() {
    let (room, record) = (Room::new("form"), lived(3, 7));
    assert_eq!(stored(&room, &record, &[3, 4]), file_of(version(), record.words(), &[3, 4]));
}

#[test]
fn a_whole_file_of_another_version_is_told() {
    let (room, record) = (Room::new("versions"), lived(3, 7));
    for other in [0, version() + 1, u64::MAX] {
        assert_eq!(
            reason(room.read(&file_of(other, record.words(), &[]))),
            Some(Unread::OtherVersion(other))
        );
    }
}

#[test]
fn a_whole_file_without_a_record_is_told() {
    let (room, record) = (Room::new("none"), lived(3, 7));
    let mut words = record.words().to_vec();
    words[0] ^= 1;
    assert_eq!(reason(room.read(&file_of(version(), &words, &[]))), Some(Unread::NoRecord), "another count");
    assert_eq!(reason(room.read(&file_of(version(), &[], &words))), Some(Unread::NoRecord), "no word");
    assert_eq!(
        reason(room.read(b"a text that is long enough to have a front, and is no stored record at all")),
        Some(Unread::Altered)
    );
    let mut long = file_of(version(), record.words(), &[]);
    long[16..24].copy_from_slice(&u64::MAX.to_le_bytes());
    let sum = checksum(&long[..40]).to_le_bytes();
    long[40..48].copy_from_slice(&sum);
    assert_eq!(reason(room.read(&long)), Some(Unread::Cut), "more words than there can be");
}

// ---- a process that is killed

/// Names the file to the process that is killed; tells how many are (the gate's number where it is not set).
const FILE: &str = "QUOINTROWEL_STORE_FILE";
const KILLS: &str = "QUOINTROWEL_STORE_KILLS";
const USUAL_KILLS: usize = 100;
/// So many of them at least have to fall between the first byte beside and the rename.
const MIDWAY_KILLS: usize = 5;
/// Every note of a stored file is the count of stores so far, and its record has the block of that count: a mix of two files shows.
const NOTES: usize = 20_000;

/// How often was stored, by a file whose record and notes all say the same.
fn count_in(kept: &Kept) -> u64 {
    let count = kept.notes[0];
    assert_eq!(kept.notes, vec![count; NOTES], "the notes of one file");
    assert_eq!(kept.record.words(), lived(3, count).words(), "the record of the same file");
    count
}

/// The process that is killed: goes on from what it finds, stores again and again, and says each count once it is stored.
#[test]
fn stores_until_it_is_killed() {
    let Some(file) = env::var_os(FILE) else { return };
    let store = Store::new(PathBuf::from(file));
    let mut count = store
        .load()
        .map_or_else(|why| (why == Unread::Missing).then_some(2).unwrap(), |kept| count_in(&kept));
    loop {
        count += 1;
        store.save(&lived(3, count), &vec![count; NOTES]).unwrap();
        let mut out = io::stderr().lock();
        out.write_all(&count.to_le_bytes()).and_then(|()| out.flush()).unwrap();
    }
}

/// Starts that process, kills it so much after it stored first, and answers the last count that it said.
fn last_said(file: &Path, after: Duration) -> u64 {
    let own = env::current_exe().unwrap();
    let mut command = match env::var_os("CARGO_TARGET_X86_64_UNKNOWN_LINUX_GNU_RUNNER") {
        Some(runner) => {
            let mut command = Command::new(runner);
            command.arg(own);
            command
        }
        None => Command::new(own),
    };
    command.args(["--exact", "stores_until_it_is_killed", "--nocapture"]).env(FILE, file);
    let mut process =
        command.stdin(Stdio::null()).stdout(Stdio::null()).stderr(Stdio::piped()).spawn().unwrap();
    let mut said = process.stderr.take().unwrap();
    let mut counts = vec![0; 8];
    said.read_exact(&mut counts).expect("a first count");
    sleep(after);
    process.kill().unwrap();
    process.wait().unwrap();
    said.read_to_end(&mut counts).unwrap();
    let last = counts.chunks_exact(8).last().unwrap();
    u64::from_le_bytes(last.try_into().unwrap())
}

#[test]
fn a_process_that_is_killed_leaves_a_record() {
    let room = Room::new("kills");
    let (store, beside) = (Store::new(room.file()), room.0.join("record.new"));
    let wanted = env::var(KILLS).map_or(USUAL_KILLS, |number| number.parse().unwrap());
    let (mut kills, mut midway, mut cut, mut chance) = (0, 0, 0, 1u64);
    while kills < wanted || midway < MIDWAY_KILLS {
        assert!(kills < 20 * wanted.max(USUAL_KILLS), "{midway} of {kills} kills fell into a store");
        chance = chance.wrapping_mul(6_364_136_223_846_793_005).wrapping_add(1_442_695_040_888_963_407);
        let said = last_said(&room.file(), Duration::from_micros((chance >> 33) % 20_000));
        let count = count_in(&store.load().expect("a record after the kill"));
        assert!(count == said || count == said + 1, "{count} is stored, and {said} was said");
        kills += 1;
        if let Ok(bytes) = fs::read(&beside) {
            midway += 1;
            cut += usize::from(Kept::of_bytes(&bytes).is_err());
        }
    }
    println!("{kills} kills, {midway} before the rename, {cut} of these while words were being written");
}
