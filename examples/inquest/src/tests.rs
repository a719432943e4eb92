//! What the record's form tells is what the library lists, on rings in which firms tell each other different things.

use crate::files::Handed;
use crate::inquiry::{by_form, by_library, Findings, Shown, State, MOST_ASKED};
use crate::packets::bytes_of;
use quointrowel::{Block, CertificateKind, Node, Outbox, Record, Slot, Vote, VoteKind};
use std::fs;
use std::path::PathBuf;

/// A small generator, so that a ring is the same at every run.
struct Chance(u64);

impl Chance {
    fn below(&mut self, bound: u64) -> u64 {
        self.0 = self.0.wrapping_mul(6364136223846793005).wrapping_add(1442695040888963407);
        (self.0 >> 33) % bound
    }
}

/// Every firm is told votes in the others' names that they need not have cast, and certificates that some other holds.
fn ring(count: usize, seed: u64) -> Vec<Record> {
    let stakes = vec![1; count];
    let mut chance = Chance(seed);
    let start = |own| Record::start(&stakes, Node(own), 1).expect("a start");
    let mut records: Vec<Record> = (0..count).map(start).chain(Record::watch(&stakes, 1)).collect();
    let mut outbox = Outbox::new();
    for record in &mut records {
        for slot in [1, 2, 5, 16].map(Slot) {
            let _ = record.block(&mut outbox, Block { slot, number: 7 + chance.below(2), parent_slot: Slot(0), parent: 1 });
            for node in 0..count {
                let _ = record.vote(&mut outbox, any_vote(&mut chance, slot, Node(node)));
                let _ = record.vote(&mut outbox, any_vote(&mut chance, slot, Node(node)));
            }
        }
    }
    hand_round(&mut records);
    records
}

fn any_vote(chance: &mut Chance, slot: Slot, node: Node) -> Vote {
    use VoteKind::*;
    let kind = [Notar, Notar, Notar, NotarFallback, Skip, SkipFallback, Final][chance.below(7) as usize];
    let block = if matches!(kind, Notar | NotarFallback) { 7 + chance.below(10) / 8 } else { 0 };
    Vote { kind, node, slot, block }
}

fn hand_round(records: &mut [Record]) {
    use CertificateKind::*;
    let mut outbox = Outbox::new();
    for from in 0..records.len() {
        for slot in [1, 2, 5, 16].map(Slot) {
            for (kind, block) in [(FastFinal, 7), (Notar, 7), (NotarFallback, 7), (NotarFallback, 8), (Skip, 0), (Final, 0)] {
                let Ok(packet) = records[from].write_certificate(kind, slot, block) else { continue };
                let to = (from + slot.0) % records.len();
                let _ = records[to].take(&mut outbox, &packet);
            }
        }
    }
}

/// A folder that is taken away with its files.
struct Folder(PathBuf);

impl Folder {
    fn new(name: &str) -> Folder {
        let path = std::env::temp_dir().join(format!("inquest-{name}-{}", std::process::id()));
        fs::create_dir_all(&path).expect("a folder");
        Folder(path)
    }
}

impl Drop for Folder {
    fn drop(&mut self) {
        let _ = fs::remove_dir_all(&self.0);
    }
}

fn saved(record: &Record, at: usize, folder: &Folder) -> Handed {
    let file = folder.0.join(at.to_string());
    let bytes: Vec<u8> = record.words().iter().flat_map(|word| word.to_le_bytes()).collect();
    fs::write(&file, bytes).expect("a file");
    Handed::read(&file).expect("a record")
}

fn handed(records: &[Record], folder: &Folder) -> Vec<Handed> {
    records.iter().enumerate().map(|(at, record)| saved(record, at, folder)).collect()
}

#[test]
fn the_form_tells_what_the_library_lists() {
    let mut kept = 0;
    for (count, seed) in [(3, 1), (5, 2), (9, 3), (64, 4), (65, 5), (70, 6)] {
        let folder = Folder::new(&count.to_string());
        let handed = handed(&ring(count, seed), &folder);
        let by_library = by_library(&handed).expect("lines");
        assert!(!by_library.is_empty());
        kept += by_library.values().flat_map(|votes| votes.values().flatten()).filter(|shown| is_counted(shown)).count();
        assert_eq!(by_form(&handed).expect("lines"), by_library, "{count} firms");
    }
    assert!(kept > 0, "some votes are told by a kept certificate");
}

fn is_counted(shown: &Shown) -> bool {
    matches!(shown, Shown::Record(_, Some(_)))
}

/// A ring in which all skip slots 1 to 4; every second record counts the liars for block 7 of slot 6 too, of which theirs do not tell,
/// keeps a certificate that another wrote, and has another parent for block 9. Each record is a watcher's words with an own number.
fn large_ring(count: usize, liars: usize) -> impl Fn(usize) -> Record {
    let mut outbox = Outbox::new();
    let mut plain = Record::watch(&vec![1; count], 1).expect("a start");
    let of_all = |kind, slot, block, nodes| {
        std::ops::Range::map(0..nodes, move |node| Vote { kind, node: Node(node), slot: Slot(slot), block })
    };
    let skips: Vec<Vote> = (1..=4).flat_map(|slot| of_all(VoteKind::Skip, slot, 0, count)).collect();
    plain.tray(&mut outbox, &skips).expect("a tray");
    let certificate = plain.write_certificate(CertificateKind::Skip, Slot(1), 0).expect("a certificate");
    let block = |parent| Block { slot: Slot(7), number: 9, parent_slot: Slot(6), parent };
    let mut other = Record::from_words(plain.words().to_vec());
    plain.block(&mut outbox, block(7)).expect("a block");
    other.block(&mut outbox, block(8)).expect("a block");
    let lies: Vec<Vote> = of_all(VoteKind::Notar, 6, 7, liars).collect();
    other.tray(&mut outbox, &lies).expect("a tray");
    other.take(&mut outbox, &certificate).expect("a certificate");
    move |own| {
        let told = if own >= liars && own % 2 == 1 { &other } else { &plain };
        let mut words = told.words().to_vec();
        words[2] = own as u64;
        Record::from_words(words)
    }
}

/// What is found of such a ring: the liars, and nobody else.
fn liars_found(count: usize, liars: usize) {
    let folder = Folder::new(&format!("liars-{count}"));
    let firm = large_ring(count, liars);
    let files: Vec<Handed> = (0..count).map(|own| saved(&firm(own), own, &folder)).collect();
    let found = Findings::new(files, Vec::new()).expect("findings");
    assert_eq!(found.firms(State::Contradicted), (0..liars).collect::<Vec<_>>());
    assert_eq!(
        found.lacking[&0].values().map(|shown| shown.len()).sum::<usize>(),
        (liars..count).filter(|own| own % 2 == 1).count()
    );
    assert_eq!(found.parents.keys().collect::<Vec<_>>(), [&(7, 9)]);
}

#[test]
fn more_records_than_the_library_is_asked_about_in_pairs() {
    liars_found(MOST_ASKED + 4, 3);
}

/// 4 GB of files; by hand: TMPDIR=FOLDER cargo test --release -- --ignored
#[test]
#[ignore]
fn the_largest_ring() {
    liars_found(2048, 20);
}

#[test]
fn firms_that_only_wait_are_blameless_and_the_others_silent() {
    let start = |own| Record::start(&[4, 3, 3], Node(own), 1).expect("a start");
    let folder = Folder::new("waiting");
    let found = Findings::new(handed(&[start(0), start(2)], &folder), Vec::new()).expect("findings");
    assert_eq!((found.firms(State::Blameless), found.firms(State::Silent)), (vec![0, 2], vec![1]));
    assert!(found.is_quiet() && found.is_fifth(3) && !found.is_fifth(1));
}

#[test]
fn packets_are_even_hexadecimal_digits() {
    assert_eq!(bytes_of("0aF0"), Some(vec![0x0A, 0xF0]));
    assert!([bytes_of(""), bytes_of("abc"), bytes_of("0g")].iter().all(Option::is_none));
}
