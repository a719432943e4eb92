//! The three tests of the inquest on what was handed in: own votes that do not stand, votes that another record counts a firm for, and
//! votes that a packet counts it for. A firm against which none of them speaks is blameless.

use crate::files::Handed;
use crate::form::{Cell, Form};
use crate::packets::{apart, contradicting, link, Packet, Pair};
use quointrowel::{CertificateKind, Lacked, Node, Record, Vote};
use std::collections::{BTreeMap, BTreeSet};

/// Up to so many records the library is asked about each pair; more pairs are looked through by the record's form, and the library is
/// asked about one pair of every firm that this speaks against.
pub const MOST_ASKED: usize = 256;

/// Who shows a vote, by its place in the list of records or of packets, and the certificate that counts it; none of a stored vote.
#[derive(Clone, Copy, Debug, PartialEq, Eq, PartialOrd, Ord)]
pub enum Shown {
    Record(usize, Option<CertificateKind>),
    Packet(usize, Option<CertificateKind>),
}

/// Of each firm the votes that its record lacks, with everyone who shows them.
pub type Lacking = BTreeMap<usize, BTreeMap<Vote, BTreeSet<Shown>>>;

#[derive(Clone, Copy, Debug, PartialEq, Eq)]
pub enum State {
    Blameless,
    Silent,
    Contradicted,
}

/// A block of a slot and a number with a parent (slot and number), and the records that keep it so.
pub type Told = BTreeMap<(usize, u64), BTreeMap<(usize, u64), Vec<usize>>>;

/// Of a firm and a slot the initial votes that records store in its name, with the places of these records.
pub type Initials = BTreeMap<(usize, usize), BTreeMap<Vote, Vec<usize>>>;

pub struct Findings {
    pub stakes: Vec<u64>,
    pub handed: Vec<Handed>,
    pub packets: Vec<Packet>,
    /// Of each firm the place of its record.
    pub seats: Vec<Option<usize>>,
    pub lacking: Lacking,
    /// Of silent firms the slots in which others store two initial votes in their name.
    pub twice: Initials,
    /// Packets that contradict one another in a slot.
    pub clashes: Vec<Pair>,
    /// Proofs of two slots that are not on one chain.
    pub apart: Vec<Pair>,
    /// Blocks that are kept with more than one parent.
    pub parents: Told,
}

impl Findings {
    pub fn new(handed: Vec<Handed>, packets: Vec<Packet>) -> Result<Findings, String> {
        let stakes = handed[0].stakes.clone();
        let mut seats = vec![None; stakes.len()];
        for (place, record) in handed.iter().enumerate() {
            if let Some(node) = record.own {
                seats[node.0] = Some(place);
            }
        }
        let few = handed.len() <= MOST_ASKED;
        let (mut lacking, mut twice) = (if few { by_library(&handed)? } else { Lacking::new() }, Initials::new());
        let mut forms = Forms::new(&handed);
        // Each record is read once more for all that is left: a ring of 2,048 has 4 GB of them.
        for (witness, file) in handed.iter().enumerate() {
            let record = file.record()?;
            if !few {
                forms.note(witness, &record, &mut lacking)?;
            }
            of_packets(file, &record, &packets, &mut lacking)?;
            voted(witness, &record, &seats, &mut twice);
        }
        twice.retain(|_, votes| votes.len() > 1);
        let (clashes, parents) = (contradicting(&packets), told_twice(&handed)?);
        let mut found = Findings { stakes, handed, packets, seats, lacking, twice, clashes, apart: Vec::new(), parents };
        found.apart = apart(&found.packets, &found.clear_blocks());
        Ok(found)
    }

    /// The blocks that are kept in records which are blameless and not against themselves.
    fn clear_blocks(&self) -> BTreeSet<(usize, u64, usize, u64)> {
        let is_clear = |firm: &usize| self.state(*firm) == State::Blameless && !self.is_against_itself(*firm);
        let clear = (0..self.stakes.len()).filter(is_clear).filter_map(|firm| self.record_of(firm));
        clear.flat_map(|record| record.blocks.iter().map(link)).collect()
    }

    pub fn record_of(&self, firm: usize) -> Option<&Handed> {
        self.seats[firm].map(|place| &self.handed[place])
    }

    fn is_against_itself(&self, firm: usize) -> bool {
        self.record_of(firm).is_some_and(|record| !record.against_itself.is_empty())
    }

    /// A record against itself is asked about only where two proofs are not on one chain: one slot does not need it.
    pub fn state(&self, firm: usize) -> State {
        let Some(record) = self.record_of(firm) else { return State::Silent };
        let own = !record.fallen.is_empty() || !self.apart.is_empty() && !record.against_itself.is_empty();
        if own || self.lacking.contains_key(&firm) {
            State::Contradicted
        } else {
            State::Blameless
        }
    }

    pub fn firms(&self, state: State) -> Vec<usize> {
        (0..self.stakes.len()).filter(|&firm| self.state(firm) == state).collect()
    }

    pub fn weight(&self, firms: &[usize]) -> u64 {
        firms.iter().map(|&firm| self.stakes[firm]).sum()
    }

    pub fn total(&self) -> u64 {
        self.stakes.iter().sum()
    }

    /// Whether these firms hold a fifth of the stake.
    pub fn is_fifth(&self, weight: u64) -> bool {
        5 * weight >= self.total()
    }

    /// What is promised of a contradiction: those who are not blameless hold a fifth. Of two proofs of two slots it is promised where
    /// no block has two parents.
    pub fn is_kept(&self) -> bool {
        let speaks = !self.clashes.is_empty() || !self.apart.is_empty() && self.parents.is_empty();
        let others = self.weight(&self.firms(State::Silent)) + self.weight(&self.firms(State::Contradicted));
        !speaks || self.is_fifth(others)
    }

    pub fn is_quiet(&self) -> bool {
        let nobody = self.firms(State::Contradicted).is_empty() && self.twice.is_empty();
        nobody && self.clashes.is_empty() && self.apart.is_empty() && self.parents.is_empty()
    }
}

fn note(lacking: &mut Lacking, firm: Node, lines: &[Lacked], shown: impl Fn(Option<CertificateKind>) -> Shown) {
    for line in lines {
        lacking.entry(firm.0).or_default().entry(line.vote).or_default().insert(shown(line.certificate));
    }
}

/// Each record against each firm's, by the library.
pub fn by_library(handed: &[Handed]) -> Result<Lacking, String> {
    let records: Vec<Record> = handed.iter().map(Handed::record).collect::<Result<_, _>>()?;
    let mut lacking = Lacking::new();
    for (witness, first) in records.iter().enumerate() {
        for (place, second) in records.iter().enumerate().filter(|&(place, _)| place != witness) {
            let Some(firm) = handed[place].own else { continue };
            let lines = asked(first, second, &handed[witness].name, &handed[place].name)?;
            note(&mut lacking, firm, &lines, |kind| Shown::Record(witness, kind));
        }
    }
    Ok(lacking)
}

fn asked(first: &Record, second: &Record, name: &str, other: &str) -> Result<Vec<Lacked>, String> {
    first.lacked_by(second).map_err(|refusal| format!("{name} against {other}: {refusal}"))
}

/// Likewise by the record's form; of every firm that is spoken against the library is asked about one pair.
#[cfg(test)]
pub fn by_form(handed: &[Handed]) -> Result<Lacking, String> {
    let mut lacking = Lacking::new();
    let mut forms = Forms::new(handed);
    for (witness, shows) in handed.iter().enumerate() {
        forms.note(witness, &shows.record()?, &mut lacking)?;
    }
    Ok(lacking)
}

/// The firms' own votes, by firm, with the places of their records; and the firms about which the library was asked.
struct Forms<'a> {
    handed: &'a [Handed],
    owns: Vec<Option<&'a [Cell]>>,
    places: BTreeMap<usize, usize>,
    known: BTreeSet<usize>,
}

impl Forms<'_> {
    fn new(handed: &[Handed]) -> Forms<'_> {
        let mut owns: Vec<Option<&[Cell]>> = vec![None; handed[0].stakes.len()];
        let mut places = BTreeMap::new();
        for (place, file) in handed.iter().enumerate() {
            if let Some(node) = file.own {
                owns[node.0] = Some(&file.cells);
                places.insert(node.0, place);
            }
        }
        Forms { handed, owns, places, known: BTreeSet::new() }
    }

    /// What one record shows against all others.
    fn note(&mut self, witness: usize, record: &Record, lacking: &mut Lacking) -> Result<(), String> {
        let shows = &self.handed[witness];
        let mine = shows.own.and_then(|node| self.owns[node.0].take().map(|cells| (node.0, cells)));
        for (firm, lines) in Form::of(record).lacked(&self.owns) {
            if self.known.insert(firm) {
                let other = &self.handed[self.places[&firm]];
                same_lines(&lines, &asked(record, &other.record()?, &shows.name, &other.name)?, &shows.name, &other.name)?;
            }
            note(lacking, Node(firm), &lines, |kind| Shown::Record(witness, kind));
        }
        if let Some((firm, cells)) = mine {
            self.owns[firm] = Some(cells);
        }
        Ok(())
    }
}

fn same_lines(mine: &[Lacked], library: &[Lacked], name: &str, other: &str) -> Result<(), String> {
    let all_in = |some: &[Lacked], others: &[Lacked]| some.iter().all(|line| others.contains(line));
    if all_in(mine, library) && all_in(library, mine) {
        return Ok(());
    }
    Err(format!("{name} against {other}: this program and the library list other votes, which is a fault of this program"))
}

fn of_packets(file: &Handed, record: &Record, packets: &[Packet], lacking: &mut Lacking) -> Result<(), String> {
    let Some(firm) = file.own else { return Ok(()) };
    for (place, packet) in packets.iter().enumerate() {
        let lines = record.lacks_of(&packet.bytes);
        let lines = lines.map_err(|refusal| format!("{} against packet {}: {refusal}", file.name, place + 1))?;
        note(lacking, firm, &lines, |kind| Shown::Packet(place, kind));
    }
    Ok(())
}

/// A silent firm has no record to be held against: what is left is that others tell two initial votes of it, which no node casts.
fn voted(witness: usize, record: &Record, seats: &[Option<usize>], told: &mut Initials) {
    let form = Form::of(record);
    let silent = (0..seats.len()).filter(|&firm| seats[firm].is_none());
    for vote in silent.flat_map(|firm| form.initial_votes(Node(firm))) {
        told.entry((vote.node.0, vote.slot.0)).or_default().entry(vote).or_default().push(witness);
    }
}

/// Blocks that records keep with more than one parent. The library is asked about one pair of records of each of them.
fn told_twice(handed: &[Handed]) -> Result<Told, String> {
    let mut told = Told::new();
    for (place, record) in handed.iter().enumerate() {
        for block in &record.blocks {
            let parents = told.entry((block.slot.0, block.number)).or_default();
            parents.entry((block.parent_slot.0, block.parent)).or_default().push(place);
        }
    }
    told.retain(|_, parents| parents.len() > 1);
    for (&(slot, number), parents) in &told {
        let mut keepers = parents.values().map(|places| &handed[places[0]]);
        let (Some(one), Some(two)) = (keepers.next(), keepers.next()) else { continue };
        let pairs = one.record()?.told_twice(&two.record()?);
        let pairs = pairs.map_err(|refusal| format!("{} beside {}: {refusal}", one.name, two.name))?;
        if !pairs.iter().any(|(block, _)| (block.slot.0, block.number) == (slot, number)) {
            return Err(format!(
                "{} beside {}: the library tells no two parents of block {number}, which is a fault of this program",
                one.name, two.name
            ));
        }
    }
    Ok(told)
}
