//! What stands at which place of a record's words, as quointrowel-record(5) tells it: the stake table, for which the library has no
//! question; the kept blocks, of which it would look through the whole record for each slot; and the votes that a record tells of, for
//! rings with too many pairs of records to ask it of each.

use quointrowel::{Block, CertificateKind, Lacked, Node, Record, Slot, Vote, VoteKind};
use std::collections::BTreeMap;

pub const SLOTS: usize = 16;

const STAKES_AT: usize = 8;
const BLOCKS: usize = 4;
const KEPT_AT: usize = 20;
const KEPT: usize = 13;
const CELL_WORDS: usize = 7;
const MOST_SMALL: usize = 64;
const LARGE_MASK: usize = 32;

pub fn slots() -> impl Iterator<Item = Slot> {
    (1..=SLOTS).map(Slot)
}

/// The seven words of a firm's votes in a slot: notar block, skip, three notar-fallback blocks, skip-fallback, final.
pub type Cell = [u64; CELL_WORDS];

/// A record that the library does not refuse, by its places.
pub struct Form<'a> {
    words: &'a [u64],
    nodes: usize,
    mask: usize,
    row: usize,
}

impl Form<'_> {
    pub fn of(record: &Record) -> Form<'_> {
        let words = record.words();
        let nodes = words[0] as usize;
        let mask = if nodes > MOST_SMALL { LARGE_MASK } else { 1 };
        Form { words, nodes, mask, row: KEPT_AT + KEPT * (1 + 2 * mask) + CELL_WORDS * nodes }
    }

    pub fn stakes(&self) -> &[u64] {
        &self.words[STAKES_AT..STAKES_AT + self.nodes]
    }

    fn row(&self, slot: Slot) -> &[u64] {
        &self.words[STAKES_AT + self.nodes + slot.0 * self.row..][..self.row]
    }

    pub fn blocks(&self) -> Vec<Block> {
        let block =
            |slot, place: &[u64]| Block { slot, number: place[0], parent_slot: Slot(place[1] as usize), parent: place[2] };
        let of = |slot| self.row(slot)[..3 * BLOCKS].chunks_exact(3).map(move |place| block(slot, place));
        slots().flat_map(of).filter(|block| block.number != 0).collect()
    }

    pub fn cell(&self, slot: Slot, node: Node) -> Cell {
        let cells = &self.row(slot)[self.row - CELL_WORDS * self.nodes..];
        cells[CELL_WORDS * node.0..][..CELL_WORDS].try_into().expect("seven words")
    }

    /// The initial votes that this record stores in the firm's name.
    pub fn initial_votes(&self, node: Node) -> Vec<Vote> {
        let is_initial = |vote: &Vote| matches!(vote.kind, VoteKind::Notar | VoteKind::Skip);
        slots().flat_map(|slot| votes_of(slot, node, self.cell(slot, node))).filter(is_initial).collect()
    }

    /// The firm's own votes, slot by slot.
    pub fn cells(&self, node: Node) -> Vec<Cell> {
        slots().map(|slot| self.cell(slot, node)).collect()
    }

    /// What this record tells of each firm and the firm's own votes, where they were handed in, lack: what `qr_vouched` lists, of all
    /// firms in one walk through the words.
    pub fn lacked(&self, owns: &[Option<&[Cell]>]) -> BTreeMap<usize, Vec<Lacked>> {
        let mut lines: BTreeMap<usize, Vec<Lacked>> = BTreeMap::new();
        let mut note = |line: Lacked| {
            let own = owns[line.vote.node.0].map(|cells| &cells[line.vote.slot.0 - 1]);
            if own.is_some_and(|cell| !has(cell, line.vote)) {
                lines.entry(line.vote.node.0).or_default().push(line);
            }
        };
        for slot in slots() {
            self.stored_otherwise(slot, owns).for_each(&mut note);
            (0..KEPT).for_each(|place| self.counted(slot, place).for_each(&mut note));
        }
        lines
    }

    /// The stored votes of the firms whose own cell of the slot is another.
    fn stored_otherwise<'a>(&'a self, slot: Slot, owns: &'a [Option<&[Cell]>]) -> impl Iterator<Item = Lacked> + 'a {
        let cells = self.row(slot)[self.row - CELL_WORDS * self.nodes..].chunks_exact(CELL_WORDS);
        let others = cells.zip(owns).enumerate().filter(move |(_, (told, own))| own.is_some_and(|own| own[slot.0 - 1] != **told));
        others.flat_map(move |(node, (told, _))| {
            let mut votes: Vec<Vote> = votes_of(slot, Node(node), told.try_into().expect("seven words")).collect();
            votes.sort();
            votes.into_iter().map(|vote| Lacked { vote, certificate: None })
        })
    }

    /// The votes that a certificate which is kept in this place counts, of every firm that it names.
    fn counted(&self, slot: Slot, place: usize) -> impl Iterator<Item = Lacked> + '_ {
        let words = &self.row(slot)[KEPT_AT + place * (1 + 2 * self.mask)..][..1 + 2 * self.mask];
        let (block, masks) = (words[0], &words[1..]);
        let (kind, votes) = kept_kind(place);
        let with_block = move |kind| if matches!(kind, VoteKind::Notar | VoteKind::NotarFallback) { block } else { 0 };
        votes.into_iter().zip(masks.chunks_exact(self.mask)).flat_map(move |(vote, mask)| {
            named(mask).map(move |node| {
                let vote = Vote { kind: vote, node, slot, block: with_block(vote) };
                Lacked { vote, certificate: Some(kind) }
            })
        })
    }
}

/// The firms whose bits are set.
fn named(mask: &[u64]) -> impl Iterator<Item = Node> + '_ {
    let set = |word: u64| (0..64).filter(move |bit| word >> bit & 1 != 0);
    mask.iter()
        .enumerate()
        .filter(|(_, &word)| word != 0)
        .flat_map(move |(at, &word)| set(word).map(move |bit| Node(64 * at + bit)))
}

/// The kind of a kept certificate's place, and the votes that its masks A and B count.
fn kept_kind(place: usize) -> (CertificateKind, [VoteKind; 2]) {
    match place {
        0 => (CertificateKind::FastFinal, [VoteKind::Notar; 2]),
        1 => (CertificateKind::Notar, [VoteKind::Notar; 2]),
        2 => (CertificateKind::Skip, [VoteKind::Skip, VoteKind::SkipFallback]),
        3 => (CertificateKind::Final, [VoteKind::Final; 2]),
        _ => (CertificateKind::NotarFallback, [VoteKind::Notar, VoteKind::NotarFallback]),
    }
}

fn votes_of(slot: Slot, node: Node, cell: Cell) -> impl Iterator<Item = Vote> {
    use VoteKind::*;
    let kinds = [Notar, Skip, NotarFallback, NotarFallback, NotarFallback, SkipFallback, Final];
    let block = |kind, word| if matches!(kind, Notar | NotarFallback) { word } else { 0 };
    let stored = kinds.into_iter().zip(cell).filter(|&(_, word)| word != 0);
    stored.map(move |(kind, word)| Vote { kind, node, slot, block: block(kind, word) })
}

fn has(cell: &Cell, vote: Vote) -> bool {
    votes_of(vote.slot, vote.node, *cell).any(|stored| stored == vote)
}
