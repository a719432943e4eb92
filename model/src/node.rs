//! One node: its pool of votes and its voter.
//!
//! Everything is computed anew from the stored votes each time it is asked
//! for. That is slow, but each function below can be held against one
//! sentence of the document.

use crate::packet::{self, Certificate};
use crate::refusal::Refusal;
use crate::stakes::{Signers, Stakes, Threshold, P20, P40, P60, P80};
use std::cmp::Reverse;
use std::collections::{BTreeMap, BTreeSet};

pub const LAST_SLOT: u64 = 16;
pub const WINDOW: u64 = 4;
pub const MOST_FALLBACKS: usize = 3;
pub const MOST_BLOCKS: usize = 4;
pub const MOST_NOTAR_FALLBACK_CERTIFICATES: usize = 9;

pub const RECORD_FINALIZED: u64 = 6;
pub const RECORD_ARMED: u64 = 7;
pub const RECORD_CONFLICT: u64 = 8;

#[derive(Clone, Copy, PartialEq, Eq, Debug)]
pub enum Vote {
    Notar(u64),
    NotarFallback(u64),
    Skip,
    SkipFallback,
    Final,
}

impl Vote {
    pub fn kind(self) -> u64 {
        match self {
            Vote::Notar(_) => 1,
            Vote::NotarFallback(_) => 2,
            Vote::Skip => 3,
            Vote::SkipFallback => 4,
            Vote::Final => 5,
        }
    }

    pub fn block(self) -> u64 {
        match self {
            Vote::Notar(b) | Vote::NotarFallback(b) => b,
            Vote::Skip | Vote::SkipFallback | Vote::Final => 0,
        }
    }

    /// The kind must be 1 to 5; the block is not looked at.
    pub fn of_kind(kind: u64, block: u64) -> Result<Vote, Refusal> {
        match kind {
            1 => Ok(Vote::Notar(block)),
            2 => Ok(Vote::NotarFallback(block)),
            3 => Ok(Vote::Skip),
            4 => Ok(Vote::SkipFallback),
            5 => Ok(Vote::Final),
            _ => Err(Refusal::NoSuchKind),
        }
    }

    /// The block must be there for kinds 1 and 2 only.
    pub fn allows_block(self, block: u64) -> Result<(), Refusal> {
        let needs_block = matches!(self, Vote::Notar(_) | Vote::NotarFallback(_));
        if needs_block == (block != 0) {
            Ok(())
        } else {
            Err(Refusal::BlockNumber)
        }
    }
}

/// A certificate kind with the block it is for.
#[derive(Clone, Copy, PartialEq, Eq, Debug)]
pub enum Cert {
    FastFinal(u64),
    Notar(u64),
    NotarFallback(u64),
    Skip,
    Final,
}

impl Cert {
    pub fn kind(self) -> u64 {
        match self {
            Cert::FastFinal(_) => 1,
            Cert::Notar(_) => 2,
            Cert::NotarFallback(_) => 3,
            Cert::Skip => 4,
            Cert::Final => 5,
        }
    }

    pub fn block(self) -> u64 {
        match self {
            Cert::FastFinal(b) | Cert::Notar(b) | Cert::NotarFallback(b) => b,
            Cert::Skip | Cert::Final => 0,
        }
    }

    /// None when the kind is not 1 to 5; the block is not looked at.
    pub fn of_kind(kind: u64, block: u64) -> Option<Cert> {
        match kind {
            1 => Some(Cert::FastFinal(block)),
            2 => Some(Cert::Notar(block)),
            3 => Some(Cert::NotarFallback(block)),
            4 => Some(Cert::Skip),
            5 => Some(Cert::Final),
            _ => None,
        }
    }

    /// Whether it does for the other: a kind 1 for a 2, a 2 for a 3.
    fn counts_as(self, other: Cert) -> bool {
        match self {
            Cert::FastFinal(b) => other == self || Cert::Notar(b).counts_as(other),
            Cert::Notar(b) => other == self || other == Cert::NotarFallback(b),
            _ => other == self,
        }
    }

    pub fn needs_block(self) -> bool {
        !matches!(self, Cert::Skip | Cert::Final)
    }

    pub fn allows_fallback_signers(self) -> bool {
        matches!(self, Cert::NotarFallback(_) | Cert::Skip)
    }

    pub fn threshold(self) -> Threshold {
        match self {
            Cert::FastFinal(_) => P80,
            _ => P60,
        }
    }

    /// The votes that mask A names.
    fn counts_first(self, cell: &Cell) -> bool {
        match self {
            Cert::FastFinal(b) | Cert::Notar(b) | Cert::NotarFallback(b) => cell.notar_is(b),
            Cert::Skip => cell.is_skip(),
            Cert::Final => cell.final_vote,
        }
    }

    /// The fallback votes that count beside those.
    fn counts_fallback(self, cell: &Cell) -> bool {
        match self {
            Cert::NotarFallback(b) => cell.notar_fallbacks.contains(&b),
            Cert::Skip => cell.skip_fallback,
            Cert::FastFinal(_) | Cert::Notar(_) | Cert::Final => false,
        }
    }

    fn counts(self, cell: &Cell) -> bool {
        self.counts_first(cell) || self.counts_fallback(cell)
    }
}

#[derive(Clone, Copy, PartialEq, Eq, Debug)]
pub enum Initial {
    Notar(u64),
    Skip,
}

/// What the pool keeps of one node in one slot.
#[derive(Clone, Default, PartialEq, Eq, Debug)]
pub struct Cell {
    pub initial: Option<Initial>,
    /// As they came.
    pub notar_fallbacks: Vec<u64>,
    pub skip_fallback: bool,
    pub final_vote: bool,
}

impl Cell {
    pub fn notar_block(&self) -> Option<u64> {
        match self.initial {
            Some(Initial::Notar(b)) => Some(b),
            _ => None,
        }
    }

    pub fn notar_is(&self, block: u64) -> bool {
        self.initial == Some(Initial::Notar(block))
    }

    pub fn is_skip(&self) -> bool {
        self.initial == Some(Initial::Skip)
    }

    pub fn keeps(&self, vote: Vote) -> bool {
        match vote {
            Vote::Notar(b) => self.notar_is(b),
            Vote::NotarFallback(b) => self.notar_fallbacks.contains(&b),
            Vote::Skip => self.is_skip(),
            Vote::SkipFallback => self.skip_fallback,
            Vote::Final => self.final_vote,
        }
    }

    fn has_place_for(&self, vote: Vote) -> bool {
        match vote {
            Vote::Notar(_) | Vote::Skip => self.initial.is_none(),
            Vote::NotarFallback(_) => self.notar_fallbacks.len() < MOST_FALLBACKS,
            Vote::SkipFallback => !self.skip_fallback,
            Vote::Final => !self.final_vote,
        }
    }

    fn store(&mut self, vote: Vote) {
        match vote {
            Vote::Notar(b) => self.initial = Some(Initial::Notar(b)),
            Vote::NotarFallback(b) => {
                self.notar_fallbacks.push(b);
            }
            Vote::Skip => self.initial = Some(Initial::Skip),
            Vote::SkipFallback => self.skip_fallback = true,
            Vote::Final => self.final_vote = true,
        }
    }

    /// The kept votes in kind, block order.
    pub fn votes(&self) -> Vec<Vote> {
        let mut all = self.votes_as_they_came();
        all.sort_by_key(|vote| (vote.kind(), vote.block()));
        all
    }

    /// The kept votes in kind order, notar-fallbacks as they came.
    pub fn votes_as_they_came(&self) -> Vec<Vote> {
        let mut all = Vec::new();
        all.extend(self.notar_block().map(Vote::Notar));
        all.extend(self.notar_fallbacks.iter().map(|&b| Vote::NotarFallback(b)));
        all.extend(self.is_skip().then_some(Vote::Skip));
        all.extend(self.skip_fallback.then_some(Vote::SkipFallback));
        all.extend(self.final_vote.then_some(Vote::Final));
        all
    }
}

/// A block kept for a slot, with its one parent.
#[derive(Clone, Copy, PartialEq, Eq, Debug)]
pub struct Block {
    pub number: u64,
    pub parent_slot: u64,
    pub parent: u64,
}

/// Where the signers of a written certificate come from.
#[derive(Clone, Copy, PartialEq, Eq, Debug)]
pub enum Source<'a> {
    Votes,
    Kept(&'a Certificate),
}

/// One slot's weights at a glance.
#[derive(Clone, Copy, PartialEq, Eq, Debug)]
pub struct Card {
    pub skip: u64,
    pub finals: u64,
    pub skip_certificate: u64,
    /// The heaviest notar block, 0 where there is none.
    pub leader: u64,
    pub leader_weight: u64,
}

/// Slots number from 1, so the first place of each row is never used.
const ROWS: usize = LAST_SLOT as usize + 1;

#[derive(Clone, PartialEq, Eq, Debug)]
pub struct Record {
    pub kind: u64,
    pub slot: u64,
    pub block: u64,
}

#[derive(Clone)]
pub struct Node {
    stakes: Stakes,
    /// None for a watcher.
    own: Option<usize>,
    genesis: u64,
    /// By slot and node, for the nodes with votes in that slot.
    pool: Vec<BTreeMap<usize, Cell>>,
    /// In the order in which they were announced.
    kept: Vec<Vec<Block>>,
    /// Certificates from others, in the order in which they came.
    certificates: Vec<Vec<Certificate>>,
    timed_out: [bool; ROWS],
    /// By the window's first slot.
    armed: [bool; ROWS],
    /// The final block of each slot.
    finalized: [Option<u64>; ROWS],
    /// Slots for which record 8 was made.
    conflict: [bool; ROWS],
    /// Records of the input under way.
    outbox: Vec<Record>,
    /// How often each branch of the rules was taken; for `cover` only.
    pub notes: BTreeMap<&'static str, u64>,
}

pub fn is_slot(slot: u64) -> bool {
    (1..=LAST_SLOT).contains(&slot)
}

pub fn first_of_window(slot: u64) -> u64 {
    (slot - 1) / WINDOW * WINDOW + 1
}

pub fn is_first(slot: u64) -> bool {
    first_of_window(slot) == slot
}

fn window_of(slot: u64) -> std::ops::Range<u64> {
    first_of_window(slot)..first_of_window(slot) + WINDOW
}

// ---- what the pool holds ----

impl Node {
    pub fn start(own: u64, genesis: u64, stakes: &[u64]) -> Result<Node, Refusal> {
        let mut node = Node::watch(genesis, stakes)?;
        if !node.stakes.has_node(own) {
            return Err(Refusal::Sizes);
        }
        node.own = Some(own as usize);
        Ok(node)
    }

    /// A node without an own number, which never votes.
    pub fn watch(genesis: u64, stakes: &[u64]) -> Result<Node, Refusal> {
        let stakes = Stakes::new(stakes)?;
        if genesis == 0 {
            return Err(Refusal::Sizes);
        }
        Ok(Node {
            own: None,
            genesis,
            stakes,
            pool: vec![BTreeMap::new(); ROWS],
            kept: vec![Vec::new(); ROWS],
            certificates: vec![Vec::new(); ROWS],
            timed_out: [false; ROWS],
            armed: [false; ROWS],
            finalized: [None; ROWS],
            conflict: [false; ROWS],
            outbox: Vec::new(),
            notes: BTreeMap::new(),
        })
    }

    /// With these votes stored, and no rule run yet.
    pub fn with_votes(mut self, votes: Vec<(u64, usize, Vote)>) -> Node {
        for (slot, node, vote) in votes {
            self.pool[slot as usize].entry(node).or_default().store(vote);
        }
        self
    }

    pub fn stakes(&self) -> &Stakes {
        &self.stakes
    }

    /// None for a watcher.
    pub fn own(&self) -> Option<usize> {
        self.own
    }

    pub fn genesis(&self) -> u64 {
        self.genesis
    }

    fn cells(&self, slot: u64) -> impl Iterator<Item = &Cell> {
        self.pool[slot as usize].values()
    }

    pub fn own_cell(&self, slot: u64) -> Cell {
        self.own.map(|own| self.cell(slot, own)).unwrap_or_default()
    }

    pub fn cell(&self, slot: u64, node: usize) -> Cell {
        self.pool[slot as usize].get(&node).cloned().unwrap_or_default()
    }

    pub fn kept_blocks(&self, slot: u64) -> &[Block] {
        &self.kept[slot as usize]
    }

    pub fn is_armed(&self, slot: u64) -> bool {
        self.armed[first_of_window(slot) as usize]
    }

    pub fn is_timed_out(&self, slot: u64) -> bool {
        self.timed_out[slot as usize]
    }

    pub fn final_block(&self, slot: u64) -> Option<u64> {
        self.finalized[slot as usize]
    }

    /// Whether another final block was told of the slot.
    pub fn has_conflict(&self, slot: u64) -> bool {
        self.conflict[slot as usize]
    }

    fn nodes_with(&self, slot: u64, counts: impl Fn(&Cell) -> bool) -> Signers {
        let cells = self.pool[slot as usize].iter();
        cells.filter(|(_, cell)| counts(cell)).map(|(&node, _)| node).collect()
    }

    /// Each node's stake is taken once, however many of its votes count.
    fn weight(&self, slot: u64, counts: impl Fn(&Cell) -> bool) -> u64 {
        let cells = self.pool[slot as usize].iter();
        cells.filter(|(_, cell)| counts(cell)).map(|(&node, _)| self.stakes.of(node)).sum()
    }

    pub fn notar_weight(&self, slot: u64, block: u64) -> u64 {
        self.weight(slot, |cell| cell.notar_is(block))
    }

    pub fn skip_weight(&self, slot: u64) -> u64 {
        self.weight(slot, Cell::is_skip)
    }

    /// Of all whose stored votes count in it.
    pub fn certificate_weight(&self, slot: u64, cert: Cert) -> u64 {
        self.weight(slot, |cell| cert.counts(cell))
    }

    /// Every block with an initial notar vote in the slot, lowest first.
    pub fn notar_blocks(&self, slot: u64) -> BTreeSet<u64> {
        self.cells(slot).filter_map(Cell::notar_block).collect()
    }

    pub fn reached_by_votes(&self, slot: u64, cert: Cert) -> bool {
        self.stakes.reaches(self.certificate_weight(slot, cert), cert.threshold())
    }

    pub fn kept_certificates(&self, slot: u64) -> &[Certificate] {
        &self.certificates[slot as usize]
    }

    pub fn kept_certificate(&self, slot: u64, cert: Cert) -> Option<&Certificate> {
        self.certificates[slot as usize].iter().find(|kept| kept.cert == cert)
    }

    /// Reached by the stored votes or kept; a held kind 1 counts as 2, a 2 as 3.
    /// Votes that reach kind 1 reach 2 as well, and those that reach 2 reach 3.
    pub fn holds(&self, slot: u64, cert: Cert) -> bool {
        let kept = self.certificates[slot as usize].iter();
        self.reached_by_votes(slot, cert) || kept.map(|kept| kept.cert).any(|kept| kept.counts_as(cert))
    }

    /// Whose signers the writer names: the stored votes where these reach, else
    /// a kept certificate of the kind asked for, of kind 2, of kind 1.
    pub fn source(&self, slot: u64, cert: Cert) -> Option<Source<'_>> {
        if self.reached_by_votes(slot, cert) {
            return Some(Source::Votes);
        }
        let in_order = match cert {
            Cert::NotarFallback(b) => vec![cert, Cert::Notar(b), Cert::FastFinal(b)],
            Cert::Notar(b) => vec![cert, Cert::FastFinal(b)],
            _ => vec![cert],
        };
        in_order.into_iter().find_map(|kept| self.kept_certificate(slot, kept)).map(Source::Kept)
    }

    /// Masks A and B of a certificate. B leaves out who is in A already.
    pub fn signers(&self, slot: u64, cert: Cert) -> (Signers, Signers) {
        let a = self.nodes_with(slot, |cell| cert.counts_first(cell));
        let b = self.nodes_with(slot, |cell| cert.counts_fallback(cell) && !cert.counts_first(cell));
        (a, b)
    }

    fn holds_as_parent(&self, parent_slot: u64, parent: u64) -> bool {
        if parent_slot == 0 {
            return parent == self.genesis;
        }
        self.holds(parent_slot, Cert::Notar(parent)) || self.holds(parent_slot, Cert::NotarFallback(parent))
    }

    pub fn ready(&self, first_slot: u64, parent_slot: u64, parent: u64) -> bool {
        parent_slot < first_slot
            && self.holds_as_parent(parent_slot, parent)
            && (parent_slot + 1..first_slot).all(|between| self.holds(between, Cert::Skip))
    }

    /// Every block that a vote or a kept certificate of the slot names.
    pub fn named_blocks(&self, slot: u64) -> BTreeSet<u64> {
        let mut blocks = self.notar_blocks(slot);
        for cell in self.cells(slot) {
            blocks.extend(&cell.notar_fallbacks);
        }
        let kept = self.certificates[slot as usize].iter();
        blocks.extend(kept.filter(|kept| kept.cert.needs_block()).map(|kept| kept.cert.block()));
        blocks
    }

    /// All parents ready for a first slot, from the nearest slot down.
    pub fn ready_parents(&self, first_slot: u64) -> Vec<(u64, u64)> {
        let mut parents = Vec::new();
        for slot in (1..first_slot).rev() {
            let blocks = self.named_blocks(slot).into_iter();
            parents.extend(blocks.filter(|&b| self.holds_as_parent(slot, b)).map(|b| (slot, b)));
            if !self.holds(slot, Cert::Skip) {
                return parents;
            }
        }
        parents.push((0, self.genesis));
        parents
    }

    /// The slot's tally card, by a recount.
    pub fn card(&self, slot: u64) -> Result<Card, Refusal> {
        if !is_slot(slot) {
            return Err(Refusal::NoSuchSlot);
        }
        let blocks = self.notar_blocks(slot).into_iter();
        let weighed = blocks.map(|block| (self.notar_weight(slot, block), block));
        // The heaviest; of several the lowest number.
        let (leader_weight, leader) =
            weighed.max_by_key(|&(weight, block)| (weight, Reverse(block))).unwrap_or((0, 0));
        Ok(Card {
            skip: self.skip_weight(slot),
            finals: self.weight(slot, |cell| cell.final_vote),
            skip_certificate: self.weight(slot, |cell| Cert::Skip.counts(cell)),
            leader,
            leader_weight,
        })
    }

    /// Every stored vote as (slot, node, vote) in slot, node, kind, block order.
    pub fn stored_votes(&self) -> Vec<(u64, usize, Vote)> {
        let mut all = Vec::new();
        for slot in 1..=LAST_SLOT {
            for (&node, cell) in &self.pool[slot as usize] {
                all.extend(cell.votes().into_iter().map(|vote| (slot, node, vote)));
            }
        }
        all
    }
}

// ---- inputs ----

impl Node {
    pub fn vote(&mut self, kind: u64, node: u64, slot: u64, block: u64) -> Result<Vec<Record>, Refusal> {
        // The order of the tests is the document's: 4, 3, 2, 6, 5, 7, 8.
        let vote = Vote::of_kind(kind, block)?;
        if !is_slot(slot) {
            return Err(Refusal::NoSuchSlot);
        }
        if !self.stakes.has_node(node) {
            return Err(Refusal::NoSuchNode);
        }
        if self.own == Some(node as usize) {
            return Err(Refusal::OwnName);
        }
        vote.allows_block(block)?;
        let cell = self.pool[slot as usize].entry(node as usize).or_default();
        if cell.keeps(vote) {
            return Err(Refusal::AlreadyKept);
        }
        if !cell.has_place_for(vote) {
            return Err(Refusal::AnotherStands);
        }
        cell.store(vote);
        self.note_skips(slot, node as usize, vote);
        let records = self.run_rules();
        self.note_causes(Came::Vote, slot, &records);
        Ok(records)
    }

    /// A run of votes, four words each, every one as if it came alone. With the
    /// records of all there is one number a vote, 0 or its refusal's.
    pub fn tray(&mut self, words: &[u64]) -> Result<(Vec<Record>, Vec<u64>), Refusal> {
        if words.len() % 4 != 0 {
            return Err(Refusal::PacketLength);
        }
        let (mut records, mut answers) = (Vec::new(), Vec::new());
        for vote in words.chunks(4) {
            match self.vote(vote[0], vote[1], vote[2], vote[3]) {
                Ok(made) => {
                    records.extend(made);
                    answers.push(0);
                }
                Err(refusal) => answers.push(refusal.number()),
            }
        }
        Ok((records, answers))
    }

    pub fn block(
        &mut self,
        slot: u64,
        number: u64,
        parent_slot: u64,
        parent: u64,
    ) -> Result<Vec<Record>, Refusal> {
        if !is_slot(slot) {
            return Err(Refusal::NoSuchSlot);
        }
        if number == 0 || parent == 0 {
            return Err(Refusal::BlockNumber);
        }
        if parent_slot >= slot || (parent_slot == 0 && parent != self.genesis) {
            return Err(Refusal::WrongParent);
        }
        let block = Block { number, parent_slot, parent };
        self.note_announced(slot, block);
        let kept = &mut self.kept[slot as usize];
        if kept.contains(&block) {
            return Err(Refusal::AlreadyKept);
        }
        if kept.len() == MOST_BLOCKS || kept.iter().any(|other| other.number == number) {
            return Err(Refusal::AnotherStands);
        }
        kept.push(block);
        let records = self.run_rules();
        self.note_causes(Came::Block(number), slot, &records);
        if records.iter().any(|made| made.kind == RECORD_FINALIZED && made.slot < slot) {
            self.note("G by the block's coming");
        }
        Ok(records)
    }

    /// A certificate from others, after a full check.
    pub fn take(&mut self, bytes: &[u8]) -> Result<Vec<Record>, Refusal> {
        let certificate = packet::check_whole(bytes, &self.stakes)?.0;
        let (slot, cert) = (certificate.slot, certificate.cert);
        self.note_received(&certificate);
        if self.kept_certificate(slot, cert).is_some() {
            return Err(Refusal::AlreadyKept);
        }
        if !self.has_place_for(slot, cert) {
            return Err(Refusal::AnotherStands);
        }
        self.certificates[slot as usize].push(certificate);
        let records = self.run_rules();
        self.note_causes(Came::Certificate, slot, &records);
        Ok(records)
    }

    fn has_place_for(&self, slot: u64, cert: Cert) -> bool {
        let of_kind = |kept: &&Certificate| kept.cert.kind() == cert.kind();
        let taken = self.certificates[slot as usize].iter().filter(of_kind).count();
        match cert {
            Cert::NotarFallback(_) => taken < MOST_NOTAR_FALLBACK_CERTIFICATES,
            _ => taken == 0,
        }
    }

    pub fn timeout(&mut self, slot: u64) -> Result<Vec<Record>, Refusal> {
        if self.own.is_none() {
            return Err(Refusal::NoSuchKind);
        }
        if !is_slot(slot) {
            return Err(Refusal::NoSuchSlot);
        }
        if !self.is_armed(slot) {
            return Err(Refusal::NotArmed);
        }
        if self.timed_out[slot as usize] {
            return Err(Refusal::AlreadyKept);
        }
        self.timed_out[slot as usize] = true;
        if self.own_cell(slot).initial.is_none() {
            self.cast_skips_in_window(slot);
            self.note("timeout that skips");
        } else {
            self.note("timeout that casts nothing");
        }
        let records = self.run_rules();
        self.note_causes(Came::Timeout, slot, &records);
        Ok(records)
    }

    pub fn look(&mut self) -> Vec<Record> {
        self.run_rules()
    }
}

// ---- the voter ----

type Rule = fn(&mut Node, u64) -> bool;

/// In the order of the document; each answers whether it applied.
const RULES: [Rule; 7] =
    [Node::rule_a, Node::rule_b, Node::rule_c, Node::rule_d, Node::rule_e, Node::rule_f, Node::rule_g];

const WATCHERS_RULES: [Rule; 3] = [Node::rule_a, Node::rule_f, Node::rule_g];

impl Node {
    fn run_rules(&mut self) -> Vec<Record> {
        while self.apply_first_rule() {}
        std::mem::take(&mut self.outbox)
    }

    fn apply_first_rule(&mut self) -> bool {
        for slot in 1..=LAST_SLOT {
            for &rule in self.rules() {
                if rule(self, slot) {
                    return true;
                }
            }
        }
        false
    }

    fn rules(&self) -> &'static [Rule] {
        match self.own {
            Some(_) => &RULES,
            None => &WATCHERS_RULES,
        }
    }

    fn record(&mut self, kind: u64, slot: u64, block: u64) {
        self.outbox.push(Record { kind, slot, block });
    }

    fn cast(&mut self, slot: u64, vote: Vote) {
        let own = self.own.expect("a watcher casts nothing");
        self.pool[slot as usize].entry(own).or_default().store(vote);
        self.record(vote.kind(), slot, vote.block());
    }

    /// Answers whether any skip was cast.
    fn cast_skips_in_window(&mut self, slot: u64) -> bool {
        let mut any = false;
        for s in window_of(slot) {
            if self.own_cell(s).initial.is_none() {
                self.cast(s, Vote::Skip);
                any = true;
            }
        }
        any
    }

    /// A: the window opens.
    fn rule_a(&mut self, slot: u64) -> bool {
        if !is_first(slot) || self.is_armed(slot) {
            return false;
        }
        let parents = self.ready_parents(slot);
        let nearest = match parents.first() {
            Some(&(slot, _)) => slot,
            None => return false,
        };
        self.note(if nearest + 1 == slot {
            "A with a parent next door"
        } else {
            "A over skipped slots only"
        });
        if self.by_votes_alone().ready_parents(slot).is_empty() {
            self.note("A owed to certificates");
        }
        self.armed[slot as usize] = true;
        self.record(RECORD_ARMED, slot, 0);
        true
    }

    /// B: notarize the block that was announced first.
    fn rule_b(&mut self, slot: u64) -> bool {
        let block = match self.kept_blocks(slot).first() {
            Some(&block) => block,
            None => return false,
        };
        if self.own_cell(slot).initial.is_some() || !self.parent_allows(slot, block) {
            return false;
        }
        self.note(match (is_first(slot), block.parent_slot + 1 == slot) {
            (true, true) => "B in a first slot, parent next door",
            (true, false) => "B in a first slot, parent over skipped slots",
            (false, _) => "B in a later slot",
        });
        if self.kept_blocks(slot).len() > 1 {
            self.note("B after a second block");
        }
        if !self.by_votes_alone().parent_allows(slot, block) {
            self.note("B owed to certificates");
        }
        self.cast(slot, Vote::Notar(block.number));
        true
    }

    fn parent_allows(&self, slot: u64, block: Block) -> bool {
        if is_first(slot) {
            self.ready(slot, block.parent_slot, block.parent)
        } else {
            block.parent_slot == slot - 1 && self.own_cell(slot - 1).notar_is(block.parent)
        }
    }

    /// C: vote for finality of the own notarized block.
    fn rule_c(&mut self, slot: u64) -> bool {
        let own = self.own_cell(slot);
        let block = match own.notar_block() {
            Some(block) => block,
            None => return false,
        };
        let fell_back = own.skip_fallback || !own.notar_fallbacks.is_empty();
        if fell_back || own.final_vote || !self.holds(slot, Cert::Notar(block)) {
            return false;
        }
        self.note(match self.source(slot, Cert::Notar(block)) {
            Some(Source::Kept(kept)) if kept.cert == Cert::Notar(block) => "C by a kept 2",
            Some(Source::Kept(_)) => "C by a kept 1",
            _ => "C",
        });
        self.cast(slot, Vote::Final);
        true
    }

    /// D: a block that others notarize may still win.
    fn rule_d(&mut self, slot: u64) -> bool {
        if self.own_cell(slot).initial.is_none() {
            return false;
        }
        self.notar_blocks(slot).into_iter().any(|block| self.fall_back_to(slot, block))
    }

    /// Rule D for one block; answers whether anything was cast.
    fn fall_back_to(&mut self, slot: u64, block: u64) -> bool {
        if self.own_cell(slot).notar_is(block) || !self.safe_to_notar(slot, block) {
            return false;
        }
        if !is_first(slot) && !self.is_kept_upon_certified(slot, block) {
            self.note_wait(slot, block);
            return false;
        }
        let skipped = self.cast_skips_in_window(slot);
        let own = self.own_cell(slot);
        let finished = own.final_vote;
        let fall_back = !finished && !own.keeps(Vote::NotarFallback(block));
        if fall_back {
            // Four blocks cannot all have the weights, so there is a place.
            assert!(own.has_place_for(Vote::NotarFallback(block)), "a fourth own fallback in slot {slot}");
            self.cast(slot, Vote::NotarFallback(block));
        }
        self.note_fallback(slot, block, skipped, fall_back, finished);
        skipped || fall_back
    }

    pub fn safe_to_notar(&self, slot: u64, block: u64) -> bool {
        let notar = self.notar_weight(slot, block);
        let reaches = |weight, threshold| self.stakes.reaches(weight, threshold);
        reaches(notar, P40) || (reaches(notar, P20) && reaches(self.skip_weight(slot) + notar, P60))
    }

    /// Whether the block is kept with a parent whose notar-fallback certificate
    /// is held. Genesis has none.
    pub fn is_kept_upon_certified(&self, slot: u64, number: u64) -> bool {
        self.kept_blocks(slot).iter().any(|kept| {
            kept.number == number
                && kept.parent_slot != 0
                && self.holds(kept.parent_slot, Cert::NotarFallback(kept.parent))
        })
    }

    /// E: the slot may still be skipped.
    fn rule_e(&mut self, slot: u64) -> bool {
        let own = self.own_cell(slot);
        if own.initial.is_none() || own.is_skip() || !self.safe_to_skip(slot) {
            return false;
        }
        let skipped = self.cast_skips_in_window(slot);
        let own = self.own_cell(slot);
        let finished = own.final_vote;
        let fall_back = !finished && !own.skip_fallback;
        if fall_back {
            self.cast(slot, Vote::SkipFallback);
        }
        if fall_back {
            self.note(if skipped { "E with skips and skip-fallback" } else { "E with skip-fallback" });
        } else if skipped {
            self.note(if finished { "E beside an own final" } else { "E with skips only" });
        }
        skipped || fall_back
    }

    pub fn safe_to_skip(&self, slot: u64) -> bool {
        let notars: Vec<u64> =
            self.notar_blocks(slot).into_iter().map(|b| self.notar_weight(slot, b)).collect();
        let all: u64 = notars.iter().sum();
        let largest = notars.iter().copied().max().unwrap_or(0);
        self.stakes.reaches(self.skip_weight(slot) + all - largest, P40)
    }

    /// F: a block of the slot is final, or another than the final one.
    fn rule_f(&mut self, slot: u64) -> bool {
        let already = self.finalized[slot as usize];
        let mut candidates = self.named_blocks(slot).into_iter();
        let block = match candidates.find(|&b| Some(b) != already && self.is_final(slot, b)) {
            Some(block) => block,
            None => return false,
        };
        if already.is_some() {
            let recorded = self.mark_conflict(slot, block);
            self.note_conflict(slot, block, recorded);
            return recorded;
        }
        self.note(if self.holds(slot, Cert::FastFinal(block)) {
            "F by kind 1"
        } else {
            "F by kinds 2 and 5"
        });
        self.note_final(slot, block);
        self.finalize(slot, block);
        true
    }

    /// G: the ancestors of the slot's final block are final too.
    fn rule_g(&mut self, slot: u64) -> bool {
        match self.finalized[slot as usize] {
            Some(block) => {
                let recorded = self.walk_from(slot, block);
                self.note_walk(slot, block, recorded);
                recorded
            }
            None => false,
        }
    }

    /// On from a final block to its parent; answers whether anything was recorded.
    fn walk_from(&mut self, slot: u64, number: u64) -> bool {
        let kept = self.kept_blocks(slot).iter().find(|kept| kept.number == number);
        let (below, parent) = match kept {
            Some(kept) if kept.parent_slot > 0 => (kept.parent_slot, kept.parent),
            Some(_) => return false,
            None => {
                self.note("G halted by a missing block");
                return false;
            }
        };
        match self.finalized[below as usize] {
            None => {
                self.note(if below + 1 == slot { "G to the slot before" } else { "G over slots between" });
                self.finalize(below, parent);
                self.walk_from(below, parent);
                true
            }
            Some(block) if block == parent => self.walk_from(below, parent),
            Some(_) => {
                self.note("G against a final block");
                self.mark_conflict(below, parent)
            }
        }
    }

    fn finalize(&mut self, slot: u64, block: u64) {
        self.finalized[slot as usize] = Some(block);
        self.record(RECORD_FINALIZED, slot, block);
    }

    /// Once for the slot; answers whether it was recorded.
    fn mark_conflict(&mut self, slot: u64, newcomer: u64) -> bool {
        if self.conflict[slot as usize] {
            return false;
        }
        self.conflict[slot as usize] = true;
        self.record(RECORD_CONFLICT, slot, newcomer);
        true
    }

    pub fn is_final(&self, slot: u64, block: u64) -> bool {
        self.holds(slot, Cert::FastFinal(block))
            || (self.holds(slot, Cert::Notar(block)) && self.holds(slot, Cert::Final))
    }
}

// ---- for `cover` only ----

/// What an accepted input was; a block with its number.
#[derive(Clone, Copy)]
enum Came {
    Vote,
    Block(u64),
    Certificate,
    Timeout,
}

impl Node {
    fn note(&mut self, what: &'static str) {
        *self.notes.entry(what).or_insert(0) += 1;
    }

    /// Two votes of a node that count once for skip, by which came later.
    fn note_skips(&mut self, slot: u64, node: usize, stored: Vote) {
        let cell = &self.pool[slot as usize][&node];
        match stored {
            Vote::Skip if cell.skip_fallback => self.note("skip after skip-fallback"),
            Vote::SkipFallback if cell.is_skip() => self.note("skip-fallback after skip"),
            Vote::SkipFallback if cell.initial.is_none() => self.note("skip-fallback before an initial vote"),
            _ => {}
        }
    }

    fn kept_with_number(&self, slot: u64, number: u64) -> Option<Block> {
        self.kept_blocks(slot).iter().copied().find(|kept| kept.number == number)
    }

    fn is_kept_first(&self, slot: u64, number: u64) -> bool {
        self.kept_blocks(slot).first().map(|kept| kept.number) == Some(number)
    }

    /// How a block that breaks no size fares beside those that are kept.
    fn note_announced(&mut self, slot: u64, block: Block) {
        let full = self.kept_blocks(slot).len() == MOST_BLOCKS;
        let first = self.is_kept_first(slot, block.number);
        let empty = self.kept_blocks(slot).is_empty();
        self.note(match self.kept_with_number(slot, block.number) {
            Some(kept) if kept == block && first => "block: the first one again",
            Some(kept) if kept == block => "block: a later one again",
            Some(_) if full => "block: another parent, with four kept",
            Some(_) => "block: another parent",
            None if full => "block: a fifth one",
            None if empty => "block: the first one",
            None if self.kept_blocks(slot).len() + 1 == MOST_BLOCKS => "block: the fourth one",
            None => "block: the second or third one",
        });
    }

    /// What the input had to do with each fallback to a block outside first slots.
    fn note_causes(&mut self, came: Came, slot: u64, records: &[Record]) {
        for made in records.iter().filter(|made| made.kind == 2 && !is_first(made.slot)) {
            let parent_slot = self.kept_with_number(made.slot, made.block).map(|kept| kept.parent_slot);
            let first = self.is_kept_first(made.slot, made.block);
            self.note(match came {
                Came::Block(number) if (slot, number) != (made.slot, made.block) => "D by another block",
                Came::Block(_) if first => "D by its block, the first one",
                Came::Block(_) => "D by its block, a later one",
                Came::Vote if slot == made.slot => "D by a vote in its slot",
                Came::Vote if Some(slot) == parent_slot => "D by a vote in the parent's slot",
                Came::Vote => "D by a vote in another slot",
                Came::Certificate if Some(slot) == parent_slot => "D by a certificate in the parent's slot",
                Came::Certificate => "D by a certificate in another slot",
                Came::Timeout if slot == made.slot => "D by a timeout in its slot",
                Came::Timeout => "D by a timeout in another slot",
            });
        }
    }

    /// How a certificate that the checker accepts fares beside what is held.
    fn note_received(&mut self, certificate: &Certificate) {
        let (slot, cert) = (certificate.slot, certificate.cert);
        if let Some(kept) = self.kept_certificate(slot, cert) {
            let same = kept == certificate;
            if !self.has_place_for(slot, Cert::NotarFallback(0)) && matches!(cert, Cert::NotarFallback(_)) {
                self.note("take: a repeat beside eight others");
            }
            return self.note(if same { "take: a repeat" } else { "take: a repeat by other signers" });
        }
        if !self.has_place_for(slot, cert) {
            let many = matches!(cert, Cert::NotarFallback(_));
            return self.note(if many { "take: a tenth of kind 3" } else { "take: place taken" });
        }
        self.note(match cert {
            Cert::FastFinal(_) => "take: of kind 1",
            Cert::Notar(_) => "take: of kind 2",
            Cert::NotarFallback(_) => "take: of kind 3",
            Cert::Skip => "take: of kind 4",
            Cert::Final => "take: of kind 5",
        });
        self.note(if self.holds(slot, cert) { "take: held before" } else { "take: not held before" });
        if self.own.map_or(false, |own| certificate.a.contains(&own) || certificate.b.contains(&own)) {
            self.note("take: signed by the own node");
        }
    }

    /// With the same votes and blocks, and no certificate.
    fn by_votes_alone(&self) -> Node {
        Node { certificates: vec![Vec::new(); ROWS], ..self.clone() }
    }

    /// Whether votes reach the certificate, and whether it is held.
    fn how_held(&self, slot: u64, cert: Cert) -> (bool, bool) {
        (self.reached_by_votes(slot, cert), self.holds(slot, cert))
    }

    /// Two blocks of a slot, and which of them are held by certificates alone.
    fn note_conflict(&mut self, slot: u64, block: u64, recorded: bool) {
        if !recorded {
            return self.note("F against the final block, told before");
        }
        self.note("F against the final block");
        let (fast, _) = self.how_held(slot, Cert::FastFinal(block));
        let (notar, _) = self.how_held(slot, Cert::Notar(block));
        let first = self.finalized[slot as usize].expect("another is final");
        let (first_notar, first_held) = self.how_held(slot, Cert::Notar(first));
        if !fast && !notar {
            self.note(if first_held && !first_notar {
                "F against the final block, both by certificates"
            } else {
                "F against the final block by a certificate"
            });
        }
    }

    /// A walk from a block that votes alone do not make final.
    fn note_walk(&mut self, slot: u64, block: u64, recorded: bool) {
        if recorded && self.is_final(slot, block) && !self.by_votes_alone().is_final(slot, block) {
            self.note("G from a block that certificates make final");
        }
    }

    /// A block that becomes final though no notar vote names it, or before others.
    fn note_final(&mut self, slot: u64, block: u64) {
        let fast = self.how_held(slot, Cert::FastFinal(block));
        let (notar, _) = self.how_held(slot, Cert::Notar(block));
        let (finals, _) = self.how_held(slot, Cert::Final);
        match (fast, notar, finals) {
            ((true, _), ..) => {}
            ((false, true), ..) => self.note("F by a kept 1"),
            (_, true, true) => {}
            (_, false, true) => self.note("F by a kept 2 and votes for 5"),
            (_, true, false) => self.note("F by votes for 2 and a kept 5"),
            (_, false, false) => self.note("F by a kept 2 and a kept 5"),
        }
        if !self.notar_blocks(slot).contains(&block) {
            self.note("F for a block without notar votes");
        }
        let others = self.named_blocks(slot).into_iter().filter(|&other| other > block);
        if others.into_iter().any(|other| self.is_final(slot, other)) {
            self.note("F for the lowest of several");
        }
    }

    fn note_wait(&mut self, slot: u64, block: u64) {
        self.note(match self.kept_with_number(slot, block) {
            None => "D waits for the block",
            Some(kept) if kept.parent_slot == 0 => "D waits upon genesis",
            Some(_) => "D waits for the parent",
        });
        if window_of(slot).any(|s| self.own_cell(s).initial.is_none()) {
            self.note("D waits with its skips");
        }
    }

    fn note_fallback(&mut self, slot: u64, block: u64, skipped: bool, fell_back: bool, finished: bool) {
        if skipped {
            self.note(if finished { "D beside an own final" } else { "D with skips" });
        }
        if !fell_back {
            return;
        }
        let by_40 = self.stakes.reaches(self.notar_weight(slot, block), P40);
        self.note(if by_40 { "D by 40" } else { "D by 20 and 60" });
        if self.own_cell(slot).notar_fallbacks.len() == MOST_FALLBACKS {
            self.note("D for a third block");
        }
        if self.own_cell(slot).notar_block().is_some() {
            self.note("D beside an own notar");
        }
        if !is_first(slot) {
            self.note_later_fallback(slot, block, skipped);
        }
    }

    fn note_later_fallback(&mut self, slot: u64, block: u64, skipped: bool) {
        let kept = self.kept_with_number(slot, block).expect("the rule asks for the block");
        self.note("D in a later slot");
        if skipped {
            self.note("D in a later slot, with skips");
        }
        if !self.is_kept_first(slot, block) {
            self.note("D for a block that is not the first");
        }
        if kept.parent_slot + 1 != slot {
            self.note("D upon a parent not next door");
        }
        if !self.holds(kept.parent_slot, Cert::Notar(kept.parent)) {
            self.note("D upon kind 3 without kind 2");
        }
        if let Some(Source::Kept(by)) = self.source(kept.parent_slot, Cert::NotarFallback(kept.parent)) {
            let by = by.cert.kind();
            self.note(["D upon a kept 1", "D upon a kept 2", "D upon a kept 3"][by as usize - 1]);
        }
        let waiting = |&lower: &u64| {
            !self.own_cell(slot).notar_is(lower)
                && self.safe_to_notar(slot, lower)
                && !self.is_kept_upon_certified(slot, lower)
        };
        if self.notar_blocks(slot).range(..block).any(waiting) {
            self.note("D past a lower block that waits");
        }
    }
}
