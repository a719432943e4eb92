//! The rules A to G, run until none applies.

use super::card::Card;
use super::layout::*;
use super::sound::Found;
use super::weights::{behind, some_behind, Heavy};
use std::sync::atomic::{AtomicBool, Ordering::Relaxed};

const ROWS: usize = LAST_SLOT + 1;

/// The rules of every slot are asked after each vote, as the product asks them,
/// and not those alone that the vote can matter to: for a column beside it.
pub static ASKS_EVERY_SLOT: AtomicBool = AtomicBool::new(false);

const TOLD_FINAL: u64 = 6;
const TOLD_ARMED: u64 = 7;
const TOLD_CONFLICT: u64 = 8;

/// A call under way on a record that passed its test.
pub struct Call<'a> {
    head: &'a mut [u64],
    rows: &'a mut [u64],
    outbox: &'a mut [u64],
    pub made: usize,
    total: u64,
    own: usize,
    found: Found,
    /// Bit s: whether votes certify some block of slot s was asked, and they do.
    asked: u32,
    named: u32,
    /// Bit s: slot s was weighed, and no block was notarized in it since.
    weighed: u32,
    heavy: Option<Box<[Heavy; ROWS]>>,
    /// No rule applied when they were last tried.
    is_settled: bool,
    /// Bit s: a rule of slot s waits for a certificate of a lower slot; None where
    /// that was not asked since they were last tried.
    waiting: Option<u32>,
}

impl<'a> Call<'a> {
    pub fn new(words: &'a mut [u64], outbox: &'a mut [u64], found: Found) -> Self {
        let (head, rows) = words.split_at_mut(STAKES + found.nodes);
        let (total, own) = (head[TOTAL], head[OWN] as usize);
        Call {
            head,
            rows,
            outbox,
            made: 0,
            total,
            own,
            found,
            asked: 0,
            named: 0,
            weighed: 0,
            heavy: None,
            is_settled: false,
            waiting: None,
        }
    }

    // ---- reading ----

    pub fn words(&self) -> (&[u64], &[u64]) {
        (self.head, self.rows)
    }

    fn row(&self, slot: usize) -> &[u64] {
        &self.rows[slot * row_words(self.found.nodes)..][..row_words(self.found.nodes)]
    }

    fn cells(&self, slot: usize) -> &[u64] {
        &self.row(slot)[cells_at(self.found.nodes)..]
    }

    fn card(&self, slot: usize) -> Card {
        Card::of(self.row(slot))
    }

    fn stakes(&self) -> &[u64] {
        &self.head[STAKES..]
    }

    fn own_cell(&self, slot: usize) -> &Cell {
        cell(&self.cells(slot)[self.own * CELL..][..CELL])
    }

    pub fn has_no_initial(&self, slot: usize) -> bool {
        no_initial(self.own_cell(slot))
    }

    fn is_armed(&self, slot: usize) -> bool {
        self.head[ARMED + window_of(slot)] != 0
    }

    /// The parent that a block of a slot is kept with.
    fn kept(&self, slot: usize, number: u64) -> Option<(usize, u64)> {
        let mut kept = self.row(slot)[..BLOCKS].chunks_exact(BLOCK).take_while(|block| block[0] != 0);
        kept.find(|block| block[0] == number).map(|block| (block[1] as usize, block[2]))
    }

    /// The blocks with a fifth of the notar stake, or at least those of them that
    /// rule D takes: where all others together are too light there is the leading one.
    fn heavy(&mut self, slot: usize) -> Heavy {
        let card = self.card(slot);
        if !card.backs(self.found.notar[slot] - card.weight, self.total) {
            return Heavy::one(card.leader, card.weight);
        }
        let is_weighed = self.weighed >> slot & 1 == 1;
        let all = self.heavy.get_or_insert_with(|| Box::new([Heavy::default(); ROWS]));
        if !is_weighed {
            let nodes = self.found.nodes;
            let cells = &self.rows[slot * row_words(nodes)..][cells_at(nodes)..row_words(nodes)];
            all[slot] = Heavy::of(cells, &self.head[STAKES..], self.total);
            self.weighed |= 1 << slot;
        }
        all[slot]
    }

    // ---- what is held, by votes or kept ----

    /// The block of a kept certificate, 0 where none is.
    fn certified(&self, slot: usize, place: usize) -> u64 {
        certified(self.row(slot), self.found.nodes, place)
    }

    fn holds_skip(&self, slot: usize) -> bool {
        reaches(self.card(slot).skip_certificate, 3, self.total) || self.found.kept_4 >> slot & 1 == 1
    }

    fn holds_final(&self, slot: usize) -> bool {
        reaches(self.card(slot).final_votes, 3, self.total) || self.found.kept_5 >> slot & 1 == 1
    }

    /// Kind 2 for one block.
    fn holds_notar(&self, slot: usize, block: u64) -> bool {
        let card = self.card(slot);
        (card.leader == block && card.is_notarized(self.total))
            || self.certified(slot, PLACE_OF_2) == block
            || self.certified(slot, PLACE_OF_1) == block
    }

    /// Kind 3 for one block; kind 2 is held only where 3 is.
    fn holds_block(&self, slot: usize, block: u64) -> bool {
        self.holds_notar(slot, block)
            || PLACES_OF_3.into_iter().any(|place| self.certified(slot, place) == block)
            || reaches(behind(block, self.cells(slot), self.stakes()), 3, self.total)
    }

    fn holds_some_block(&mut self, slot: usize) -> bool {
        let certified = |place| self.certified(slot, place) != 0;
        if self.card(slot).is_notarized(self.total)
            || [PLACE_OF_1, PLACE_OF_2, PLACES_OF_3.start].into_iter().any(certified)
        {
            return true;
        }
        reaches(self.found.naming[slot], 3, self.total) && self.votes_certify_some(slot)
    }

    /// Whether votes hold kind 3 for some block, where none holds kind 2.
    fn votes_certify_some(&mut self, slot: usize) -> bool {
        if self.asked >> slot & 1 == 0 {
            self.asked |= 1 << slot;
            self.named |= u32::from(some_behind(self.cells(slot), self.stakes(), self.total)) << slot;
        }
        self.named >> slot & 1 == 1
    }

    /// Kind 1, or kinds 2 and 5, for one block.
    fn holds_proof(&self, slot: usize, block: u64) -> bool {
        let card = self.card(slot);
        (card.leader == block && reaches(card.weight, 4, self.total))
            || self.certified(slot, PLACE_OF_1) == block
            || (self.holds_notar(slot, block) && self.holds_final(slot))
    }

    // ---- writing ----

    fn tell(&mut self, kind: u64, slot: usize, block: u64) {
        self.outbox[3 * self.made..3 * self.made + 3].copy_from_slice(&[kind, slot as u64, block]);
        self.made += 1;
    }

    /// The vote has a place in that cell.
    pub fn store(&mut self, kind: u64, node: usize, slot: usize, block: u64) {
        let mut card = self.card(slot);
        card.add(kind, node, block, self.cells(slot), self.stakes());
        let row = slot * row_words(self.found.nodes);
        self.rows[row + CARD..row + CARD + CARD_WORDS].copy_from_slice(&card.words());
        let stake = self.head[STAKES + node];
        let cell = &mut self.rows[row + cells_at(self.found.nodes) + node * CELL..][..CELL];
        if kind <= 2 && cell[NOTAR] | cell[FALLBACKS.start] == 0 {
            self.found.naming[slot] += stake;
        }
        match kind {
            1 => cell[NOTAR] = block,
            2 => *cell[FALLBACKS].iter_mut().find(|place| **place == 0).expect("a free place") = block,
            3 => cell[SKIP] = 1,
            4 => cell[SKIP_FALLBACK] = 1,
            _ => cell[FINAL_VOTE] = 1,
        }
        if kind == 1 {
            self.found.notar[slot] += stake;
            self.weighed &= !(1 << slot);
        }
        if kind <= 2 && self.asked & !self.named & 1 << slot != 0 {
            // No other block has more behind it than before.
            let weight = behind(block, self.cells(slot), self.stakes());
            self.named |= u32::from(reaches(weight, 3, self.total)) << slot;
        }
    }

    /// The certificate, its block and masks, has that place.
    pub fn keep(&mut self, slot: usize, place: usize, words: &[u64]) {
        let at = slot * row_words(self.found.nodes) + CERTIFICATES + place * place_words(self.found.nodes);
        self.rows[at..at + words.len()].copy_from_slice(words);
        match place {
            PLACE_OF_4 => self.found.kept_4 |= 1 << slot,
            PLACE_OF_5 => self.found.kept_5 |= 1 << slot,
            _ => {}
        }
    }

    fn cast(&mut self, kind: u64, slot: usize, block: u64) {
        self.store(kind, self.own, slot, block);
        self.tell(kind, slot, block);
    }

    pub fn cast_skips(&mut self, slot: usize) -> bool {
        let before = self.made;
        let first = window_of(slot) * WINDOW + 1;
        for slot in first..first + WINDOW {
            if self.has_no_initial(slot) {
                self.cast(3, slot, 0);
            }
        }
        self.made > before
    }

    // ---- rules ----

    /// From slot 1 again after each rule that applies.
    pub fn settle(&mut self) {
        while (1..=LAST_SLOT).any(|slot| self.apply(slot)) {}
        self.is_settled = true;
        self.waiting = None;
    }

    fn all_waiting(&self) -> u32 {
        (1..=LAST_SLOT).fold(0, |bits, slot| bits | u32::from(self.waits(slot)) << slot)
    }

    /// Another node's vote, which has a place, and the rules. Where none applied
    /// before, those of other slots can now only where they wait for a certificate
    /// that the vote may have made.
    pub fn take(&mut self, kind: u64, node: usize, slot: usize, block: u64) {
        if !self.is_settled || ASKS_EVERY_SLOT.load(Relaxed) {
            self.store(kind, node, slot, block);
            return self.settle();
        }
        let before = self.card(slot);
        let waiting = self.waiting.unwrap_or_else(|| self.all_waiting());
        self.store(kind, node, slot, block);
        if waiting >> slot > 1 && self.may_certify(kind, slot, block, &before) || self.apply(slot) {
            self.settle();
        } else {
            self.waiting = Some(waiting & !(1 << slot) | u32::from(self.waits(slot)) << slot);
        }
    }

    fn may_certify(&self, kind: u64, slot: usize, block: u64, before: &Card) -> bool {
        let has_skip = |card: &Card| reaches(card.skip_certificate, 3, self.total);
        match kind {
            1 | 2 => {
                let was_held = block == before.leader && before.is_notarized(self.total);
                reaches(self.found.naming[slot], 3, self.total) && !was_held
            }
            3 | 4 => has_skip(&self.card(slot)) && !has_skip(before),
            _ => false,
        }
    }

    /// A and B in a window's first slot, D elsewhere.
    fn waits(&self, slot: usize) -> bool {
        let (row, own) = (self.row(slot), self.own_cell(slot));
        let has_block = row[0] != 0;
        if is_first(slot) {
            return !self.is_armed(slot) || (has_block && no_initial(own));
        }
        let card = self.card(slot);
        let backs = |weight| card.backs(weight, self.total);
        has_block
            && !no_initial(own)
            && backs(card.weight)
            && (card.leader != own[NOTAR] || backs(self.found.notar[slot] - card.weight))
    }

    fn apply(&mut self, slot: usize) -> bool {
        self.arm(slot)
            || self.vote_in(slot)
            || self.finalize(slot)
            || (self.row(slot)[FINAL] != 0 && self.walk(slot))
    }

    /// A.
    fn arm(&mut self, slot: usize) -> bool {
        let applies = is_first(slot) && !self.is_armed(slot) && self.some_parent_ready(slot);
        if applies {
            self.head[ARMED + window_of(slot)] = 1;
            self.tell(TOLD_ARMED, slot, 0);
        }
        applies
    }

    fn some_parent_ready(&mut self, slot: usize) -> bool {
        for below in (1..slot).rev() {
            if self.holds_some_block(below) {
                return true;
            }
            if !self.holds_skip(below) {
                return false;
            }
        }
        true
    }

    fn is_ready(&mut self, slot: usize, parent_slot: usize, parent: u64) -> bool {
        let held = match parent_slot {
            0 => parent == self.head[GENESIS],
            below => self.holds_block(below, parent),
        };
        held && (parent_slot + 1..slot).all(|between| self.holds_skip(between))
    }

    /// B without an own initial vote, C, D and E with one.
    fn vote_in(&mut self, slot: usize) -> bool {
        let own = *self.own_cell(slot);
        if no_initial(&own) {
            self.notarize(slot)
        } else {
            self.vote_final(slot, &own) || self.fall_back(slot, &own) || self.fall_back_to_skip(slot, &own)
        }
    }

    /// B.
    fn notarize(&mut self, slot: usize) -> bool {
        let &[number, parent_slot, parent] =
            <&[u64; BLOCK]>::try_from(&self.row(slot)[..BLOCK]).expect("three words");
        let parent_slot = parent_slot as usize;
        let applies = number != 0
            && if is_first(slot) {
                self.is_ready(slot, parent_slot, parent)
            } else {
                parent_slot == slot - 1 && self.own_cell(slot - 1)[NOTAR] == parent
            };
        if applies {
            self.cast(1, slot, number);
        }
        applies
    }

    /// C.
    fn vote_final(&mut self, slot: usize, own: &Cell) -> bool {
        let applies = own[NOTAR] != 0
            && own[FALLBACKS.start] | own[SKIP_FALLBACK] | own[FINAL_VOTE] == 0
            && self.holds_notar(slot, own[NOTAR]);
        if applies {
            self.cast(5, slot, 0);
        }
        applies
    }

    /// D.
    fn fall_back(&mut self, slot: usize, own: &Cell) -> bool {
        let (card, total) = (self.card(slot), self.total);
        if !card.backs(card.weight, total) {
            return false;
        }
        let heavy = self.heavy(slot);
        for &(block, weight) in heavy.blocks() {
            if block == own[NOTAR]
                || !card.backs(weight, total)
                || !(is_first(slot) || self.is_kept_upon_certified(slot, block))
            {
                continue;
            }
            let skipped = self.cast_skips(slot);
            let falls_back = own[FINAL_VOTE] == 0 && !own[FALLBACKS].contains(&block);
            if falls_back {
                self.cast(2, slot, block);
            }
            if skipped || falls_back {
                return true;
            }
        }
        false
    }

    /// Genesis's row is blank, so nothing is held there.
    fn is_kept_upon_certified(&self, slot: usize, block: u64) -> bool {
        let kept = self.kept(slot, block);
        kept.map_or(false, |(below, parent)| self.holds_block(below, parent))
    }

    /// E.
    fn fall_back_to_skip(&mut self, slot: usize, own: &Cell) -> bool {
        if own[NOTAR] == 0 || !self.is_scattered(slot) {
            return false;
        }
        let skipped = self.cast_skips(slot);
        let falls_back = own[FINAL_VOTE] | own[SKIP_FALLBACK] == 0;
        if falls_back {
            self.cast(4, slot, 0);
        }
        skipped || falls_back
    }

    /// Skip votes and those for all blocks but the leading one have 40 percent.
    /// Nobody has both, so with the leading one they are at most all.
    fn is_scattered(&mut self, slot: usize) -> bool {
        let (card, total) = (self.card(slot), self.total);
        if reaches(card.skip, 2, total) {
            return true;
        }
        reaches(total - card.weight, 2, total)
            && reaches(card.skip + self.found.notar[slot] - card.weight, 2, total)
    }

    /// F: by votes no other block than the leading one has kind 1 or 2.
    fn finalize(&mut self, slot: usize) -> bool {
        let leader = self.card(slot).leader;
        let kept = [self.certified(slot, PLACE_OF_1), self.certified(slot, PLACE_OF_2)];
        if kept == [0, 0] {
            return self.finalize_block(slot, leader);
        }
        let mut blocks = [leader, kept[0], kept[1]];
        blocks.sort_unstable();
        blocks.into_iter().any(|block| self.finalize_block(slot, block))
    }

    fn finalize_block(&mut self, slot: usize, block: u64) -> bool {
        block != 0
            && block != self.row(slot)[FINAL]
            && self.holds_proof(slot, block)
            && self.tell_final(slot, block)
    }

    fn row_word(&mut self, slot: usize, place: usize) -> &mut u64 {
        &mut self.rows[slot * row_words(self.found.nodes) + place]
    }

    /// A block is final: told where the slot has none, and once where it has another.
    fn tell_final(&mut self, slot: usize, block: u64) -> bool {
        if self.row(slot)[FINAL] == 0 {
            *self.row_word(slot, FINAL) = block;
            self.tell(TOLD_FINAL, slot, block);
            return true;
        }
        let applies = self.row(slot)[CLASH] == 0;
        if applies {
            *self.row_word(slot, CLASH) = 1;
            self.tell(TOLD_CONFLICT, slot, block);
        }
        applies
    }

    /// G. Where the first step tells nothing, lower slots tell the rest, and they
    /// were tried before.
    fn walk(&mut self, slot: usize) -> bool {
        let (before, mut slot) = (self.made, slot);
        while let Some((below, parent)) = self.kept(slot, self.row(slot)[FINAL]) {
            if below == 0 || self.row(below)[FINAL] == parent && self.made == before {
                break;
            }
            if self.row(below)[FINAL] != parent {
                self.tell_final(below, parent);
            }
            if self.row(below)[FINAL] != parent {
                break;
            }
            slot = below;
        }
        self.made > before
    }
}
