//! What the readers tell is what a host could have noted of its own calls: the blocks that were taken, in their order, the timeouts
//! that were taken, and the slots of which a conflict was told. The notes are kept apart from the library, over calls at random.

use quointrowel::*;

const STAKES: [u64; 4] = [3, 3, 3, 1];
const GENESIS: u64 = 1;

/// Numbers at random from a seed, each below a bound.
struct Chance(u64);

impl Chance {
    fn below(&mut self, bound: u64) -> u64 {
        self.0 = self.0.wrapping_mul(6364136223846793005).wrapping_add(1442695040888963407);
        (self.0 >> 33) % bound
    }
}

/// What a host notes of each slot.
#[derive(Default)]
struct Notes {
    blocks: [Vec<Block>; 17],
    timed_out: [bool; 17],
    conflict: [bool; 17],
}

impl Notes {
    fn told(&mut self, outbox: &Outbox) {
        for event in outbox.events() {
            if let Event::Conflict { slot, .. } = event {
                self.conflict[slot.0] = true;
            }
        }
    }

    fn check(&self, record: &Record) {
        for slot in 1..=16 {
            assert_eq!(record.kept_blocks(Slot(slot)).as_ref(), Ok(&self.blocks[slot]));
            let marks = Marks { timed_out: self.timed_out[slot], conflict: self.conflict[slot] };
            assert_eq!(record.slot_marks(Slot(slot)), Ok(marks));
        }
    }
}

fn some_block(chance: &mut Chance) -> Block {
    let slot = 1 + chance.below(16);
    let parent_slot = chance.below(slot);
    let parent = if parent_slot == 0 { GENESIS } else { 2 + chance.below(6) };
    Block {
        slot: Slot(slot as usize),
        number: 2 + chance.below(6),
        parent_slot: Slot(parent_slot as usize),
        parent,
    }
}

/// One call at random, noted where it was done.
fn call(chance: &mut Chance, record: &mut Record, outbox: &mut Outbox, notes: &mut Notes) {
    let slot = 1 + chance.below(16) as usize;
    let done = match chance.below(8) {
        0 => {
            let done = record.timeout(outbox, Slot(slot));
            notes.timed_out[slot] |= done.is_ok();
            done
        }
        // Signed by all: the block is final at once.
        1 => record.take(outbox, &[1, slot as u8, 2 + chance.below(6) as u8, 0b1111, 0]),
        2 | 3 => {
            let kinds = [VoteKind::Notar, VoteKind::Skip, VoteKind::SkipFallback, VoteKind::Final];
            let kind = kinds[chance.below(4) as usize];
            let block = if kind == VoteKind::Notar { 2 + chance.below(6) } else { 0 };
            record.vote(
                outbox,
                Vote { kind, node: Node(1 + chance.below(3) as usize), slot: Slot(slot), block },
            )
        }
        _ => {
            let block = some_block(chance);
            let done = record.block(outbox, block);
            if done.is_ok() {
                notes.blocks[block.slot.0].push(block);
            }
            done
        }
    };
    if done.is_ok() {
        notes.told(outbox);
    }
}

#[test]
fn readers_tell_what_a_host_noted() {
    let (mut full, mut timeouts, mut conflicts) = (0, 0, 0);
    for seed in 0..20 {
        let (mut chance, mut notes, mut outbox) = (Chance(seed), Notes::default(), Outbox::new());
        let mut record = Record::start(&STAKES, Node(0), GENESIS).unwrap();
        for _ in 0..150 {
            call(&mut chance, &mut record, &mut outbox, &mut notes);
            notes.check(&record);
        }
        assert_eq!(record.head(), Ok(Head { own: Node(0), nodes: 4, stake: Weight(10), genesis: GENESIS }));
        full += notes.blocks.iter().filter(|blocks| blocks.len() == 4).count();
        timeouts += notes.timed_out.iter().filter(|&&there| there).count();
        conflicts += notes.conflict.iter().filter(|&&there| there).count();
    }
    // Each was met: four blocks in a slot, a timeout, another final block.
    assert!(full > 0 && timeouts > 0 && conflicts > 0, "{full} {timeouts} {conflicts}");
}
