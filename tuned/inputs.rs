//! The inputs, each with its refusals in the document's order.

#[cfg(test)]
use super::card::Card;
use super::checker::{check_whole, Table};
use super::layout::*;
use super::rules::Call;
use super::sound::{sound, Found};

const BAD_RECORD: u64 = 17;
const NO_ROOM: u64 = 9;

/// Makes the words a fresh node.
pub fn start(words: &mut [u64], stakes: &[u64], own: u64, genesis: u64) -> u64 {
    if words.len() != record_words(stakes.len().min(MOST_NODES)) {
        return BAD_RECORD;
    }
    let total = match total_of(stakes) {
        Some(total) if own < stakes.len() as u64 && genesis != 0 => total,
        _ => return 1,
    };
    words.fill(0);
    words[..ARMED].copy_from_slice(&[stakes.len() as u64, total, own, genesis]);
    words[STAKES..STAKES + stakes.len()].copy_from_slice(stakes);
    0
}

/// 17, 9.
fn open(words: &[u64], outbox: &[u64]) -> Result<Found, u64> {
    let found = sound(words).ok_or(BAD_RECORD)?;
    if outbox.len() < OUTBOX_WORDS {
        return Err(NO_ROOM);
    }
    Ok(found)
}

/// Works on a record; answers how many records were made.
fn call(words: &mut [u64], outbox: &mut [u64], found: Found, work: impl FnOnce(&mut Call<'_>)) -> usize {
    let mut call = Call::new(words, outbox, found);
    work(&mut call);
    call.made
}

/// The number, 0 or a refusal's, and how many records were made.
type Answer = (u64, usize);

fn answer(done: Result<usize, u64>) -> Answer {
    match done {
        Ok(made) => (0, made),
        Err(number) => (number, 0),
    }
}

// ---- votes ----

pub fn vote(words: &mut [u64], outbox: &mut [u64], vote: [u64; 4]) -> Answer {
    answer(open(words, outbox).and_then(|found| {
        let (head, rows) = words.split_at(STAKES + found.nodes);
        judge(head, rows, vote)?;
        Ok(call(words, outbox, found, |call| take(call, vote)))
    }))
}

/// 4, 3, 2, 6, 5, 7, 8.
fn judge(head: &[u64], rows: &[u64], [kind, node, slot, block]: [u64; 4]) -> Result<(), u64> {
    if !(1..=5).contains(&kind) {
        return Err(4);
    }
    if slot < 1 || slot > LAST_SLOT as u64 {
        return Err(3);
    }
    if node >= head[COUNT] {
        return Err(2);
    }
    if node == head[OWN] {
        return Err(6);
    }
    if (kind <= 2) != (block != 0) {
        return Err(5);
    }
    let nodes = head[COUNT] as usize;
    let at = slot as usize * row_words(nodes) + cells_at(nodes) + node as usize * CELL;
    let cell = cell(&rows[at..at + CELL]);
    let (is_kept, has_place) = match kind {
        1 => (cell[NOTAR] == block, no_initial(cell)),
        2 => (cell[FALLBACKS].contains(&block), cell[FALLBACKS.end - 1] == 0),
        3 => (cell[SKIP] != 0, no_initial(cell)),
        4 => (cell[SKIP_FALLBACK] != 0, true),
        _ => (cell[FINAL_VOTE] != 0, true),
    };
    if is_kept {
        return Err(7);
    }
    if has_place {
        Ok(())
    } else {
        Err(8)
    }
}

fn take(call: &mut Call<'_>, [kind, node, slot, block]: [u64; 4]) {
    call.take(kind, node as usize, slot as usize, block);
}

/// What was weighed for a vote stays for the votes after it.
pub fn tray(words: &mut [u64], outbox: &mut [u64], votes: &[u64], answers: &mut [u64]) -> Answer {
    answer(open(words, outbox).and_then(|found| {
        if answers.len() < votes.len() / 4 {
            return Err(NO_ROOM);
        }
        if votes.len() % 4 != 0 {
            return Err(12);
        }
        Ok(call(words, outbox, found, |call| {
            for (vote, answer) in votes.chunks_exact(4).zip(answers.iter_mut()) {
                let vote = vote.try_into().expect("four words");
                let (head, rows) = call.words();
                *answer = judge(head, rows, vote).map_or_else(|number| number, |()| 0);
                if *answer == 0 {
                    take(call, vote);
                }
            }
        }))
    }))
}

/// A vote stored and no rule run, to fill a record; it has a place.
pub fn store_vote(words: &mut [u64], kind: u64, node: usize, slot: usize, block: u64) {
    let found = Found::nothing(words[COUNT] as usize);
    Call::new(words, &mut [], found).store(kind, node, slot, block);
}

// ---- certificates from others ----

/// The checker's refusals, 7, 8; then the certificate is kept and the rules are run.
pub fn take_certificate(words: &mut [u64], outbox: &mut [u64], packet: &[u8]) -> Answer {
    answer(open(words, outbox).and_then(|found| {
        let (head, rows) = words.split_at(STAKES + found.nodes);
        let table = Table { stakes: &head[STAKES..], total: head[TOTAL] };
        let mut taken = [0; 1 + 2 * (MOST_NODES / 64)];
        let length = place_words(found.nodes);
        let keep = |a: &[u64], b: &[u64]| {
            taken[1..1 + a.len()].copy_from_slice(a);
            taken[1 + a.len()..length].copy_from_slice(b);
        };
        let [kind, slot, block, ..] = check_whole(&table, packet, keep).map_err(|(number, _)| number)?;
        taken[0] = block;
        let slot = slot as usize;
        let place = place_for(&rows[slot * row_words(found.nodes)..], &found, kind % 10, slot, block)?;
        Ok(call(words, outbox, found, |call| {
            call.keep(slot, place, &taken[..length]);
            call.settle();
        }))
    }))
}

/// A certificate that all signed kept and no rule run, to fill a record; it has a place.
pub fn store_certificate(words: &mut [u64], meaning: u64, slot: usize, block: u64) {
    let found = sound(words).expect("a record that is filled");
    let row = &words[STAKES + found.nodes + slot * row_words(found.nodes)..];
    let place = place_for(row, &found, meaning, slot, block).expect("a place");
    let mut kept = vec![0; place_words(found.nodes)];
    kept[0] = block;
    for node in 0..found.nodes {
        kept[1 + node / 64] |= 1 << (node % 64);
    }
    Call::new(words, &mut [], found).keep(slot, place, &kept);
}

/// 7, 8, or where the certificate goes.
fn place_for(row: &[u64], found: &Found, meaning: u64, slot: usize, block: u64) -> Result<usize, u64> {
    let one = |place: usize, is_taken: bool| match certified(row, found.nodes, place) {
        kept if is_taken && kept == block => Err(7),
        _ if is_taken => Err(8),
        _ => Ok(place),
    };
    let has_block = |place: usize| certified(row, found.nodes, place) != 0;
    match meaning {
        1 => one(PLACE_OF_1, has_block(PLACE_OF_1)),
        2 => one(PLACE_OF_2, has_block(PLACE_OF_2)),
        4 => one(PLACE_OF_4, found.kept_4 >> slot & 1 == 1),
        5 => one(PLACE_OF_5, found.kept_5 >> slot & 1 == 1),
        _ if PLACES_OF_3.into_iter().any(|place| certified(row, found.nodes, place) == block) => Err(7),
        _ => PLACES_OF_3.into_iter().find(|&place| !has_block(place)).ok_or(8),
    }
}

// ---- the other inputs ----

pub fn look(words: &mut [u64], outbox: &mut [u64]) -> Answer {
    answer(open(words, outbox).map(|found| call(words, outbox, found, |call| call.settle())))
}

/// 17, 3; the card's words beside it.
#[cfg(test)]
pub fn card(words: &[u64], slot: u64) -> (u64, [u64; CARD_WORDS]) {
    match sound(words) {
        None => (BAD_RECORD, [0; CARD_WORDS]),
        Some(_) if slot < 1 || slot > LAST_SLOT as u64 => (3, [0; CARD_WORDS]),
        Some(found) => {
            let row = &words[STAKES + found.nodes + slot as usize * row_words(found.nodes)..];
            (0, Card::of(row).words())
        }
    }
}

/// 3, 5, 11, 7, 8; then the block is kept and the rules are run.
pub fn block(words: &mut [u64], outbox: &mut [u64], block: [u64; 4]) -> Answer {
    answer(open(words, outbox).and_then(|found| {
        let [slot, number, parent_slot, parent] = block;
        if slot < 1 || slot > LAST_SLOT as u64 {
            return Err(3);
        }
        if number == 0 || parent == 0 {
            return Err(5);
        }
        if parent_slot >= slot || (parent_slot == 0 && parent != words[GENESIS]) {
            return Err(11);
        }
        let places = &mut words[STAKES + found.nodes + slot as usize * row_words(found.nodes)..][..BLOCKS];
        let kept: Vec<&[u64]> = places.chunks_exact(BLOCK).take_while(|kept| kept[0] != 0).collect();
        if kept.contains(&&block[1..]) {
            return Err(7);
        }
        let free = kept.len() * BLOCK;
        if free == BLOCKS || kept.iter().any(|kept| kept[0] == number) {
            return Err(8);
        }
        places[free..free + BLOCK].copy_from_slice(&block[1..]);
        Ok(call(words, outbox, found, |call| call.settle()))
    }))
}

/// 3, 10, 7; then the window's skips are cast and the rules are run.
pub fn timeout(words: &mut [u64], outbox: &mut [u64], slot: u64) -> Answer {
    answer(open(words, outbox).and_then(|found| {
        if slot < 1 || slot > LAST_SLOT as u64 {
            return Err(3);
        }
        let slot = slot as usize;
        if words[ARMED + window_of(slot)] == 0 {
            return Err(10);
        }
        let row = &mut words[STAKES + found.nodes + slot * row_words(found.nodes)..];
        if row[TIMED_OUT] != 0 {
            return Err(7);
        }
        row[TIMED_OUT] = 1;
        Ok(call(words, outbox, found, |call| {
            if call.has_no_initial(slot) {
                call.cast_skips(slot);
            }
            call.settle();
        }))
    }))
}
