//! The C face, `include/quointrowel.h`, function by function: the only module with unsafe code.
//!
//! What the header asks of a host, a slice or a reference has by itself: its pointer is not null and aligned, it has as many
//! elements as its length says, and what is lent as `&mut` overlaps nothing else that is lent. Numbers, lengths and contents may be
//! anything. So each function here is safe to call, and answers the library's number with the values beside it.

/// The header's declarations, each slice as its pointer and its length.
#[rustfmt::skip]
mod c {
    extern "C" {
        pub fn qr_version() -> u64;
        pub fn qr_record_words(stake_count: usize) -> usize;
        pub fn qr_outbox_words() -> usize;
        pub fn qr_pieces_words() -> usize;
        pub fn qr_pieces_bytes() -> usize;
        pub fn qr_start(record: *mut u64, record_words: usize, stakes: *const u64, stake_count: usize, own: usize, genesis: u64) -> u64;
        pub fn qr_watch(record: *mut u64, record_words: usize, stakes: *const u64, stake_count: usize, genesis: u64) -> u64;
        pub fn qr_vote(record: *mut u64, record_words: usize, outbox: *mut u64, outbox_words: usize, made: *mut usize,
                       kind: u64, node: usize, slot: usize, block: u64) -> u64;
        pub fn qr_block(record: *mut u64, record_words: usize, outbox: *mut u64, outbox_words: usize, made: *mut usize,
                        slot: usize, number: u64, parent_slot: usize, parent: u64) -> u64;
        pub fn qr_timeout(record: *mut u64, record_words: usize, outbox: *mut u64, outbox_words: usize, made: *mut usize,
                          slot: usize) -> u64;
        pub fn qr_look(record: *mut u64, record_words: usize, outbox: *mut u64, outbox_words: usize, made: *mut usize) -> u64;
        pub fn qr_take(record: *mut u64, record_words: usize, outbox: *mut u64, outbox_words: usize, made: *mut usize,
                       packet: *const u8, packet_bytes: usize) -> u64;
        pub fn qr_tray(record: *mut u64, record_words: usize, outbox: *mut u64, outbox_words: usize, made: *mut usize,
                       votes: *const u64, vote_words: usize, answers: *mut u64, answer_count: usize) -> u64;
        pub fn qr_write_certificate(record: *const u64, record_words: usize, buffer: *mut u8, buffer_bytes: usize,
                                    written: *mut usize, kind: u64, slot: usize, block: u64) -> u64;
        pub fn qr_write_proof(record: *const u64, record_words: usize, buffer: *mut u8, buffer_bytes: usize,
                              written: *mut usize, slot: usize, block: u64) -> u64;
        pub fn qr_card(record: *const u64, record_words: usize, slot: usize, values: *mut [u64; 5]) -> u64;
        pub fn qr_final_block(record: *const u64, record_words: usize, slot: usize, block: *mut u64) -> u64;
        pub fn qr_is_armed(record: *const u64, record_words: usize, slot: usize, armed: *mut u64) -> u64;
        pub fn qr_may_announce(record: *const u64, record_words: usize, slot: usize, number: u64, parent_slot: usize,
                               parent: u64, now: *mut u64) -> u64;
        pub fn qr_split_proof(record: *const u64, record_words: usize, packet: *const u8, packet_bytes: usize,
                              first: *mut usize) -> u64;
        pub fn qr_kept_votes(record: *const u64, record_words: usize, slot: usize, node: usize, values: *mut [u64; 7]) -> u64;
        pub fn qr_kept_blocks(record: *const u64, record_words: usize, slot: usize, values: *mut [u64; 12]) -> u64;
        pub fn qr_slot_marks(record: *const u64, record_words: usize, slot: usize, values: *mut [u64; 2]) -> u64;
        pub fn qr_head(record: *const u64, record_words: usize, values: *mut [u64; 4]) -> u64;
        pub fn qr_kept_certificates(record: *const u64, record_words: usize, slot: usize, list: *mut u64, list_words: usize,
                                    beside: *mut usize) -> u64;
        pub fn qr_block_weights(record: *const u64, record_words: usize, slot: usize, block: u64, values: *mut [u64; 4]) -> u64;
        pub fn qr_check_certificate(stakes: *const u64, stake_count: usize, packet: *const u8, packet_bytes: usize,
                                    values: *mut [u64; 5], missing: *mut u64) -> u64;
        pub fn qr_check_proof(stakes: *const u64, stake_count: usize, packet: *const u8, packet_bytes: usize,
                              values: *mut [u64; 5], missing: *mut u64) -> u64;
        pub fn qr_piece(words: *mut u64, word_count: usize, front: *mut u8, front_bytes: usize,
                        stakes: *const u64, stake_count: usize, bytes: *const u8, byte_count: usize) -> u64;
        pub fn qr_end(words: *mut u64, word_count: usize, front: *mut u8, front_bytes: usize,
                      values: *mut [u64; 5], missing: *mut u64) -> u64;
        pub fn qr_read_vote(node_count: usize, message: *const u8, message_bytes: usize, values: *mut [u64; 4]) -> u64;
        pub fn qr_write_vote(buffer: *mut u8, buffer_bytes: usize, written: *mut usize, node_count: usize,
                             kind: u64, node: usize, slot: usize, block: u64) -> u64;
        pub fn qr_differ(first: *const u64, first_words: usize, second: *const u64, second_words: usize,
                         list: *mut u64, list_words: usize, beside: *mut usize) -> u64;
        pub fn qr_stands(record: *const u64, record_words: usize, list: *mut u64, list_words: usize,
                         beside: *mut usize) -> u64;
        pub fn qr_vouched(first: *const u64, first_words: usize, second: *const u64, second_words: usize,
                          list: *mut u64, list_words: usize, beside: *mut usize) -> u64;
        pub fn qr_vouched_packet(record: *const u64, record_words: usize, packet: *const u8, packet_bytes: usize,
                                 list: *mut u64, list_words: usize, beside: *mut usize) -> u64;
        pub fn qr_same_parents(first: *const u64, first_words: usize, second: *const u64, second_words: usize,
                               list: *mut u64, list_words: usize, beside: *mut usize) -> u64;
        pub fn qr_refusal_text(buffer: *mut u8, buffer_bytes: usize, written: *mut usize, number: u64) -> u64;
    }
}

/// A call's number and the one beside it: records made, bytes written, lines.
pub type Counted = (u64, usize);

fn counted(call: impl FnOnce(&mut usize) -> u64) -> Counted {
    let mut count = 0;
    (call(&mut count), count)
}

/// A check's number, values and missing stake.
pub type Check = (u64, [u64; 5], u64);

fn checked(call: impl FnOnce(&mut [u64; 5], &mut u64) -> u64) -> Check {
    let (mut values, mut missing) = ([0; 5], 0);
    (call(&mut values, &mut missing), values, missing)
}

pub fn version() -> u64 {
    unsafe { c::qr_version() }
}

pub fn record_words(stake_count: usize) -> usize {
    unsafe { c::qr_record_words(stake_count) }
}

pub fn outbox_words() -> usize {
    unsafe { c::qr_outbox_words() }
}

pub fn pieces_words() -> usize {
    unsafe { c::qr_pieces_words() }
}

pub fn pieces_bytes() -> usize {
    unsafe { c::qr_pieces_bytes() }
}

pub fn start(record: &mut [u64], stakes: &[u64], own: usize, genesis: u64) -> u64 {
    unsafe { c::qr_start(record.as_mut_ptr(), record.len(), stakes.as_ptr(), stakes.len(), own, genesis) }
}

pub fn watch(record: &mut [u64], stakes: &[u64], genesis: u64) -> u64 {
    unsafe { c::qr_watch(record.as_mut_ptr(), record.len(), stakes.as_ptr(), stakes.len(), genesis) }
}

pub fn vote(
    record: &mut [u64],
    outbox: &mut [u64],
    kind: u64,
    node: usize,
    slot: usize,
    block: u64,
) -> Counted {
    let (words, room) = (record.len(), outbox.len());
    let (record, outbox) = (record.as_mut_ptr(), outbox.as_mut_ptr());
    counted(|made| unsafe { c::qr_vote(record, words, outbox, room, made, kind, node, slot, block) })
}

pub fn block(
    record: &mut [u64],
    outbox: &mut [u64],
    slot: usize,
    number: u64,
    parent_slot: usize,
    parent: u64,
) -> Counted {
    let (words, room) = (record.len(), outbox.len());
    let (record, outbox) = (record.as_mut_ptr(), outbox.as_mut_ptr());
    counted(|made| unsafe {
        c::qr_block(record, words, outbox, room, made, slot, number, parent_slot, parent)
    })
}

pub fn timeout(record: &mut [u64], outbox: &mut [u64], slot: usize) -> Counted {
    let (words, room) = (record.len(), outbox.len());
    let (record, outbox) = (record.as_mut_ptr(), outbox.as_mut_ptr());
    counted(|made| unsafe { c::qr_timeout(record, words, outbox, room, made, slot) })
}

pub fn look(record: &mut [u64], outbox: &mut [u64]) -> Counted {
    let (words, room) = (record.len(), outbox.len());
    let (record, outbox) = (record.as_mut_ptr(), outbox.as_mut_ptr());
    counted(|made| unsafe { c::qr_look(record, words, outbox, room, made) })
}

pub fn take(record: &mut [u64], outbox: &mut [u64], packet: &[u8]) -> Counted {
    let (words, room) = (record.len(), outbox.len());
    let (record, outbox) = (record.as_mut_ptr(), outbox.as_mut_ptr());
    counted(|made| unsafe { c::qr_take(record, words, outbox, room, made, packet.as_ptr(), packet.len()) })
}

pub fn tray(record: &mut [u64], outbox: &mut [u64], votes: &[u64], answers: &mut [u64]) -> Counted {
    let (words, room, places) = (record.len(), outbox.len(), answers.len());
    let (record, outbox, answers) = (record.as_mut_ptr(), outbox.as_mut_ptr(), answers.as_mut_ptr());
    counted(|made| unsafe {
        c::qr_tray(record, words, outbox, room, made, votes.as_ptr(), votes.len(), answers, places)
    })
}

pub fn write_certificate(record: &[u64], buffer: &mut [u8], kind: u64, slot: usize, block: u64) -> Counted {
    let (room, buffer) = (buffer.len(), buffer.as_mut_ptr());
    counted(|written| unsafe {
        c::qr_write_certificate(record.as_ptr(), record.len(), buffer, room, written, kind, slot, block)
    })
}

pub fn write_proof(record: &[u64], buffer: &mut [u8], slot: usize, block: u64) -> Counted {
    let (room, buffer) = (buffer.len(), buffer.as_mut_ptr());
    counted(|written| unsafe {
        c::qr_write_proof(record.as_ptr(), record.len(), buffer, room, written, slot, block)
    })
}

pub fn card(record: &[u64], slot: usize) -> (u64, [u64; 5]) {
    let mut values = [0; 5];
    let number = unsafe { c::qr_card(record.as_ptr(), record.len(), slot, &mut values) };
    (number, values)
}

pub fn final_block(record: &[u64], slot: usize) -> (u64, u64) {
    let mut block = 0;
    let number = unsafe { c::qr_final_block(record.as_ptr(), record.len(), slot, &mut block) };
    (number, block)
}

pub fn is_armed(record: &[u64], slot: usize) -> (u64, u64) {
    let mut armed = 0;
    let number = unsafe { c::qr_is_armed(record.as_ptr(), record.len(), slot, &mut armed) };
    (number, armed)
}

pub fn may_announce(record: &[u64], slot: usize, number: u64, parent_slot: usize, parent: u64) -> (u64, u64) {
    let (record, words) = (record.as_ptr(), record.len());
    let mut now = 0;
    let answer = unsafe { c::qr_may_announce(record, words, slot, number, parent_slot, parent, &mut now) };
    (answer, now)
}

pub fn split_proof(record: &[u64], packet: &[u8]) -> Counted {
    let (record, words) = (record.as_ptr(), record.len());
    counted(|first| unsafe { c::qr_split_proof(record, words, packet.as_ptr(), packet.len(), first) })
}

pub fn kept_votes(record: &[u64], slot: usize, node: usize) -> (u64, [u64; 7]) {
    let mut values = [0; 7];
    let number = unsafe { c::qr_kept_votes(record.as_ptr(), record.len(), slot, node, &mut values) };
    (number, values)
}

pub fn kept_blocks(record: &[u64], slot: usize) -> (u64, [u64; 12]) {
    let mut values = [0; 12];
    let number = unsafe { c::qr_kept_blocks(record.as_ptr(), record.len(), slot, &mut values) };
    (number, values)
}

pub fn slot_marks(record: &[u64], slot: usize) -> (u64, [u64; 2]) {
    let mut values = [0; 2];
    let number = unsafe { c::qr_slot_marks(record.as_ptr(), record.len(), slot, &mut values) };
    (number, values)
}

pub fn head(record: &[u64]) -> (u64, [u64; 4]) {
    let mut values = [0; 4];
    let number = unsafe { c::qr_head(record.as_ptr(), record.len(), &mut values) };
    (number, values)
}

pub fn kept_certificates(record: &[u64], slot: usize, list: &mut [u64]) -> Counted {
    let (room, list) = (list.len(), list.as_mut_ptr());
    counted(|beside| unsafe {
        c::qr_kept_certificates(record.as_ptr(), record.len(), slot, list, room, beside)
    })
}

pub fn block_weights(record: &[u64], slot: usize, block: u64) -> (u64, [u64; 4]) {
    let mut values = [0; 4];
    let number = unsafe { c::qr_block_weights(record.as_ptr(), record.len(), slot, block, &mut values) };
    (number, values)
}

pub fn check_certificate(stakes: &[u64], packet: &[u8]) -> Check {
    checked(|values, missing| unsafe {
        c::qr_check_certificate(stakes.as_ptr(), stakes.len(), packet.as_ptr(), packet.len(), values, missing)
    })
}

pub fn check_proof(stakes: &[u64], packet: &[u8]) -> Check {
    checked(|values, missing| unsafe {
        c::qr_check_proof(stakes.as_ptr(), stakes.len(), packet.as_ptr(), packet.len(), values, missing)
    })
}

pub fn piece(words: &mut [u64], front: &mut [u8], stakes: &[u64], bytes: &[u8]) -> u64 {
    let (word_count, front_bytes) = (words.len(), front.len());
    let (words, front) = (words.as_mut_ptr(), front.as_mut_ptr());
    let (stake_count, stakes) = (stakes.len(), stakes.as_ptr());
    unsafe {
        c::qr_piece(words, word_count, front, front_bytes, stakes, stake_count, bytes.as_ptr(), bytes.len())
    }
}

pub fn end(words: &mut [u64], front: &mut [u8]) -> Check {
    let (word_count, front_bytes) = (words.len(), front.len());
    let (words, front) = (words.as_mut_ptr(), front.as_mut_ptr());
    checked(|values, missing| unsafe { c::qr_end(words, word_count, front, front_bytes, values, missing) })
}

pub fn read_vote(node_count: usize, message: &[u8]) -> (u64, [u64; 4]) {
    let mut values = [0; 4];
    let number = unsafe { c::qr_read_vote(node_count, message.as_ptr(), message.len(), &mut values) };
    (number, values)
}

pub fn write_vote(
    buffer: &mut [u8],
    node_count: usize,
    kind: u64,
    node: usize,
    slot: usize,
    block: u64,
) -> Counted {
    let (room, buffer) = (buffer.len(), buffer.as_mut_ptr());
    counted(|written| unsafe { c::qr_write_vote(buffer, room, written, node_count, kind, node, slot, block) })
}

pub fn differ(first: &[u64], second: &[u64], list: &mut [u64]) -> Counted {
    let (room, list) = (list.len(), list.as_mut_ptr());
    counted(|beside| unsafe {
        c::qr_differ(first.as_ptr(), first.len(), second.as_ptr(), second.len(), list, room, beside)
    })
}

pub fn stands(record: &[u64], list: &mut [u64]) -> Counted {
    let (room, list) = (list.len(), list.as_mut_ptr());
    counted(|beside| unsafe { c::qr_stands(record.as_ptr(), record.len(), list, room, beside) })
}

pub fn vouched(first: &[u64], second: &[u64], list: &mut [u64]) -> Counted {
    let (room, list) = (list.len(), list.as_mut_ptr());
    counted(|beside| unsafe {
        c::qr_vouched(first.as_ptr(), first.len(), second.as_ptr(), second.len(), list, room, beside)
    })
}

pub fn vouched_packet(record: &[u64], packet: &[u8], list: &mut [u64]) -> Counted {
    let (room, list) = (list.len(), list.as_mut_ptr());
    counted(|beside| unsafe {
        c::qr_vouched_packet(record.as_ptr(), record.len(), packet.as_ptr(), packet.len(), list, room, beside)
    })
}

pub fn same_parents(first: &[u64], second: &[u64], list: &mut [u64]) -> Counted {
    let (room, list) = (list.len(), list.as_mut_ptr());
    counted(|beside| unsafe {
        c::qr_same_parents(first.as_ptr(), first.len(), second.as_ptr(), second.len(), list, room, beside)
    })
}

pub fn refusal_text(buffer: &mut [u8], number: u64) -> Counted {
    let (room, buffer) = (buffer.len(), buffer.as_mut_ptr());
    counted(|written| unsafe { c::qr_refusal_text(buffer, room, written, number) })
}
