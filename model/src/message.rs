//! Votes as bytes: kind, node, slot and block, four numbers.

use crate::node::{is_slot, Vote};
use crate::packet::{nothing_remains, put_number, take_number};
use crate::refusal::Refusal;
use crate::stakes::MOST_NODES;

#[derive(Clone, Copy, PartialEq, Eq, Debug)]
pub struct Message {
    pub kind: u64,
    pub node: u64,
    pub slot: u64,
    pub block: u64,
}

pub fn write(count: u64, message: Message) -> Result<Vec<u8>, Refusal> {
    judge_count(count)?;
    judge(count, message)?;
    let mut bytes = Vec::new();
    for number in [message.kind, message.node, message.slot, message.block] {
        put_number(&mut bytes, number);
    }
    Ok(bytes)
}

pub fn read(count: u64, bytes: &[u8]) -> Result<Message, Refusal> {
    judge_count(count)?;
    let mut rest = bytes;
    let message = Message {
        kind: take_number(&mut rest)?,
        node: take_number(&mut rest)?,
        slot: take_number(&mut rest)?,
        block: take_number(&mut rest)?,
    };
    judge(count, message)?;
    nothing_remains(rest)?;
    Ok(message)
}

fn judge_count(count: u64) -> Result<(), Refusal> {
    if (1..=MOST_NODES as u64).contains(&count) {
        Ok(())
    } else {
        Err(Refusal::Sizes)
    }
}

/// In the order 4, 3, 2, 5.
fn judge(count: u64, message: Message) -> Result<(), Refusal> {
    let vote = Vote::of_kind(message.kind, message.block)?;
    if !is_slot(message.slot) {
        return Err(Refusal::NoSuchSlot);
    }
    if message.node >= count {
        return Err(Refusal::NoSuchNode);
    }
    vote.allows_block(message.block)
}
