//! Certificates and proofs, checked against the stakes alone.

use super::layout::*;

/// 64 bits need ten groups of seven.
const TENTH: u32 = 63;

/// The number, the five values and what is missing.
pub type Check = (u64, [u64; 5], u64);

/// A table that breaks no size.
pub struct Table<'a> {
    pub stakes: &'a [u64],
    pub total: u64,
}

pub fn check_certificate(stakes: &[u64], packet: &[u8]) -> Check {
    answer(with_table(stakes, |table| check_whole(table, packet, |_, _| {})))
}

/// A packet that is one certificate, whose masks are handed out.
pub fn check_whole(
    table: &Table<'_>,
    packet: &[u8],
    masks: impl FnOnce(&[u64], &[u64]),
) -> Result<[u64; 5], Refused> {
    let mut rest = packet;
    let values = check_one(table, &mut rest, masks)?;
    nothing_remains(rest)?;
    Ok(values)
}

#[cfg(test)]
pub fn check_proof(stakes: &[u64], packet: &[u8]) -> Check {
    answer(with_table(stakes, |table| {
        let mut rest = packet;
        let first = check_one(table, &mut rest, |_, _| {})?;
        match first[0] % 10 {
            1 => {}
            2 => {
                let second = check_one(table, &mut rest, |_, _| {})?;
                if second[0] % 10 != 5 || second[1] != first[1] {
                    return Err((16, 0));
                }
            }
            _ => return Err((16, 0)),
        }
        nothing_remains(rest)?;
        Ok(first)
    }))
}

/// A refusal's number and what is missing.
pub type Refused = (u64, u64);

fn answer(checked: Result<[u64; 5], Refused>) -> Check {
    match checked {
        Ok(values) => (0, values, 0),
        Err((number, missing)) => (number, [0; 5], missing),
    }
}

fn with_table(
    stakes: &[u64],
    check: impl FnOnce(&Table<'_>) -> Result<[u64; 5], Refused>,
) -> Result<[u64; 5], Refused> {
    let total = total_of(stakes).ok_or((1, 0))?;
    check(&Table { stakes, total })
}

fn nothing_remains(rest: &[u8]) -> Result<(), Refused> {
    if rest.is_empty() {
        Ok(())
    } else {
        Err((12, 0))
    }
}

/// One number off the front; most have one byte.
fn take_number(rest: &mut &[u8]) -> Result<u64, Refused> {
    let (&byte, after) = rest.split_first().ok_or((12, 0))?;
    *rest = after;
    if byte < 0x80 {
        return Ok(u64::from(byte));
    }
    let mut number = u64::from(byte & 0x7F);
    let mut shift = 7;
    loop {
        let (&byte, after) = rest.split_first().ok_or((12, 0))?;
        *rest = after;
        if shift == TENTH && byte > 1 {
            return Err((13, 0));
        }
        number |= u64::from(byte & 0x7F) << shift;
        if byte < 0x80 {
            return if byte == 0 { Err((13, 0)) } else { Ok(number) };
        }
        shift += 7;
    }
}

/// One certificate off the front, its values.
fn check_one(
    table: &Table<'_>,
    rest: &mut &[u8],
    masks: impl FnOnce(&[u64], &[u64]),
) -> Result<[u64; 5], Refused> {
    let (kind, slot, block) = (take_number(rest)?, take_number(rest)?, take_number(rest)?);
    if (11..=15).contains(&kind) {
        let (mut a, mut b) = ([0; MOST_NODES / 64], [0; MOST_NODES / 64]);
        for word in a.iter_mut().chain(&mut b) {
            *word = take_number(rest)?;
        }
        let values = judge(table, kind, slot, block, &a, &b)?;
        masks(&a, &b);
        Ok(values)
    } else {
        let (a, b) = (take_number(rest)?, take_number(rest)?);
        let values = judge(table, kind, slot, block, &[a], &[b])?;
        masks(&[a], &[b]);
        Ok(values)
    }
}

/// 4, 3, 5, 14, 15.
pub fn judge(
    table: &Table<'_>,
    kind: u64,
    slot: u64,
    block: u64,
    a: &[u64],
    b: &[u64],
) -> Result<[u64; 5], Refused> {
    let is_large = table.stakes.len() > MOST_SMALL;
    let meaning = kind.wrapping_sub(if is_large { 10 } else { 0 });
    if !(1..=5).contains(&meaning) {
        return Err((4, 0));
    }
    if slot < 1 || slot > LAST_SLOT as u64 {
        return Err((3, 0));
    }
    if (meaning <= 3) != (block != 0) {
        return Err((5, 0));
    }
    let (count, weight) = signed(table.stakes, a, b, meaning == 3 || meaning == 4).ok_or((14, 0))?;
    let fifths = if meaning == 1 { 4 } else { 3 };
    let least = (fifths * table.total + 4) / 5;
    if weight < least {
        return Err((15, least - weight));
    }
    Ok([kind, slot, block, count, weight])
}

/// How many signed and their weight; None where a signer is beyond the table or
/// in both masks, or b is used and not due.
fn signed(stakes: &[u64], a: &[u64], b: &[u64], b_due: bool) -> Option<(u64, u64)> {
    let (mut count, mut weight) = (0, 0);
    for (word, (&a, &b)) in a.iter().zip(b).enumerate() {
        let mut signers = a | b;
        if signers == 0 {
            continue;
        }
        let stakes = stakes.get(64 * word..)?;
        let beyond = stakes.len() < 64 && signers >> stakes.len() != 0;
        if beyond || a & b != 0 || (b != 0 && !b_due) {
            return None;
        }
        count += u64::from(signers.count_ones());
        while signers != 0 {
            weight += stakes[signers.trailing_zeros() as usize];
            signers &= signers - 1;
        }
    }
    Some((count, weight))
}
