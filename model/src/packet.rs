//! Packets: the writers and the checkers.

use crate::node::{is_slot, Cert, Node, Source};
use crate::refusal::Refusal;
use crate::stakes::{Family, Signers, Stakes};

/// 64 bits need ten groups of seven; the tenth has room for one bit only.
const TENTH: usize = 9;

pub fn put_number(packet: &mut Vec<u8>, mut number: u64) {
    while number > 0x7F {
        packet.push(number as u8 | 0x80);
        number >>= 7;
    }
    packet.push(number as u8);
}

/// Takes one number off the front of the packet.
pub fn take_number(packet: &mut &[u8]) -> Result<u64, Refusal> {
    let mut number = 0;
    for place in 0.. {
        let (&byte, rest) = packet.split_first().ok_or(Refusal::PacketLength)?;
        *packet = rest;
        // This also ends the loop: a tenth byte of 00 or 01 has no top bit.
        if place == TENTH && byte > 1 {
            return Err(Refusal::PacketNumber);
        }
        number |= u64::from(byte & 0x7F) << (7 * place);
        if byte & 0x80 == 0 {
            let shortest = place == 0 || byte != 0;
            return if shortest { Ok(number) } else { Err(Refusal::PacketNumber) };
        }
    }
    unreachable!()
}

// ---- kinds and masks of the two families ----

/// The certificate that a kind of this family means.
fn cert_of_kind(family: Family, kind: u64, block: u64) -> Result<Cert, Refusal> {
    let meaning = kind.checked_sub(family.kinds_after());
    meaning.and_then(|meaning| Cert::of_kind(meaning, block)).ok_or(Refusal::NoSuchKind)
}

/// Bit i of word w stands for node 64 w + i.
pub fn mask(signers: &Signers, family: Family) -> Vec<u64> {
    let mut words = vec![0; family.mask_words()];
    for node in signers {
        words[node / 64] |= 1 << (node % 64);
    }
    words
}

fn take_mask(packet: &mut &[u8], family: Family) -> Result<Signers, Refusal> {
    let mut signers = Signers::new();
    for place in 0..family.mask_words() {
        let word = take_number(packet)?;
        signers.extend((0..64).filter(|bit| word >> bit & 1 == 1).map(|bit| 64 * place + bit));
    }
    Ok(signers)
}

// ---- writers ----

pub fn write_cert(node: &Node, kind: u64, slot: u64, block: u64) -> Result<Vec<u8>, Refusal> {
    let cert = cert_of_kind(node.stakes().family(), kind, block)?;
    if !is_slot(slot) {
        return Err(Refusal::NoSuchSlot);
    }
    if cert.needs_block() != (block != 0) {
        return Err(Refusal::BlockNumber);
    }
    if !node.holds(slot, cert) {
        return Err(Refusal::NotHeld);
    }
    Ok(cert_bytes(node, slot, cert))
}

pub fn write_proof(node: &Node, slot: u64, block: u64) -> Result<Vec<u8>, Refusal> {
    if !is_slot(slot) {
        return Err(Refusal::NoSuchSlot);
    }
    if block == 0 {
        return Err(Refusal::BlockNumber);
    }
    if !node.is_final(slot, block) {
        return Err(Refusal::NotHeld);
    }
    if node.holds(slot, Cert::FastFinal(block)) {
        return Ok(cert_bytes(node, slot, Cert::FastFinal(block)));
    }
    let mut packet = cert_bytes(node, slot, Cert::Notar(block));
    packet.extend(cert_bytes(node, slot, Cert::Final));
    Ok(packet)
}

fn cert_bytes(node: &Node, slot: u64, cert: Cert) -> Vec<u8> {
    let (a, b) = match node.source(slot, cert).expect("asked for what is held") {
        Source::Votes => node.signers(slot, cert),
        Source::Kept(kept) => (kept.a.clone(), kept.b.clone()),
    };
    certificate_bytes(node.stakes().family(), &Certificate { cert, slot, a, b })
}

pub fn certificate_bytes(family: Family, certificate: &Certificate) -> Vec<u8> {
    let (cert, slot) = (certificate.cert, certificate.slot);
    let mut numbers = vec![cert.kind() + family.kinds_after(), slot, cert.block()];
    numbers.extend(mask(&certificate.a, family));
    numbers.extend(mask(&certificate.b, family));
    let mut packet = Vec::new();
    for number in numbers {
        put_number(&mut packet, number);
    }
    packet
}

// ---- checkers ----

/// A certificate as its packet tells it.
#[derive(Clone, PartialEq, Eq, Debug)]
pub struct Certificate {
    pub cert: Cert,
    pub slot: u64,
    pub a: Signers,
    pub b: Signers,
}

#[derive(Clone, Copy, PartialEq, Eq, Debug)]
pub struct Checked {
    pub kind: u64,
    pub slot: u64,
    pub block: u64,
    pub count: u64,
    pub weight: u64,
}

pub fn check(packet: &[u8], stakes: &[u64]) -> Result<Checked, Refusal> {
    check_whole(packet, &Stakes::new(stakes)?).map(|(_, checked)| checked)
}

pub fn check_whole(packet: &[u8], stakes: &Stakes) -> Result<(Certificate, Checked), Refusal> {
    let mut rest = packet;
    let checked = check_one(&mut rest, stakes)?;
    nothing_remains(rest)?;
    Ok(checked)
}

pub fn check_proof(packet: &[u8], stakes: &[u64]) -> Result<Checked, Refusal> {
    check_whole_proof(packet, &Stakes::new(stakes)?).map(|(_, checked)| checked)
}

/// Its certificates, and what is told of the first.
fn check_whole_proof(packet: &[u8], stakes: &Stakes) -> Result<(Vec<Certificate>, Checked), Refusal> {
    let mut rest = packet;
    let (first, checked) = check_one(&mut rest, stakes)?;
    let mut certificates = vec![first.clone()];
    match first.cert {
        Cert::FastFinal(_) => {}
        Cert::Notar(_) => {
            let (second, _) = check_one(&mut rest, stakes)?;
            if second.cert != Cert::Final || second.slot != first.slot {
                return Err(Refusal::NotAProof);
            }
            certificates.push(second);
        }
        _ => return Err(Refusal::NotAProof),
    }
    nothing_remains(rest)?;
    Ok((certificates, checked))
}

/// The certificates of a packet that is evidence: where it ends with its first
/// certificate it is that one, else it has to be a proof.
pub fn check_evidence(packet: &[u8], stakes: &Stakes) -> Result<Vec<Certificate>, Refusal> {
    let mut rest = packet;
    let (first, _) = check_one(&mut rest, stakes)?;
    if rest.is_empty() {
        return Ok(vec![first]);
    }
    check_whole_proof(packet, stakes).map(|(certificates, _)| certificates)
}

pub fn nothing_remains(rest: &[u8]) -> Result<(), Refusal> {
    if rest.is_empty() {
        Ok(())
    } else {
        Err(Refusal::PacketLength)
    }
}

/// One certificate off the front. All its numbers are read before any is judged;
/// how many they are the kind tells, whatever the table.
pub fn check_one(rest: &mut &[u8], stakes: &Stakes) -> Result<(Certificate, Checked), Refusal> {
    let kind = take_number(rest)?;
    let slot = take_number(rest)?;
    let block = take_number(rest)?;
    let a = take_mask(rest, Family::of_kind(kind))?;
    let b = take_mask(rest, Family::of_kind(kind))?;

    let cert = cert_of_kind(stakes.family(), kind, block)?;
    if !is_slot(slot) {
        return Err(Refusal::NoSuchSlot);
    }
    if cert.needs_block() != (block != 0) {
        return Err(Refusal::BlockNumber);
    }
    let signers = &a | &b;
    let beyond = signers.iter().any(|&node| !stakes.has_node(node as u64));
    let in_both = !a.is_disjoint(&b);
    let b_not_due = !b.is_empty() && !cert.allows_fallback_signers();
    if beyond || in_both || b_not_due {
        return Err(Refusal::Signers);
    }
    let weight = stakes.weight(&signers);
    let missing = stakes.missing(weight, cert.threshold());
    if missing > 0 {
        return Err(Refusal::TooLight(missing));
    }
    let checked = Checked { kind, slot, block, count: signers.len() as u64, weight };
    Ok((Certificate { cert, slot, a, b }, checked))
}
