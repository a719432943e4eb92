//! Certificates put together from every vote that was ever cast, and whether two of them contradict each other.

use crate::agreed::{slots, Agreed};
use quointrowel::{check_certificate, check_proof, CertificateKind, Slot, Vote, VoteKind};
use std::collections::BTreeSet;

const MOST_SMALL: usize = 64;
const LARGE_KINDS: u64 = 10;
const LARGE_MASKS: usize = 32;

/// A certificate that the checker accepts, with everyone who can sign it.
#[derive(Clone, Debug)]
pub struct Packet {
    pub kind: CertificateKind,
    pub slot: Slot,
    pub block: u64,
    pub bytes: Vec<u8>,
    /// Who signed: the initial or final votes that count, and fallbacks beside them.
    pub signers: Vec<bool>,
}

/// A proof of a block, and a packet of its slot that contradicts it.
#[derive(Clone, Debug)]
pub struct Clash {
    pub slot: Slot,
    pub proof: Vec<Packet>,
    pub rival: Vec<Packet>,
}

impl Clash {
    /// Whether the rival is a proof too.
    pub fn has_two_proofs(&self) -> bool {
        self.rival[0].kind == CertificateKind::FastFinal || self.rival.len() == 2
    }

    pub fn sentence(&self) -> String {
        let (block, rival, slot) = (self.proof[0].block, &self.rival[0], self.slot.0);
        if self.has_two_proofs() {
            return format!("blocks {block} and {} of slot {slot} both have finality proofs", rival.block);
        }
        match rival.kind {
            CertificateKind::Skip => {
                format!("block {block} of slot {slot} has a finality proof, and the slot a skip certificate")
            }
            _ => format!("block {block} of slot {slot} has a finality proof, and block {} a certificate", rival.block),
        }
    }

    /// The two certificates that contradict each other: the ones for blocks, else the final one against the rival.
    pub fn pair(&self) -> (&Packet, &Packet) {
        let against = if self.has_two_proofs() { &self.proof[0] } else { self.proof.last().unwrap_or(&self.proof[0]) };
        (against, &self.rival[0])
    }

    /// Who signed both of them.
    pub fn in_both(&self) -> Vec<usize> {
        let (first, second) = self.pair();
        (0..first.signers.len()).filter(|&firm| first.signers[firm] && second.signers[firm]).collect()
    }
}

/// All that the checker accepts, and how many were tried. A certificate with all possible signers is accepted where any with fewer is.
pub fn acceptable(agreed: &Agreed, cast: &BTreeSet<Vote>) -> (Vec<Packet>, u64) {
    use CertificateKind::*;
    let (mut accepted, mut tried) = (Vec::new(), 0);
    for slot in slots() {
        let votes: Vec<&Vote> = cast.iter().filter(|vote| vote.slot == slot).collect();
        let named = votes.iter().filter(|vote| matches!(vote.kind, VoteKind::Notar | VoteKind::NotarFallback));
        let blocks: BTreeSet<u64> = named.map(|vote| vote.block).collect();
        let of_blocks = blocks.iter().flat_map(|&block| [FastFinal, Notar, NotarFallback].map(|kind| (kind, block)));
        for (kind, block) in of_blocks.chain([(Skip, 0), (Final, 0)]) {
            let packet = put_together(agreed, &votes, kind, slot, block);
            tried += 1;
            accepted.extend(check_certificate(&agreed.stakes, &packet.bytes).is_ok().then_some(packet));
        }
    }
    (accepted, tried)
}

fn put_together(agreed: &Agreed, votes: &[&Vote], kind: CertificateKind, slot: Slot, block: u64) -> Packet {
    let (first, beside) = match kind {
        CertificateKind::FastFinal | CertificateKind::Notar => (VoteKind::Notar, None),
        CertificateKind::NotarFallback => (VoteKind::Notar, Some(VoteKind::NotarFallback)),
        CertificateKind::Skip => (VoteKind::Skip, Some(VoteKind::SkipFallback)),
        CertificateKind::Final => (VoteKind::Final, None),
    };
    let firms = agreed.stakes.len();
    let (mut a, mut b) = (vec![false; firms], vec![false; firms]);
    for vote in votes.iter().filter(|vote| vote.kind == first && vote.block == block) {
        a[vote.node.0] = true;
    }
    for vote in votes.iter().filter(|vote| Some(vote.kind) == beside && vote.block == block) {
        b[vote.node.0] = !a[vote.node.0];
    }
    let is_large = firms > MOST_SMALL;
    let mut bytes = Vec::new();
    let kind_number = kind as u64 + if is_large { LARGE_KINDS } else { 0 };
    for number in [kind_number, slot.0 as u64, block] {
        put_number(&mut bytes, number);
    }
    for mask in [&a, &b] {
        for word in 0..if is_large { LARGE_MASKS } else { 1 } {
            let bits = mask.iter().skip(64 * word).take(64).enumerate();
            put_number(&mut bytes, bits.fold(0, |number, (bit, &signs)| number | u64::from(signs) << bit));
        }
    }
    let signers = a.iter().zip(&b).map(|(&a, &b)| a || b).collect();
    Packet { kind, slot, block, bytes, signers }
}

/// A number in groups of seven bits, lowest first.
fn put_number(bytes: &mut Vec<u8>, mut number: u64) {
    while number > 0x7F {
        bytes.push(number as u8 | 0x80);
        number >>= 7;
    }
    bytes.push(number as u8);
}

/// The first contradiction of an accepted proof, two proofs before anything else.
pub fn clash(agreed: &Agreed, packets: &[Packet]) -> Option<Clash> {
    let mut weaker = None;
    for slot in slots() {
        let here: Vec<&Packet> = packets.iter().filter(|packet| packet.slot == slot).collect();
        let proofs = proofs(agreed, &here);
        if let [proof, rival, ..] = &proofs[..] {
            return Some(Clash { slot, proof: proof.clone(), rival: rival.clone() });
        }
        let Some(proof) = proofs.into_iter().next() else { continue };
        let contradicts = |packet: &&&Packet| match packet.kind {
            CertificateKind::Final => false,
            CertificateKind::Skip => true,
            _ => packet.block != proof[0].block,
        };
        let rival = here.iter().find(contradicts).map(|packet| vec![(**packet).clone()]);
        weaker = weaker.or(rival.map(|rival| Clash { slot, proof, rival }));
    }
    weaker
}

/// One accepted proof for each block that has one.
fn proofs(agreed: &Agreed, here: &[&Packet]) -> Vec<Vec<Packet>> {
    use CertificateKind::*;
    let blocks: BTreeSet<u64> = here.iter().filter(|packet| packet.block != 0).map(|packet| packet.block).collect();
    let find = |kind, block| here.iter().find(|packet| packet.kind == kind && packet.block == block).map(|p| (*p).clone());
    let of_block = |block: u64| {
        let fast = find(FastFinal, block).map(|packet| vec![packet]);
        let slow = || Some(vec![find(Notar, block)?, find(Final, 0)?]);
        fast.or_else(slow)
    };
    let is_accepted = |proof: &Vec<Packet>| {
        let bytes: Vec<u8> = proof.iter().flat_map(|packet| packet.bytes.iter().copied()).collect();
        check_proof(&agreed.stakes, &bytes).is_ok()
    };
    blocks.into_iter().filter_map(of_block).filter(is_accepted).collect()
}
