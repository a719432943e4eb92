//! The packets in question: what the checker says of each, and which of them contradict one another.

use quointrowel::{check_certificate, check_proof, Block, CertificateKind, Checked, Slot};
use std::collections::BTreeSet;

/// A packet that the checker accepts under the records' stakes.
pub struct Packet {
    pub bytes: Vec<u8>,
    pub is_proof: bool,
    pub checked: Checked,
}

impl Packet {
    /// As a proof where it is one, else as a certificate.
    pub fn new(stakes: &[u64], bytes: Vec<u8>) -> Result<Packet, String> {
        let proof = check_proof(stakes, &bytes);
        let certificate = check_certificate(stakes, &bytes);
        let is_proof = proof.is_ok();
        match proof.or(certificate) {
            Ok(checked) => Ok(Packet { bytes, is_proof, checked }),
            Err(refusal) => Err(refusal.to_string()),
        }
    }

    fn at(&self) -> (Slot, u64) {
        (self.checked.slot, self.checked.block)
    }
}

/// Two packets by their places in the list.
pub type Pair = (usize, usize);

/// Pairs of which the first is a finality proof and the second says otherwise of its slot.
pub fn contradicting(packets: &[Packet]) -> Vec<Pair> {
    pairs(packets).filter(|&(i, j)| excludes(&packets[i], &packets[j]) || excludes(&packets[j], &packets[i])).collect()
}

/// An accepted proof excludes, in its slot, skip certificates and every other block.
fn excludes(proof: &Packet, other: &Packet) -> bool {
    let (a, d) = (&proof.checked, &other.checked);
    let agrees = match d.kind {
        CertificateKind::Skip => false,
        CertificateKind::Final => true,
        _ => d.block == a.block,
    };
    proof.is_proof && a.slot == d.slot && !agrees
}

/// Pairs of proofs of two slots whose blocks these do not put on one chain.
pub fn apart(packets: &[Packet], blocks: &BTreeSet<(usize, u64, usize, u64)>) -> Vec<Pair> {
    let is_apart = |&(i, j): &Pair| {
        let (one, two) = (&packets[i], &packets[j]);
        let chained = descends(one.at(), two.at(), blocks) || descends(two.at(), one.at(), blocks);
        one.is_proof && two.is_proof && one.checked.slot != two.checked.slot && !chained
    };
    pairs(packets).filter(is_apart).collect()
}

pub fn link(block: &Block) -> (usize, u64, usize, u64) {
    (block.slot.0, block.number, block.parent_slot.0, block.parent)
}

/// Whether the first is the second or one of its ancestors.
fn descends(above: (Slot, u64), below: (Slot, u64), blocks: &BTreeSet<(usize, u64, usize, u64)>) -> bool {
    let mut reached = BTreeSet::from([(below.0 .0, below.1)]);
    for slot in (1..=below.0 .0).rev() {
        let parents = blocks.iter().filter(|link| link.0 == slot && reached.contains(&(link.0, link.1)));
        let parents: Vec<_> = parents.map(|link| (link.2, link.3)).collect();
        reached.extend(parents);
    }
    reached.contains(&(above.0 .0, above.1))
}

fn pairs(packets: &[Packet]) -> impl Iterator<Item = Pair> {
    let count = packets.len();
    (0..count).flat_map(move |i| (i + 1..count).map(move |j| (i, j)))
}

/// Bytes of a word of hexadecimal digits, two a byte.
pub fn bytes_of(word: &str) -> Option<Vec<u8>> {
    let digits: Option<Vec<u8>> = word.chars().map(|digit| digit.to_digit(16).map(|digit| digit as u8)).collect();
    let digits = digits.filter(|digits| !digits.is_empty() && digits.len() % 2 == 0)?;
    Some(digits.chunks_exact(2).map(|pair| 16 * pair[0] + pair[1]).collect())
}
