//! Certificates and finality proofs, checked against the stakes alone: whole, or a proof in pieces.

use crate::face;
use crate::refusal::Refusal;
use crate::words::{CertificateKind, Slot, Weight};

/// What an accepted certificate says, or the first one of an accepted proof.
#[derive(Clone, Copy, Debug, PartialEq, Eq)]
pub struct Checked {
    /// Its kind.
    pub kind: CertificateKind,
    /// Its slot.
    pub slot: Slot,
    /// Its block, 0 for skip and final.
    pub block: u64,
    /// How many nodes signed it.
    pub signers: u64,
    /// Their stake together.
    pub weight: Weight,
}

/// Checks one certificate.
pub fn check_certificate(stakes: &[u64], packet: &[u8]) -> Result<Checked, Refusal> {
    checked(face::check_certificate(stakes, packet))
}

/// Checks a finality proof.
pub fn check_proof(stakes: &[u64], packet: &[u8]) -> Result<Checked, Refusal> {
    checked(face::check_proof(stakes, packet))
}

fn checked((number, values, missing): face::Check) -> Result<Checked, Refusal> {
    Refusal::check(number, missing)?;
    Ok(Checked::of_words(values))
}

impl Checked {
    /// The five words in which the library tells of a certificate.
    pub(crate) fn of_words([kind, slot, block, signers, weight]: [u64; 5]) -> Checked {
        let kind = CertificateKind::of_number(kind).expect("a kind of the header");
        Checked { kind, slot: Slot(slot as usize), block, signers, weight: Weight(weight) }
    }
}

/// A finality proof that arrives a few bytes at a time.
#[derive(Clone, Debug)]
pub struct ProofInPieces {
    words: Vec<u64>,
    front: Vec<u8>,
}

impl ProofInPieces {
    /// Nothing has arrived.
    pub fn new() -> ProofInPieces {
        ProofInPieces { words: vec![0; face::pieces_words()], front: vec![0; face::pieces_bytes()] }
    }

    /// The next bytes. The stakes of the first piece are kept until the end, later ones are not looked at.
    pub fn piece(&mut self, stakes: &[u64], bytes: &[u8]) -> Result<(), Refusal> {
        Refusal::check(face::piece(&mut self.words, &mut self.front, stakes, bytes), 0)
    }

    /// What [`check_proof`] says of all bytes together; the next piece begins another proof.
    pub fn end(&mut self) -> Result<Checked, Refusal> {
        checked(face::end(&mut self.words, &mut self.front))
    }
}

impl Default for ProofInPieces {
    fn default() -> ProofInPieces {
        ProofInPieces::new()
    }
}
