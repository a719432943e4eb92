//! Which votes a record or a packet counts in the name of a firm whose own
//! record lacks them.

use crate::node::{Cert, Node, Vote, LAST_SLOT};
use crate::packet::{check_evidence, Certificate};
use crate::read::by_place;
use crate::refusal::Refusal;

/// A stored vote tells of itself; else the kind of a certificate tells of it.
const STORED: u64 = 0;

/// A vote that is counted in a firm's name and not in its record.
#[derive(Clone, Copy, PartialEq, Eq, Debug)]
pub struct Lacked {
    pub slot: u64,
    pub node: u64,
    pub vote: Vote,
    /// What tells of the vote: 0, or the certificate's kind, 1 to 5 in every ring.
    pub source: u64,
}

/// The first record shows, the second one's firm is asked; a watcher is no firm.
pub fn lacking(first: &Node, second: &Node) -> Result<Vec<Lacked>, Refusal> {
    if first.stakes() != second.stakes() {
        return Err(Refusal::Sizes);
    }
    let mut lacked = Vec::new();
    for slot in 1..=LAST_SLOT {
        if let Some(firm) = second.own() {
            let stored = first.cell(slot, firm).votes_as_they_came();
            lacked.extend(stored.into_iter().filter_map(|vote| lacked_of(second, slot, vote, STORED)));
            let kept = by_place(first.kept_certificates(slot));
            lacked.extend(kept.into_iter().filter_map(|certificate| lacked_by(second, certificate)));
        }
    }
    Ok(lacked)
}

/// The packet shows, the record's firm is asked.
pub fn lacking_in(record: &Node, packet: &[u8]) -> Result<Vec<Lacked>, Refusal> {
    let certificates = check_evidence(packet, record.stakes())?;
    Ok(certificates.iter().filter_map(|certificate| lacked_by(record, certificate)).collect())
}

fn lacked_by(record: &Node, certificate: &Certificate) -> Option<Lacked> {
    let vote = signed(certificate, record.own()?)?;
    lacked_of(record, certificate.slot, vote, certificate.cert.kind())
}

/// Nothing where the record has the vote.
fn lacked_of(record: &Node, slot: u64, vote: Vote, source: u64) -> Option<Lacked> {
    let node = record.own()? as u64;
    let lacks = !record.own_cell(slot).keeps(vote);
    lacks.then_some(Lacked { slot, node, vote, source })
}

/// The vote that a certificate counts a firm for: mask A names who voted for
/// the block, to skip or final, mask B who did so by a fallback.
fn signed(certificate: &Certificate, firm: usize) -> Option<Vote> {
    let fallback = certificate.b.contains(&firm);
    if !fallback && !certificate.a.contains(&firm) {
        return None;
    }
    Some(match certificate.cert {
        Cert::NotarFallback(block) if fallback => Vote::NotarFallback(block),
        Cert::FastFinal(block) | Cert::Notar(block) | Cert::NotarFallback(block) => Vote::Notar(block),
        Cert::Skip if fallback => Vote::SkipFallback,
        Cert::Skip => Vote::Skip,
        Cert::Final => Vote::Final,
    })
}
