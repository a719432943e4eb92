//! Which votes that others count a firm for its own record lacks.

use crate::face;
use crate::record::Record;
use crate::refusal::Refusal;
use crate::words::{CertificateKind, Vote};

const LINE_WORDS: usize = 5;
/// Seven stored votes and 13 certificates with two masks, in each slot.
const MOST_LINES: usize = 528;

/// A vote that a record lacks of its own firm.
#[derive(Clone, Copy, Debug, PartialEq, Eq)]
pub struct Lacked {
    /// The vote.
    pub vote: Vote,
    /// The certificate that counts it; none where another record stores the vote itself.
    pub certificate: Option<CertificateKind>,
}

impl Record {
    /// The votes that this record counts in the name of the other's firm and the other record lacks, slots ascending. A line is
    /// a dispute and no verdict; a record that is older than a vote lacks it too.
    pub fn lacked_by(&self, other: &Record) -> Result<Vec<Lacked>, Refusal> {
        let mut list = vec![0; MOST_LINES * LINE_WORDS];
        let (number, lines) = face::vouched(self.words(), other.words(), &mut list);
        Refusal::check(number, 0)?;
        Ok(lacked(&list, lines))
    }

    /// The votes that a certificate or a proof counts this record's firm for and the record lacks.
    pub fn lacks_of(&self, packet: &[u8]) -> Result<Vec<Lacked>, Refusal> {
        let mut list = vec![0; MOST_LINES * LINE_WORDS];
        let (number, lines) = face::vouched_packet(self.words(), packet, &mut list);
        Refusal::check(number, 0)?;
        Ok(lacked(&list, lines))
    }
}

fn lacked(list: &[u64], lines: usize) -> Vec<Lacked> {
    let vote = |line: &[u64]| {
        let vote = Vote::of_words([line[2], line[1], line[0], line[3]])?;
        Some(Lacked { vote, certificate: CertificateKind::of_number(line[4]) })
    };
    list.chunks_exact(LINE_WORDS).take(lines).filter_map(vote).collect()
}
