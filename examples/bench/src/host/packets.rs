//! Certificates and proofs that a host holds, handed on to others.

use super::Host;
use crate::mail::{Kind, Letter, Piece, To};
use crate::seen::Function;
use quointrowel::{CertificateKind, Node, Slot};

/// To how many others a packet is handed on.
const PEERS: usize = 2;

impl Host {
    /// The certificate's packet where it is held.
    pub(super) fn certificate(&mut self, kind: CertificateKind, slot: Slot, block: u64) -> Option<Vec<u8>> {
        let packet = self.record.write_certificate(kind, slot, block);
        self.seen.answer(Function::Certificate, &packet, None);
        packet.ok()
    }

    /// The proof's packet where it is held.
    pub(super) fn proof(&mut self, slot: Slot, block: u64) -> Option<Vec<u8>> {
        let packet = self.record.write_proof(slot, block);
        self.seen.answer(Function::Proof, &packet, None);
        packet.ok()
    }

    /// Hands a packet on to a few others, from slot to slot to other ones.
    pub(super) fn hand_on(&mut self, kind: Kind, slot: Slot, packet: Option<Vec<u8>>) {
        let others = self.agreed.stakes.len() - 1;
        let Some(bytes) = packet else { return };
        for turn in 0..PEERS.min(others) {
            let to = Node((self.own.0 + 1 + (PEERS * slot.0 + turn) % others) % (others + 1));
            self.letters.push(Letter::new(To::One(to), Piece { kind, bytes: bytes.clone() }));
        }
    }
}
