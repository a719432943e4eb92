//! Safe Rust over the Quointrowel library: a ledger node's pool and voter, its certificate writer and its checker.
//!
//! A node is its [`Record`]. The host feeds it votes, blocks, timeouts and other nodes' certificates; what the node does in
//! answer stands in an [`Outbox`], the votes to be sent among it; a watcher, [`Record::watch`], never votes. Certificates and
//! finality proofs are bytes, written by a record and checked by [`check_certificate`] and [`check_proof`] against the stakes
//! alone. Every refusal is a [`Refusal`]. A [`Store`] keeps a record in a file, for a host that dies and starts again. A stored
//! record is for the [`version`] that wrote it; certificates and proofs carry over.
//!
//! ```no_run
//! use quointrowel::{check_proof, Block, Event, Node, Outbox, Record, Slot};
//!
//! let stakes = [5];
//! let mut record = Record::start(&stakes, Node(0), 1)?;
//! let mut outbox = Outbox::new();
//! record.block(&mut outbox, Block { slot: Slot(1), number: 7, parent_slot: Slot(0), parent: 1 })?;
//! if outbox.events().any(|event| event == Event::Final { slot: Slot(1), block: 7 }) {
//!     let proof = record.write_proof(Slot(1), 7)?;
//!     println!("{:?}", check_proof(&stakes, &proof)?);
//! }
//! # Ok::<(), quointrowel::Refusal>(())
//! ```

#![deny(unsafe_code)]
#![warn(missing_docs)]

mod checker;
mod difference;
#[allow(unsafe_code)]
mod face;
mod message;
mod record;
mod refusal;
mod same_parents;
mod standing;
mod store;
mod version;
mod vouching;
mod words;

pub use checker::{check_certificate, check_proof, Checked, ProofInPieces};
pub use difference::{differences, Comparison, Difference, Side};
pub use message::{read_vote, write_vote};
pub use record::{Outbox, Record};
pub use refusal::Refusal;
pub use standing::{Fallen, Rule};
pub use store::{Kept, Store, Unread};
pub use version::{version, VERSION};
pub use vouching::Lacked;
pub use words::{Block, BlockWeights, Card, CertificateKind, Event, Head, Marks, Node, Slot, Vote, VoteKind, Weight};
