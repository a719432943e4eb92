//! What lying firms do with the letters that their own hosts want sent. They know each other and tell everyone what suits them.

use crate::agreed::{number_in, window, Agreed, WINDOW, WINDOWS};
use crate::mail::{Kind, Letter, Piece, To};
use crate::random::Random;
use quointrowel::{read_vote, write_vote, Block, Node, Slot, Vote, VoteKind};
use std::rc::Rc;

/// A way of lying.
#[derive(Clone, Copy, Debug, PartialEq, Eq, PartialOrd, Ord)]
pub enum How {
    /// One half is told notar, the other skip; a lying leader shows its blocks to the first half alone.
    Equivocate,
    /// Votes and blocks go to a third of the firms, and to the others much later.
    Withhold,
    /// A lying leader builds two blocks a slot, one for each half, and the liars vote for both.
    Fork,
    /// Votes are told to nobody; certificates made with them are shown to a few alone.
    Certificates,
    /// Many block numbers, fallbacks of every kind, other ones for each firm, and bytes that are no votes.
    Flood,
    /// Nothing is said at all.
    Silent,
}

pub const HOWS: [(How, &str); 6] = [
    (How::Equivocate, "equivocate"),
    (How::Withhold, "withhold"),
    (How::Fork, "fork"),
    (How::Certificates, "certificates"),
    (How::Flood, "flood"),
    (How::Silent, "silent"),
];

impl How {
    pub fn name(self) -> &'static str {
        HOWS.iter().find(|(how, _)| *how == self).map_or("", |(_, name)| name)
    }
}

/// How long withheld mail is kept back, in ms.
const WITHHELD: u64 = 1500;

/// What the liars have agreed upon: who lies and how, and which half of the firms each window is told what.
pub struct Plot {
    pub how: Vec<Option<How>>,
    halves: Vec<[bool; WINDOWS]>,
    has_halves: bool,
}

/// One thing that a liar sends.
pub struct Sent {
    pub delay: u64,
    pub to: Node,
    pub piece: Rc<Piece>,
}

impl Plot {
    /// The halves of honest firms are as equal in stake as they can be made by turns, anew in each window.
    pub fn new(how: Vec<Option<How>>, agreed: &Agreed, random: &mut Random) -> Plot {
        let mut halves = vec![[false; WINDOWS]; how.len()];
        for window in 0..WINDOWS {
            let mut firms: Vec<usize> = (0..how.len()).collect();
            random.shuffle(&mut firms);
            firms.sort_by_key(|&firm| std::cmp::Reverse(agreed.stakes[firm]));
            let mut weights = [0; 2];
            for firm in firms {
                let side = usize::from(weights[1] < weights[0]);
                halves[firm][window] = side == 1;
                if how[firm].is_none() {
                    weights[side] += agreed.stakes[firm];
                }
            }
        }
        let has_halves = how.iter().flatten().any(|how| matches!(how, How::Equivocate | How::Fork));
        Plot { how, halves, has_halves }
    }

    pub fn is_lying(&self, node: Node) -> bool {
        self.how[node.0].is_some()
    }

    /// Whether the firm belongs to the second half in the slot's window.
    pub fn is_second(&self, slot: Slot, node: Node) -> bool {
        self.halves[node.0][window(slot)]
    }

    /// How much of a piece's mail is late, in percent. The liars choose which: in a window that they split, twice the share of what
    /// goes from one half to the other, and so much less within a half.
    pub fn lateness(&self, agreed: &Agreed, piece: &Piece, from: Node, to: Node, share: u64) -> u64 {
        let slot = match piece.kind {
            _ if !self.has_halves => None,
            Kind::Vote => read_vote(agreed.stakes.len(), &piece.bytes).ok().map(|vote| vote.slot),
            Kind::Block => piece.block().map(|block| block.slot),
            _ => None,
        };
        let Some(slot) = slot.filter(|&slot| self.is_lying(agreed.leader(slot))) else { return share };
        let across = (2 * share).min(100);
        if self.is_second(slot, from) != self.is_second(slot, to) {
            across
        } else {
            2 * share - across
        }
    }

    /// What becomes of a letter of a lying firm.
    pub fn lie(&self, agreed: &Agreed, own: Node, letter: Letter, random: &mut Random) -> Vec<Sent> {
        let how = self.how[own.0].expect("a lying firm");
        let firms = agreed.stakes.len();
        let others: Vec<Node> = match letter.to {
            To::One(node) => vec![node],
            To::Everyone => (0..firms).filter(|&firm| firm != own.0).map(Node).collect(),
        };
        let vote = (letter.piece.kind == Kind::Vote).then(|| read_vote(firms, &letter.piece.bytes).ok()).flatten();
        let block = (letter.piece.kind == Kind::Block).then(|| letter.piece.block()).flatten();
        let plain = |piece: &Rc<Piece>| others.iter().map(|&to| Sent { delay: 0, to, piece: Rc::clone(piece) }).collect();
        match (how, vote, block) {
            (How::Silent, ..) => Vec::new(),
            (How::Equivocate, Some(vote), _) => self.equivocate(firms, vote, &others),
            (How::Equivocate, _, Some(block)) => {
                let mut sent: Vec<Sent> = plain(&letter.piece);
                sent.retain(|sent| !self.is_second(block.slot, sent.to) || self.is_lying(sent.to));
                sent
            }
            (How::Withhold, vote, block) => {
                let slot = vote.map(|vote| vote.slot).or(block.map(|block| block.slot)).map_or(0, |slot| slot.0);
                let mut sent: Vec<Sent> = plain(&letter.piece);
                for one in &mut sent {
                    let is_shown = (one.to.0 + slot) % 3 == 0 || self.is_lying(one.to);
                    one.delay = if is_shown { 0 } else { WITHHELD };
                }
                sent
            }
            (How::Fork, Some(vote), _) if self.is_lying(agreed.leader(vote.slot)) => self.both(firms, vote, &others),
            (How::Fork, _, Some(block)) => self.fork(block, &others),
            (How::Certificates, Some(_), _) => {
                let mut sent: Vec<Sent> = plain(&letter.piece);
                sent.retain(|sent| self.is_lying(sent.to));
                sent
            }
            (How::Flood, Some(vote), _) => {
                let mut sent: Vec<Sent> = plain(&letter.piece);
                self.flood(firms, vote, &others, random, &mut sent);
                sent
            }
            (How::Flood, _, Some(block)) => {
                let mut sent: Vec<Sent> = plain(&letter.piece);
                let invented = (2..8).map(|n| Block { number: block.slot.0 as u64 * 100 + n, ..block });
                sent.extend(invented.flat_map(|other| plain(&Rc::new(Piece::of_block(other)))));
                sent
            }
            _ => plain(&letter.piece),
        }
    }

    /// The first half is told notar, the second skip, where the host cast either; other votes go to all.
    fn equivocate(&self, firms: usize, vote: Vote, others: &[Node]) -> Vec<Sent> {
        let notar = if vote.kind == VoteKind::Notar { vote.block } else { number_in(vote.slot) };
        let faces = [Vote { kind: VoteKind::Notar, block: notar, ..vote }, Vote { kind: VoteKind::Skip, block: 0, ..vote }];
        self.faced(firms, vote, faces, others)
    }

    /// Each half is told notar for the block that it was shown.
    fn both(&self, firms: usize, vote: Vote, others: &[Node]) -> Vec<Sent> {
        let first = number_in(vote.slot);
        let faces = [first, first + 1].map(|block| Vote { kind: VoteKind::Notar, block, ..vote });
        self.faced(firms, vote, faces, others)
    }

    /// An initial vote shown with two faces, and a final vote beside it to everyone; any other vote as it is.
    fn faced(&self, firms: usize, vote: Vote, faces: [Vote; 2], others: &[Node]) -> Vec<Sent> {
        let is_initial = matches!(vote.kind, VoteKind::Notar | VoteKind::Skip);
        let shown = |vote| Rc::new(message(firms, vote));
        let (faces, as_it_is) = (faces.map(shown), shown(vote));
        let last = shown(Vote { kind: VoteKind::Final, block: 0, ..vote });
        let mut sent = Vec::new();
        for &to in others {
            let face = &faces[usize::from(self.is_second(vote.slot, to))];
            sent.push(Sent { delay: 0, to, piece: Rc::clone(if is_initial { face } else { &as_it_is }) });
            if is_initial {
                sent.push(Sent { delay: 0, to, piece: Rc::clone(&last) });
            }
        }
        sent
    }

    /// Two blocks a slot, each upon its own line: the second line's numbers are one more.
    fn fork(&self, block: Block, others: &[Node]) -> Vec<Sent> {
        let is_first = block.slot.0 % WINDOW == 1;
        let parent = if is_first { block.parent } else { block.parent + 1 };
        let rival = Block { number: block.number + 1, parent, ..block };
        let pieces = [block, rival].map(|block| Rc::new(Piece::of_block(block)));
        let piece = |to: Node| Rc::clone(&pieces[usize::from(self.is_second(block.slot, to))]);
        others.iter().map(|&to| Sent { delay: 0, to, piece: piece(to) }).collect()
    }

    /// To each firm other fallbacks, a final vote, and now and then bytes that are no vote.
    fn flood(&self, firms: usize, vote: Vote, others: &[Node], random: &mut Random, sent: &mut Vec<Sent>) {
        for &to in others {
            let number = vote.slot.0 as u64 * 100 + 2 + random.below(7);
            let more = [
                Vote { kind: VoteKind::NotarFallback, block: number, ..vote },
                Vote { kind: VoteKind::SkipFallback, block: 0, ..vote },
                Vote { kind: VoteKind::Final, block: 0, ..vote },
                Vote { kind: VoteKind::Notar, block: number, ..vote },
            ];
            let mut piece = message(firms, more[random.below(4) as usize]);
            if random.percent(10) {
                piece.bytes.truncate(random.below(4) as usize);
            }
            sent.push(Sent { delay: random.below(200), to, piece: Rc::new(piece) });
        }
    }
}

fn message(firms: usize, vote: Vote) -> Piece {
    Piece { kind: Kind::Vote, bytes: write_vote(firms, vote).expect("a vote of the ring") }
}
