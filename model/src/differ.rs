//! Which stored votes two nodes do not share.

use crate::node::Node;
use std::collections::BTreeSet;

/// A stored vote as slot, node, kind and block.
type Stored = (u64, u64, u64, u64);

/// A vote that one side has and the other has not, in the order of a list.
#[derive(Clone, Copy, PartialEq, Eq, PartialOrd, Ord, Debug)]
pub struct Line {
    pub vote: Stored,
    /// 1 or 2.
    pub side: u64,
}

/// Stands alone where the stake tables are not the same.
const OTHER_TABLES: Line = Line { vote: (0, 0, 0, 0), side: 0 };

/// Ascending by slot, node, kind and block. Own number and genesis are no part
/// of a stake table.
pub fn differ(first: &Node, second: &Node) -> Vec<Line> {
    if first.stakes() != second.stakes() {
        return vec![OTHER_TABLES];
    }
    let (first, second) = (stored(first), stored(second));
    let mut lines: Vec<Line> = Vec::new();
    lines.extend(first.difference(&second).map(|&vote| Line { vote, side: 1 }));
    lines.extend(second.difference(&first).map(|&vote| Line { vote, side: 2 }));
    lines.sort();
    lines
}

fn stored(node: &Node) -> BTreeSet<Stored> {
    let votes = node.stored_votes().into_iter();
    votes.map(|(slot, node, vote)| (slot, node as u64, vote.kind(), vote.block())).collect()
}
