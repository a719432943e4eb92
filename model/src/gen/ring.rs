//! Rings of nodes: how many, with which stakes, and who leans with whom.

use crate::random::Random;
use crate::stakes::{Family, Stakes, Threshold, MOST_NODES, MOST_NODES_OF_SMALL, MOST_TOTAL};

/// The table of a script, with its nodes split into five camps of about a
/// fifth of the stake each. The own node is in camp 0. Camps that vote alike
/// bring a slot exactly to, or one short of, the thresholds. In a large table
/// most of the light nodes are in no camp.
#[derive(Clone)]
pub struct Ring {
    pub stakes: Vec<u64>,
    pub own: usize,
    /// The node is a watcher: it has no own number, and `own` is as any other.
    pub watches: bool,
    pub genesis: u64,
    pub camps: Vec<Vec<usize>>,
}

impl Ring {
    pub fn any(random: &mut Random) -> Ring {
        let nodes = random.pick(&[1, 2, 3, 4, 5, 5, 5, 6, 7, 8, 9, 10, 10, 10, 11, 15, 20, 33, 63, 64]);
        Ring::of(random, nodes)
    }

    pub fn small(random: &mut Random) -> Ring {
        if random.percent(25) {
            return Ring::heavy(random);
        }
        let nodes = random.pick(&[3, 4, 5, 5, 5, 5, 6, 7, 8, 10]);
        Ring::of(random, nodes)
    }

    pub fn of(random: &mut Random, nodes: usize) -> Ring {
        let stakes = match random.below(8) {
            0 | 1 => vec![1; nodes],
            2 => vec![random.range(1, MOST_TOTAL / nodes as u64); nodes],
            3 => (0..nodes).map(|_| random.range(1, 10)).collect(),
            4 => skewed(random, nodes),
            5 => cut(random, nodes, MOST_TOTAL),
            6 => {
                let total = random.range(nodes as u64, MOST_TOTAL);
                cut(random, nodes, total)
            }
            _ => near_thresholds(random, nodes),
        };
        Ring::with(random, stakes)
    }

    /// Five camps of exactly a fifth each.
    pub fn of_fifths(random: &mut Random, nodes: usize) -> Ring {
        let mut sizes = [1; 5];
        for _ in 5..nodes {
            sizes[random.index(5)] += 1;
        }
        let fifth = match random.below(3) {
            0 => random.range(nodes as u64, 100),
            1 => random.range(nodes as u64, MOST_TOTAL / 5),
            _ => *sizes.iter().max().unwrap() as u64,
        };
        let mut named: Vec<(usize, u64)> = Vec::new();
        for (camp, &size) in sizes.iter().enumerate() {
            named.extend(cut(random, size, fifth).into_iter().map(|stake| (camp, stake)));
        }
        random.shuffle(&mut named);
        let mut ring = Ring {
            stakes: named.iter().map(|&(_, stake)| stake).collect(),
            own: 0,
            watches: false,
            genesis: genesis(random),
            camps: (0..5).map(|camp| (0..nodes).filter(|&n| named[n].0 == camp).collect()).collect(),
        };
        ring.own = random.pick(&ring.camps[0]);
        // Now and then one unit off, so that exactly a fifth becomes one short.
        if random.percent(25) {
            let node = random.index(nodes);
            ring.stakes[node] += 1;
        }
        ring
    }

    /// Few nodes, so that a single vote leaps over a threshold or two.
    pub fn heavy(random: &mut Random) -> Ring {
        let shares: &[u64] = random.pick(&[
            &[1u64, 2, 2] as &[u64],
            &[1, 2, 2],
            &[1, 4, 5],
            &[3, 8, 9],
            &[1, 1, 3],
            &[1, 1, 1, 2],
            &[2, 3],
            &[1, 4],
            &[2, 1, 1, 1],
            &[3, 4, 3],
            &[1, 3, 3, 3],
            &[2, 4, 3, 1],
        ]);
        let unit = random.pick(&[1, 1, 1, 20, MOST_TOTAL / 20]);
        let mut stakes: Vec<u64> = shares.iter().map(|share| share * unit).collect();
        // One unit off moves sums that were exact to just beside.
        if unit > 1 && random.percent(50) {
            let node = random.index(stakes.len());
            stakes[node] = stakes[node] + random.below(3) - 1;
        }
        let turn = random.index(stakes.len());
        stakes.rotate_right(turn);
        let mut ring = Ring::with(random, stakes);
        // The first share is often the one that makes the own node's life hard.
        if random.percent(50) {
            ring.move_own_to(turn);
        }
        ring
    }

    /// The own node alone reaches a threshold, or just misses it.
    pub fn dominated(random: &mut Random) -> Ring {
        let nodes = random.pick(&[1, 1, 1, 2, 3, 4]);
        let mut stakes: Vec<u64> = (0..nodes).map(|_| random.range(1, 5)).collect();
        let others: u64 = stakes[1..].iter().sum();
        if nodes > 1 {
            let least = random.pick(&[others * 4, others * 4 - 1, (others * 3 + 1) / 2, others * 9]);
            stakes[0] = least.max(1);
        }
        let mut ring = Ring::with(random, stakes);
        ring.move_own_to(0);
        ring
    }

    /// The same ring among many light nodes, as a table of the large family.
    pub fn widened(mut self, random: &mut Random) -> Ring {
        if self.nodes() > MOST_NODES_OF_SMALL {
            return self;
        }
        let any = random.range(MOST_NODES_OF_SMALL as u64 + 1, 300) as usize;
        let nodes = random.pick(&[65, 65, 66, 100, 127, 128, 129, 192, any, any, 1000, 2047, 2048]);
        let lights: Vec<u64> = (self.nodes()..nodes).map(|_| random.pick(&[1, 1, 1, 2, 3])).collect();
        self.pay_for(random, lights.iter().sum());
        let heavies = self.nodes();
        self.stakes.extend(lights);
        for camp in 0..5 {
            let some_light = random.range(heavies as u64, nodes as u64 - 1) as usize;
            if random.percent(30) && !self.camps.iter().any(|camp| camp.contains(&some_light)) {
                self.camps[camp].push(some_light);
            }
        }
        if random.percent(20) {
            self.own = *self.camps[0].last().expect("the own node is in camp 0");
        }
        self.strew(random)
    }

    /// Makes the stakes heavy beside that of the light nodes, and mostly takes
    /// theirs off one of them, so that the thresholds stay where they were. Where
    /// it is one of the own camp the other camps stay whole fifths.
    fn pay_for(&mut self, random: &mut Random, lights: u64) {
        let heaviest = |nodes: &[usize]| nodes.iter().copied().max_by_key(|&node| self.stakes[node]);
        let all: Vec<usize> = (0..self.nodes()).collect();
        let (of_all, of_own_camp) = (heaviest(&all), heaviest(&self.camps[0]));
        let total: u64 = self.stakes.iter().sum();
        let has_room = total < MOST_TOTAL / (8 * lights);
        let payer = if has_room && random.percent(80) { of_own_camp } else { of_all };
        let payer = payer.expect("a ring has nodes");
        if self.stakes[payer] <= 2 * lights {
            let times = 4 * lights / self.stakes[payer] + 1;
            self.stakes.iter_mut().for_each(|stake| *stake *= times);
        }
        let total: u64 = self.stakes.iter().sum();
        if random.percent(70) || total + lights > MOST_TOTAL {
            self.stakes[payer] -= lights;
        }
    }

    /// Puts every node at another place, some at the edges of a mask's words.
    fn strew(self, random: &mut Random) -> Ring {
        let mut places: Vec<usize> = (0..self.nodes()).collect();
        random.shuffle(&mut places);
        for (node, edge) in [0, 63, 64, self.nodes() - 1].into_iter().enumerate() {
            if random.percent(50) {
                let at = places.iter().position(|&place| place == edge).expect("a place of the table");
                places.swap(node, at);
            }
        }
        let mut stakes = self.stakes.clone();
        for (node, &place) in places.iter().enumerate() {
            stakes[place] = self.stakes[node];
        }
        let camps = self.camps.iter().map(|camp| camp.iter().map(|&node| places[node]).collect()).collect();
        Ring { stakes, own: places[self.own], watches: self.watches, genesis: self.genesis, camps }
    }

    /// A large table in which no node stands out.
    pub fn crowd(random: &mut Random) -> Ring {
        let nodes = random.pick(&[65, 66, 90, 128, 129, 200, 2047, 2048]);
        match random.below(3) {
            0 => Ring::with(random, vec![1; nodes]),
            1 => Ring::with(random, vec![MOST_TOTAL / MOST_NODES as u64; nodes]),
            _ => Ring::of(random, nodes),
        }
    }

    fn move_own_to(&mut self, node: usize) {
        let home = self.camps.iter().position(|camp| camp.contains(&node)).expect("every node has a camp");
        self.camps.swap(0, home);
        self.own = node;
    }

    pub fn with(random: &mut Random, stakes: Vec<u64>) -> Ring {
        let camps = lightest_first(random, &stakes);
        let own = random.pick(&camps[0]);
        Ring { stakes, own, watches: false, genesis: genesis(random), camps }
    }

    pub fn nodes(&self) -> usize {
        self.stakes.len()
    }

    pub fn table(&self) -> Stakes {
        Stakes::new(&self.stakes).expect("generated rings fit the sizes")
    }

    /// The certificate kind of that meaning, 1 to 5, in this table's family.
    pub fn kind(&self, meaning: u64) -> u64 {
        self.table().family().kinds_after() + meaning
    }

    /// Whether the node votes by itself, so that no vote in its name is taken.
    pub fn is_own(&self, node: usize) -> bool {
        node == self.own && !self.watches
    }

    /// The other nodes that are in a camp.
    pub fn others(&self) -> Vec<usize> {
        let mut others: Vec<usize> = self.camps.concat();
        others.retain(|&node| !self.is_own(node));
        others.sort_unstable();
        others
    }

    pub fn start_line(&self) -> String {
        if self.watches {
            return format!("watch {} {}", self.genesis, self.stake_words());
        }
        format!("start {} {} {}", self.own, self.genesis, self.stake_words())
    }

    pub fn stake_words(&self) -> String {
        words(&self.stakes)
    }

    /// Random signers that just reach the threshold.
    pub fn reaching(&self, random: &mut Random, threshold: Threshold) -> Vec<usize> {
        let table = self.table();
        let mut order: Vec<usize> = (0..self.nodes()).collect();
        random.shuffle(&mut order);
        // In a large table few heavy nodes may do, or it takes many light ones.
        if table.family() == Family::Large && random.percent(50) {
            order.sort_by_key(|&node| std::cmp::Reverse(self.stakes[node]));
        }
        let mut weight = 0;
        let enough = order.iter().position(|&node| {
            weight += self.stakes[node];
            table.reaches(weight, threshold)
        });
        order.truncate(enough.expect("all nodes together reach every threshold") + 1);
        order
    }
}

pub fn words(numbers: &[u64]) -> String {
    numbers.iter().map(u64::to_string).collect::<Vec<_>>().join(" ")
}

fn genesis(random: &mut Random) -> u64 {
    match random.below(4) {
        0 => 1,
        1 => 7,
        2 => u64::MAX,
        _ => random.any_number().max(1),
    }
}

/// One or two nodes with nearly everything.
fn skewed(random: &mut Random, nodes: usize) -> Vec<u64> {
    let mut stakes: Vec<u64> = (0..nodes).map(|_| random.range(1, 3)).collect();
    for _ in 0..random.range(1, 3) {
        let heavy = random.index(nodes);
        stakes[heavy] = random.range(1, 20 * nodes as u64);
    }
    stakes
}

/// A total cut at random into that many pieces of at least 1.
pub fn cut(random: &mut Random, pieces: usize, total: u64) -> Vec<u64> {
    let mut left = total;
    let mut stakes = Vec::new();
    for after in (0..pieces as u64).rev() {
        let most = left - after;
        let even = (left / (after + 1)).max(1);
        let piece = if after == 0 { left } else { random.range(1, (2 * even).min(most)) };
        stakes.push(piece);
        left -= piece;
    }
    random.shuffle(&mut stakes);
    stakes
}

/// Stakes whose partial sums lie at, just under or just over k fifths of a
/// total that five need not divide.
fn near_thresholds(random: &mut Random, nodes: usize) -> Vec<u64> {
    if nodes < 5 {
        return (0..nodes).map(|_| random.range(1, 6)).collect();
    }
    let top = random.pick(&[1000, MOST_TOTAL - 200]);
    let total = random.range(top / 2, top);
    let mut bounds = vec![0];
    for k in 1..5 {
        bounds.push((k * total + 4) / 5 + random.below(3) - 1);
    }
    bounds.push(total);
    let mut stakes: Vec<u64> = bounds.windows(2).map(|w| w[1] - w[0]).collect();
    // The remaining nodes weigh 1 each, to tip a balance.
    stakes.resize(nodes, 1);
    random.shuffle(&mut stakes);
    stakes
}

/// Nodes put one by one, heaviest first, into the lightest camp.
fn lightest_first(random: &mut Random, stakes: &[u64]) -> Vec<Vec<usize>> {
    let mut order: Vec<usize> = (0..stakes.len()).collect();
    random.shuffle(&mut order);
    order.sort_by_key(|&node| std::cmp::Reverse(stakes[node]));
    let mut camps: Vec<Vec<usize>> = vec![Vec::new(); 5];
    let mut weights = [0u64; 5];
    for node in order {
        let camp = (0..5).min_by_key(|&camp| weights[camp]).unwrap();
        camps[camp].push(node);
        weights[camp] += stakes[node];
    }
    // Any camp with a member may be the own node's.
    let filled: Vec<usize> = (0..5).filter(|&camp| !camps[camp].is_empty()).collect();
    let home = random.pick(&filled);
    camps.swap(0, home);
    camps
}
