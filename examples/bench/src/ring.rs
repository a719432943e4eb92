//! One ring from its seed: hosts, liars, mail and simulated time, until nothing is left to happen.

use crate::agreed::{Agreed, WINDOWS};
use crate::host::Host;
use crate::lies::{How, Plot, HOWS};
use crate::mail::{Count, Kind, Letter, Mail, Piece, Post, Shares, To, KINDS};
use crate::options::{Options, Stakes};
use crate::random::Random;
use crate::seen::{Answers, Seen};
use crate::store::Store;
use quointrowel::{read_vote, Block, Node, Record, Slot, Vote};
use std::collections::{BTreeMap, BTreeSet};
use std::io;
use std::rc::Rc;

pub const GENESIS: u64 = 1;
/// A firm that falls starts again after so many ms; and at this moment a ring that still goes on is ended.
const DOWN_TIME: u64 = 150;
const LAST_MOMENT: u64 = 600_000;
/// Firms that stop for good do so at a moment before this.
const STOP_BEFORE: u64 = 3500;

/// What becomes of a firm.
enum State {
    Up(Box<Host>),
    Down { store: Store, seen: Seen, until: u64 },
}

/// A ring after it has run.
pub struct Ring {
    pub options: Options,
    pub agreed: Rc<Agreed>,
    pub plot: Plot,
    pub how: Vec<How>,
    pub hosts: Vec<Host>,
    pub stopped: Vec<bool>,
    pub watched: Vec<usize>,
    /// Every vote that was ever cast, and every block that was ever built.
    pub cast: BTreeSet<Vote>,
    pub blocks: BTreeMap<(Slot, u64), Block>,
    /// When each block was first sent.
    pub built: BTreeMap<(Slot, u64), u64>,
    pub mail: [Count; KINDS.len()],
    pub ended: u64,
}

impl Ring {
    pub fn is_honest(&self, firm: usize) -> bool {
        self.plot.how[firm].is_none()
    }

    /// Honest firms that did not stop for good.
    pub fn standing(&self) -> impl Iterator<Item = usize> + '_ {
        (0..self.hosts.len()).filter(|&firm| self.is_honest(firm) && !self.stopped[firm])
    }

    pub fn honest(&self) -> impl Iterator<Item = usize> + '_ {
        (0..self.hosts.len()).filter(|&firm| self.is_honest(firm))
    }

    pub fn weight(&self, firms: impl Iterator<Item = usize>) -> u64 {
        firms.map(|firm| self.agreed.stakes[firm]).sum()
    }

    pub fn lying_weight(&self) -> u64 {
        self.weight((0..self.hosts.len()).filter(|&firm| !self.is_honest(firm)))
    }

    /// Whether less than a fifth of the stake lies, so that the promises speak of this ring.
    pub fn is_promised(&self) -> bool {
        !self.agreed.reaches(1, self.lying_weight())
    }

    pub fn answers(&self) -> Answers {
        let mut all = Answers::new();
        self.honest().for_each(|firm| all.add(&self.hosts[firm].seen.answers));
        all
    }
}

/// The stakes of a ring of so many firms.
fn stakes(options: &Options, random: &mut Random) -> Vec<u64> {
    let firms = options.firms_of_seed();
    match &options.stakes {
        Stakes::Equal => vec![1; firms],
        Stakes::Steep => {
            let mut stakes: Vec<u64> = (1..=firms as u64).map(|rank| 1 + 10_000 / (rank + 2)).collect();
            random.shuffle(&mut stakes);
            stakes
        }
        Stakes::File { stakes, .. } => stakes.clone(),
    }
}

/// Who lies, of the stake at most so many percent, and each in which way.
fn liars(options: &Options, how: &[How], stakes: &[u64], total: u64, random: &mut Random) -> Vec<Option<How>> {
    let mut firms: Vec<usize> = (0..stakes.len()).collect();
    random.shuffle(&mut firms);
    let most = (u128::from(total) * u128::from(options.lying) / 100) as u64;
    let (mut weight, mut ways) = (0, how.iter().copied().cycle());
    let mut lying = vec![None; stakes.len()];
    for firm in firms {
        if weight + stakes[firm] <= most {
            weight += stakes[firm];
            lying[firm] = ways.next();
        }
    }
    lying
}

/// Leaders by stake. Where some lie, one leads the second window, so that lying leaders are seen in every such ring.
fn leaders(stakes: &[u64], total: u64, how: &[Option<How>], random: &mut Random) -> [Node; WINDOWS] {
    let mut draw = |may: &dyn Fn(usize) -> bool| loop {
        let mut at = random.below(total);
        let firm = stakes
            .iter()
            .position(|&stake| {
                at < stake || {
                    at -= stake;
                    false
                }
            })
            .expect("below the total");
        if may(firm) {
            return Node(firm);
        }
    };
    let some_lie = how.iter().any(Option::is_some);
    [0, 1, 2, 3].map(|window| draw(&|firm| window != 1 || !some_lie || how[firm].is_some()))
}

/// The ways of lying of a seed: those that were asked for, else one of all in turn, and every seventh time all of them.
pub fn how_of_seed(options: &Options) -> Vec<How> {
    let all: Vec<How> = HOWS.iter().map(|&(how, _)| how).collect();
    let turn = (options.seed % (all.len() as u64 + 1)) as usize;
    options.how.clone().unwrap_or_else(|| all.get(turn).map_or(all.clone(), |&how| vec![how]))
}

/// A ring while it runs.
struct Running {
    agreed: Rc<Agreed>,
    plot: Plot,
    post: Post,
    firms: Vec<State>,
    stops: Vec<Option<u64>>,
    dues: BTreeSet<(u64, usize)>,
    crash: u64,
    late: u64,
    chance: Random,
    cast: BTreeSet<Vote>,
    blocks: BTreeMap<(Slot, u64), Block>,
    built: BTreeMap<(Slot, u64), u64>,
}

/// Runs the ring of the options' seed.
pub fn run(options: &Options) -> io::Result<Ring> {
    let stakes = stakes(options, &mut Random::of(options.seed, 1));
    let total = stakes.iter().sum();
    let how = how_of_seed(options);
    let lying = liars(options, &how, &stakes, total, &mut Random::of(options.seed, 2));
    let leaders = leaders(&stakes, total, &lying, &mut Random::of(options.seed, 3));
    let blank = Record::watch(&stakes, GENESIS).expect("stakes that were looked through");
    let agreed = Rc::new(Agreed { stakes, total, genesis: GENESIS, leaders, blank });
    let plot = Plot::new(lying, &agreed, &mut Random::of(options.seed, 4));
    let stops = stops(options, &plot, &mut Random::of(options.seed, 5));
    let watched = watched(options, &plot, &mut Random::of(options.seed, 6));

    let mut firms = Vec::new();
    for firm in 0..agreed.stakes.len() {
        let store = match &options.store {
            Some(folder) => Store::in_folder(folder, &format!("firm-{firm}")),
            None => Store::in_memory(),
        };
        let host = Host::start(Node(firm), &agreed, store, Seen::new(watched.contains(&firm)))?;
        firms.push(State::Up(Box::new(host)));
    }
    let shares = Shares { twice: options.twice, lost: options.lost };
    let mut running = Running {
        post: Post::new(shares, Random::of(options.seed, 7)),
        dues: (0..firms.len()).map(|firm| (0, firm)).collect(),
        crash: options.crash,
        late: options.late,
        chance: Random::of(options.seed, 8),
        cast: BTreeSet::new(),
        blocks: BTreeMap::new(),
        built: BTreeMap::new(),
        agreed,
        plot,
        firms,
        stops,
    };
    let ended = running.go_on()?;
    running.finished(options, how, watched, ended)
}

/// The honest firms that stop for good, and when.
fn stops(options: &Options, plot: &Plot, random: &mut Random) -> Vec<Option<u64>> {
    let mut honest: Vec<usize> = (0..plot.how.len()).filter(|&firm| plot.how[firm].is_none()).collect();
    random.shuffle(&mut honest);
    let count = honest.len() as u64 * options.stop / 100;
    let mut stops = vec![None; plot.how.len()];
    for firm in honest.into_iter().take(count as usize) {
        stops[firm] = Some(random.below(STOP_BEFORE));
    }
    stops
}

/// The honest firms that watchers follow.
fn watched(options: &Options, plot: &Plot, random: &mut Random) -> Vec<usize> {
    let mut honest: Vec<usize> = (0..plot.how.len()).filter(|&firm| plot.how[firm].is_none()).collect();
    random.shuffle(&mut honest);
    honest.truncate(options.watchers);
    honest
}

impl Running {
    fn go_on(&mut self) -> io::Result<u64> {
        let mut inboxes: Vec<Vec<Mail>> = vec![Vec::new(); self.firms.len()];
        let mut now = 0;
        while let Some(next) = self.next_moment().filter(|&next| next <= LAST_MOMENT) {
            now = next;
            let arrivals = self.post.arrivals(now);
            for mail in arrivals.unacknowledged {
                self.send_again(now, mail);
            }
            let mut awake = BTreeSet::new();
            for mail in arrivals.mail {
                self.deliver(now, mail, &mut inboxes, &mut awake);
            }
            while let Some(&(at, firm)) = self.dues.first().filter(|(at, _)| *at <= now) {
                self.dues.remove(&(at, firm));
                awake.insert(firm);
            }
            for firm in awake {
                let mail = std::mem::take(&mut inboxes[firm]);
                self.wake(now, firm, &mail)?;
            }
        }
        Ok(now)
    }

    fn next_moment(&self) -> Option<u64> {
        let due = self.dues.first().map(|&(at, _)| at);
        self.post.next().into_iter().chain(due).min()
    }

    fn has_stopped(&self, now: u64, firm: usize) -> bool {
        self.stops[firm].is_some_and(|at| at <= now)
    }

    fn deliver(&mut self, now: u64, mail: Mail, inboxes: &mut [Vec<Mail>], awake: &mut BTreeSet<usize>) {
        let to = mail.to.0;
        if self.has_stopped(now, to) {
            return;
        }
        match &self.firms[to] {
            State::Down { until, .. } if now < *until => {
                self.post.counts[mail.piece.kind as usize].lost += 1;
                self.post.bounce(now, mail);
            }
            _ => {
                awake.insert(to);
                inboxes[to].push(mail);
            }
        }
    }

    fn send_again(&mut self, now: u64, mail: Mail) {
        let from = mail.from;
        if self.has_stopped(now, from.0) || self.has_stopped(now, mail.to.0) {
            return;
        }
        if let State::Up(host) = &self.firms[from.0] {
            let letter = host.send_again(mail);
            self.post.count_again(letter.piece.kind);
            self.send(now, from, letter);
        }
    }

    fn wake(&mut self, now: u64, firm: usize, mail: &[Mail]) -> io::Result<()> {
        if self.has_stopped(now, firm) {
            return Ok(());
        }
        if matches!(self.firms[firm], State::Down { until, .. } if until <= now) {
            self.restart(now, firm)?;
        }
        let State::Up(host) = &mut self.firms[firm] else { return Ok(()) };
        let (letters, is_stored) = host.wake(now, mail)?;
        let is_lying = self.plot.how[firm].is_some();
        self.log_cast(now, firm, &letters);
        if is_stored && !is_lying && self.chance.percent(self.crash) {
            return Ok(self.fall(now, firm));
        }
        if let Some(due) = host_of(&self.firms[firm]).due() {
            self.dues.insert((due.max(now + 1), firm));
        }
        for letter in letters {
            if is_lying {
                self.lie(now, firm, letter);
            } else {
                self.send(now, Node(firm), letter);
            }
        }
        Ok(())
    }

    /// An honest firm's votes and blocks are cast once its host has stored them, sent or not; and so are votes that lying firms tell
    /// nobody and put into certificates.
    fn log_cast(&mut self, now: u64, firm: usize, letters: &[Letter]) {
        if self.plot.how[firm].map_or(true, |how| how == How::Certificates) {
            for letter in letters {
                self.log(now, Node(firm), &letter.piece);
            }
        }
    }

    fn log(&mut self, now: u64, from: Node, piece: &Piece) {
        match piece.kind {
            Kind::Vote => {
                let vote = read_vote(self.agreed.stakes.len(), &piece.bytes);
                self.cast.extend(vote.ok().filter(|vote| vote.node == from));
            }
            Kind::Block => {
                let block = piece.block().expect("a block that the bench wrote");
                self.blocks.insert((block.slot, block.number), block);
                self.built.entry((block.slot, block.number)).or_insert(now);
            }
            _ => {}
        }
    }

    fn send(&mut self, now: u64, from: Node, letter: Letter) {
        match letter.to {
            To::One(to) => self.send_one(now, from, to, &letter.piece),
            To::Everyone => {
                for to in (0..self.firms.len()).filter(|&to| to != from.0) {
                    self.send_one(now, from, Node(to), &letter.piece);
                }
            }
        }
    }

    fn send_one(&mut self, now: u64, from: Node, to: Node, piece: &Rc<Piece>) {
        let late = self.plot.lateness(&self.agreed, piece, from, to, self.late);
        self.post.send(now, Mail { from, to, piece: Rc::clone(piece) }, late);
    }

    fn lie(&mut self, now: u64, firm: usize, letter: Letter) {
        let sent = self.plot.lie(&self.agreed, Node(firm), letter, &mut self.chance);
        for one in sent {
            self.log(now, Node(firm), &one.piece);
            let mail = Mail { from: Node(firm), to: one.to, piece: one.piece };
            self.post.send_promptly(now + one.delay, mail);
        }
    }

    fn fall(&mut self, now: u64, firm: usize) {
        let until = now + DOWN_TIME;
        self.dues.insert((until, firm));
        let gone = State::Down { store: Store::in_memory(), seen: Seen::new(false), until };
        if let State::Up(host) = std::mem::replace(&mut self.firms[firm], gone) {
            let (store, seen) = host.fall();
            self.firms[firm] = State::Down { store, seen, until };
        }
    }

    fn restart(&mut self, now: u64, firm: usize) -> io::Result<()> {
        let gone = State::Down { store: Store::in_memory(), seen: Seen::new(false), until: now };
        if let State::Down { store, seen, .. } = std::mem::replace(&mut self.firms[firm], gone) {
            let host = Host::resume(Node(firm), &self.agreed, store, seen, now)?;
            self.firms[firm] = State::Up(Box::new(host));
        }
        Ok(())
    }

    fn finished(mut self, options: &Options, how: Vec<How>, watched: Vec<usize>, ended: u64) -> io::Result<Ring> {
        for firm in 0..self.firms.len() {
            if matches!(self.firms[firm], State::Down { .. }) {
                self.restart(ended, firm)?;
            }
        }
        // What came after a firm's last storing is in its file too once the ring is over.
        for (_, state) in
            self.firms.iter_mut().enumerate().filter(|&(firm, _)| options.store.is_some() && self.stops[firm].is_none())
        {
            if let State::Up(host) = state {
                host.put_away()?;
            }
        }
        let stopped = (0..self.firms.len()).map(|firm| self.has_stopped(ended, firm)).collect();
        let hosts = self.firms.into_iter().filter_map(|state| match state {
            State::Up(host) => Some(*host),
            State::Down { .. } => None,
        });
        Ok(Ring {
            options: options.clone(),
            agreed: self.agreed,
            plot: self.plot,
            how,
            hosts: hosts.collect(),
            stopped,
            watched,
            cast: self.cast,
            blocks: self.blocks,
            built: self.built,
            mail: self.post.counts,
            ended,
        })
    }
}

fn host_of(state: &State) -> &Host {
    match state {
        State::Up(host) => host,
        State::Down { .. } => unreachable!("a firm that was just awake"),
    }
}
