//! The script: one command a line, one answer a command.

use crate::differ::{differ, Line};
use crate::help;
use crate::message::{self, Message};
use crate::node::{is_slot, Block, Card, Node, Record, Vote};
use crate::packet;
use crate::read::{self, Head, Marks, Weights};
use crate::refusal::Refusal;
use crate::same_parents::told_twice;
use crate::stakes::{Family, Stakes};
use crate::stands::fallen;
use crate::vouched::{lacking, lacking_in, Lacked};
use std::collections::BTreeSet;

/// Counted without the line's end.
pub const LONGEST_LINE: usize = 65_536;

/// Nodes whose votes a page of `votes SLOT FROM` has.
pub const VOTERS_A_PAGE: usize = 64;

/// Lines of a comparison for which the panel has room.
pub const MOST_LINES: usize = 15_360;

const NOT_A_COMMAND: &str = "?";

#[derive(Default)]
pub struct Panel {
    pub node: Option<Node>,
    /// A copy for later comparison.
    pub aside: Option<Node>,
    /// A proof that arrives in pieces.
    pieces: Option<Pieces>,
    /// Set by `quit`: nothing after it is read.
    pub ended: bool,
}

/// What was taken since the first piece, with the table that came with it.
struct Pieces {
    stakes: Vec<u64>,
    bytes: Vec<u8>,
}

#[derive(Clone, PartialEq, Eq, Debug)]
pub enum Answer {
    /// Exactly these lines.
    Lines(Vec<String>),
    /// Text for people, any number of lines. The model does not have it.
    FreeText,
}

impl Answer {
    fn line(line: impl Into<String>) -> Answer {
        Answer::Lines(vec![line.into()])
    }

    /// The lines that the model can tell.
    pub fn lines(self) -> Vec<String> {
        match self {
            Answer::Lines(lines) => lines,
            Answer::FreeText => Vec::new(),
        }
    }
}

/// What is wrong with a line as such, before anything is asked of the node.
struct Malformed;

enum Command {
    Start { own: u64, genesis: u64, stakes: Vec<u64> },
    Watch { genesis: u64, stakes: Vec<u64> },
    Vote { kind: u64, node: u64, slot: u64, block: u64 },
    Tray { words: Vec<u64> },
    Block { slot: u64, number: u64, parent_slot: u64, parent: u64 },
    Take { packet: Vec<u8> },
    Timeout { slot: u64 },
    Look,
    Aside,
    Differ,
    Stands,
    Vouched,
    VouchedPacket { packet: Vec<u8> },
    Parents,
    Cert { kind: u64, slot: u64, block: u64 },
    Proof { slot: u64, block: u64 },
    Check { packet: Vec<u8>, stakes: Vec<u64> },
    CheckProof { packet: Vec<u8>, stakes: Vec<u64> },
    Pack { count: u64, message: Message },
    Unpack { count: u64, bytes: Vec<u8> },
    Piece { bytes: Vec<u8>, stakes: Vec<u64> },
    End,
    Card { slot: u64 },
    Blocks { slot: u64 },
    Marks { slot: u64 },
    Head,
    Certificates { slot: u64 },
    Weights { slot: u64, block: u64 },
    Votes,
    VotesOfSlot { slot: u64, from: u64 },
    Board,
    Help,
    HelpOf { word: Vec<u8> },
    Why { number: u64 },
}

impl Panel {
    /// The answer; None for a line that has none.
    pub fn line(&mut self, line: &[u8]) -> Option<Answer> {
        if self.ended {
            return None;
        }
        // A line that is too long is looked at no further, be it blank or a comment.
        if line.len() > LONGEST_LINE {
            return Some(Answer::line(NOT_A_COMMAND));
        }
        let words = words(line);
        if words.is_empty() || line.starts_with(b"#") {
            return None;
        }
        if words == [b"quit"] {
            self.ended = true;
            return None;
        }
        Some(match parse(&words) {
            Ok(command) => self.obey(command).unwrap_or_else(|refusal| Answer::line(show_refusal(refusal))),
            Err(Malformed) => Answer::line(NOT_A_COMMAND),
        })
    }

    fn obey(&mut self, command: Command) -> Result<Answer, Refusal> {
        let answer = match command {
            Command::Start { own, genesis, stakes } => {
                self.node = Some(Node::start(own, genesis, &stakes)?);
                "0".to_string()
            }
            Command::Watch { genesis, stakes } => {
                self.node = Some(Node::watch(genesis, &stakes)?);
                "0".to_string()
            }
            Command::Vote { kind, node, slot, block } => {
                show_records(&self.node()?.vote(kind, node, slot, block)?)
            }
            Command::Tray { words } => {
                let (records, answers) = self.node()?.tray(&words)?;
                show_records(&records) + &show_answers(&answers)
            }
            Command::Block { slot, number, parent_slot, parent } => {
                show_records(&self.node()?.block(slot, number, parent_slot, parent)?)
            }
            // 15 stands alone here, without the missing weight.
            Command::Take { packet } => match self.node()?.take(&packet) {
                Ok(records) => show_records(&records),
                Err(refusal) => refusal.number().to_string(),
            },
            Command::Timeout { slot } => show_records(&self.node()?.timeout(slot)?),
            Command::Look => show_records(&self.node()?.look()),
            Command::Aside => {
                self.aside = Some(self.node()?.clone());
                "0".to_string()
            }
            Command::Differ => match (&self.aside, &self.node) {
                (None, _) => show_no_record(1),
                (_, None) => show_no_record(2),
                (Some(aside), Some(node)) => show_lines(&differ(aside, node)),
            },
            Command::Stands => match &self.node {
                None => show_no_record(0),
                Some(node) => show_votes(fallen(node).iter().map(|f| (f.slot, f.node, f.vote, f.rule()))),
            },
            // As with `differ` the node aside is the first, so it is the present one that is asked.
            Command::Vouched => match (&self.aside, &self.node) {
                (None, _) => show_no_record(1),
                (_, None) => show_no_record(2),
                (Some(aside), Some(node)) => show_lacked(lacking(aside, node)),
            },
            Command::VouchedPacket { packet } => match &self.node {
                None => show_no_record(0),
                Some(node) => show_lacked(lacking_in(node, &packet)),
            },
            Command::Parents => match (&self.aside, &self.node) {
                (None, _) => show_no_record(1),
                (_, None) => show_no_record(2),
                (Some(aside), Some(node)) => show_parents(aside, node),
            },
            Command::Cert { kind, slot, block } => {
                show_packet(&packet::write_cert(self.node()?, kind, slot, block)?)
            }
            Command::Proof { slot, block } => show_packet(&packet::write_proof(self.node()?, slot, block)?),
            Command::Check { packet, stakes } => show_checked(packet::check(&packet, &stakes)?),
            Command::CheckProof { packet, stakes } => show_checked(packet::check_proof(&packet, &stakes)?),
            Command::Pack { count, message } => show_packet(&message::write(count, message)?),
            Command::Unpack { count, bytes } => show_message(message::read(count, &bytes)?),
            Command::Piece { bytes, stakes } => self.piece(bytes, stakes)?.to_string(),
            Command::End => {
                let pieces = self.pieces.take().ok_or(Refusal::PacketLength)?;
                show_checked(packet::check_proof(&pieces.bytes, &pieces.stakes)?)
            }
            Command::Card { slot } => show_card(self.node()?.card(slot)?),
            Command::Blocks { slot } => show_blocks(read::blocks(self.node()?, slot)?),
            Command::Marks { slot } => show_marks(read::marks(self.node()?, slot)?),
            Command::Head => show_head(read::head(self.node()?)),
            Command::Certificates { slot } => match &self.node {
                None => show_no_record(0),
                Some(node) => show_certificates(read::certificates(node, slot)),
            },
            Command::Weights { slot, block } => show_weights(read::weights(self.node()?, slot, block)?),
            Command::Votes => return self.node().map(|node| answer_votes(node)),
            Command::VotesOfSlot { slot, from } => {
                return Ok(Answer::Lines(page_of_votes(self.node()?, slot, from)?))
            }
            Command::Board => return self.node().map(|_| Answer::FreeText),
            Command::Help => return Ok(Answer::Lines(help::screen())),
            Command::HelpOf { word } => {
                return Ok(help::command(&word).map_or(Answer::line(NOT_A_COMMAND), Answer::Lines))
            }
            Command::Why { number } => help::number(number),
        };
        Ok(Answer::line(answer))
    }

    /// The table is looked at with the first piece alone.
    fn piece(&mut self, bytes: Vec<u8>, stakes: Vec<u64>) -> Result<&'static str, Refusal> {
        match &mut self.pieces {
            Some(taken) => taken.bytes.extend(bytes),
            None => {
                Stakes::new(&stakes)?;
                self.pieces = Some(Pieces { stakes, bytes });
            }
        }
        Ok("more")
    }

    fn node(&mut self) -> Result<&mut Node, Refusal> {
        self.node.as_mut().ok_or(Refusal::NoNode)
    }
}

// ---- reading ----

/// The lines of a script without their ends, LF or CRLF.
pub fn lines(script: &[u8]) -> Vec<&[u8]> {
    let mut lines: Vec<&[u8]> = script.split(|&byte| byte == b'\n').collect();
    // What follows the last LF is a line only if it has bytes.
    if lines.last().map_or(false, |last| last.is_empty()) {
        lines.pop();
    }
    lines.into_iter().map(|line| line.strip_suffix(b"\r").unwrap_or(line)).collect()
}

fn words(line: &[u8]) -> Vec<&[u8]> {
    line.split(|&byte| byte == b' ').filter(|word| !word.is_empty()).collect()
}

fn parse(words: &[&[u8]]) -> Result<Command, Malformed> {
    let rest = &words[1..];
    match words[0] {
        b"start" => {
            let mut numbers = all_numbers(rest)?;
            if numbers.len() < 2 {
                return Err(Malformed);
            }
            let stakes = numbers.split_off(2);
            Ok(Command::Start { own: numbers[0], genesis: numbers[1], stakes })
        }
        b"watch" => {
            let mut numbers = all_numbers(rest)?;
            if numbers.is_empty() {
                return Err(Malformed);
            }
            let stakes = numbers.split_off(1);
            Ok(Command::Watch { genesis: numbers[0], stakes })
        }
        b"aside" => numbers::<0>(rest).map(|_| Command::Aside),
        b"differ" => numbers::<0>(rest).map(|_| Command::Differ),
        b"stands" => numbers::<0>(rest).map(|_| Command::Stands),
        b"vouched" => match rest {
            [] => Ok(Command::Vouched),
            [packet] => Ok(Command::VouchedPacket { packet: hex(packet)? }),
            _ => Err(Malformed),
        },
        b"parents" => numbers::<0>(rest).map(|_| Command::Parents),
        b"vote" => {
            let [kind, node, slot, block] = numbers(rest)?;
            Ok(Command::Vote { kind, node, slot, block })
        }
        b"tray" => all_numbers(rest).map(|words| Command::Tray { words }),
        b"block" => {
            let [slot, number, parent_slot, parent] = numbers(rest)?;
            Ok(Command::Block { slot, number, parent_slot, parent })
        }
        b"take" => match rest {
            [packet] => Ok(Command::Take { packet: hex(packet)? }),
            _ => Err(Malformed),
        },
        b"timeout" => {
            let [slot] = numbers(rest)?;
            Ok(Command::Timeout { slot })
        }
        b"look" => numbers::<0>(rest).map(|_| Command::Look),
        b"votes" if rest.is_empty() => Ok(Command::Votes),
        b"votes" => {
            let [slot, from] = numbers(rest)?;
            Ok(Command::VotesOfSlot { slot, from })
        }
        b"board" if rest.len() <= 2 => all_numbers(rest).map(|_| Command::Board),
        b"card" => {
            let [slot] = numbers(rest)?;
            Ok(Command::Card { slot })
        }
        b"blocks" => {
            let [slot] = numbers(rest)?;
            Ok(Command::Blocks { slot })
        }
        b"marks" => {
            let [slot] = numbers(rest)?;
            Ok(Command::Marks { slot })
        }
        b"head" => numbers::<0>(rest).map(|_| Command::Head),
        b"certificates" => {
            let [slot] = numbers(rest)?;
            Ok(Command::Certificates { slot })
        }
        b"weights" => {
            let [slot, block] = numbers(rest)?;
            Ok(Command::Weights { slot, block })
        }
        b"help" => match rest {
            [] => Ok(Command::Help),
            [word] => Ok(Command::HelpOf { word: word.to_vec() }),
            _ => Err(Malformed),
        },
        b"why" => {
            let [number] = numbers(rest)?;
            Ok(Command::Why { number })
        }
        b"cert" => {
            let [kind, slot, block] = numbers(rest)?;
            Ok(Command::Cert { kind, slot, block })
        }
        b"proof" => {
            let [slot, block] = numbers(rest)?;
            Ok(Command::Proof { slot, block })
        }
        b"check" => packet_and_stakes(rest).map(|(packet, stakes)| Command::Check { packet, stakes }),
        b"checkproof" => {
            packet_and_stakes(rest).map(|(packet, stakes)| Command::CheckProof { packet, stakes })
        }
        b"pack" => {
            let [count, kind, node, slot, block] = numbers(rest)?;
            Ok(Command::Pack { count, message: Message { kind, node, slot, block } })
        }
        b"piece" => packet_and_stakes(rest).map(|(bytes, stakes)| Command::Piece { bytes, stakes }),
        b"end" => numbers::<0>(rest).map(|_| Command::End),
        b"unpack" => match rest {
            [count, bytes] => Ok(Command::Unpack { count: number(count)?, bytes: hex(bytes)? }),
            _ => Err(Malformed),
        },
        _ => Err(Malformed),
    }
}

fn numbers<const N: usize>(words: &[&[u8]]) -> Result<[u64; N], Malformed> {
    all_numbers(words)?.try_into().map_err(|_| Malformed)
}

fn all_numbers(words: &[&[u8]]) -> Result<Vec<u64>, Malformed> {
    words.iter().map(|word| number(word)).collect()
}

fn number(word: &[u8]) -> Result<u64, Malformed> {
    // Tested by hand: the library's parser would let a plus sign pass.
    if !word.iter().all(u8::is_ascii_digit) {
        return Err(Malformed);
    }
    std::str::from_utf8(word).map_err(|_| Malformed)?.parse().map_err(|_| Malformed)
}

fn packet_and_stakes(words: &[&[u8]]) -> Result<(Vec<u8>, Vec<u64>), Malformed> {
    let (packet, stakes) = words.split_first().ok_or(Malformed)?;
    Ok((hex(packet)?, all_numbers(stakes)?))
}

fn hex(word: &[u8]) -> Result<Vec<u8>, Malformed> {
    if word == b"-" {
        return Ok(Vec::new());
    }
    if word.len() % 2 != 0 {
        return Err(Malformed);
    }
    word.chunks(2).map(|pair| Ok(hex_digit(pair[0])? << 4 | hex_digit(pair[1])?)).collect()
}

fn hex_digit(digit: u8) -> Result<u8, Malformed> {
    (digit as char).to_digit(16).map(|value| value as u8).ok_or(Malformed)
}

// ---- showing ----

fn show_refusal(refusal: Refusal) -> String {
    match refusal {
        Refusal::TooLight(missing) => format!("{} {missing}", refusal.number()),
        _ => refusal.number().to_string(),
    }
}

fn show_records(records: &[Record]) -> String {
    let mut line = format!("0 {}", records.len());
    for r in records {
        line += &format!(" {},{},{}", r.kind, r.slot, r.block);
    }
    line
}

/// Nothing where there was no vote.
fn show_answers(answers: &[u64]) -> String {
    if answers.is_empty() {
        return String::new();
    }
    let answers: Vec<String> = answers.iter().map(u64::to_string).collect();
    format!(" : {}", answers.join(" "))
}

pub fn show_hex(packet: &[u8]) -> String {
    if packet.is_empty() {
        return "-".to_string();
    }
    packet.iter().map(|byte| format!("{byte:02X}")).collect()
}

fn show_packet(packet: &[u8]) -> String {
    format!("0 {} {}", packet.len(), show_hex(packet))
}

fn show_checked(c: packet::Checked) -> String {
    format!("0 {} {} {} {} {}", c.kind, c.slot, c.block, c.count, c.weight)
}

/// The first side is named where both have no node.
fn show_no_record(side: u64) -> String {
    format!("{} {side}", Refusal::NoNode.number())
}

/// A list that is too long is told by its length alone.
fn show_lines(lines: &[Line]) -> String {
    if lines.len() > MOST_LINES {
        return format!("9 {}", lines.len());
    }
    let mut shown = format!("0 {}", lines.len());
    for l in lines {
        let (slot, node, kind, block) = l.vote;
        shown += &format!(" {slot},{node},{kind},{block},{}", l.side);
    }
    shown
}

/// Slot, node, vote and what is told beside it; the votes of one node always have room.
fn show_votes(votes: impl ExactSizeIterator<Item = (u64, u64, Vote, u64)>) -> String {
    let mut shown = format!("0 {}", votes.len());
    for (slot, node, vote, beside) in votes {
        shown += &format!(" {slot},{node},{},{},{beside}", vote.kind(), vote.block());
    }
    shown
}

/// Beside a refusal stands 0, the missing weight of a packet too.
fn show_lacked(lacked: Result<Vec<Lacked>, Refusal>) -> String {
    match lacked {
        Ok(lacked) => show_votes(lacked.iter().map(|l| (l.slot, l.node, l.vote, l.source))),
        Err(refusal) => format!("{} 0", refusal.number()),
    }
}

/// Slot, block, its parent's slot and number, and the side that keeps it so.
fn show_parents(aside: &Node, node: &Node) -> String {
    let told = match told_twice(aside, node) {
        Ok(told) => told,
        Err(refusal) => return format!("{} 0", refusal.number()),
    };
    let mut shown = format!("0 {}", told.len());
    for t in told {
        let Block { number, parent_slot, parent } = t.block;
        shown += &format!(" {},{number},{parent_slot},{parent},{}", t.slot, t.side);
    }
    shown
}

fn show_card(c: Card) -> String {
    format!("0 {} {} {} {} {}", c.skip, c.finals, c.skip_certificate, c.leader, c.leader_weight)
}

fn show_blocks(blocks: &[Block]) -> String {
    let mut shown = format!("0 {}", blocks.len());
    for b in blocks {
        shown += &format!(" {},{},{}", b.number, b.parent_slot, b.parent);
    }
    shown
}

fn show_marks(m: Marks) -> String {
    format!("0 {} {} {} {}", u64::from(m.armed), u64::from(m.timed_out), m.final_block, u64::from(m.conflict))
}

fn show_head(h: Head) -> String {
    format!("0 {} {} {} {}", h.own, h.nodes, h.total, h.genesis)
}

/// Beside a refusal stands 0, as with every list.
fn show_certificates(certificates: Result<Vec<packet::Checked>, Refusal>) -> String {
    match certificates {
        Ok(all) => {
            let mut shown = format!("0 {}", all.len());
            for c in all {
                shown += &format!(" {},{},{},{},{}", c.kind, c.slot, c.block, c.count, c.weight);
            }
            shown
        }
        Err(refusal) => format!("{} 0", refusal.number()),
    }
}

fn show_weights(w: Weights) -> String {
    format!("0 {} {} {} {}", w.notar, w.notar_fallback, w.skip, w.missing)
}

fn show_message(m: Message) -> String {
    format!("0 {} {} {} {}", m.kind, m.node, m.slot, m.block)
}

/// Every stored vote; of a large table what people read.
fn answer_votes(node: &Node) -> Answer {
    match node.stakes().family() {
        Family::Small => Answer::Lines(node.stored_votes().iter().map(show_stored).collect()),
        Family::Large => Answer::FreeText,
    }
}

/// The votes of a slot by the nodes from one on, as many nodes as a page has,
/// and where the next page begins.
fn page_of_votes(node: &Node, slot: u64, from: u64) -> Result<Vec<String>, Refusal> {
    if !is_slot(slot) {
        return Err(Refusal::NoSuchSlot);
    }
    if !node.stakes().has_node(from) {
        return Err(Refusal::NoSuchNode);
    }
    let mut votes = node.stored_votes();
    votes.retain(|&(its_slot, its_node, _)| its_slot == slot && its_node as u64 >= from);
    let voters: BTreeSet<usize> = votes.iter().map(|&(_, node, _)| node).collect();
    let next = voters.into_iter().nth(VOTERS_A_PAGE);
    let on_page = |node: usize| next.map_or(true, |next| node < next);
    let mut lines: Vec<String> = votes.iter().filter(|vote| on_page(vote.1)).map(show_stored).collect();
    lines.extend(next.map(|next| format!("more: votes {slot} {next}")));
    Ok(lines)
}

fn show_stored((slot, node, vote): &(u64, usize, Vote)) -> String {
    format!("{slot} {node} {} {}", vote.kind(), vote.block())
}
