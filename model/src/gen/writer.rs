//! The script under way: lines are written and obeyed at the same time, so
//! that later lines can be chosen by what the node then holds.

use super::ring::Ring;
use crate::node::Node;
use crate::packet::put_number;
use crate::panel::{show_hex, Answer, Panel};
use crate::random::Random;
use crate::stakes::Family;

pub struct Writer {
    pub random: Random,
    pub panel: Panel,
    pub ring: Ring,
    text: String,
    commands: usize,
    budget: usize,
    /// Command lines so far, for repeats.
    said: Vec<String>,
    /// Whether some answer was 17, which needs a panel without a node, or with
    /// none aside.
    unstarted: bool,
    style: Style,
    /// Votes not yet said, for a tray.
    tray: Vec<String>,
}

/// How the lines of one script are laid out, in percent.
struct Style {
    crlf: u64,
    wide_spaces: u64,
    leading_zeros: u64,
    silent_lines: u64,
    /// Votes go in trays of that many, singly at 0.
    votes_a_tray: usize,
    /// What others hold comes as a certificate, not as their votes.
    certificates: u64,
}

impl Style {
    fn any(random: &mut Random) -> Style {
        let votes_a_tray = if random.percent(15) { random.pick(&[1, 2, 3, 5, 10, 30]) } else { 0 };
        let certificates = if random.percent(40) { random.pick(&[20, 50, 100]) } else { 0 };
        if random.percent(70) {
            return Style {
                crlf: 0,
                wide_spaces: 0,
                leading_zeros: 0,
                silent_lines: 0,
                votes_a_tray,
                certificates,
            };
        }
        Style {
            crlf: random.pick(&[0, 0, 30, 100]),
            wide_spaces: random.pick(&[0, 10, 50]),
            leading_zeros: random.pick(&[0, 0, 5]),
            silent_lines: random.pick(&[0, 5]),
            votes_a_tray,
            certificates,
        }
    }
}

impl Writer {
    pub fn new(mut random: Random, ring: Ring, budget: usize) -> Writer {
        let style = Style::any(&mut random);
        Writer {
            random,
            panel: Panel::default(),
            ring,
            text: String::new(),
            commands: 0,
            budget,
            said: Vec::new(),
            unstarted: false,
            style,
            tray: Vec::new(),
        }
    }

    pub fn say(&mut self, line: impl Into<String>) -> Vec<String> {
        self.empty_tray();
        let line = line.into();
        self.said.push(line.clone());
        let laid_out = self.lay_out(&line);
        let answer = self.raw(&laid_out);
        if self.random.percent(self.style.silent_lines) {
            let silent = self.random.pick(&["", "#", "# vote 1 1 1 1", "#look"]);
            self.raw(silent);
        }
        answer
    }

    /// A line exactly as given.
    pub fn raw(&mut self, line: &str) -> Vec<String> {
        let answer = self.panel.line(line.as_bytes());
        self.text += line;
        let crlf = self.random.percent(self.style.crlf);
        self.text += if crlf { "\r\n" } else { "\n" };
        let answer = answer.map_or(vec![], Answer::lines);
        self.commands += 1;
        self.unstarted |= answer == ["17"] || answer == ["17 0"] || answer == ["17 1"];
        answer
    }

    /// Where the table is large, all is free text, and a page of two slots is
    /// not.
    pub fn ask_for_votes(&mut self) {
        match &self.panel.node {
            Some(node) if node.stakes().family() == Family::Large => {
                let voted: Vec<u64> = node.stored_votes().iter().map(|vote| vote.0).collect();
                self.ask_for_text("votes");
                for _ in 0..2 {
                    let slot = if voted.is_empty() { 1 } else { self.random.pick(&voted) };
                    self.say(format!("votes {slot} 0"));
                }
            }
            _ => {
                self.say("votes");
            }
        }
    }

    /// A line that free text may answer. A check follows whose answer stands
    /// nowhere in such text, so that its end can be told.
    pub fn ask_for_text(&mut self, line: &str) {
        self.empty_tray();
        let laid_out = self.lay_out(line);
        self.raw(&laid_out);
        let mut packet = vec![1, 1];
        put_number(&mut packet, self.random.next() >> 1 | 1 << 62);
        packet.extend([1, 0]);
        self.raw(&format!("check {} 5", show_hex(&packet)));
    }

    fn lay_out(&mut self, line: &str) -> String {
        let mut laid_out = String::new();
        let first_number = if line.starts_with("unpack") { 2 } else { 1 };
        for (i, word) in line.split(' ').enumerate() {
            if i > 0 {
                let spaces =
                    if self.random.percent(self.style.wide_spaces) { self.random.range(2, 5) } else { 1 };
                laid_out += &" ".repeat(spaces as usize);
            }
            // Words of digits in second place may be packets, where zeros count.
            let number = i > first_number && word.bytes().all(|byte| byte.is_ascii_digit());
            if number && self.random.percent(self.style.leading_zeros) {
                laid_out += "00";
            }
            laid_out += word;
        }
        laid_out
    }

    pub fn by_certificate(&mut self) -> bool {
        let chance = self.style.certificates;
        self.random.percent(chance)
    }

    pub fn full(&self) -> bool {
        self.commands >= self.budget
    }

    pub fn room(&self) -> usize {
        self.budget.saturating_sub(self.commands)
    }

    /// Lets the script go on for some lines from here.
    pub fn add_room(&mut self, lines: usize) {
        self.budget = self.commands + lines;
    }

    pub fn node(&self) -> &Node {
        self.panel.node.as_ref().expect("this part of a script has a node")
    }

    pub fn start(&mut self) {
        self.say(self.ring.start_line());
    }

    pub fn restart(&mut self, ring: Ring) {
        self.ring = ring;
        self.start();
    }

    /// The lines so far that begin so.
    pub fn said_with(&self, beginning: &str) -> Vec<String> {
        self.said.iter().filter(|line| line.starts_with(beginning)).cloned().collect()
    }

    pub fn repeat_some_line(&mut self) {
        let recent = self.said.len().min(40);
        let line = self.said[self.said.len() - 1 - self.random.index(recent)].clone();
        if !line.starts_with("start") && !line.starts_with("watch") {
            self.say(line);
        }
    }

    pub fn vote(&mut self, kind: u64, node: usize, slot: u64, block: u64) {
        if self.style.votes_a_tray == 0 {
            self.say(format!("vote {kind} {node} {slot} {block}"));
            return;
        }
        self.tray.push(format!("{kind} {node} {slot} {block}"));
        if self.tray.len() >= self.style.votes_a_tray {
            self.empty_tray();
        }
    }

    fn empty_tray(&mut self) {
        if !self.tray.is_empty() {
            let votes = std::mem::take(&mut self.tray);
            self.say(format!("tray {}", votes.join(" ")));
        }
    }

    pub fn into_script(mut self) -> super::Script {
        // The last line may lack its end, or the half of a CRLF.
        if self.random.percent(10) {
            self.text.pop();
            if self.text.ends_with('\r') && self.random.percent(50) {
                self.text.pop();
            }
        }
        super::Script { text: self.text, unstarted: self.unstarted, quits: self.panel.ended }
    }
}
