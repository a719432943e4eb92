//! The chain: sixteen slots as columns, blocks as boxes with arrows to their parents, and what stands behind them.

use super::marks::{class, in_runs, Letters, WIDE};
use crate::agreed::{slots, WINDOWS};
use crate::checks::{Findings, Outcome};
use crate::ring::Ring;
use crate::table::percent;
use quointrowel::{Block, CertificateKind, Slot, VoteKind};
use std::collections::BTreeSet;
use std::fmt::Write;

/// Rows of boxes, their distance, half a box, and where genesis stands.
const MAIN_Y: f64 = 75.0;
const ROW: f64 = 44.0;
const HALF: f64 = 15.0;
const GENESIS_X: f64 = 30.0;

/// The row of a block: the first is on the main line, unless its slot was skipped, where the chain passes; the rival a row lower.
fn row(findings: &Findings, letters: &Letters, block: &Block) -> usize {
    let is_first = letters.of(block.slot, block.number) == 'a';
    usize::from(!is_first) + usize::from(findings.outcomes[block.slot.0] == Outcome::Skipped)
}

/// The blocks that are drawn: of a slot the first, and one rival that an honest firm voted for.
fn drawn<'a>(ring: &'a Ring, letters: &'a Letters, slot: Slot) -> impl Iterator<Item = &'a Block> {
    let is_named = move |block: u64| ring.cast.iter().any(|v| v.slot == slot && v.block == block && ring.is_honest(v.node.0));
    let numbers = letters.0[slot.0].iter().take(2).enumerate();
    let shown = numbers.filter(move |&(place, &number)| place == 0 || is_named(number));
    shown.filter_map(move |(_, &number)| ring.blocks.get(&(slot, number)))
}

pub fn section(ring: &Ring, findings: &Findings, letters: &Letters) -> String {
    let label = "The chain of blocks over sixteen slots; the table below it tells the same in numbers";
    let mut svg = String::new();
    let all: Vec<&Block> = slots().flat_map(|slot| drawn(ring, letters, slot)).collect();
    let rows = all.iter().map(|block| row(findings, letters, block)).max().unwrap_or(0).max(1);
    let foot = MAIN_Y + ROW * rows as f64 + HALF + 10.0;
    heads(&mut svg, ring, findings, foot);
    for block in &all {
        arrow(&mut svg, &all, findings, letters, block);
    }
    for block in &all {
        draw_box(&mut svg, ring, findings, letters, block);
    }
    numbers(&mut svg, ring, findings, letters, foot + 9.0);
    let heading = heading(findings);
    let text = text(ring, findings, letters);
    format!(
        "<section><h2>{heading}</h2>\n<figure><svg class=\"w\" viewBox=\"0 0 720 {:.0}\" role=\"img\" aria-label=\"{label}\">{svg}</svg></figure>\n<aside>{text}</aside></section>\n",
        foot + 104.0
    )
}

fn slots_with(findings: &Findings, wanted: impl Fn(Outcome) -> bool) -> Vec<usize> {
    slots().map(|slot| slot.0).filter(|&slot| wanted(findings.outcomes[slot])).collect()
}

fn named(slots: &[usize], what: &str) -> String {
    format!("; {} {} {what}", if slots.len() == 1 { "slot" } else { "slots" }, in_runs(slots))
}

fn heading(findings: &Findings) -> String {
    let finals = slots_with(findings, |outcome| matches!(outcome, Outcome::Final(_)));
    let mut text = format!("{} of 16 slots final", finals.len());
    for (outcome, what) in [(Outcome::Twice, "with two final blocks"), (Outcome::Skipped, "skipped"), (Outcome::Open, "open")] {
        let slots = slots_with(findings, |other| other == outcome);
        if !slots.is_empty() {
            text.push_str(&named(&slots, what));
        }
    }
    text
}

fn heads(svg: &mut String, ring: &Ring, findings: &Findings, foot: f64) {
    for window in 0..WINDOWS {
        let (first, last) = (WIDE.cell(Slot(4 * window + 1)) - 1.0, WIDE.cell(Slot(4 * window + 4)) - 1.0 + WIDE.pitch);
        let middle = (first + last) / 2.0;
        let leader = ring.agreed.leaders[window];
        let lying = if ring.plot.is_lying(leader) { ", lying" } else { "" };
        let _ = write!(svg, r#"<text class="m" x="{middle:.1}" y="11">window {}</text>"#, window + 1);
        let _ = write!(svg, r#"<text class="m s" x="{middle:.1}" y="25">leader {}{lying}</text>"#, leader.0);
        let _ = write!(svg, r#"<path class="rule" d="M{first:.1} 31H{last:.1}"/>"#);
    }
    WIDE.heads(svg, 46.0);
    let _ = write!(svg, r#"<text class="e s" x="56" y="46">slot</text>"#);
    for slot in slots().filter(|slot| findings.outcomes[slot.0] == Outcome::Skipped) {
        let (x, width) = (WIDE.cell(slot), WIDE.width());
        let _ = write!(
            svg,
            r#"<rect class="fs" style="opacity:.55" x="{x:.1}" y="54" width="{width}" height="{:.1}"><title>slot {}: skipped</title></rect>"#,
            foot - 54.0,
            slot.0
        );
    }
    let genesis = format!("genesis, block {} of slot 0", ring.agreed.genesis);
    let _ = write!(
        svg,
        r#"<rect x="15" y="65" width="30" height="20" rx="2" style="fill:none;stroke:var(--ink)"><title>{genesis}</title></rect><text class="m s" x="30" y="79">0</text><text class="m s" x="30" y="60">genesis</text>"#
    );
}

fn place(findings: &Findings, letters: &Letters, block: &Block) -> (f64, f64) {
    (WIDE.middle(block.slot), MAIN_Y + ROW * row(findings, letters, block) as f64)
}

/// An arrow to the parent: straight within a row, else up between two columns; below the boxes of its row where some are in between.
fn arrow(svg: &mut String, all: &[&Block], findings: &Findings, letters: &Letters, block: &Block) {
    let (x, y) = place(findings, letters, block);
    let parent = all.iter().find(|other| (other.slot, other.number) == (block.parent_slot, block.parent));
    let (to_x, to_y) = match parent {
        Some(parent) => place(findings, letters, parent),
        None if block.parent_slot.0 == 0 => (GENESIS_X, MAIN_Y),
        None => return,
    };
    let is_final = findings.outcomes[block.slot.0] == Outcome::Final(block.number);
    let style = if is_final { "arr" } else { "arrf" };
    let (edge, between, end) = (x - HALF, to_x + WIDE.pitch / 2.0, to_x + HALF + 0.6);
    let is_blocked = all.iter().any(|other| {
        let (other_x, other_y) = place(findings, letters, other);
        other_y == y && other_x < x && other_x > to_x
    });
    let into = if y > to_y { to_y + 8.0 } else { to_y - 8.0 };
    let path = match (y == to_y, is_blocked) {
        (true, false) => format!("M{edge:.1} {y:.1}H{end:.1}"),
        (false, false) => format!("M{edge:.1} {y:.1}H{between:.1}V{into:.1}H{end:.1}"),
        (_, true) => format!("M{x:.1} {:.1}v4H{between:.1}V{into:.1}H{end:.1}", y + HALF),
    };
    let _ = write!(svg, r#"<path class="{style}" d="{path}"/>"#);
}

fn weight(ring: &Ring, slot: Slot, kinds: &[VoteKind], block: u64) -> u64 {
    let votes = ring.cast.iter().filter(|vote| vote.slot == slot && vote.block == block && kinds.contains(&vote.kind));
    let firms: BTreeSet<usize> = votes.map(|vote| vote.node.0).collect();
    ring.weight(firms.into_iter())
}

fn draw_box(svg: &mut String, ring: &Ring, findings: &Findings, letters: &Letters, block: &Block) {
    let (x, y) = place(findings, letters, block);
    let (slot, letter) = (block.slot, letters.of(block.slot, block.number));
    let is_second = findings.outcomes[slot.0] == Outcome::Twice && has_proof(findings, slot, block.number);
    let is_final = findings.outcomes[slot.0] == Outcome::Final(block.number);
    let notar = percent(weight(ring, slot, &[VoteKind::Notar], block.number), ring.agreed.total);
    let state = if is_second {
        "one of two final blocks"
    } else if is_final {
        "final"
    } else {
        "not final"
    };
    let color = class(letter);
    let (fill, text, dash) = if is_final || is_second {
        let on = match color {
            'c' => "onc",
            'd' => "ond",
            _ => "on",
        };
        (format!("--{color}"), format!("--{on}"), "")
    } else {
        ("--paper".to_string(), "--ink".to_string(), ";stroke-dasharray:3 2.5")
    };
    let digits = block.number.to_string();
    let short = &digits[digits.len().saturating_sub(4)..];
    let _ = write!(
        svg,
        r#"<g><title>block {} ({letter}) of slot {}, parent {} in slot {}: notar {notar} percent, {state}</title><rect x="{:.1}" y="{:.1}" width="30" height="30" rx="2" style="fill:var({fill});stroke:var(--{color}2);stroke-width:1.2{dash}"/>"#,
        block.number,
        slot.0,
        block.parent,
        block.parent_slot.0,
        x - HALF,
        y - HALF
    );
    if is_second {
        let _ = write!(
            svg,
            r#"<rect x="{:.1}" y="{:.1}" width="35" height="35" rx="3" style="fill:none;stroke:var(--bad);stroke-width:1.6"/>"#,
            x - 17.5,
            y - 17.5
        );
    }
    let _ = write!(
        svg,
        r#"<text class="m bd" style="fill:var({text});font-size:12px" x="{x:.1}" y="{:.1}">{letter}</text><text class="m" style="fill:var({text});font-size:10px" x="{x:.1}" y="{:.1}">{short}</text></g>"#,
        y - 2.0,
        y + 10.0
    );
}

fn holds(findings: &Findings, kind: CertificateKind, slot: Slot, block: u64) -> bool {
    findings.packets.iter().any(|packet| packet.kind == kind && packet.slot == slot && packet.block == block)
}

/// Whether a proof of the block can be put together from all votes.
fn has_proof(findings: &Findings, slot: Slot, block: u64) -> bool {
    use CertificateKind::*;
    holds(findings, FastFinal, slot, block) || holds(findings, Notar, slot, block) && holds(findings, Final, slot, 0)
}

/// How a slot ended, in a word.
fn by(findings: &Findings, slot: Slot) -> &'static str {
    match findings.outcomes[slot.0] {
        Outcome::Final(block) if holds(findings, CertificateKind::FastFinal, slot, block) => "fast",
        Outcome::Final(block) if has_proof(findings, slot, block) => "final",
        Outcome::Final(_) => "child",
        Outcome::Twice => "both",
        Outcome::Skipped => "skip",
        Outcome::Open => "open",
    }
}

fn numbers(svg: &mut String, ring: &Ring, findings: &Findings, letters: &Letters, top: f64) {
    use VoteKind::*;
    let y = top + 16.0;
    let _ = write!(svg, r#"<path class="ax" d="M0 {top:.1}H712"/><text class="s" x="0" y="{y:.1}">final by</text>"#);
    for slot in slots() {
        let word = by(findings, slot);
        let style = match findings.outcomes[slot.0] {
            Outcome::Final(_) => "m",
            Outcome::Twice => "m bd",
            _ => "m s",
        };
        let _ = write!(svg, r#"<text class="{style}" x="{:.1}" y="{y:.1}">{word}</text>"#, WIDE.middle(slot));
    }
    let block = |slot: Slot, place: usize| letters.0[slot.0].get(place).copied();
    let notar = |slot: Slot, place: usize| block(slot, place).map_or(0, |block| weight(ring, slot, &[Notar], block));
    let rows: [(&str, f64, &dyn Fn(Slot) -> u64); 4] = [
        ("notar, %", top + 38.0, &|slot| notar(slot, 0)),
        ("rival, %", top + 55.0, &|slot| notar(slot, 1)),
        ("skip, %", top + 72.0, &|slot| weight(ring, slot, &[Skip, SkipFallback], 0)),
        ("final, %", top + 89.0, &|slot| weight(ring, slot, &[Final], 0)),
    ];
    for (name, y, row) in rows {
        let _ = write!(svg, r#"<text class="s" x="0" y="{y}">{name}</text>"#);
        for slot in slots() {
            let weight = row(slot);
            let share = u128::from(weight) * 100 / u128::from(ring.agreed.total);
            let style = if ring.agreed.reaches(3, weight) { "e bd" } else { "e s" };
            let word = if weight == 0 { "·".to_string() } else { share.to_string() };
            let _ = write!(svg, r#"<text class="{style}" x="{:.1}" y="{y}">{word}</text>"#, WIDE.middle(slot) + 9.0);
        }
    }
}

fn text(ring: &Ring, findings: &Findings, letters: &Letters) -> String {
    let mut text = "<p>An arrow goes from a block to its parent. A solid box is final; dashed ones are not.".to_string();
    let skipped = slots_with(findings, |outcome| outcome == Outcome::Skipped);
    if !skipped.is_empty() {
        let _ = write!(
            text,
            " Over the grey {} {} a skip certificate is held, and the chain passes.",
            if skipped.len() == 1 { "slot" } else { "slots" },
            in_runs(&skipped)
        );
    }
    text.push_str("</p>\n<p>Below: how each block became final (<b>fast</b> by a fast-final certificate, <b>final</b> by notar and final, <b>child</b> as the parent of a final block), and the stake behind each kind among all votes that were ever cast, in whole percent; <b>bold</b> where it reaches 60 and makes a certificate. Skip is skip or skip-fallback.</p>");
    for slot in slots().filter(|slot| findings.outcomes[slot.0] == Outcome::Open) {
        if let Some(&block) = letters.0[slot.0].first() {
            let share = percent(weight(ring, slot, &[VoteKind::Notar], block), ring.agreed.total);
            let last = percent(weight(ring, slot, &[VoteKind::Final], 0), ring.agreed.total);
            let _ = write!(
                text,
                "\n<p>Slot {} is open: block {block} has notar votes of {share} percent, final votes reach {last}.</p>",
                slot.0
            );
        }
    }
    text
}
