//! When each slot became final, at how much of the honest stake.

use super::marks::{class, Letters, WIDE};
use crate::agreed::{slots, WINDOWS};
use crate::checks::{Findings, Outcome};
use crate::ring::Ring;
use crate::table::{finality, grouped};
use quointrowel::{Event, Slot};
use std::collections::BTreeMap;
use std::fmt::Write;

const TOP: f64 = 20.0;
const FOOT: f64 = 86.0;

pub fn section(ring: &Ring, findings: &Findings, letters: &Letters) -> String {
    let all: Vec<(Slot, u64, Vec<(u64, u64)>)> = slots()
        .map(|slot| (slot, finality(ring, slot.0)))
        .filter(|(_, (_, moments))| !moments.is_empty())
        .map(|(slot, (began, moments))| (slot, began, moments))
        .collect();
    let longest = all.iter().map(|(slot, began, moments)| (moments[moments.len() - 1].0 - began, slot.0)).max();
    let Some((most, slowest)) = longest else {
        return "<section class=\"page\"><h2>No slot became final</h2></section>\n".to_string();
    };
    let span = most.div_ceil(50).max(1) * 50;
    let mut svg = String::new();
    WIDE.heads(&mut svg, 11.0);
    rules(&mut svg);
    for (slot, began, moments) in &all {
        lines(&mut svg, ring, letters, *slot, *began, span);
        below(&mut svg, *slot, *began, moments);
    }
    for slot in slots().filter(|slot| !all.iter().any(|(other, ..)| other == slot)) {
        let word = if findings.outcomes[slot.0] == Outcome::Skipped { "skip" } else { "open" };
        let x = WIDE.middle(slot);
        let _ = write!(svg, r#"<text class="m s" x="{x:.1}" y="57">{word}</text>"#);
        for y in [106, 122, 138] {
            let _ = write!(svg, r#"<text class="e s" x="{:.1}" y="{y}">·</text>"#, x + 9.0);
        }
    }
    for (name, y) in [("ms, first", 106), ("half", 122), ("last", 138)] {
        let _ = write!(svg, r#"<text class="s" x="0" y="{y}">{name}</text>"#);
    }
    let label = "When each slot became final, against honest stake; the numbers below tell first, half and last";
    format!(
        "<section class=\"page\"><h2>Final within {} ms of its first block wherever it is final; slot {slowest} took longest</h2>\n<figure><svg class=\"w\" viewBox=\"0 0 720 144\" role=\"img\" aria-label=\"{label}\">{svg}</svg></figure>\n<aside><p>A line a slot: the share of the honest stake at which it is final, over {} ms of simulated time from the block's first sending on. Steep is good.</p><p>Below, in ms: at the first honest firm, at half of the honest stake, at the last.</p></aside></section>\n",
        grouped(most),
        grouped(span)
    )
}

fn rules(svg: &mut String) {
    for (text, y) in [("0", FOOT), ("50", (TOP + FOOT) / 2.0), ("100 %", TOP)] {
        let _ = write!(svg, r#"<text class="e s" x="60" y="{:.1}">{text}</text>"#, y + 4.0);
        for window in 0..WINDOWS {
            let first = WIDE.cell(Slot(4 * window + 1)) - 1.0;
            let _ = write!(svg, r#"<path class="hair" d="M{first:.1} {y:.1}H{:.1}"/>"#, first + 4.0 * WIDE.pitch);
        }
    }
}

/// A line for each block that some honest firm was told final.
fn lines(svg: &mut String, ring: &Ring, letters: &Letters, slot: Slot, began: u64, span: u64) {
    let mut blocks: BTreeMap<u64, BTreeMap<u64, u64>> = BTreeMap::new();
    for firm in ring.honest() {
        for &(at, event) in &ring.hosts[firm].seen.told {
            if let Event::Final { slot: told, block } = event {
                if told == slot {
                    *blocks.entry(block).or_default().entry(at).or_default() += ring.agreed.stakes[firm];
                }
            }
        }
    }
    let honest = ring.weight(ring.honest());
    let (left, width) = (WIDE.cell(slot) + 1.0, WIDE.width() - 4.0);
    for (block, moments) in blocks {
        let letter = letters.of(slot, block);
        let (mut path, mut weight) = (format!("M{left:.1} {FOOT}"), 0);
        for (&at, &stake) in &moments {
            weight += stake;
            let x = left + width * (at - began) as f64 / span as f64;
            let y = FOOT - (FOOT - TOP) * weight as f64 / honest as f64;
            let _ = write!(path, "H{x:.1}V{y:.1}");
        }
        let _ = write!(path, "H{:.1}", left + width);
        let (first, last) = (moments.keys().next().unwrap_or(&began), moments.keys().last().unwrap_or(&began));
        let color = class(letter);
        let _ = write!(
            svg,
            r#"<g><title>slot {}, block {}: final at the first honest firm after {} ms, at the last after {} ms</title><path class="f{color}" style="opacity:.45" d="{path}V{FOOT}z"/><path class="l{color}" style="fill:none;stroke-width:1.5" d="{path}"/></g>"#,
            slot.0,
            letters.words(slot, block),
            grouped(first - began),
            grouped(last - began)
        );
    }
}

fn below(svg: &mut String, slot: Slot, began: u64, moments: &[(u64, u64)]) {
    let whole: u64 = moments.iter().map(|(_, stake)| stake).sum();
    let mut weight = 0;
    let half = moments.iter().find(|(_, stake)| {
        weight += stake;
        2 * weight >= whole
    });
    let numbers = [moments.first(), half, moments.last()];
    for ((moment, y), style) in numbers.into_iter().zip([106, 122, 138]).zip(["e s", "e s", "e"]) {
        let text = moment.map_or("·".to_string(), |(at, _)| grouped(at - began));
        let _ = write!(svg, r#"<text class="{style}" x="{:.1}" y="{y}">{text}</text>"#, WIDE.middle(slot) + 14.0);
    }
}
