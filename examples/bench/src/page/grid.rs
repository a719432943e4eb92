//! Firms by slots: what each voted; above 128 firms groups of about equal stake.

use super::marks::{class, draw_letter, plural, Cell, Columns, Letters, CELL_HEIGHT};
use crate::agreed::{slots, SLOTS};
use crate::table::{grouped, percent};
use quointrowel::{Slot, Vote};
use std::fmt::Write;

const PITCH: f64 = 12.4;
const MOST_ROWS: usize = 128;
const GROUPS: usize = 64;
/// Rows of one picture, so that it fits a page of paper.
const ROWS_OF_A_PICTURE: usize = 66;

/// The firms at the table: their stakes, who lies, and what each voted, by firm and slot.
pub struct Seats {
    pub stakes: Vec<u64>,
    pub lying: Vec<bool>,
    pub cells: Vec<Vec<Cell>>,
}

impl Seats {
    pub fn new<'a>(stakes: Vec<u64>, lying: Vec<bool>, votes: impl IntoIterator<Item = &'a Vote>) -> Seats {
        let mut cells = vec![vec![Cell::default(); SLOTS + 1]; stakes.len()];
        for vote in votes {
            cells[vote.node.0][vote.slot.0].add(vote);
        }
        Seats { stakes, lying, cells }
    }

    fn weight(&self, firms: &[usize]) -> u64 {
        firms.iter().map(|&firm| self.stakes[firm]).sum()
    }

    fn total(&self) -> u64 {
        self.stakes.iter().sum()
    }

    pub fn is_grouped(&self) -> bool {
        self.stakes.len() > MOST_ROWS
    }
}

/// How a cell is marked beside another record's.
#[derive(Clone, Copy, PartialEq, Eq)]
pub enum Mark {
    Plain,
    /// Equal votes in both records.
    Equal,
    /// It has a vote that the other has not.
    More,
    /// It only lacks votes that the other has.
    Less,
}

/// A row of the picture: one firm, or firms together.
struct Row {
    name: String,
    firms: Vec<usize>,
    is_lying: bool,
}

/// The pictures, one after the other. The mark of a cell is asked by firm and slot.
pub fn pictures(seats: &Seats, letters: &Letters, columns: Columns, mark: &dyn Fn(usize, Slot) -> Mark) -> String {
    let rows = rows(seats);
    rows.chunks(ROWS_OF_A_PICTURE).map(|part| Picture { seats, letters, columns, mark }.draw(part)).collect()
}

fn rows(seats: &Seats) -> Vec<Row> {
    let mut rows: Vec<Row> = Vec::new();
    for is_lying in [false, true] {
        let mut group = Vec::new();
        let firms = (0..seats.stakes.len()).filter(|&firm| seats.lying[firm] == is_lying);
        for firm in firms {
            group.push(firm);
            if !seats.is_grouped() || seats.weight(&group) * GROUPS as u64 >= seats.total() {
                rows.push(Row { name: firm.to_string(), firms: std::mem::take(&mut group), is_lying });
            }
        }
        if !group.is_empty() {
            rows.push(Row { name: String::new(), firms: group, is_lying });
        }
    }
    if seats.is_grouped() {
        rows.iter_mut().enumerate().for_each(|(place, row)| row.name = place.to_string());
    }
    rows
}

struct Picture<'a> {
    seats: &'a Seats,
    letters: &'a Letters,
    columns: Columns,
    mark: &'a dyn Fn(usize, Slot) -> Mark,
}

impl Picture<'_> {
    /// What a row is called in words.
    fn name(&self, row: &Row) -> String {
        let lying = if row.is_lying { ", lying" } else { "" };
        if !self.seats.is_grouped() {
            return format!("firm {}{lying}", row.name);
        }
        let weight = percent(self.seats.weight(&row.firms), self.seats.total());
        let (first, last, count) = (row.firms[0], row.firms[row.firms.len() - 1], row.firms.len());
        let firms = if count == 1 { format!("firm {first}") } else { format!("{count} firms from {first} to {last}") };
        format!("group {}, {firms}{lying}, {weight} percent of the stake", row.name)
    }

    fn draw(&self, rows: &[Row]) -> String {
        let (mut svg, mut y, mut was_lying) = (String::new(), 18.0, false);
        let what = if self.seats.is_grouped() { "group" } else { "firm" };
        let left = self.columns.left;
        self.columns.heads(&mut svg, 11.0);
        if left > 50.0 {
            let _ = write!(svg, r#"<text class="e s" x="{}" y="11">{what}</text>"#, left - 9.0);
        }
        for (place, row) in rows.iter().enumerate() {
            if row.is_lying && !was_lying {
                let liars = self.seats.lying.iter().filter(|&&lies| lies).count();
                let firms: Vec<usize> = (0..self.seats.lying.len()).filter(|&firm| self.seats.lying[firm]).collect();
                let share = percent(self.seats.weight(&firms), self.seats.total());
                let text = format!("{} lying {}, {share} percent of the stake", grouped(liars as u64), plural(liars, "firm"));
                let _ = write!(svg, r#"<text class="s" x="{}" y="{:.1}">{text}</text>"#, left + 1.0, y + 14.0);
                y += 20.0;
            } else if place > 0 && place % 8 == 0 {
                y += 4.0;
            }
            was_lying = row.is_lying;
            let _ = write!(
                svg,
                r#"<text class="f" x="{}" y="{:.1}">{}</text>"#,
                left - if left > 50.0 { 9.0 } else { 5.0 },
                y + 8.8,
                row.name
            );
            for slot in slots() {
                self.draw_cell(&mut svg, row, slot, y);
            }
            y += PITCH;
        }
        let label = format!("Votes of {} {what}s in 16 slots; each cell has its votes in words", rows.len());
        let (class, width) = if left > 50.0 { ("w", 720) } else { ("n2", 430) };
        format!(
            r#"<figure class="tall"><svg class="{class}" viewBox="0 0 {width} {y:.0}" role="img" aria-label="{label}">{svg}</svg></figure>"#
        )
    }

    fn draw_cell(&self, svg: &mut String, row: &Row, slot: Slot, y: f64) {
        let name = self.name(row);
        let marks: Vec<Mark> = row.firms.iter().map(|&firm| (self.mark)(firm, slot)).collect();
        let is_dimmed = marks.iter().all(|&mark| mark == Mark::Equal);
        svg.push_str(if is_dimmed { "<g class=\"dimmed\">" } else { "<g>" });
        if !self.seats.is_grouped() {
            let cell = &self.seats.cells[row.firms[0]][slot.0];
            let _ = write!(svg, "<title>{name}, slot {}: {}</title>", slot.0, cell.words(slot, self.letters));
            cell.draw(svg, self.columns, slot, y, self.letters, row.is_lying);
        } else {
            let shares = Shares::of(self.seats, row, slot, self.letters);
            let _ = write!(svg, "<title>{name}, slot {}: {}</title>", slot.0, shares.words());
            shares.draw(svg, self.columns, slot, y, row.is_lying);
        }
        let style = if marks.contains(&Mark::More) { "dif" } else { "dif gone" };
        if marks.iter().any(|mark| matches!(mark, Mark::More | Mark::Less)) {
            let (x, width) = (self.columns.cell(slot), self.columns.width());
            let _ = write!(svg, r#"<rect class="{style}" x="{x:.1}" y="{y:.1}" width="{width:.1}" height="{CELL_HEIGHT}"/>"#);
        }
        svg.push_str("</g>");
    }
}

/// What the firms of a group voted, by stake.
struct Shares {
    whole: u64,
    /// Initial votes: a to d, further blocks, skip, none. Who cast two counts half for each.
    initial: [u64; 7],
    fallback: [u64; 5],
    skip_fallback: u64,
    last: u64,
}

const PLACES: [char; 5] = ['a', 'b', 'c', 'd', '+'];
const SKIP: usize = 5;
const NONE: usize = 6;

impl Shares {
    fn of(seats: &Seats, row: &Row, slot: Slot, letters: &Letters) -> Shares {
        let place = |block: u64| PLACES.iter().position(|&letter| letter == letters.of(slot, block)).unwrap_or(4);
        let mut shares =
            Shares { whole: 2 * seats.weight(&row.firms), initial: [0; 7], fallback: [0; 5], skip_fallback: 0, last: 0 };
        for &firm in &row.firms {
            let (cell, stake) = (&seats.cells[firm][slot.0], 2 * seats.stakes[firm]);
            for &block in cell.initial.iter().take(2) {
                let part = stake / cell.initial.len().min(2) as u64;
                shares.initial[if block == 0 { SKIP } else { place(block) }] += part;
            }
            shares.initial[NONE] += if cell.initial.is_empty() { stake } else { 0 };
            cell.fallbacks.iter().for_each(|&block| shares.fallback[place(block)] += stake);
            shares.skip_fallback += if cell.has_skip_fallback { stake } else { 0 };
            shares.last += if cell.has_final { stake } else { 0 };
        }
        shares
    }

    fn words(&self) -> String {
        let share = |part: u64| format!("{} percent", percent(part, self.whole));
        let name = |place: usize| match place {
            SKIP => "skip".to_string(),
            NONE => "no initial vote".to_string(),
            _ => format!("notar {}", PLACES[place]),
        };
        let initial = self.initial.iter().enumerate().filter(|(_, &part)| part > 0);
        let mut parts: Vec<String> = initial.map(|(place, &part)| format!("{} {}", name(place), share(part))).collect();
        let fallback = self.fallback.iter().zip(PLACES).filter(|(&part, _)| part > 0);
        parts.extend(fallback.map(|(&part, letter)| format!("notar-fallback {letter} {}", share(part))));
        parts.extend((self.skip_fallback > 0).then(|| format!("skip-fallback {}", share(self.skip_fallback))));
        parts.extend((self.last > 0).then(|| format!("final {}", share(self.last))));
        parts.join(", ")
    }

    fn draw(&self, svg: &mut String, columns: Columns, slot: Slot, y: f64, is_lying: bool) {
        let (x, width) = (columns.cell(slot), columns.width());
        let part = |weight: u64| width * weight as f64 / self.whole as f64;
        let mut left = x;
        for (place, &weight) in self.initial.iter().enumerate().filter(|(_, &weight)| weight > 0) {
            let (wide, fill) = (part(weight), PLACES.get(place).map_or('s', |&letter| class(letter)));
            if place == NONE {
                let inner = (wide - 0.8).max(0.3);
                let _ = write!(
                    svg,
                    r#"<rect class="fn" x="{:.1}" y="{:.1}" width="{inner:.1}" height="10.4"/>"#,
                    left + 0.4,
                    y + 0.4
                );
            } else {
                let _ =
                    write!(svg, r#"<rect class="f{fill}" x="{left:.1}" y="{y:.1}" width="{wide:.1}" height="{CELL_HEIGHT}"/>"#);
            }
            left += wide;
        }
        if is_lying {
            let _ = write!(svg, r#"<rect class="h" x="{x:.1}" y="{y:.1}" width="{width:.1}" height="{CELL_HEIGHT}"/>"#);
        }
        let (mut left, right) = (x, x + width - self.triangles_width());
        for (place, &weight) in self.initial.iter().enumerate().take(SKIP) {
            let middle = left + part(weight).min(15.0) / 2.0;
            if part(weight) >= 9.0 && middle + 4.0 <= right {
                draw_letter(svg, middle, y + 8.3, PLACES[place], is_lying);
            }
            left += part(weight);
        }
        self.draw_beside(svg, x, y, width, part(self.last));
    }

    /// The block that half of the group fell back to, and whether half fell back to the skip.
    fn fell_back(&self) -> (Option<char>, bool) {
        let place = self.fallback.iter().position(|&part| 2 * part >= self.whole);
        (place.map(|place| PLACES[place]), 2 * self.skip_fallback >= self.whole)
    }

    /// The room at the cell's right edge that the triangles take.
    fn triangles_width(&self) -> f64 {
        let (block, skip) = self.fell_back();
        9.0 * (f64::from(u8::from(block.is_some())) + f64::from(u8::from(skip)))
    }

    /// Triangles where half of the group fell back, and a bar at the foot as long as the share of final votes.
    fn draw_beside(&self, svg: &mut String, x: f64, y: f64, width: f64, last: f64) {
        let (block, skip) = self.fell_back();
        let left = x + width - self.triangles_width();
        if let Some(letter) = block {
            let _ = write!(svg, r#"<path class="k{} tri" d="M{left:.1} {:.1}h8l-4 -6.2z"/>"#, class(letter), y + 8.0);
        }
        if skip {
            let _ = write!(svg, r#"<path class="ks tri" d="M{:.1} {:.1}h8l-4 6.2z"/>"#, x + width - 9.0, y + 1.8);
        }
        if self.last > 0 {
            let fill = if self.initial[0] >= self.initial[1] { 'a' } else { 'b' };
            let _ = write!(svg, r#"<rect class="k{fill} fin" x="{x:.1}" y="{:.1}" width="{last:.1}" height="2.2"/>"#, y + 9.0);
        }
    }
}
