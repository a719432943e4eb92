//! Votes as marks: columns of slots, letters of blocks, cells.

use crate::agreed::{slots, SLOTS};
use quointrowel::{Slot, Vote, VoteKind};
use std::fmt::Write;

/// Where the sixteen columns stand, with a gap between windows, and how wide a cell is.
#[derive(Clone, Copy)]
pub struct Columns {
    pub left: f64,
    pub pitch: f64,
    pub gap: f64,
    pub bar: f64,
}

/// Of the page of a ring, and of two records side by side.
pub const WIDE: Columns = Columns { left: 66.0, pitch: 38.5, gap: 10.0, bar: 3.2 };
pub const NARROW: Columns = Columns { left: 24.0, pitch: 24.2, gap: 5.0, bar: 2.6 };

pub const CELL_HEIGHT: f64 = 11.2;

impl Columns {
    /// The left edge of a slot's cells.
    pub fn cell(&self, slot: Slot) -> f64 {
        let at = slot.0 - 1;
        self.left + at as f64 * self.pitch + (at / 4) as f64 * self.gap + 1.0
    }

    pub fn width(&self) -> f64 {
        self.pitch - 2.0
    }

    pub fn middle(&self, slot: Slot) -> f64 {
        self.cell(slot) - 1.0 + self.pitch / 2.0
    }

    /// The numbers of the slots over their columns.
    pub fn heads(&self, svg: &mut String, y: f64) {
        for slot in slots() {
            let _ = write!(svg, r#"<text class="slot" x="{:.1}" y="{y}">{}</text>"#, self.middle(slot), slot.0);
        }
    }
}

/// The blocks of each slot in the order of their letters.
pub struct Letters(pub [Vec<u64>; SLOTS + 1]);

impl Letters {
    /// a, b, c, d; a plus for each further block.
    pub fn of(&self, slot: Slot, block: u64) -> char {
        let place = self.0[slot.0].iter().position(|&other| other == block);
        place.and_then(|place| ['a', 'b', 'c', 'd'].get(place).copied()).unwrap_or('+')
    }

    /// The block in words.
    pub fn words(&self, slot: Slot, block: u64) -> String {
        format!("{block} ({})", self.of(slot, block))
    }
}

/// The colour's class of a letter.
pub fn class(letter: char) -> char {
    if letter == '+' {
        'd'
    } else {
        letter
    }
}

/// All votes of one firm in one slot.
#[derive(Clone, Debug, Default, PartialEq, Eq)]
pub struct Cell {
    /// Blocks of notar votes, 0 for a skip vote; two or more where different firms were told different things.
    pub initial: Vec<u64>,
    pub fallbacks: Vec<u64>,
    pub has_skip_fallback: bool,
    pub has_final: bool,
}

impl Cell {
    pub fn add(&mut self, vote: &Vote) {
        match vote.kind {
            VoteKind::Notar | VoteKind::Skip => self.initial.push(vote.block),
            VoteKind::NotarFallback => self.fallbacks.push(vote.block),
            VoteKind::SkipFallback => self.has_skip_fallback = true,
            VoteKind::Final => self.has_final = true,
        }
    }

    /// The votes in words.
    pub fn words(&self, slot: Slot, letters: &Letters) -> String {
        let initial = |&block: &u64| match block {
            0 => "skip".to_string(),
            _ => format!("notar {}", letters.words(slot, block)),
        };
        let first: Vec<String> = self.initial.iter().map(initial).collect();
        let mut parts: Vec<String> = if first.is_empty() { Vec::new() } else { vec![first.join(" and ")] };
        parts.extend(self.fallbacks.iter().map(|&block| format!("notar-fallback {}", letters.words(slot, block))));
        parts.extend(self.has_skip_fallback.then(|| "skip-fallback".to_string()));
        parts.extend(self.has_final.then(|| "final".to_string()));
        if parts.is_empty() {
            return "no vote".to_string();
        }
        parts.join(", then ")
    }

    /// The cell's marks: fill and letter for the initial vote, triangles for fallbacks, a bar for the final vote.
    pub fn draw(&self, svg: &mut String, columns: Columns, slot: Slot, y: f64, letters: &Letters, is_lying: bool) {
        let (x, width) = (columns.cell(slot), columns.width());
        let letter = |block: u64| letters.of(slot, block);
        if self.initial.is_empty() {
            let _ = write!(
                svg,
                r#"<rect class="fn" x="{:.1}" y="{:.1}" width="{:.1}" height="10.4"/>"#,
                x + 0.4,
                y + 0.4,
                width - 0.8
            );
        }
        let shown = self.initial.len().min(2);
        for (place, &block) in self.initial.iter().take(2).enumerate() {
            let (part, fill) = (width / shown as f64, if block == 0 { 's' } else { class(letter(block)) });
            let left = x + part * place as f64;
            let _ = write!(svg, r#"<rect class="f{fill}" x="{left:.1}" y="{y:.1}" width="{part:.1}" height="{CELL_HEIGHT}"/>"#);
        }
        if is_lying {
            let _ = write!(svg, r#"<rect class="h" x="{x:.1}" y="{y:.1}" width="{width:.1}" height="{CELL_HEIGHT}"/>"#);
        }
        for (place, &block) in self.initial.iter().take(2).enumerate().filter(|(_, &block)| block != 0) {
            let at = if shown == 1 { width.min(34.0) / 4.0 } else { width * (0.13 + 0.5 * place as f64) };
            draw_letter(svg, x + at, y + 8.6, letter(block), is_lying);
        }
        self.draw_fallbacks(svg, x, y, width, slot, letters);
        if self.has_final {
            let fill = self.initial.first().filter(|&&block| block != 0).map_or('s', |&block| class(letter(block)));
            let left = x + width - columns.bar;
            let _ = write!(
                svg,
                r#"<rect class="k{fill} fin" x="{left:.1}" y="{y:.1}" width="{}" height="{CELL_HEIGHT}"/>"#,
                columns.bar
            );
        }
    }

    /// Triangles behind the letter; in a halved cell one behind each letter.
    fn draw_fallbacks(&self, svg: &mut String, x: f64, y: f64, width: f64, slot: Slot, letters: &Letters) {
        let count = self.fallbacks.len() + usize::from(self.has_skip_fallback);
        let step = if width < 30.0 { 4.0 } else { 5.4 };
        let size = if count > 1 || self.initial.len() > 1 { step } else { 8.0 };
        let first = if self.initial.len() > 1 { 0.27 } else { 0.47 };
        let pitch = if self.initial.len() > 1 { width / 2.0 } else { size };
        let left = |place: usize| x + first * width + pitch * place as f64;
        let up = self.fallbacks.iter().map(|&block| (class(letters.of(slot, block)), y + 8.8, -6.6));
        let down = self.has_skip_fallback.then_some(('s', y + 2.4, 6.6));
        let most = if self.initial.len() > 1 { 2 } else { 3 };
        for (place, (fill, from, rise)) in up.chain(down).take(most).enumerate() {
            let at = left(place);
            let _ = write!(svg, r#"<path class="k{fill} tri" d="M{at:.1} {from:.1}h{size}l-{:.1} {rise}z"/>"#, size / 2.0);
        }
    }
}

/// A block's letter; quiet for the first block of an honest firm.
pub fn draw_letter(svg: &mut String, x: f64, y: f64, letter: char, is_loud: bool) {
    let style = match letter {
        'a' if !is_loud => "q".to_string(),
        other => class(other).to_string(),
    };
    let _ = write!(svg, r#"<text class="l {style}" x="{x:.1}" y="{y:.1}">{letter}</text>"#);
}

/// Text that may stand in a page.
pub fn escaped(text: &str) -> String {
    text.replace('&', "&amp;").replace('<', "&lt;").replace('>', "&gt;").replace('"', "&quot;")
}

/// Items with commas, and "and" before the last.
pub fn listed<T: ToString>(items: &[T]) -> String {
    let words: Vec<String> = items.iter().map(T::to_string).collect();
    match words.split_last() {
        None => String::new(),
        Some((last, [])) => last.clone(),
        Some((last, rest)) => format!("{} and {last}", rest.join(", ")),
    }
}

/// Ascending numbers, three and more in a row as "first to last".
pub fn in_runs(numbers: &[usize]) -> String {
    let mut words: Vec<String> = Vec::new();
    for run in numbers.chunk_by(|one, next| one + 1 == *next) {
        match run {
            [first, _, .., last] => words.push(format!("{first} to {last}")),
            few => words.extend(few.iter().map(usize::to_string)),
        }
    }
    listed(&words)
}

/// A word for one or more.
pub fn plural(count: usize, word: &str) -> String {
    format!("{word}{}", if count == 1 { "" } else { "s" })
}

#[cfg(test)]
mod tests {
    use super::in_runs;

    #[test]
    fn slots_in_a_row_are_told_by_their_ends() {
        assert_eq!(in_runs(&[]), "");
        assert_eq!(in_runs(&[4]), "4");
        assert_eq!(in_runs(&[3, 4]), "3 and 4");
        assert_eq!(in_runs(&[1, 2, 3]), "1 to 3");
        assert_eq!(in_runs(&[1, 2, 3, 4, 8, 13, 14, 15, 16]), "1 to 4, 8 and 13 to 16");
    }
}
