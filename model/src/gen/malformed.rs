//! Lines that are not commands, and lines that only look wrong.

use super::writer::Writer;
use crate::panel::LONGEST_LINE;

const LINES: &[&str] = &[
    "votes?",
    "Look",
    "LOOK",
    "looks",
    "loo",
    "look 1",
    "look look",
    "votes 1",
    "votes 1 2 3",
    "votes 1 x",
    "take",
    "take 0",
    "take 0G",
    "take 0101070100 5",
    "take 01 02",
    "takes -",
    "card",
    "card x",
    "card 1 1",
    "card -1",
    "cards 1",
    "blocks",
    "blocks x",
    "blocks 1 2",
    "marks",
    "marks 1 1",
    "mark 1",
    "head 1",
    "heads",
    "certificates",
    "certificates 1 1",
    "certificate 1",
    "weights 1",
    "weights 1 7 7",
    "weights 1 x",
    "aside 1",
    "aside x",
    "asides",
    "differ 1",
    "differ x y",
    "differs",
    "save",
    "save a b",
    "piece",
    "piece 0 1",
    "piece 0G 1",
    "piece 01 x",
    "piece 01 1 -1",
    "piece 01 18446744073709551616",
    "pieces 01 1",
    "end 1",
    "end end",
    "ends",
    "board 1 2 3",
    "board 1 x",
    "board x",
    "board 1x",
    "boards",
    "help 1",
    "helps",
    "why",
    "why x",
    "why 1 2",
    "why -",
    "why 18446744073709551616",
    "quit 1",
    "quit quit",
    "Quit",
    "quits",
    "qui",
    "vote",
    "vote 1",
    "vote 1 1",
    "vote 1 1 1",
    "vote 1 1 1 7 7",
    "vote 1 1 1 -7",
    "vote 1 1 1 +7",
    "vote 1 1 1 7.",
    "vote 1 1 1 0x7",
    "vote 1 1 1 7a",
    "vote 1 1 1 18446744073709551616",
    "vote 1 1 1 99999999999999999999",
    "vote 1 1 1 184467440737095516150",
    "vote 18446744073709551616 1 1 7",
    "vote one 1 1 7",
    "vote 1 1 1 seven",
    "vote 1,1,1,7",
    "vote\t1 1 1 7",
    "vote 1 1\t1 7",
    "tray x",
    "tray -",
    "tray 1 1 1 -7",
    "tray 1 1 1 7 x",
    "tray 1 1 1 7 : 0",
    "tray 1 1 1 18446744073709551616",
    "tray 1,1,1,7",
    "trays",
    "block",
    "block 1 7 0",
    "block 1 7 0 1 1",
    "block 1 7 0 x",
    "block 1 7 -1 1",
    "timeout",
    "timeout 1 1",
    "timeout 1x",
    "timeout -",
    "timeout 18446744073709551616",
    "cert",
    "cert 1 1",
    "cert 1 1 7 7",
    "cert a 1 7",
    "proof",
    "proof 1",
    "proof 1 7 7",
    "proof 1 7g",
    "check",
    "check 0 1",
    "check 010 1",
    "check 0G 1",
    "check G0 1",
    "check 0x01 1",
    "check -- 1",
    "check -0 1",
    "check 01 1 x",
    "check 01 1 18446744073709551616",
    "check 01 -",
    "checkproof",
    "checkproof 1 1",
    "checkproof 0101070100 1 1 -1",
    "checkproof 01/1 1",
    "pack",
    "pack 5 1 1 1",
    "pack 5 1 1 1 7 7",
    "pack 5 1 1 1 x",
    "pack 5 1 1 1 18446744073709551616",
    "unpack",
    "unpack 5",
    "unpack 01010107",
    "unpack 5 0101010",
    "unpack 5 0101010G",
    "unpack x 01010107",
    "unpack 5 01010107 1",
    "unpack 5 --",
    "unpacks 5 01010107",
    "watch",
    "watch x",
    "watch x 1",
    "watch 1 1 x",
    "watch 1 18446744073709551616",
    "watches 1 1",
    "start",
    "start 0",
    "start x 1 1",
    "start 0 1 1 18446744073709551616",
    "start 0 1 1 1.5",
    "lo\u{f6}k",
];

/// Well formed, though with an odd look.
const ODD_BUT_GOOD: &[&str] = &[
    "vote 1 1 1 18446744073709551615",
    "vote 18446744073709551615 0 0 0",
    "vote 00000000000000000000000000001 001 01 07",
    "timeout 00000000000000000000000001",
    "tray 0001 01 01 07",
    "tray 18446744073709551615 0 0 0",
    "timeout 18446744073709551615",
    "check -",
    "checkproof -",
    "check - 1",
    "checkproof - 1",
    "check 0101070100",
    "check 02010Aff0100 1 1 1 1 1 1 1 1",
    "checkproof 0101070100 5",
    "unpack 05 01010107",
    "unpack 5 -",
    "unpack 0 -",
    "pack 0 9 9 9 0",
    "pack 0005 01 01 01 07",
];

pub fn line(w: &mut Writer) {
    match w.random.below(60) {
        0 => long_vote(w),
        1 => long_check(w),
        2 | 3 => long_silence(w),
        4..=12 => {
            let line = w.random.pick(ODD_BUT_GOOD);
            w.raw(line);
        }
        _ => {
            let line = w.random.pick(LINES);
            w.raw(line);
        }
    }
}

/// At the longest length and on both sides of it.
fn some_length(w: &mut Writer) -> usize {
    let past = w.random.pick(&[1, 2, 3, 4096]);
    w.random.pick(&[LONGEST_LINE - 1, LONGEST_LINE, LONGEST_LINE + past])
}

/// Spaces or a comment, skipped unless it is too long. A CR that is not at the
/// line's end is no end.
pub fn long_silence(w: &mut Writer) {
    let (first, last) = (w.random.pick(&[" ", "#"]), w.random.pick(&["  ", "  ", "\r "]));
    let spaces = some_length(w) - first.len() - last.len();
    w.raw(&format!("{first}{}{last}", " ".repeat(spaces)));
}

fn long_vote(w: &mut Writer) {
    let (start, end) = ("vote 3", "1 16 0");
    let spaces = some_length(w) - start.len() - end.len();
    w.raw(&format!("{start}{}{end}", " ".repeat(spaces)));
}

fn long_check(w: &mut Writer) {
    let word = w.random.pick(&["check ", "checkproof "]);
    let certificate = "0101070100";
    let padding = some_length(w) - word.len() - certificate.len() - 2;
    let padding = "0".repeat(padding);
    // Half of these have an odd number of digits.
    w.raw(&format!("{word}{certificate}{padding} 5"));
}
