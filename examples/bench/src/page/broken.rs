//! Where something broke: the two packets, their signers over each other, and who is not clear.

use super::marks::{escaped, listed, plural, Letters};
use crate::checks::Findings;
use crate::packets::{Clash, Packet};
use crate::ring::Ring;
use crate::table::percent;
use quointrowel::{CertificateKind, VoteKind};
use std::fmt::Write;

/// Signers are drawn one by one up to so many firms, else those of a kind together.
const MOST_BARS: usize = 128;
const WIDTH: f64 = 717.0;

pub fn section(ring: &Ring, findings: &Findings, letters: &Letters) -> String {
    let mut html = String::new();
    if let Some(clash) = &findings.clash {
        let both = clash.in_both();
        let share = percent(ring.weight(both.iter().copied()), ring.agreed.total);
        let honest = both.iter().filter(|&&firm| ring.is_honest(firm)).count();
        let among = if honest == 0 {
            "no honest firm is among them".to_string()
        } else {
            format!("{honest} honest {} among them", plural(honest, "firm"))
        };
        let heading = format!(
            "{}: the packets share {} {}, {share} percent of the stake; {among}",
            sentence(clash),
            both.len(),
            plural(both.len(), "signer")
        );
        let _ = write!(
            html,
            "<section class=\"page\"><h2>{heading}</h2>\n{}\n<aside>{}</aside>\n",
            picture(ring, clash, letters),
            text(ring, clash, &both)
        );
        let _ = write!(html, "{}</section>\n", named(ring, findings, letters));
    } else if !findings.not_clear.is_empty() && findings.is_broken() {
        let _ = write!(html, "<section><h2>Who is not clear</h2>{}</section>\n", named(ring, findings, letters));
    }
    html
}

fn sentence(clash: &Clash) -> String {
    let text = clash.sentence();
    let mut letters = text.chars();
    letters.next().map_or(String::new(), |first| first.to_uppercase().collect::<String>() + letters.as_str())
}

fn text(ring: &Ring, clash: &Clash, both: &[usize]) -> String {
    let mut text = "<p>The firms side by side, ordered by what they signed; hatched: lying. Two certificates of 60 percent overlap in a fifth of the stake or more.</p>".to_string();
    if clash.proof.len() == 2 {
        text.push_str("<p>The second row of a proof is its final certificate. Final votes name no block, so that an honest firm may stand in both of those.</p>");
    }
    if both.len() <= 64 {
        let _ = write!(text, "<p>Signed both: {} {}.</p>", plural(both.len(), "firm"), listed(both));
    }
    let _ = write!(
        text,
        "<p>{} of the stake lies in this ring; the promises speak of less than 20 percent.</p>",
        percent(ring.lying_weight(), ring.agreed.total) + " percent"
    );
    if !clash.has_two_proofs() {
        text.push_str("<p>A firm may sign both with honest votes where others told different firms different things.</p>");
    }
    text
}

/// A packet in words.
fn name(packet: &Packet) -> String {
    let kind = match packet.kind {
        CertificateKind::FastFinal => "fast-final",
        CertificateKind::Notar => "notar",
        CertificateKind::NotarFallback => "notar-fallback",
        CertificateKind::Skip => "skip",
        CertificateKind::Final => "final",
    };
    if packet.block == 0 {
        kind.to_string()
    } else {
        format!("{kind} {}", packet.block)
    }
}

fn picture(ring: &Ring, clash: &Clash, letters: &Letters) -> String {
    let (one, other) = clash.pair();
    let side = |firm: &usize| match (one.signers[*firm], other.signers[*firm]) {
        (true, false) => 0,
        (true, true) => 1,
        (false, false) => 2,
        (false, true) => 3,
    };
    let mut firms: Vec<usize> = (0..ring.hosts.len()).collect();
    firms.sort_by_key(|firm| (side(firm), *firm));
    let total = ring.agreed.total as f64;
    let width = |firms: &[usize]| WIDTH * ring.weight(firms.iter().copied()) as f64 / total;
    let count = |wanted: u8| firms.iter().filter(|firm| side(firm) == wanted).count();
    let (first, both) = (count(0), count(1));
    let (left, wide) = (width(&firms[..first]), width(&firms[first..first + both]));
    let rows = clash.proof.len() + clash.rival.len();
    let height = 44.0 + 27.0 * rows as f64;
    let mut svg = String::new();
    let _ = write!(
        svg,
        r#"<rect x="{left:.1}" y="36" width="{wide:.1}" height="{:.1}" style="fill:var(--badwash);stroke:var(--bad);stroke-width:1.6"/>"#,
        height - 40.0
    );
    let share = percent(ring.weight(clash.in_both().into_iter()), ring.agreed.total);
    let middle = (left + wide / 2.0).clamp(90.0, 630.0);
    let _ = write!(
        svg,
        r#"<text class="m bd" style="fill:var(--bad)" x="{middle:.1}" y="13">{both} {} signed both</text><text class="m" style="fill:var(--bad)" x="{middle:.1}" y="28">{share} %; a fifth is 20</text>"#,
        plural(both, "firm")
    );
    if left > 190.0 {
        let _ = write!(svg, r#"<text class="s" x="1" y="13">{first} signed packet 1 alone</text>"#);
    }
    let second = count(3);
    if WIDTH - left - wide > 190.0 {
        let _ = write!(svg, r#"<text class="e s" x="717" y="13">{second} signed packet 2 alone</text>"#);
    }
    let mut y = 42.0;
    for (number, packets) in [(1, &clash.proof), (2, &clash.rival)] {
        for packet in packets {
            row(&mut svg, ring, &firms, packet, letters, y, number);
            let at_right = number == 1;
            let free = if at_right { left + wide + 8.0 } else { 4.0 };
            let text =
                format!("packet {number}, {}: {} %", name(packet), percent(ring.weight(signers(packet)), ring.agreed.total));
            let room = if at_right { WIDTH - free } else { left };
            let is_final = packet.kind == CertificateKind::Final;
            if room > 180.0 && !is_final {
                let _ = write!(svg, r#"<text x="{free:.1}" y="{:.1}">{text}</text>"#, y + 15.0);
            }
            y += 27.0;
        }
    }
    let label = format!(
        "The signers of the two packets over each other: {first} signed the first alone, {both} both, {second} the second alone"
    );
    format!("<figure><svg class=\"w\" viewBox=\"0 0 720 {height:.0}\" role=\"img\" aria-label=\"{label}\">{svg}</svg></figure>")
}

fn signers(packet: &Packet) -> impl Iterator<Item = usize> + '_ {
    packet.signers.iter().enumerate().filter(|(_, &signs)| signs).map(|(firm, _)| firm)
}

/// A row of signers, in the order of the firms; runs of alike ones together where the firms are many.
fn row(svg: &mut String, ring: &Ring, firms: &[usize], packet: &Packet, letters: &Letters, y: f64, number: usize) {
    let fill = match packet.kind {
        CertificateKind::Skip => 's',
        CertificateKind::Final => 'a',
        _ => super::marks::class(letters.of(packet.slot, packet.block)),
    };
    let unit = WIDTH / ring.agreed.total as f64;
    let (mut x, mut at) = (1.0, 0);
    while at < firms.len() {
        let kind = |firm: usize| (packet.signers[firm], ring.is_honest(firm));
        let end = if firms.len() <= MOST_BARS {
            at + 1
        } else {
            at + firms[at..].iter().take_while(|&&firm| kind(firm) == kind(firms[at])).count()
        };
        let wide = unit * ring.weight(firms[at..end].iter().copied()) as f64;
        let (signs, is_honest) = kind(firms[at]);
        if signs {
            let gap = if wide > 4.0 { 1.0 } else { 0.0 };
            let who = if end == at + 1 { format!("firm {}", firms[at]) } else { format!("{} firms", end - at) };
            let lying = if is_honest { "" } else { ", lying" };
            let rect = format!(r#"x="{x:.1}" y="{y:.1}" width="{:.1}" height="22""#, wide - gap);
            let _ = write!(
                svg,
                r#"<g><title>{who}{lying}: signed {} in packet {number}</title><rect class="f{fill}" {rect}/>"#,
                name(packet)
            );
            if !is_honest {
                let _ = write!(svg, r#"<rect class="h" {rect}/>"#);
            }
            svg.push_str("</g>");
        }
        x += wide;
        at = end;
    }
}

/// The firms that the plain test names.
fn named(ring: &Ring, findings: &Findings, letters: &Letters) -> String {
    let mut html = String::new();
    let weight = ring.weight(findings.not_clear.iter().map(|&(firm, _)| firm));
    let _ = write!(
        html,
        "<figure style=\"margin-top:14px\"><table><caption>Who is not clear <span>(by a plain test: two initial votes of one firm in a slot, among all votes that were ever cast; {} {}, {} percent of the stake)</span></caption><thead><tr><th scope=\"col\" class=\"n\">firm</th><th scope=\"col\" class=\"n\">stake, %</th><th scope=\"col\" class=\"n\">slot</th><th scope=\"col\">its initial votes there</th></tr></thead><tbody>",
        findings.not_clear.len(),
        plural(findings.not_clear.len(), "firm"),
        percent(weight, ring.agreed.total)
    );
    for &(firm, slot) in findings.not_clear.iter().take(MOST_BARS) {
        let initial = ring
            .cast
            .iter()
            .filter(|vote| vote.node.0 == firm && vote.slot.0 == slot && matches!(vote.kind, VoteKind::Notar | VoteKind::Skip));
        let words: Vec<String> = initial
            .map(
                |vote| {
                    if vote.block == 0 {
                        "skip".to_string()
                    } else {
                        format!("notar {}", letters.words(vote.slot, vote.block))
                    }
                },
            )
            .collect();
        let share = percent(ring.agreed.stakes[firm], ring.agreed.total);
        let _ = write!(
            html,
            "<tr><td class=\"n\">{firm}</td><td class=\"n\">{share}</td><td class=\"n\">{slot}</td><td>{}</td></tr>",
            escaped(&listed(&words))
        );
    }
    html.push_str("</tbody></table>");
    if findings.not_clear.len() > MOST_BARS {
        let _ = write!(html, "<p class=\"soft\">and {} more</p>", findings.not_clear.len() - MOST_BARS);
    }
    html.push_str("</figure>");
    html
}
