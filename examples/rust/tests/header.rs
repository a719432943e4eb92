//! The wrapper is of this header: every function of it is declared, and versions and numbers agree.

use quointrowel::{version, Refusal, Weight, VERSION};
use std::collections::BTreeSet;

const HEADER: &str = include_str!("../../../include/quointrowel.h");
const FACE: &str = include_str!("../src/face.rs");

/// Every name of a function, told by the bracket after it.
fn functions(text: &str) -> BTreeSet<&str> {
    let is_of_a_name = |c: char| c.is_ascii_alphanumeric() || c == '_';
    let names = text.split(|c: char| !is_of_a_name(c) && c != '(').flat_map(|part| part.split_inclusive('('));
    names.filter_map(|name| name.strip_suffix('(')).filter(|name| name.starts_with("qr_")).collect()
}

#[test]
fn every_function_is_declared() {
    assert!(functions(HEADER).len() >= 20);
    assert_eq!(functions(FACE), functions(HEADER));
}

#[test]
fn versions_agree() {
    assert!(HEADER.contains(&format!("#define QR_VERSION {VERSION}\n")));
    assert_eq!(version(), VERSION);
}

#[test]
fn refusals_are_told_in_the_librarys_words() {
    assert_eq!(Refusal::BadSlot.to_string(), "The slot is not 1 to 16.");
    assert_eq!(Refusal::NotHeld.to_string(), "The certificate or proof asked for is not held.");
    let light = Refusal::TooLight { missing: Weight(3) }.to_string();
    assert!(light.starts_with("The weight is below the threshold;") && light.ends_with(" 3 is missing."));
    assert_eq!(Refusal::Unknown(99).to_string(), "No refusal has this number. It is 99.");
}

#[test]
fn numbers_are_the_headers() {
    use Refusal::*;
    let all = [
        ("BAD_SIZES", BadSizes),
        ("BAD_NODE", BadNode),
        ("BAD_SLOT", BadSlot),
        ("BAD_KIND", BadKind),
        ("BAD_BLOCK", BadBlock),
        ("OWN_NAME", OwnName),
        ("ALREADY_KEPT", AlreadyKept),
        ("OTHER_STANDS", OtherStands),
        ("NO_ROOM", NoRoom),
        ("NOT_ARMED", NotArmed),
        ("BAD_PARENT", BadParent),
        ("BAD_LENGTH", BadLength),
        ("BAD_NUMBER", BadNumber),
        ("BAD_SIGNERS", BadSigners),
        ("TOO_LIGHT", TooLight { missing: Weight(0) }),
        ("NOT_A_PROOF", NotAProof),
        ("BAD_RECORD", BadRecord),
        ("NOT_HELD", NotHeld),
    ];
    for (name, refusal) in all {
        let number = refusal.number();
        let declared = [",", " "].map(|end| HEADER.contains(&format!("    QR_{name} = {number}{end}")));
        assert!(declared.contains(&true), "{name}");
    }
}
