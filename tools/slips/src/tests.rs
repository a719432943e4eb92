//! A small repository with a definition of each sort that is read.

use crate::explained::Explained;
use crate::program::Program;
use crate::slips;
use crate::trial::{Outcome, Trial};
use std::fs;
use std::path::PathBuf;

const CODE: &str = "// Kinds.
pub enum Kind {
    Low(u64),
    High,
}

pub struct Pair {
    pub left: u64,
    pub right: u64,
    pub fits: bool,
}
";

const RULES: &str = "-- Rules.
use Rattle.std.specs.Prelude.{Bool, true, false, not, ◌&&◌, List, [], ◌∷◌, ◌++◌, ℕ, zero, suc, ◌+◌, ◌-◌, ◌*◌, ◌/◌, ◌%◌, ◌^◌, leb, Option, Some, None, Result, Ok, Err}
use Rattle.small.specs.declared.Kind.{Kind}
use Rattle.small.specs.declared.Kind.TheVariants as kind
use Rattle.small.specs.declared.Pair.{Pair}

-- f 0 + .. + f (n - 1).
unfoldable pub sum_to : ℕ → (ℕ → ℕ) → ℕ
sum_to zero f = 0
sum_to (suc n) f = sum_to n f + f n

unfoldable pub within : Pair → ℕ → Bool
within p n = leb p.left n && leb n p.right

unfoldable pub number : Kind → ℕ
number (kind.Low n) = n
number kind.High = 9

abbrev pub shut : Pair
shut = record { left = 2; right = 4; fits = true }

unfoldable pub outside : Pair → ℕ → Bool
outside p n = not (within p n)

-- Half of a number and what is left; of 0 nothing.
unfoldable pub halves : ℕ → Result (ℕ × ℕ) Kind
halves zero = Err kind.High
halves (suc n) = Ok (suc n / 2, suc n % 2)

unfoldable pub both : Result (ℕ × ℕ) Kind → Option ℕ
both (Ok (half, left)) = Some (half + left)
both (Err k) = None

-- Nobody asks for it.
abbrev pub lonely : ℕ
lonely = 7
";

const CASES: &str = "-- Cases.
use Rattle.std.specs.Prelude.{Bool, true, not, ◌&&◌, List, [], ◌∷◌, ◌++◌, ◌≡◌, ℕ, ◌+◌, ◌-◌, ◌*◌, ◌^◌, ◌/◌, ◌%◌, T, eqb, Some, None}
use Rattle.small.specs.declared.Kind.TheVariants as kind
use Rattle.small.specs.Rules.{sum_to, within, outside, number, shut, halves, both}

abbrev all : List Bool → Bool
all [] = true
all (b ∷ bs) = b && all bs

abbrev strong : Bool
strong =
    let two : ℕ = 1 + 1 in
    all (eqb (2 + 3 * two ^ 2) 14 ∷ eqb (10 - 3 - 2) 5 ∷ eqb (2 ^ 70 / 2 ^ 68 % 3) 1 ∷ [])

abbrev range : Bool
range = within shut 2 && (within shut 4 && (not (within shut 5) && not (within shut 1)))

cases : T (all (strong ∷ range ∷ eqb (number (kind.Low 3)) 3 ∷ eqb (sum_to 4 (λ i. i * i)) 14 ∷ []))
unfolding sum_to within number
cases = tt

joined : 1 ∷ 2 ∷ [] ++ (3 ∷ []) ≡ 1 ∷ 2 ∷ 3 ∷ []
joined = refl

halved : both (halves 7) ≡ Some 4
unfolding halves both
halved = refl

none_halved : both (halves 0) ≡ None
unfolding halves both
none_halved = refl

said : (p : Pair) → within p 5 ≡ true → T (not (outside p 5))
unfolding outside
said p holds = rw holds tt
";

/// The repository in a folder of its own, with a part of its cases exchanged.
fn small(name: &str, old: &str, new: &str) -> Program {
    let root: PathBuf = std::env::temp_dir().join(format!("slips-{name}-{}", std::process::id()));
    let specs = root.join("crates/small/specs");
    fs::create_dir_all(&specs).unwrap();
    fs::create_dir_all(root.join("crates/small/src")).unwrap();
    fs::write(root.join("crates/small/src/lib.rt"), CODE).unwrap();
    fs::write(specs.join("Rules.antt"), RULES).unwrap();
    assert!(CASES.contains(old));
    fs::write(specs.join("Cases.antt"), CASES.replace(old, new)).unwrap();
    let program = Program::load(&root).unwrap();
    fs::remove_dir_all(&root).unwrap();
    program
}

/// The texts of a definition's slips that no case notices, and how many there are in all.
fn unnoticed(program: &Program, name: &str) -> (Vec<String>, usize) {
    let mut trial = Trial::new(program);
    let definition = program.definitions.iter().position(|definition| definition.name == name).unwrap();
    let slips = slips::of_definition(program, definition).unwrap();
    let passed = slips.iter().filter(|slip| matches!(trial.of(slip), Outcome::Unnoticed(_)));
    (passed.map(|slip| slip.text.clone()).collect(), slips.len())
}

#[test]
fn cases_are_computed() {
    let program = small("whole", "", "");
    let trial = Trial::new(&program);
    assert_eq!((program.cases.len(), trial.parts.len(), trial.troubles.len()), (5, 8, 0));
}

#[test]
fn a_wrong_case_is_told() {
    for (name, old, new) in [
        ("sum", ")) 14 ∷ []))", ")) 15 ∷ []))"),
        ("list", "1 ∷ 2 ∷ 3", "1 ∷ 3 ∷ 2"),
        ("strength", "14 ∷ eqb (10", "20 ∷ eqb (10"),
    ] {
        let program = small(name, old, new);
        let trial = Trial::new(&program);
        assert_eq!((trial.parts.len(), trial.troubles.len()), (7, 1), "{name}");
    }
}

#[test]
fn slips_are_noticed() {
    let program = small("noticed", "", "");
    assert_eq!(unnoticed(&program, "within").0, Vec::<String>::new());
    // The case asks for a low number alone, and nobody for `lonely`.
    let (texts, of) = unnoticed(&program, "number");
    assert_eq!(
        (texts, of),
        (vec!["number kind.High = [9 => 10]".to_string(), "number kind.High = [9 => 8]".to_string()], 2)
    );
    assert_eq!(unnoticed(&program, "lonely").0.len(), 2);
    // Their sum is the same in either order.
    let (texts, _) = unnoticed(&program, "halves");
    let exchanged = "halves (suc n) = Ok ([suc n / 2, suc n % 2 => (suc n % 2), (suc n / 2)])";
    assert!(texts.contains(&exchanged.to_string()), "{texts:?}");
    assert_eq!(unnoticed(&program, "both").0, Vec::<String>::new());
    // By a case that is said of any pair.
    let (texts, of) = unnoticed(&program, "outside");
    assert_eq!((texts, of), (Vec::<String>::new(), 1));
}

#[test]
fn a_case_taken_out_is_missed() {
    let program = small(
        "missed",
        "within shut 2 && (within shut 4 && (not (within shut 5) && not (within shut 1)))",
        "within shut 3",
    );
    let (texts, _) = unnoticed(&program, "within");
    assert!(texts.contains(&"within p n = leb p.left n [&& leb n p.right => ]".to_string()), "{texts:?}");
}

#[test]
fn types_keep_slips_from_being_refused_for_their_shape() {
    let program = small("types", "", "");
    let definition = program.definitions.iter().position(|definition| definition.name == "within").unwrap();
    let slips = slips::of_definition(&program, definition).unwrap();
    // `left` may be taken for `right`, and not for `fits`, which is no number.
    assert!(slips.iter().any(|slip| slip.text.contains("[.left => .right]")));
    assert!(!slips.iter().any(|slip| slip.text.contains("=> .fits]")));
    assert!(!slips.iter().any(|slip| slip.text.contains("[p =>") || slip.text.contains("=> p]")));
}

#[test]
fn explanations_have_a_reason() {
    let text = "-- It is so.\na.antt one\n    x\n    y\n\nb.antt two\n    x\n    x\n";
    let explained = Explained::read(text);
    let reasons: Vec<bool> = explained.entries.values().map(|(_, reason)| *reason).collect();
    assert_eq!((reasons, explained.twice), (vec![true, true, false], vec![8]));
}
