//! One-token slips of a definition: another operand, constant, field, constructor, comparison or function of the same type, arguments
//! in another order, an operand or a `not` left out, a test turned round.

use crate::code::is_constructor;
use crate::lexer;
use crate::number::Number;
use crate::parser;
use crate::program::{Builtin, Entity, Program};
use crate::syntax::{Clause, Expr, Form, Pattern};
use crate::types::{self, Ty};
use std::collections::{HashMap, HashSet};
use std::ops::Range;

pub struct Slip {
    pub definition: usize,
    /// Which of its clauses has it.
    pub clause: usize,
    pub slipped: Clause,
    /// The place whose value can be another.
    pub place: usize,
    /// The clause's words with what became of them, the same wherever the definition stands.
    pub text: String,
}

/// What may be written in place of a builtin.
fn instead(builtin: Builtin) -> &'static [&'static str] {
    use Builtin as B;
    match builtin {
        B::True => &["false"],
        B::False => &["true"],
        B::And => &["||"],
        B::Or => &["&&"],
        B::Plus => &["-", "*"],
        B::Minus => &["+"],
        B::Times => &["+"],
        B::Divide => &["*", "%"],
        B::Rest => &["/"],
        B::Power => &["*"],
        B::Min => &["max"],
        B::Max => &["min"],
        B::Eqb => &["leb", "ltb"],
        B::Leb => &["ltb", "eqb"],
        B::Ltb => &["leb", "eqb"],
        B::Take => &["drop"],
        B::Drop => &["take"],
        _ => &[],
    }
}

struct Maker<'a> {
    program: &'a Program,
    definition: usize,
    text: &'a str,
    places: HashMap<usize, Ty>,
    /// What is bound where the walk stands.
    bound: Vec<String>,
    found: Vec<Found>,
}

/// Text in place of a part of the clause; and what is shown of it, where that is shorter.
struct Found {
    span: Range<usize>,
    new: String,
    place: usize,
    shown: Option<(Range<usize>, String, String)>,
}

/// All slips of a definition that the types let pass.
pub fn of_definition(program: &Program, definition: usize) -> Result<Vec<Slip>, String> {
    let of = &program.definitions[definition];
    let signature = of.signature.as_ref().ok_or("it has no signature")?;
    let text = &program.files[of.file].text;
    let mut slips = Vec::new();
    let mut texts: HashMap<String, usize> = HashMap::new();
    for (i, clause) in of.clauses.iter().enumerate() {
        let places = types::clause(program, of.file, signature, clause)?;
        let mut maker = Maker { program, definition, text, places, bound: Vec::new(), found: Vec::new() };
        clause.patterns.iter().for_each(|pattern| maker.bind(pattern));
        maker.expr(&clause.body, None);
        let mut seen = HashSet::new();
        for Found { span, new, place, shown } in maker.found {
            let whole =
                format!("{}{new}{}", &text[clause.span.start..span.start], &text[span.end..clause.span.end]);
            let Ok(slipped) = parser::clause(&whole, 0, whole.len()) else { continue };
            if alike(&slipped.body, &clause.body)
                || types::clause(program, of.file, signature, &slipped).is_err()
            {
                continue;
            }
            let mut shown = match shown {
                Some((at, old, new)) => {
                    let at = at.start - clause.span.start..at.end - clause.span.start;
                    marked(&text[clause.span.clone()], at, &old, &new)
                }
                None => parted(&text[clause.span.clone()], &whole),
            };
            if !seen.insert(form(&slipped.body)) {
                continue;
            }
            let count = texts.entry(shown.clone()).or_insert(0);
            *count += 1;
            if *count > 1 {
                shown = format!("{shown} #{count}");
            }
            slips.push(Slip { definition, clause: i, slipped, place, text: shown });
        }
    }
    Ok(slips)
}

impl Maker<'_> {
    fn bind(&mut self, pattern: &Pattern) {
        match pattern {
            Pattern::Number(_) => {}
            Pattern::Name(name) => {
                if !self.named(name).is_some_and(|entity| is_constructor(&entity)) {
                    self.bound.push(name.clone());
                }
            }
            Pattern::Apply(_, parts) => parts.iter().for_each(|part| self.bind(part)),
        }
    }

    fn named(&self, name: &str) -> Option<Entity> {
        self.program.named(self.program.definitions[self.definition].file, name)
    }

    fn builtin(&self, expr: &Expr) -> Option<Builtin> {
        match &expr.form {
            Form::Name(name) if !self.bound.contains(name) => match self.named(name)? {
                Entity::Builtin(builtin) => Some(builtin),
                _ => None,
            },
            _ => None,
        }
    }

    fn put(&mut self, span: &Range<usize>, new: impl Into<String>, place: usize) {
        self.found.push(Found { span: span.clone(), new: new.into(), place, shown: None });
    }

    /// The source of an expression, in parentheses where it has several words.
    fn closed(&self, expr: &Expr) -> String {
        match expr.form {
            Form::Name(_) | Form::Number(_) | Form::Text(_) | Form::Project { .. } => {
                self.text[expr.span.clone()].to_string()
            }
            _ => format!("({})", &self.text[expr.span.clone()]),
        }
    }

    fn expr(&mut self, expr: &Expr, around: Option<Builtin>) {
        let negated = around == Some(Builtin::Not) || self.applied(expr) == Some(Builtin::Not);
        let test = self.places.get(&expr.place).is_some_and(types::is_bool);
        let constant = matches!(self.builtin(expr), Some(Builtin::True | Builtin::False));
        if test && !negated && !constant && !matches!(expr.form, Form::Let { .. }) {
            let old = &self.text[expr.span.clone()];
            let shown = Some((expr.span.clone(), abridged(old), "not ..".to_string()));
            self.found.push(Found {
                span: expr.outer.clone(),
                new: format!("(not ({old}))"),
                place: expr.place,
                shown,
            });
        }
        match &expr.form {
            Form::Name(name) => self.name(name, expr, expr.place),
            Form::Number(number) => self.number(number, expr),
            Form::Text(_) => {}
            Form::Apply { head, args, infix } => self.apply(expr, head, args, *infix),
            Form::Project { of, field } => {
                let ty = self.places.get(&of.place).cloned().unwrap_or(Ty::Any);
                let last = expr.span.end - field.len()..expr.span.end;
                for other in types::fields_like(self.program, &ty, field) {
                    self.put(&last, other, expr.place);
                }
                self.expr(of, None);
            }
            Form::Lambda { params, body } => {
                let depth = self.bound.len();
                self.bound.extend(params.iter().filter(|param| *param != "_").cloned());
                self.expr(body, None);
                self.bound.truncate(depth);
            }
            Form::Let { name, value, body, .. } => {
                self.expr(value, None);
                self.bound.push(name.clone());
                self.expr(body, None);
                self.bound.pop();
            }
            Form::Record(fields) => {
                for (_, value) in fields {
                    self.expr(value, None);
                }
                for pair in fields.windows(2) {
                    self.exchange(&pair[0].1, &pair[1].1, expr.place);
                }
            }
        }
    }

    fn applied(&self, expr: &Expr) -> Option<Builtin> {
        match &expr.form {
            Form::Apply { head, .. } => self.builtin(head),
            _ => None,
        }
    }

    /// Another name of the same kind; whether it is of the same type is asked of the whole clause.
    fn name(&mut self, name: &str, expr: &Expr, place: usize) {
        if self.bound.iter().any(|bound| bound == name) {
            let others: Vec<String> = self.bound.iter().filter(|bound| *bound != name).cloned().collect();
            others.into_iter().for_each(|other| self.put(&expr.span, other, place));
            return;
        }
        match self.named(name) {
            Some(Entity::Builtin(builtin)) => {
                instead(builtin).iter().for_each(|other| self.put(&expr.span, *other, place));
            }
            Some(Entity::Constructor(constructor)) => self.constructor(name, constructor, expr, place),
            Some(Entity::Definition(definition)) => self.function(definition, expr, place),
            None => {}
        }
    }

    /// Of many constructors only the ones beside it.
    fn constructor(&mut self, name: &str, constructor: usize, expr: &Expr, place: usize) {
        let of = &self.program.constructors;
        let ty = &self.program.types[of[constructor].of];
        let like = |&other: &usize| of[other].parts == of[constructor].parts;
        let likes: Vec<usize> = ty.constructors.iter().copied().filter(like).collect();
        let at = likes.iter().position(|&other| other == constructor).unwrap_or(0);
        let front = name.rsplit_once('.').map_or(String::new(), |(front, _)| format!("{front}."));
        for (i, &other) in likes.iter().enumerate() {
            if i != at && (likes.len() <= 6 || i.abs_diff(at) == 1) {
                self.put(&expr.span, format!("{front}{}", of[other].name), place);
            }
        }
    }

    /// Another function, or constant, that the file can name there.
    fn function(&mut self, definition: usize, expr: &Expr, place: usize) {
        let file = self.program.definitions[self.definition].file;
        let ty = types::of_definition(self.program, definition);
        let scope = &self.program.files[file].scope;
        let mut others: Vec<&String> = scope
            .iter()
            .filter(|(name, entity)| match entity {
                Entity::Definition(other) => {
                    let there = self.program.definitions[*other].file != file || *other < self.definition;
                    *other != definition
                        && there
                        && !self.bound.contains(name)
                        && types::of_definition(self.program, *other) == ty
                }
                _ => false,
            })
            .map(|(name, _)| name)
            .collect();
        others.sort();
        others.into_iter().for_each(|other| self.put(&expr.span, other, place));
    }

    /// One more, and one less.
    fn number(&mut self, number: &Number, expr: &Expr) {
        let Some(n) = number.small() else { return };
        self.put(&expr.span, (n + 1).to_string(), expr.place);
        if n > 0 {
            self.put(&expr.span, (n - 1).to_string(), expr.place);
        }
    }

    fn apply(&mut self, expr: &Expr, head: &Expr, args: &[Expr], infix: bool) {
        let builtin = self.builtin(head);
        if let Form::Name(name) = &head.form {
            let against_zero = builtin == Some(Builtin::Eqb)
                && matches!(&args[1..], [Expr { form: Form::Number(n), .. }] if n.is_zero());
            let before = self.found.len();
            self.name(name, head, expr.place);
            if against_zero {
                // At most 0 is 0.
                let others: Vec<Found> =
                    self.found.drain(before..).filter(|found| found.new != "leb").collect();
                self.found.extend(others);
            }
        } else {
            self.expr(head, None);
        }
        args.iter().for_each(|arg| self.expr(arg, builtin));
        self.left_out(expr, builtin, head, args);
        match builtin {
            Some(Builtin::Cons) => {
                if let Form::Apply { head: next, args: others, .. } = &args[1].form {
                    if self.builtin(next) == Some(Builtin::Cons) {
                        self.exchange(&args[0], &others[0], expr.place);
                    }
                }
            }
            Some(builtin) if types::commutes(builtin) => {}
            _ if infix => self.exchange(&args[0], &args[1], expr.place),
            _ => {
                for (i, one) in args.iter().enumerate() {
                    args[i + 1..].iter().take(2).for_each(|two| self.exchange(one, two, expr.place));
                }
            }
        }
    }

    fn left_out(&mut self, expr: &Expr, builtin: Option<Builtin>, head: &Expr, args: &[Expr]) {
        use Builtin::{
            And, Append, Divide, Max, Min, Minus, Not, Or, Plus, Power, Rest, Reverse, Suc, Times,
        };
        match (builtin, args) {
            (Some(And | Or | Plus | Times | Append), [one, two]) => {
                self.put(&(one.outer.end..two.outer.end), "", expr.place);
                self.put(&(one.outer.start..two.outer.start), "", expr.place);
            }
            (Some(Minus | Divide | Rest | Power), [one, two]) => {
                self.put(&(one.outer.end..two.outer.end), "", expr.place)
            }
            (Some(Not | Suc | Reverse), [of]) => {
                self.put(&(head.outer.start..of.outer.start), "", expr.place)
            }
            (Some(Min | Max), [one, two]) => {
                let (one, two) = (self.closed(one), self.closed(two));
                self.put(&expr.outer, one, expr.place);
                self.put(&expr.outer, two, expr.place);
            }
            _ => {}
        }
    }

    fn exchange(&mut self, one: &Expr, two: &Expr, place: usize) {
        let (first, second) = (self.closed(one), self.closed(two));
        if first != second {
            let between = &self.text[one.outer.end..two.outer.start];
            self.put(&(one.outer.start..two.outer.end), format!("{second}{between}{first}"), place);
        }
    }
}

// ---- texts

/// The expression's words, wherever they stand.
fn form(expr: &Expr) -> String {
    match &expr.form {
        Form::Name(name) => name.clone(),
        Form::Number(number) => format!("{number:?}"),
        Form::Text(text) => format!("{text:?}"),
        Form::Apply { head, args, .. } => {
            let args: Vec<String> = args.iter().map(form).collect();
            format!("({} {})", form(head), args.join(" "))
        }
        Form::Project { of, field } => format!("({} .{field})", form(of)),
        Form::Lambda { params, body } => format!("(λ {}. {})", params.join(" "), form(body)),
        Form::Let { name, value, body, .. } => format!("(let {name} = {} in {})", form(value), form(body)),
        Form::Record(fields) => {
            let fields: Vec<String> =
                fields.iter().map(|(name, value)| format!("{name} = {}", form(value))).collect();
            format!("{{{}}}", fields.join("; "))
        }
    }
}

fn alike(one: &Expr, two: &Expr) -> bool {
    form(one) == form(two)
}

/// So many words are shown on either side of what changed.
const BESIDE: usize = 7;

type Words = Vec<(String, bool)>;

/// The words of a text, each with whether a blank stands in front of it.
fn words(text: &str) -> Words {
    let tokens = lexer::tokens(text, 0, text.len()).unwrap_or_default();
    let apart = |at: usize| text[..at].ends_with(char::is_whitespace);
    tokens.iter().map(|token| (cut(&token.text), apart(token.start))).collect()
}

/// A quoted text by its first letters.
fn cut(word: &str) -> String {
    if !word.starts_with('"') || word.chars().count() <= 20 {
        return word.to_string();
    }
    format!("{}..\"", word.chars().take(16).collect::<String>())
}

fn joined(words: &[(String, bool)]) -> String {
    let mut line = String::new();
    for (i, (word, apart)) in words.iter().enumerate() {
        if *apart && i > 0 {
            line.push(' ');
        }
        line.push_str(word);
    }
    line
}

/// A long expression by its first and last words.
fn abridged(text: &str) -> String {
    let words = words(text);
    if words.len() <= 9 {
        return joined(&words);
    }
    format!("{} .. {}", joined(&words[..4]), joined(&words[words.len() - 3..]))
}

/// A clause with `[what was => what is]` where the two part.
fn parted(old: &str, new: &str) -> String {
    let (old, new) = (words(old), words(new));
    let same = |(one, two): &(&(String, bool), &(String, bool))| one.0 == two.0;
    let front = old.iter().zip(&new).take_while(same).count();
    let most = old.len().min(new.len()) - front;
    let back = old.iter().rev().zip(new.iter().rev()).take_while(same).count().min(most);
    let (was, is) = (joined(&old[front..old.len() - back]), joined(&new[front..new.len() - back]));
    framed(&old, front, old.len() - back, &was, &is)
}

/// A clause with that at a place of its own.
fn marked(text: &str, at: Range<usize>, was: &str, is: &str) -> String {
    framed(&words(text), words(&text[..at.start]).len(), words(&text[..at.end]).len(), was, is)
}

/// Behind the clause's front, which tells it from the definition's others, the words beside what changed.
fn framed(words: &Words, from: usize, to: usize, was: &str, is: &str) -> String {
    let front = words.iter().position(|(word, _)| word == "=").map_or(0, |at| at + 1);
    let first = if from > front + BESIDE + 3 { from - BESIDE } else { front };
    let last = if words.len() - to > BESIDE + 3 { to + BESIDE } else { words.len() };
    let gap = |at: usize| if words.get(at).is_some_and(|word| word.1) { " " } else { "" };
    let mut line = joined(&words[..front]);
    line.push_str(if first > front { " .. " } else { " " });
    line.push_str(&joined(&words[first..from]));
    if from > first {
        line.push_str(gap(from));
    }
    line.push_str(&format!("[{was} => {is}]"));
    line.push_str(gap(to));
    line.push_str(&joined(&words[to..last]));
    if last < words.len() {
        line.push_str(" ..");
    }
    line
}
