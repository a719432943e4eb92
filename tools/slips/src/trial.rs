//! Computed cases, and slips tried against them.

use crate::code::Code;
use crate::machine::{Given, Machine, Stop};
use crate::number::Number;
use crate::program::{Entity, Named, Program};
use crate::slips::Slip;
use crate::syntax::{Clause, Expr, Form, Type};
use crate::value::Value;

/// One test of a case: a case that asks for all of a list has as many.
pub struct Part {
    pub name: String,
    code: Code,
    slots: usize,
    values: Vec<Value>,
    given: Vec<Given>,
    steps: u64,
    /// The places that its run comes to.
    reached: Vec<bool>,
}

/// A part that does not hold, or that cannot be computed.
pub struct Trouble {
    pub part: String,
    pub why: String,
}

pub struct Trial<'a> {
    program: &'a Program,
    machine: Machine<'a>,
    /// The quickest first.
    pub parts: Vec<Part>,
    pub troubles: Vec<Trouble>,
    /// For each definition the parts that noticed slips of it, the last first.
    noticed_by: Vec<Vec<usize>>,
}

#[derive(Clone, PartialEq)]
pub enum Outcome {
    /// By which part.
    Noticed(usize),
    /// So many parts come to the place, and each holds as before.
    Unnoticed(usize),
    /// The slip could not be computed.
    Fault(String),
}

impl<'a> Trial<'a> {
    /// Computes every case once, as the definitions stand.
    pub fn new(program: &'a Program) -> Trial<'a> {
        let machine = Machine::new(program);
        let noticed_by = program.definitions.iter().map(|_| Vec::new()).collect();
        let mut trial = Trial { program, machine, parts: Vec::new(), troubles: Vec::new(), noticed_by };
        for named in &program.cases {
            let tests = parts(program, named.file, &named.case.test);
            let many = tests.len() > 1;
            for test in tests {
                let path = &program.files[named.file].path;
                let text = &program.files[named.file].text[test.span.clone()];
                let short: String =
                    text.split_whitespace().collect::<Vec<_>>().join(" ").chars().take(40).collect();
                let name = if many {
                    format!("{path} {}: {short}", named.name)
                } else {
                    format!("{path} {}", named.name)
                };
                if let Err(why) = trial.add(named, name.clone(), test) {
                    trial.troubles.push(Trouble { part: name, why });
                }
            }
        }
        trial.parts.sort_by_key(|part| part.steps);
        trial
    }

    fn add(&mut self, named: &Named, name: String, test: &Expr) -> Result<(), String> {
        let names: Vec<String> = named.case.values.iter().map(|(name, _)| name.clone()).collect();
        let values: Vec<Value> =
            named.case.values.iter().enumerate().map(|(i, (_, ty))| any(i, ty)).collect();
        let given = named.case.given.iter().map(|given| self.given(named.file, &names, &values, given));
        let given = given.collect::<Result<Vec<Given>, String>>()?;
        let (code, slots) = self.machine.prepare(named.file, &names, test)?;
        self.machine.limit = u64::MAX;
        self.machine.reached = Some(vec![false; self.program.places]);
        let outcome = self.machine.test(&code, slots, &values, &given);
        let reached = self.machine.reached.take().unwrap_or_default();
        match outcome {
            Ok(true) => {
                self.parts.push(Part { name, code, slots, values, given, steps: self.machine.steps, reached })
            }
            Ok(false) => return Err("it does not hold".to_string()),
            Err(Stop::TooLong) => return Err("it takes too long".to_string()),
            Err(Stop::Fault(why)) => return Err(why),
        }
        Ok(())
    }

    /// `f x y ≡ value` in front of a test, where x and y are among its values.
    fn given(
        &mut self,
        file: usize,
        names: &[String],
        values: &[Value],
        expr: &Expr,
    ) -> Result<Given, String> {
        let Form::Apply { args: sides, .. } = &expr.form else {
            return Err("no equation is given".to_string());
        };
        let Form::Apply { head, args, .. } = &sides[0].form else {
            return Err("no call is given".to_string());
        };
        let of = match &head.form {
            Form::Name(name) => self.program.named(file, name),
            _ => None,
        };
        let Some(Entity::Definition(of)) = of else { return Err("no definition is given".to_string()) };
        let mut computed = |expr: &Expr| {
            let (code, slots) = self.machine.prepare(file, names, expr)?;
            self.machine.value(&code, slots, values).map_err(|why| format!("{why:?}"))
        };
        let args = args.iter().map(&mut computed).collect::<Result<_, _>>()?;
        Ok(Given { of, args, value: computed(&sides[1])? })
    }

    /// The slip against the parts that come to its place.
    pub fn of(&mut self, slip: &Slip) -> Outcome {
        let mut clauses: Vec<Clause> = self.program.definitions[slip.definition].clauses.clone();
        clauses[slip.clause] = slip.slipped.clone();
        if let Err(why) = self.machine.slip(slip.definition, &clauses) {
            return Outcome::Fault(why);
        }
        let outcome = self.against(slip);
        self.machine.put_back(slip.definition);
        outcome
    }

    fn against(&mut self, slip: &Slip) -> Outcome {
        let known = self.noticed_by[slip.definition].clone();
        let others = (0..self.parts.len()).filter(|part| !known.contains(part));
        let order: Vec<usize> = known.iter().copied().chain(others).collect();
        let mut touched = 0;
        for at in order {
            let part = &self.parts[at];
            if !part.reached[slip.place] {
                continue;
            }
            touched += 1;
            self.machine.limit = 50 * part.steps + 100_000;
            let outcome = self.machine.test(&part.code, part.slots, &part.values, &part.given);
            // What a case does not give cannot be looked at: then it does not compute.
            let beyond = !part.values.is_empty() && matches!(outcome, Err(Stop::Fault(_)));
            match outcome {
                Ok(true) => continue,
                Err(Stop::Fault(why)) if !beyond => return Outcome::Fault(why),
                _ => {}
            }
            let known = &mut self.noticed_by[slip.definition];
            known.retain(|part| *part != at);
            known.insert(0, at);
            return Outcome::Noticed(at);
        }
        Outcome::Unnoticed(touched)
    }
}

/// A value for a case that is said of any: a number of its own, and of other types one of which nothing is known.
fn any(i: usize, ty: &Type) -> Value {
    match ty {
        Type::Name(name, _) if name == "ℕ" => Value::Number(Number::Small(1_000_003 + i as u64)),
        _ => Value::Any(i),
    }
}

/// The tests of `all (one ∷ two ∷ [])`, or the test itself.
fn parts<'e>(program: &Program, file: usize, test: &'e Expr) -> Vec<&'e Expr> {
    let Form::Apply { head, args, .. } = &test.form else { return vec![test] };
    let is_all = match &head.form {
        Form::Name(name) => match program.named(file, name) {
            Some(Entity::Definition(definition)) => program.definitions[definition].name == "all",
            _ => false,
        },
        _ => false,
    };
    let mut tests = Vec::new();
    let mut rest = &args[0];
    while let Form::Apply { head, args, infix: true } = &rest.form {
        if !matches!(&head.form, Form::Name(name) if name == "∷") {
            return vec![test];
        }
        tests.push(&args[0]);
        rest = &args[1];
    }
    if is_all && matches!(&rest.form, Form::Name(name) if name == "[]") {
        return tests;
    }
    vec![test]
}
