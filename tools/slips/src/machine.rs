//! Runs definitions. Arguments and what a `let` binds are computed first; of `_&&_`, `_||_` and `cond` only what is asked for. All
//! definitions end on every input, so that the values are antt's.

use crate::code::{self, Code, Compiled, Lambda, Names, Shape, Step};
use crate::number::Number;
use crate::program::{Builtin, Entity, Program};
use crate::syntax::{Clause, Expr};
use crate::value::{Callee, Function, Value};
use std::rc::Rc;

/// Why a run has no value.
#[derive(Clone, Debug, PartialEq)]
pub enum Stop {
    /// It took more steps, or went deeper, than it may.
    TooLong,
    Fault(String),
}

type Run<A> = Result<A, Stop>;

const DEEPEST: usize = 60_000;

/// No list that a definition makes is longer.
const LONGEST: u64 = 1 << 20;

/// A definition's value at some arguments, by what a case says in front of its test.
#[derive(Clone)]
pub struct Given {
    pub of: usize,
    pub args: Vec<Value>,
    pub value: Value,
}

pub struct Machine<'a> {
    program: &'a Program,
    names: Names,
    compiled: Vec<Option<Rc<Compiled>>>,
    constants: Vec<Option<Value>>,
    stack: Vec<Value>,
    depth: usize,
    pub steps: u64,
    pub limit: u64,
    given: Vec<Given>,
    /// The places that a run came to, where they are wanted.
    pub reached: Option<Vec<bool>>,
}

impl<'a> Machine<'a> {
    pub fn new(program: &'a Program) -> Machine<'a> {
        Machine {
            program,
            names: Names::default(),
            compiled: program.definitions.iter().map(|_| None).collect(),
            constants: program.definitions.iter().map(|_| None).collect(),
            stack: Vec::new(),
            depth: 0,
            steps: 0,
            limit: u64::MAX,
            given: Vec::new(),
            reached: None,
        }
    }

    pub fn prepare(&mut self, file: usize, values: &[String], expr: &Expr) -> Result<(Code, usize), String> {
        code::over(self.program, &mut self.names, file, values, expr)
    }

    /// Other clauses for a definition, until it is put back.
    pub fn slip(&mut self, definition: usize, clauses: &[Clause]) -> Result<(), String> {
        let file = self.program.definitions[definition].file;
        let compiled = code::definition(self.program, &mut self.names, file, clauses)?;
        self.compiled[definition] = Some(Rc::new(compiled));
        Ok(())
    }

    pub fn put_back(&mut self, definition: usize) {
        self.compiled[definition] = None;
    }

    /// The truth of a test over some values, computed from nothing, where definitions have the values that are given.
    pub fn test(&mut self, code: &Code, slots: usize, values: &[Value], given: &[Given]) -> Run<bool> {
        self.given = given.to_vec();
        match self.value(code, slots, values)? {
            Value::Bool(holds) => Ok(holds),
            _ => fault("a test is no Bool"),
        }
    }

    pub fn value(&mut self, code: &Code, slots: usize, values: &[Value]) -> Run<Value> {
        self.constants.iter_mut().for_each(|constant| *constant = None);
        self.stack.clear();
        self.stack.extend_from_slice(values);
        self.stack.resize(slots, Value::Unit);
        self.depth = 0;
        self.steps = 0;
        self.eval(code, 0)
    }

    /// What is given of a definition at the arguments that stand on the stack from a place on.
    fn given(&self, definition: usize, base: usize) -> Option<Value> {
        let at = |given: &&Given| {
            let args = &self.stack[base..];
            given.of == definition
                && args.len() == given.args.len()
                && args.iter().zip(&given.args).all(|(one, two)| one.same(two) == Some(true))
        };
        self.given.iter().find(at).map(|given| given.value.clone())
    }

    fn definition(&mut self, definition: usize) -> Run<Rc<Compiled>> {
        if let Some(compiled) = &self.compiled[definition] {
            return Ok(compiled.clone());
        }
        let of = &self.program.definitions[definition];
        let compiled = code::definition(self.program, &mut self.names, of.file, &of.clauses);
        let compiled = compiled.map_err(|why| Stop::Fault(format!("`{}`: {why}", of.name)))?;
        let compiled = Rc::new(compiled);
        self.compiled[definition] = Some(compiled.clone());
        Ok(compiled)
    }

    fn eval(&mut self, code: &Code, base: usize) -> Run<Value> {
        if let Some(reached) = &mut self.reached {
            reached[code.place] = true;
        }
        match &code.step {
            Step::Known(value) => Ok(value.clone()),
            Step::Local(slot) => Ok(self.stack[base + slot].clone()),
            Step::Constant(definition) => self.constant(*definition),
            Step::Call(definition, args) => {
                let compiled = self.definition(*definition)?;
                let callee = self.stack.len();
                for arg in args {
                    let value = self.eval(arg, base)?;
                    self.stack.push(value);
                }
                if let Some(value) = self.given(*definition, callee) {
                    self.stack.truncate(callee);
                    return Ok(value);
                }
                self.enter(&compiled, callee)
            }
            Step::Builtin(builtin, args) => self.builtin_lazy(*builtin, args, base),
            Step::Construct(constructor, args) => Ok(Value::constructed(*constructor, self.all(args, base)?)),
            Step::Apply(head, args) => {
                let head = self.eval(head, base)?;
                let args = self.all(args, base)?;
                self.apply(head, args)
            }
            Step::Project(of, field) => {
                let (at, values) = match self.eval(of, base)? {
                    Value::Record(shape, values) => {
                        (self.names.shapes[shape].iter().position(|of| of == field), values)
                    }
                    Value::Holding(Builtin::Pair, values) => {
                        (self.names.field_name(*field).parse().ok(), values)
                    }
                    _ => return fault("a field of no record"),
                };
                match at.and_then(|at| values.get(at)) {
                    Some(value) => Ok(value.clone()),
                    None => fault(&format!("no field `{}`", self.names.field_name(*field))),
                }
            }
            Step::Record(shape, values) => Ok(Value::Record(*shape, Rc::new(self.all(values, base)?))),
            Step::Lambda(lambda) => {
                let captured =
                    lambda.captures.iter().map(|(slot, _)| self.stack[base + slot].clone()).collect();
                let of = Callee::Lambda(lambda.clone(), Rc::new(captured));
                Ok(Value::Function(Rc::new(Function { of, arity: lambda.arity, given: Vec::new() })))
            }
            Step::Let(slot, value, body) => {
                self.stack[base + slot] = self.eval(value, base)?;
                self.eval(body, base)
            }
        }
    }

    fn all(&mut self, codes: &[Code], base: usize) -> Run<Vec<Value>> {
        codes.iter().map(|code| self.eval(code, base)).collect()
    }

    fn constant(&mut self, definition: usize) -> Run<Value> {
        if let Some(value) = &self.constants[definition] {
            return Ok(value.clone());
        }
        let compiled = self.definition(definition)?;
        let value = self.enter(&compiled, self.stack.len())?;
        self.constants[definition] = Some(value.clone());
        Ok(value)
    }

    /// A definition whose arguments are on the stack from a place on, which it leaves empty.
    fn enter(&mut self, compiled: &Compiled, base: usize) -> Run<Value> {
        self.count()?;
        for arm in &compiled.clauses {
            self.stack.resize(base + arm.slots, Value::Unit);
            let fits = arm.patterns.iter().enumerate().all(|(i, shape)| match shape {
                Shape::Any => true,
                shape => {
                    let value = self.stack[base + i].clone();
                    self.fits(shape, &value, base)
                }
            });
            if fits {
                self.depth += 1;
                let value = self.eval(&arm.body, base)?;
                self.depth -= 1;
                self.stack.truncate(base);
                return Ok(value);
            }
        }
        fault("no clause fits")
    }

    fn enter_lambda(&mut self, lambda: &Lambda, captured: &[Value], base: usize) -> Run<Value> {
        self.count()?;
        self.stack.resize(base + lambda.slots, Value::Unit);
        for ((_, slot), value) in lambda.captures.iter().zip(captured) {
            self.stack[base + slot] = value.clone();
        }
        self.depth += 1;
        let value = self.eval(&lambda.body, base)?;
        self.depth -= 1;
        self.stack.truncate(base);
        Ok(value)
    }

    fn count(&mut self) -> Run<()> {
        self.steps += 1;
        if self.steps > self.limit || self.depth > DEEPEST {
            return Err(Stop::TooLong);
        }
        Ok(())
    }

    fn fits(&mut self, shape: &Shape, value: &Value, base: usize) -> bool {
        match (shape, value) {
            (Shape::Any, _) => true,
            (Shape::Bind(slot), value) => {
                self.stack[base + slot] = value.clone();
                true
            }
            (Shape::Number(wanted), Value::Number(number)) => wanted == number,
            (Shape::Suc(inner), Value::Number(number)) => {
                !number.is_zero() && self.fits(inner, &Value::Number(number.before()), base)
            }
            (Shape::Builtin(Builtin::Zero), Value::Number(number)) => number.is_zero(),
            (Shape::Builtin(Builtin::True), Value::Bool(holds)) => *holds,
            (Shape::Builtin(Builtin::False), Value::Bool(holds)) => !holds,
            (Shape::Builtin(Builtin::Nil | Builtin::EmptyText), Value::Nil) => true,
            (Shape::Builtin(Builtin::Unit), Value::Unit) => true,
            (Shape::Cons(head, tail), Value::Cons(cell)) => {
                self.fits(head, &cell.0, base) && self.fits(tail, &cell.1, base)
            }
            (Shape::Construct(wanted, shapes), Value::Constructed(constructor, parts)) => {
                wanted == constructor && self.all_fit(shapes, parts, base)
            }
            (Shape::Holds(wanted, shapes), Value::Holding(builtin, parts)) => {
                wanted == builtin && self.all_fit(shapes, parts, base)
            }
            _ => false,
        }
    }

    fn all_fit(&mut self, shapes: &[Shape], parts: &[Value], base: usize) -> bool {
        shapes.iter().zip(parts).all(|(shape, part)| self.fits(shape, part, base))
    }

    fn apply(&mut self, head: Value, mut args: Vec<Value>) -> Run<Value> {
        let Value::Function(function) = head else { return fault("no function is applied") };
        if args.len() < function.arity {
            let given = function.given.iter().cloned().chain(args).collect::<Vec<_>>();
            let arity = function.arity + function.given.len() - given.len();
            return Ok(Value::Function(Rc::new(Function { of: function.of.clone(), arity, given })));
        }
        let more = args.split_off(function.arity);
        let base = self.stack.len();
        let value = match &function.of {
            Callee::Lambda(lambda, captured) => {
                self.stack.extend(function.given.iter().cloned().chain(args));
                self.enter_lambda(lambda, captured, base)?
            }
            Callee::Entity(Entity::Definition(definition)) => {
                let compiled = self.definition(*definition)?;
                self.stack.extend(function.given.iter().cloned().chain(args));
                match self.given(*definition, base) {
                    Some(value) => {
                        self.stack.truncate(base);
                        value
                    }
                    None => self.enter(&compiled, base)?,
                }
            }
            Callee::Entity(Entity::Constructor(constructor)) => {
                Value::constructed(*constructor, function.given.iter().cloned().chain(args).collect())
            }
            Callee::Entity(Entity::Builtin(builtin)) => {
                self.builtin(*builtin, function.given.iter().cloned().chain(args).collect())?
            }
        };
        if more.is_empty() {
            return Ok(value);
        }
        self.apply(value, more)
    }

    // ---- what needs no definition

    fn builtin_lazy(&mut self, builtin: Builtin, args: &[Code], base: usize) -> Run<Value> {
        match (builtin, args) {
            (holding, args) if holding.holds() => Ok(Value::Holding(holding, Rc::new(self.all(args, base)?))),
            (Builtin::And, [left, right]) => match self.eval(left, base)? {
                Value::Bool(true) => self.eval(right, base),
                left => Ok(left),
            },
            (Builtin::Or, [left, right]) => match self.eval(left, base)? {
                Value::Bool(false) => self.eval(right, base),
                left => Ok(left),
            },
            (Builtin::Cond, [test, one, other]) => match self.eval(test, base)? {
                Value::Bool(true) => self.eval(one, base),
                _ => self.eval(other, base),
            },
            (_, [one]) => {
                let one = self.eval(one, base)?;
                self.builtin(builtin, vec![one])
            }
            (_, [one, two]) => {
                let one = self.eval(one, base)?;
                let two = self.eval(two, base)?;
                match (&one, &two) {
                    _ if builtin == Builtin::Same => compared(&one, &two),
                    (Value::Number(a), Value::Number(b)) => of_numbers(builtin, a, b),
                    _ => self.builtin(builtin, vec![one, two]),
                }
            }
            _ => {
                let args = self.all(args, base)?;
                self.builtin(builtin, args)
            }
        }
    }

    fn builtin(&mut self, builtin: Builtin, args: Vec<Value>) -> Run<Value> {
        use Builtin as B;
        match (builtin, &args[..]) {
            (holding, args) if holding.holds() => Ok(Value::Holding(holding, Rc::new(args.to_vec()))),
            (B::Not, [Value::Bool(holds)]) => Ok(Value::Bool(!holds)),
            (B::And, [Value::Bool(one), Value::Bool(two)]) => Ok(Value::Bool(*one && *two)),
            (B::Or, [Value::Bool(one), Value::Bool(two)]) => Ok(Value::Bool(*one || *two)),
            (B::Cond, [Value::Bool(test), one, other]) => Ok(if *test { one } else { other }.clone()),
            (B::Suc, [Value::Number(n)]) => Ok(Value::Number(n.plus(&Number::Small(1)))),
            (B::Code, [c]) => Ok(c.clone()),
            (B::Same | B::BytesEq, [one, two]) => compared(one, two),
            (_, [Value::Number(one), Value::Number(two)])
                if builtin != B::Cons && builtin != B::Replicate =>
            {
                of_numbers(builtin, one, two)
            }
            (B::Cons | B::TextCons, [head, tail]) => Ok(Value::Cons(Rc::new((head.clone(), tail.clone())))),
            (B::Append, [one, two]) => Ok(Value::list(list(one).into_iter(), two.clone())),
            (B::Reverse, [of]) => Ok(Value::list(list(of).into_iter().rev(), Value::Nil)),
            (B::Map, [f, of]) => {
                let mapped = list(of)
                    .into_iter()
                    .map(|value| self.apply(f.clone(), vec![value]))
                    .collect::<Run<Vec<_>>>()?;
                Ok(Value::list(mapped.into_iter(), Value::Nil))
            }
            (B::Length, [of]) => Ok(Value::Number(Number::Small(list(of).len() as u64))),
            (B::GetD, [of, Value::Number(at), default]) => Ok(nth(of, at).unwrap_or_else(|| default.clone())),
            (B::Set, [of, Value::Number(at), value]) => Ok(with(of, at, value)),
            (B::Sets, [of, Value::Number(at), values]) => {
                let mut left = of.clone();
                for (i, value) in list(values).iter().enumerate() {
                    left = with(&left, &at.plus(&Number::Small(i as u64)), value);
                }
                Ok(left)
            }
            (B::Take, [Value::Number(n), of]) => Ok(taken(n, of)),
            (B::Drop, [Value::Number(n), of]) => Ok(dropped(n, of)),
            (B::Paste, [into, Value::Number(at), from, Value::Number(n)]) => {
                let behind = dropped(&at.plus(n), into);
                let middle = Value::list(list(&taken(n, from)).into_iter(), behind);
                Ok(Value::list(list(&taken(at, into)).into_iter(), middle))
            }
            (B::Replicate, [Value::Number(n), value]) => match n.small().filter(|n| *n <= LONGEST) {
                Some(n) => Ok(Value::list((0..n).map(|_| value.clone()), Value::Nil)),
                None => Err(Stop::TooLong),
            },
            _ => fault(&format!("`{}` of something else", builtin.name())),
        }
    }
}

fn fault<A>(why: &str) -> Run<A> {
    Err(Stop::Fault(why.to_string()))
}

fn compared(one: &Value, two: &Value) -> Run<Value> {
    one.same(two).map(Value::Bool).ok_or_else(|| Stop::Fault("functions are compared".to_string()))
}

fn of_numbers(builtin: Builtin, one: &Number, two: &Number) -> Run<Value> {
    use Builtin as B;
    let number = match builtin {
        B::Plus => one.plus(two),
        B::Minus => one.minus(two),
        B::Times => one.times(two),
        B::Divide => one.divided(two).0,
        B::Rest => one.divided(two).1,
        B::Power => one.power(two).ok_or(Stop::TooLong)?,
        B::Min => one.min(two).clone(),
        B::Max => one.max(two).clone(),
        B::Eqb => return Ok(Value::Bool(one == two)),
        B::Leb => return Ok(Value::Bool(one <= two)),
        B::Ltb => return Ok(Value::Bool(one < two)),
        B::Replicate => match one.small().filter(|n| *n <= LONGEST) {
            Some(n) => return Ok(Value::list((0..n).map(|_| Value::Number(two.clone())), Value::Nil)),
            None => return Err(Stop::TooLong),
        },
        _ => return fault(&format!("`{}` of two numbers", builtin.name())),
    };
    Ok(Value::Number(number))
}

fn list(value: &Value) -> Vec<Value> {
    let mut values = Vec::new();
    let mut rest = value;
    while let Value::Cons(cell) = rest {
        values.push(cell.0.clone());
        rest = &cell.1;
    }
    values
}

fn nth(of: &Value, at: &Number) -> Option<Value> {
    let mut left = at.small()?;
    let mut rest = of;
    while let Value::Cons(cell) = rest {
        if left == 0 {
            return Some(cell.0.clone());
        }
        left -= 1;
        rest = &cell.1;
    }
    None
}

/// The list with another value at a place; past its end it stays as it is.
fn with(of: &Value, at: &Number, value: &Value) -> Value {
    let mut front = Vec::new();
    let mut rest = of;
    let Some(at) = at.small() else { return of.clone() };
    while let Value::Cons(cell) = rest {
        if front.len() as u64 == at {
            let changed = Value::Cons(Rc::new((value.clone(), cell.1.clone())));
            return Value::list(front.into_iter(), changed);
        }
        front.push(cell.0.clone());
        rest = &cell.1;
    }
    of.clone()
}

fn taken(n: &Number, of: &Value) -> Value {
    let mut values = list(of);
    if let Some(n) = n.small().filter(|n| (*n as usize) < values.len()) {
        values.truncate(n as usize);
    }
    Value::list(values.into_iter(), Value::Nil)
}

fn dropped(n: &Number, of: &Value) -> Value {
    let mut left = n.small().unwrap_or(u64::MAX);
    let mut rest = of;
    while let (Value::Cons(cell), true) = (rest, left > 0) {
        left -= 1;
        rest = &cell.1;
    }
    rest.clone()
}
