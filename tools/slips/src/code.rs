//! Definitions made ready to run: names turned to places in a frame.

use crate::number::Number;
use crate::program::{Builtin, Entity, Program};
use crate::syntax::{Clause, Expr, Form, Pattern};
use crate::value::Value;
use std::rc::Rc;

pub struct Code {
    pub place: usize,
    pub step: Step,
}

pub enum Step {
    Known(Value),
    Local(usize),
    /// A definition without arguments: computed once a run.
    Constant(usize),
    Call(usize, Vec<Code>),
    Builtin(Builtin, Vec<Code>),
    Construct(usize, Vec<Code>),
    Apply(Box<Code>, Vec<Code>),
    Project(Box<Code>, usize),
    Record(usize, Vec<Code>),
    Lambda(Rc<Lambda>),
    Let(usize, Box<Code>, Box<Code>),
}

pub struct Lambda {
    pub arity: usize,
    pub slots: usize,
    /// The places of the frame around it, and where they go.
    pub captures: Vec<(usize, usize)>,
    pub body: Code,
}

pub struct Compiled {
    pub clauses: Vec<Arm>,
}

pub struct Arm {
    pub patterns: Vec<Shape>,
    pub slots: usize,
    pub body: Code,
}

pub enum Shape {
    Any,
    Bind(usize),
    Number(Number),
    Suc(Box<Shape>),
    Builtin(Builtin),
    Cons(Box<Shape>, Box<Shape>),
    Holds(Builtin, Vec<Shape>),
    Construct(usize, Vec<Shape>),
}

/// The names of fields and of lists of fields, each by a number.
#[derive(Default)]
pub struct Names {
    fields: Vec<String>,
    pub shapes: Vec<Vec<usize>>,
}

impl Names {
    pub fn field(&mut self, name: &str) -> usize {
        let known = self.fields.iter().position(|field| field == name);
        known.unwrap_or_else(|| {
            self.fields.push(name.to_string());
            self.fields.len() - 1
        })
    }

    fn shape(&mut self, fields: Vec<usize>) -> usize {
        let known = self.shapes.iter().position(|shape| *shape == fields);
        known.unwrap_or_else(|| {
            self.shapes.push(fields);
            self.shapes.len() - 1
        })
    }

    pub fn field_name(&self, field: usize) -> &str {
        &self.fields[field]
    }
}

/// A function's frame while it is made ready.
struct Frame {
    bound: Vec<(String, usize)>,
    slots: usize,
    captures: Vec<(usize, usize)>,
}

struct Maker<'a> {
    program: &'a Program,
    names: &'a mut Names,
    file: usize,
    frames: Vec<Frame>,
}

pub fn definition(
    program: &Program,
    names: &mut Names,
    file: usize,
    clauses: &[Clause],
) -> Result<Compiled, String> {
    let arity = clauses.first().ok_or("it has no clause that is read")?.patterns.len();
    let arms = clauses.iter().map(|clause| {
        if clause.patterns.len() != arity {
            return Err("its clauses differ in length".to_string());
        }
        Maker { program, names, file, frames: Vec::new() }.arm(clause)
    });
    Ok(Compiled { clauses: arms.collect::<Result<_, _>>()? })
}

/// An expression over some values, which stand first in its frame, and how many places it needs.
pub fn over(
    program: &Program,
    names: &mut Names,
    file: usize,
    values: &[String],
    expr: &Expr,
) -> Result<(Code, usize), String> {
    let bound = values.iter().enumerate().map(|(i, name)| (name.clone(), i)).collect();
    let mut maker = Maker {
        program,
        names,
        file,
        frames: vec![Frame { bound, slots: values.len(), captures: Vec::new() }],
    };
    let code = maker.code(expr)?;
    Ok((code, maker.frames[0].slots))
}

impl Maker<'_> {
    fn arm(&mut self, clause: &Clause) -> Result<Arm, String> {
        let arity = clause.patterns.len();
        self.frames.push(Frame { bound: Vec::new(), slots: arity, captures: Vec::new() });
        let patterns = clause.patterns.iter().enumerate().map(|(i, pattern)| match pattern {
            Pattern::Name(name) if self.program.named(self.file, name).filter(is_constructor).is_none() => {
                self.frames[0].bound.push((name.clone(), i));
                Ok(Shape::Any)
            }
            pattern => self.shape(pattern),
        });
        let patterns = patterns.collect::<Result<_, _>>()?;
        let body = self.code(&clause.body)?;
        Ok(Arm { patterns, slots: self.frames[0].slots, body })
    }

    fn shape(&mut self, pattern: &Pattern) -> Result<Shape, String> {
        let (name, parts): (&str, &[Pattern]) = match pattern {
            Pattern::Number(number) => return Ok(Shape::Number(number.clone())),
            Pattern::Name(name) => (name, &[]),
            Pattern::Apply(name, parts) => (name, parts),
        };
        let entity = self.program.named(self.file, name).filter(is_constructor);
        match (entity, parts) {
            (None, []) => Ok(Shape::Bind(self.bind(name))),
            (None, _) => Err(format!("`{name}` in a pattern")),
            (Some(Entity::Builtin(Builtin::Suc)), [part]) => Ok(Shape::Suc(Box::new(self.shape(part)?))),
            (Some(Entity::Builtin(Builtin::Cons | Builtin::TextCons)), [head, tail]) => {
                Ok(Shape::Cons(Box::new(self.shape(head)?), Box::new(self.shape(tail)?)))
            }
            (Some(Entity::Builtin(builtin)), parts) if builtin.holds() && parts.len() == builtin.arity() => {
                Ok(Shape::Holds(builtin, self.shapes(parts)?))
            }
            (Some(Entity::Builtin(builtin)), []) => Ok(Shape::Builtin(builtin)),
            (Some(Entity::Constructor(constructor)), parts) => {
                Ok(Shape::Construct(constructor, self.shapes(parts)?))
            }
            _ => Err(format!("`{name}` in a pattern")),
        }
    }

    fn shapes(&mut self, parts: &[Pattern]) -> Result<Vec<Shape>, String> {
        parts.iter().map(|part| self.shape(part)).collect()
    }

    fn bind(&mut self, name: &str) -> usize {
        let frame = self.frames.last_mut().expect("a frame is open");
        frame.bound.push((name.to_string(), frame.slots));
        frame.slots += 1;
        frame.slots - 1
    }

    /// Where a bound name stands in the frame of that depth; it is handed into every frame on the way.
    fn local(&mut self, name: &str, depth: usize) -> Option<usize> {
        let bound = self.frames[depth].bound.iter().rev().find(|(bound, _)| bound == name);
        if let Some((_, slot)) = bound {
            return Some(*slot);
        }
        let around = self.local(name, depth.checked_sub(1)?)?;
        let frame = &mut self.frames[depth];
        let slot = frame.slots;
        frame.slots += 1;
        frame.captures.push((around, slot));
        // In front of all, so that what is bound in between stays nearer.
        frame.bound.insert(0, (name.to_string(), slot));
        Some(slot)
    }

    fn codes<'e>(&mut self, exprs: impl IntoIterator<Item = &'e Expr>) -> Result<Vec<Code>, String> {
        exprs.into_iter().map(|expr| self.code(expr)).collect()
    }

    fn code(&mut self, expr: &Expr) -> Result<Code, String> {
        let step = match &expr.form {
            Form::Name(name) => self.name(name, Vec::new(), expr)?,
            Form::Number(number) => Step::Known(Value::Number(number.clone())),
            Form::Text(text) => Step::Known(Value::text(text)),
            Form::Apply { head, args, .. } => {
                let args = self.codes(args)?;
                match &head.form {
                    Form::Name(name) => self.name(name, args, head)?,
                    _ => Step::Apply(Box::new(self.code(head)?), args),
                }
            }
            Form::Project { of, field } => Step::Project(Box::new(self.code(of)?), self.names.field(field)),
            Form::Lambda { params, body } => self.lambda(params, body)?,
            Form::Let { name, value, body, .. } => {
                let value = self.code(value)?;
                let slot = self.bind(name);
                let body = self.code(body)?;
                self.frames.last_mut().expect("a frame is open").bound.retain(|(_, bound)| *bound != slot);
                Step::Let(slot, Box::new(value), Box::new(body))
            }
            Form::Record(fields) => {
                let mut fields: Vec<_> =
                    fields.iter().map(|(name, value)| (self.names.field(name), value)).collect();
                fields.sort_by_key(|(field, _)| *field);
                let shape = self.names.shape(fields.iter().map(|(field, _)| *field).collect());
                Step::Record(shape, self.codes(fields.iter().map(|(_, value)| *value))?)
            }
        };
        Ok(Code { place: expr.place, step })
    }

    fn lambda(&mut self, params: &[String], body: &Expr) -> Result<Step, String> {
        let bound = params.iter().enumerate().map(|(i, name)| (name.clone(), i)).collect();
        self.frames.push(Frame { bound, slots: params.len(), captures: Vec::new() });
        let body = self.code(body);
        let frame = self.frames.pop().expect("the frame was opened");
        let (slots, captures) = (frame.slots, frame.captures);
        Ok(Step::Lambda(Rc::new(Lambda { arity: params.len(), slots, captures, body: body? })))
    }

    /// A name with its arguments.
    fn name(&mut self, name: &str, args: Vec<Code>, expr: &Expr) -> Result<Step, String> {
        if let Some(slot) = self.local(name, self.frames.len() - 1) {
            return Ok(applied(Step::Local(slot), args, expr.place));
        }
        if let Some(entity) = self.program.named(self.file, name) {
            return self.entity(entity, args, expr.place);
        }
        // `r.field` written tight.
        let (front, field) = name.rsplit_once('.').ok_or_else(|| format!("`{name}` is not known"))?;
        let of = Code { place: expr.place, step: self.name(front, Vec::new(), expr)? };
        Ok(applied(Step::Project(Box::new(of), self.names.field(field)), args, expr.place))
    }

    fn entity(&mut self, entity: Entity, mut args: Vec<Code>, place: usize) -> Result<Step, String> {
        let arity = match entity {
            Entity::Definition(definition) => {
                let definition = &self.program.definitions[definition];
                let clause = definition.clauses.first();
                clause
                    .ok_or_else(|| format!("`{}` has no clause that is read", definition.name))?
                    .patterns
                    .len()
            }
            Entity::Constructor(constructor) => self.program.constructors[constructor].parts.len(),
            Entity::Builtin(builtin) => builtin.arity(),
        };
        if args.len() < arity {
            return Ok(applied(Step::Known(Value::function(entity, arity)), args, place));
        }
        let more = args.split_off(arity);
        let whole = match entity {
            Entity::Definition(definition) if arity == 0 => Step::Constant(definition),
            Entity::Definition(definition) => Step::Call(definition, args),
            Entity::Constructor(constructor) if arity == 0 => {
                Step::Known(Value::constructed(constructor, Vec::new()))
            }
            Entity::Constructor(constructor) => Step::Construct(constructor, args),
            Entity::Builtin(builtin) => {
                Value::constant(builtin).map_or(Step::Builtin(builtin, args), Step::Known)
            }
        };
        Ok(applied(whole, more, place))
    }
}

fn applied(head: Step, args: Vec<Code>, place: usize) -> Step {
    if args.is_empty() {
        return head;
    }
    Step::Apply(Box::new(Code { place, step: head }), args)
}

/// What a pattern can name.
pub fn is_constructor(entity: &Entity) -> bool {
    match entity {
        Entity::Constructor(_) => true,
        Entity::Definition(_) => false,
        Entity::Builtin(builtin) => {
            use Builtin::{Cons, EmptyText, False, Nil, Suc, TextCons, True, Unit, Zero};
            builtin.holds()
                || matches!(builtin, True | False | Unit | Zero | Suc | Nil | Cons | EmptyText | TextCons)
        }
    }
}
