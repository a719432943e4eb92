//! The types of definitions, so that a slip is one that the prover reads and not one that it refuses for its shape.

use crate::parser;
use crate::program::{Builtin, Entity, Program};
use crate::syntax::{Clause, Expr, Form, Item, Pattern, Signature, Type};
use std::collections::HashMap;

#[derive(Clone, Debug, PartialEq)]
pub enum Ty {
    Of(Kind, Vec<Ty>),
    To(Box<Ty>, Box<Ty>),
    /// To be found.
    Open(usize),
    /// Not told.
    Any,
}

#[derive(Clone, Debug, PartialEq)]
pub enum Kind {
    Native(String),
    Declared(usize),
    /// A type variable of the definition that is looked at.
    Variable(String),
}

pub struct Checker<'a> {
    program: &'a Program,
    file: usize,
    bound: Vec<(String, Ty)>,
    found: Vec<Option<Ty>>,
    /// The type of each place, where it is kept.
    pub places: HashMap<usize, Ty>,
}

type Checked<A> = Result<A, String>;

/// Whether a clause has the type that the signature says; the types of its places.
pub fn clause(
    program: &Program,
    file: usize,
    signature: &Signature,
    clause: &Clause,
) -> Checked<HashMap<usize, Ty>> {
    let mut checker = Checker { program, file, bound: Vec::new(), found: Vec::new(), places: HashMap::new() };
    let variables = signature
        .variables
        .iter()
        .map(|name| (name.clone(), Ty::Of(Kind::Variable(name.clone()), Vec::new())));
    let mut ty = checker.read(&signature.ty, Some(file), "", &variables.collect());
    for pattern in &clause.patterns {
        let Ty::To(from, to) = ty else { return Err("too many patterns".to_string()) };
        checker.pattern(pattern, &from)?;
        ty = *to;
    }
    checker.check(&clause.body, &ty)?;
    let places = std::mem::take(&mut checker.places);
    Ok(places.into_iter().map(|(place, ty)| (place, checker.known(&ty))).collect())
}

/// A definition's type, which two definitions may share.
pub fn of_definition(program: &Program, definition: usize) -> Option<(usize, Ty)> {
    let definition = &program.definitions[definition];
    let signature = definition.signature.as_ref()?;
    let mut checker = Checker {
        program,
        file: definition.file,
        bound: Vec::new(),
        found: Vec::new(),
        places: HashMap::new(),
    };
    let named =
        |(i, name): (usize, &String)| (name.clone(), Ty::Of(Kind::Variable(i.to_string()), Vec::new()));
    let variables = signature.variables.iter().enumerate().map(named).collect();
    Some((signature.variables.len(), checker.read(&signature.ty, Some(definition.file), "", &variables)))
}

/// The definition has values, and is no proposition.
pub fn has_values(signature: &Signature) -> bool {
    fn result(ty: &Type) -> &Type {
        match ty {
            Type::Arrow(_, to) => result(to),
            ty => ty,
        }
    }
    !matches!(result(&signature.ty), Type::Other)
        && !matches!(result(&signature.ty), Type::Name(name, _) if name == "Type")
}

impl Checker<'_> {
    fn open(&mut self) -> Ty {
        self.found.push(None);
        Ty::Open(self.found.len() - 1)
    }

    fn read(&mut self, ty: &Type, file: Option<usize>, home: &str, variables: &HashMap<String, Ty>) -> Ty {
        match ty {
            Type::Other => Ty::Any,
            Type::Arrow(from, to) => {
                let from = self.read(from, file, home, variables);
                Ty::To(Box::new(from), Box::new(self.read(to, file, home, variables)))
            }
            Type::Name(name, args) => {
                if let Some(ty) = variables.get(name) {
                    return ty.clone();
                }
                let args: Vec<Ty> = args.iter().map(|arg| self.read(arg, file, home, variables)).collect();
                let short = name.rsplit('.').next().unwrap_or(name);
                let declared = match file {
                    Some(file) => self.program.files[file].types.get(name).copied(),
                    None => self.program.declared_named(home, name),
                };
                match (short, declared) {
                    (_, Some(ty)) => Ty::Of(Kind::Declared(ty), Vec::new()),
                    ("ℕ" | "Bool" | "String" | "Char", _) => {
                        Ty::Of(Kind::Native(short.to_string()), Vec::new())
                    }
                    ("Unit" | "⊤", _) => Ty::Of(Kind::Native("Unit".to_string()), Vec::new()),
                    ("List" | "Option" | "Result" | "×", _) => Ty::Of(Kind::Native(short.to_string()), args),
                    _ => Ty::Any,
                }
            }
        }
    }

    // ---- what is found

    /// The type as far as it is found.
    fn known(&self, ty: &Ty) -> Ty {
        match ty {
            Ty::Open(i) => self.found[*i].as_ref().map_or(ty.clone(), |ty| self.known(ty)),
            Ty::Of(kind, args) => Ty::Of(kind.clone(), args.iter().map(|arg| self.known(arg)).collect()),
            Ty::To(from, to) => Ty::To(Box::new(self.known(from)), Box::new(self.known(to))),
            Ty::Any => Ty::Any,
        }
    }

    fn same(&mut self, one: &Ty, two: &Ty) -> Checked<()> {
        let (one, two) = (self.known(one), self.known(two));
        match (&one, &two) {
            (Ty::Any, _) | (_, Ty::Any) => Ok(()),
            (Ty::Open(i), Ty::Open(j)) if i == j => Ok(()),
            (Ty::Open(i), ty) | (ty, Ty::Open(i)) => {
                self.found[*i] = Some(ty.clone());
                Ok(())
            }
            (Ty::To(from, to), Ty::To(from2, to2)) => {
                self.same(from, from2)?;
                self.same(to, to2)
            }
            (Ty::Of(kind, args), Ty::Of(kind2, args2)) if kind == kind2 && args.len() == args2.len() => {
                args.iter().zip(args2).try_for_each(|(arg, arg2)| self.same(arg, arg2))
            }
            _ => Err(format!("{one:?} is not {two:?}")),
        }
    }

    // ---- names

    fn entity(&mut self, entity: Entity) -> Checked<Ty> {
        match entity {
            Entity::Definition(definition) => {
                let definition = &self.program.definitions[definition];
                let signature = definition.signature.clone().ok_or("no signature")?;
                Ok(self.instance(&signature, Some(definition.file)))
            }
            Entity::Constructor(constructor) => {
                let constructor = &self.program.constructors[constructor];
                let home = self.program.types[constructor.of].home.clone();
                let result = Ty::Of(Kind::Declared(constructor.of), Vec::new());
                Ok(constructor.parts.iter().rev().fold(result, |to, part| {
                    Ty::To(Box::new(self.read(part, constructor.file, &home, &HashMap::new())), Box::new(to))
                }))
            }
            Entity::Builtin(builtin) => {
                let line = format!("pub x : {}", builtin.ty());
                match parser::item(&line, 0, line.len())? {
                    Item::Signature { signature, .. } => Ok(self.instance(&signature, None)),
                    _ => Err("no signature".to_string()),
                }
            }
        }
    }

    fn instance(&mut self, signature: &Signature, file: Option<usize>) -> Ty {
        let variables = signature.variables.iter().map(|name| (name.clone(), self.open())).collect();
        self.read(&signature.ty, file, "", &variables)
    }

    fn name(&mut self, name: &str) -> Checked<Ty> {
        if let Some((_, ty)) = self.bound.iter().rev().find(|(bound, _)| bound == name) {
            return Ok(ty.clone());
        }
        if let Some(entity) = self.program.named(self.file, name) {
            return self.entity(entity);
        }
        let (front, field) = name.rsplit_once('.').ok_or_else(|| format!("`{name}` is not known"))?;
        let of = self.name(front)?;
        self.field(&of, field)
    }

    fn field(&mut self, of: &Ty, field: &str) -> Checked<Ty> {
        match self.known(of) {
            Ty::Of(Kind::Declared(ty), _) => {
                let ty = &self.program.types[ty];
                let of = ty.fields.iter().find(|(name, _)| name == field);
                let (_, of) = of.ok_or_else(|| format!("`{}` has no field `{field}`", ty.name))?;
                Ok(self.read(of, ty.file, &ty.home, &HashMap::new()))
            }
            Ty::Of(Kind::Native(pair), sides) if pair == "×" => {
                let side = field.parse().ok().and_then(|at: usize| sides.get(at));
                side.cloned().ok_or_else(|| format!("a pair has no field `{field}`"))
            }
            Ty::Any | Ty::Open(_) => Ok(Ty::Any),
            _ => Err(format!("no record has a field `{field}`")),
        }
    }

    fn pattern(&mut self, pattern: &Pattern, ty: &Ty) -> Checked<()> {
        let (name, parts): (&str, &[Pattern]) = match pattern {
            Pattern::Number(_) => return Ok(()),
            Pattern::Name(name) => (name, &[]),
            Pattern::Apply(name, parts) => (name, parts),
        };
        let known = self.program.named(self.file, name);
        let known = known.filter(|entity| !matches!(entity, Entity::Definition(_)));
        let entity = match known {
            Some(Entity::Builtin(builtin)) if parts.is_empty() && builtin.arity() > 0 => None,
            known => known,
        };
        let Some(entity) = entity else {
            self.bound.push((name.to_string(), ty.clone()));
            return Ok(());
        };
        let mut of = self.entity(entity)?;
        let mut inner = Vec::new();
        for _ in parts {
            let Ty::To(from, to) = of else { return Err(format!("`{name}` holds less")) };
            inner.push(*from);
            of = *to;
        }
        self.same(&of, ty)?;
        parts.iter().zip(&inner).try_for_each(|(part, ty)| self.pattern(part, ty))
    }

    // ---- expressions

    fn infer(&mut self, expr: &Expr) -> Checked<Ty> {
        let ty = self.open();
        self.check(expr, &ty)?;
        Ok(self.known(&ty))
    }

    fn check(&mut self, expr: &Expr, expected: &Ty) -> Checked<()> {
        if expr.place > 0 {
            self.places.insert(expr.place, expected.clone());
        }
        match &expr.form {
            Form::Name(name) => {
                let ty = self.name(name)?;
                self.same(&ty, expected)
            }
            Form::Number(_) => self.same(&Ty::Of(Kind::Native("ℕ".to_string()), Vec::new()), expected),
            Form::Text(_) => self.same(&Ty::Of(Kind::Native("String".to_string()), Vec::new()), expected),
            Form::Apply { head, args, .. } => self.apply(head, args, expected),
            Form::Project { of, field } => {
                let of = self.infer(of)?;
                let ty = self.field(&of, field)?;
                self.same(&ty, expected)
            }
            Form::Lambda { params, body } => {
                let depth = self.bound.len();
                let mut ty = self.known(expected);
                for param in params {
                    let (from, to) = match ty {
                        Ty::To(from, to) => (*from, *to),
                        Ty::Any => (Ty::Any, Ty::Any),
                        ty => {
                            let (from, to) = (self.open(), self.open());
                            self.same(&ty, &Ty::To(Box::new(from.clone()), Box::new(to.clone())))?;
                            (from, to)
                        }
                    };
                    self.bound.push((param.clone(), from));
                    ty = self.known(&to);
                }
                let checked = self.check(body, &ty);
                self.bound.truncate(depth);
                checked
            }
            Form::Let { name, ty, value, body } => {
                let of = match ty {
                    Some(ty) => self.read(ty, Some(self.file), "", &HashMap::new()),
                    None => self.open(),
                };
                self.check(value, &of)?;
                self.bound.push((name.clone(), of));
                let checked = self.check(body, expected);
                self.bound.pop();
                checked
            }
            Form::Record(fields) => self.record(fields, expected),
        }
    }

    fn apply(&mut self, head: &Expr, args: &[Expr], expected: &Ty) -> Checked<()> {
        let mut ty = self.infer(head)?;
        let mut wanted = Vec::new();
        for _ in args {
            let (from, to) = match self.known(&ty) {
                Ty::To(from, to) => (*from, *to),
                Ty::Any => (Ty::Any, Ty::Any),
                ty => {
                    let (from, to) = (self.open(), self.open());
                    self.same(&ty, &Ty::To(Box::new(from.clone()), Box::new(to.clone())))?;
                    (from, to)
                }
            };
            wanted.push(from);
            ty = to;
        }
        self.same(&ty, expected)?;
        // Functions and literals last: the others tell what they are of.
        let late = |expr: &Expr| matches!(expr.form, Form::Lambda { .. } | Form::Record(_));
        for (arg, ty) in args.iter().zip(&wanted).filter(|(arg, _)| !late(arg)) {
            self.check(arg, ty)?;
        }
        for (arg, ty) in args.iter().zip(&wanted).filter(|(arg, _)| late(arg)) {
            self.check(arg, ty)?;
        }
        Ok(())
    }

    fn record(&mut self, fields: &[(String, Expr)], expected: &Ty) -> Checked<()> {
        let Ty::Of(Kind::Declared(ty), _) = self.known(expected) else {
            for (_, value) in fields {
                self.infer(value)?;
            }
            return Ok(());
        };
        let program = self.program;
        let of = &program.types[ty];
        if of.fields.len() != fields.len() {
            return Err(format!("`{}` has other fields", of.name));
        }
        for (field, value) in fields {
            let ty = self.field(expected, field)?;
            self.check(value, &ty)?;
        }
        Ok(())
    }
}

/// The fields of a place's record that have the same type as the named one.
pub fn fields_like(program: &Program, of: &Ty, field: &str) -> Vec<String> {
    let Ty::Of(Kind::Declared(ty), _) = of else { return Vec::new() };
    let fields = &program.types[*ty].fields;
    let Some((_, like)) = fields.iter().find(|(name, _)| name == field) else { return Vec::new() };
    let others = fields.iter().filter(|(name, ty)| name != field && ty == like);
    others.map(|(name, _)| name.clone()).collect()
}

pub fn is_bool(ty: &Ty) -> bool {
    matches!(ty, Ty::Of(Kind::Native(name), _) if name == "Bool")
}

/// An operator or a builtin of two arguments that may be exchanged.
pub fn commutes(builtin: Builtin) -> bool {
    use Builtin::{And, Eqb, Max, Min, Or, Plus, Times};
    matches!(builtin, And | Or | Plus | Times | Eqb | Min | Max)
}
