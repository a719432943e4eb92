//! What expressions are computed to.

use crate::code::Lambda;
use crate::number::Number;
use crate::program::{Builtin, Entity};
use std::rc::Rc;

#[derive(Clone)]
pub enum Value {
    Number(Number),
    Bool(bool),
    Unit,
    Nil,
    Cons(Rc<(Value, Value)>),
    /// A pair, a Result or an Option.
    Holding(Builtin, Rc<Vec<Value>>),
    Constructed(usize, Rc<Vec<Value>>),
    /// Its values in the order of its shape's fields.
    Record(usize, Rc<Vec<Value>>),
    Function(Rc<Function>),
    /// Any value: nothing is known of it but that it is this one.
    Any(usize),
}

pub struct Function {
    pub of: Callee,
    /// How many arguments it still takes.
    pub arity: usize,
    pub given: Vec<Value>,
}

#[derive(Clone)]
pub enum Callee {
    Entity(Entity),
    /// With what it captured.
    Lambda(Rc<Lambda>, Rc<Vec<Value>>),
}

impl Value {
    pub fn function(entity: Entity, arity: usize) -> Value {
        Value::Function(Rc::new(Function { of: Callee::Entity(entity), arity, given: Vec::new() }))
    }

    pub fn constructed(constructor: usize, parts: Vec<Value>) -> Value {
        Value::Constructed(constructor, Rc::new(parts))
    }

    /// A builtin that has no arguments.
    pub fn constant(builtin: Builtin) -> Option<Value> {
        match builtin {
            Builtin::True => Some(Value::Bool(true)),
            Builtin::False => Some(Value::Bool(false)),
            Builtin::Unit => Some(Value::Unit),
            Builtin::Zero => Some(Value::Number(Number::Small(0))),
            Builtin::Nil | Builtin::EmptyText => Some(Value::Nil),
            Builtin::None => Some(Value::Holding(builtin, Rc::default())),
            _ => None,
        }
    }

    pub fn list(values: impl DoubleEndedIterator<Item = Value>, tail: Value) -> Value {
        values.rev().fold(tail, |tail, head| Value::Cons(Rc::new((head, tail))))
    }

    /// None where a function is among what is compared.
    pub fn same(&self, other: &Value) -> Option<bool> {
        use Value::{Any, Bool, Cons, Constructed, Function, Holding, Nil, Number, Record, Unit};
        let all = |one: &[Value], two: &[Value]| {
            one.iter().zip(two).try_fold(true, |same, (one, two)| Some(same && one.same(two)?))
        };
        match (self, other) {
            (Function(_), _) | (_, Function(_)) => None,
            (Number(one), Number(two)) => Some(one == two),
            (Bool(one), Bool(two)) => Some(one == two),
            (Unit, Unit) | (Nil, Nil) => Some(true),
            (Any(one), Any(two)) => Some(one == two),
            (Cons(one), Cons(two)) => Some(one.0.same(&two.0)? && one.1.same(&two.1)?),
            (Holding(c, one), Holding(d, two)) => Some(c == d && all(one, two)?),
            (Constructed(c, one), Constructed(d, two)) | (Record(c, one), Record(d, two)) => {
                Some(c == d && all(one, two)?)
            }
            _ => Some(false),
        }
    }

    pub fn text(text: &str) -> Value {
        Value::list(text.chars().map(|c| Value::Number(Number::Small(u64::from(c)))), Value::Nil)
    }
}
