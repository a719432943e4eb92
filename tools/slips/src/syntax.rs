//! What the parser makes of a file.

use crate::number::Number;
use std::ops::Range;

#[derive(Clone, Debug)]
pub struct Expr {
    pub form: Form,
    /// Where it stands in the file's text, parentheses around it left out.
    pub span: Range<usize>,
    /// With them.
    pub outer: Range<usize>,
    /// Its number among the places of all definitions; 0 in a slip's clause.
    pub place: usize,
}

#[derive(Clone, Debug)]
pub enum Form {
    Name(String),
    Number(Number),
    Text(String),
    /// A function and its arguments; an operator between its two is one too.
    Apply {
        head: Box<Expr>,
        args: Vec<Expr>,
        infix: bool,
    },
    Project {
        of: Box<Expr>,
        field: String,
    },
    Lambda {
        params: Vec<String>,
        body: Box<Expr>,
    },
    Let {
        name: String,
        ty: Option<Type>,
        value: Box<Expr>,
        body: Box<Expr>,
    },
    Record(Vec<(String, Expr)>),
}

#[derive(Clone, Debug, PartialEq)]
pub enum Type {
    Name(String, Vec<Type>),
    Arrow(Box<Type>, Box<Type>),
    /// What no value has, or what is not read.
    Other,
}

#[derive(Clone, Debug)]
pub enum Pattern {
    Name(String),
    Apply(String, Vec<Pattern>),
    Number(Number),
}

#[derive(Clone, Debug)]
pub struct Clause {
    pub patterns: Vec<Pattern>,
    pub body: Expr,
    /// The whole clause in the file's text.
    pub span: Range<usize>,
}

/// A definition's signature: the names of its type variables, and its type.
#[derive(Clone, Debug)]
pub struct Signature {
    pub variables: Vec<String>,
    pub ty: Type,
}

#[derive(Clone, Debug)]
pub struct Import {
    /// The module's path, a `declared` type's or its variants' among them.
    pub path: String,
    pub alias: Option<String>,
    /// Each with the name that it has here.
    pub names: Vec<(String, String)>,
    pub again: bool,
}

/// `name : T (..)` or `name : one ≡ other`, a test that is to hold; of any values that are named in front of it and of which a definition
/// has the value that is said.
#[derive(Clone, Debug)]
pub struct Case {
    pub values: Vec<(String, Type)>,
    pub given: Vec<Expr>,
    pub test: Expr,
}

#[derive(Clone, Debug)]
pub enum Item {
    Import(Import),
    Record { name: String, fields: Vec<(String, Type)> },
    Data { name: String, constructors: Vec<(String, Type)> },
    Signature { name: String, signature: Signature },
    Case { name: String, case: Case },
    Clause { name: String, clause: Clause },
    Unfolding,
    Nothing,
}
