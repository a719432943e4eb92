//! The part of antt that definitions and computed cases are written in.

use crate::lexer::{tokens, Kind, Token};
use crate::number::Number;
use crate::syntax::{Case, Clause, Expr, Form, Import, Item, Pattern, Signature, Type};

/// An operator's strength, and whether it groups to the right.
pub fn fixity(operator: &str) -> Option<(u32, bool)> {
    Some(match operator {
        "≡" => (4, false),
        "||" => (30, false),
        "&&" => (35, false),
        "≤" | "<" => (50, false),
        "+" | "-" | "++" => (65, false),
        "∷" => (67, true),
        "*" | "/" | "%" => (70, false),
        "^" => (75, true),
        _ => return None,
    })
}

type Parsed<A> = Result<A, String>;

struct Parser<'a> {
    tokens: &'a [Token],
    at: usize,
}

/// One item of a file.
pub fn item(text: &str, from: usize, to: usize) -> Parsed<Item> {
    let tokens = tokens(text, from, to)?;
    let mut parser = Parser { tokens: &tokens, at: 0 };
    parser.item()
}

/// A clause, which is a part of some text.
pub fn clause(text: &str, from: usize, to: usize) -> Parsed<Clause> {
    match item(text, from, to)? {
        Item::Clause { clause, .. } => Ok(clause),
        _ => Err("no clause".to_string()),
    }
}

impl<'a> Parser<'a> {
    fn peek(&self) -> Option<&'a Token> {
        self.tokens.get(self.at)
    }

    fn sees(&self, text: &str) -> bool {
        self.peek().is_some_and(|token| token.is(text))
    }

    fn next(&mut self) -> Parsed<&'a Token> {
        let token = self.peek().ok_or("it ends early")?;
        self.at += 1;
        Ok(token)
    }

    fn takes(&mut self, text: &str) -> bool {
        let sees = self.sees(text);
        self.at += usize::from(sees);
        sees
    }

    fn expect(&mut self, text: &str) -> Parsed<()> {
        if self.takes(text) {
            return Ok(());
        }
        let found = self.peek().map_or("the end", |token| &token.text);
        Err(format!("`{text}` is due where {found} stands"))
    }

    fn name(&mut self) -> Parsed<String> {
        let token = self.next()?;
        match token.kind {
            Kind::Name | Kind::Number => Ok(token.text.clone()),
            _ => Err(format!("a name is due where {} stands", token.text)),
        }
    }

    fn ended(&self) -> Parsed<()> {
        self.peek().map_or(Ok(()), |token| Err(format!("{} is not read", token.text)))
    }

    // ---- items

    fn item(&mut self) -> Parsed<Item> {
        let mut marked = false;
        while ["pub", "unfoldable", "abbrev"].iter().any(|mark| self.sees(mark)) {
            marked = true;
            self.at += 1;
        }
        let again = self.at == 1 && self.tokens[0].is("pub");
        match self.peek().map(|token| token.text.as_str()) {
            Some("mod" | "infix" | "infixl" | "infixr") => Ok(Item::Nothing),
            Some("unfolding") => Ok(Item::Unfolding),
            Some("module" | "mutual" | "open" | "axiom" | "ruleset") => {
                Err("a block is not read".to_string())
            }
            Some("use") => self.import(again),
            Some("record") => self.record(),
            Some("data") => self.data(),
            _ if marked || self.tokens.get(1).is_some_and(|token| token.is(":")) => self.signature(),
            _ => self.clause(),
        }
    }

    fn import(&mut self, again: bool) -> Parsed<Item> {
        self.at += 1;
        let mut path = self.name()?;
        let mut names = Vec::new();
        let mut alias = None;
        if self.takes(".") {
            self.expect("{")?;
            while !self.takes("}") {
                let name = self.name()?;
                let here = if self.takes("as") { self.name()? } else { name.clone() };
                names.push((name, here));
                self.takes(",");
            }
        } else if self.takes("as") {
            alias = Some(self.name()?);
        } else if let Some((front, name)) = path.clone().rsplit_once('.') {
            alias = Some(name.to_string());
            path = format!("{front}.{name}");
        }
        self.ended()?;
        Ok(Item::Import(Import { path, alias, names, again }))
    }

    /// A record without parameters; one with them says something of values, and no value is of it.
    fn record(&mut self) -> Parsed<Item> {
        self.at += 1;
        let name = self.name()?;
        if !self.sees(":") {
            return Ok(Item::Nothing);
        }
        self.past("where")?;
        let mut fields = Vec::new();
        while self.peek().is_some() {
            self.takes("pub");
            let field = self.name()?;
            self.expect(":")?;
            fields.push((field, self.ty_upto_next()?));
        }
        Ok(Item::Record { name, fields })
    }

    fn data(&mut self) -> Parsed<Item> {
        self.at += 1;
        let name = self.name()?;
        if !self.sees(":") {
            return Ok(Item::Nothing);
        }
        self.past("where")?;
        let mut constructors = Vec::new();
        while self.peek().is_some() {
            let mut names = vec![self.name()?];
            while !self.sees(":") {
                names.push(self.name()?);
            }
            self.expect(":")?;
            let ty = self.ty_upto_next()?;
            constructors.extend(names.into_iter().map(|name| (name, ty.clone())));
        }
        Ok(Item::Data { name, constructors })
    }

    fn past(&mut self, word: &str) -> Parsed<()> {
        while !self.next()?.is(word) {}
        Ok(())
    }

    /// The type of a field or a constructor: the next one's name, or `pub`, stands in front of a colon outside parentheses.
    fn ty_upto_next(&mut self) -> Parsed<Type> {
        let mut depth = 0;
        let mut end = self.tokens.len();
        for i in self.at..self.tokens.len() {
            match self.tokens[i].kind {
                Kind::Mark('(' | '{') => depth += 1,
                Kind::Mark(')' | '}') => depth -= 1,
                _ => {}
            }
            let next = depth == 0 && self.tokens[i].is(":");
            if next {
                end = i - 1 - usize::from(i > 1 && self.tokens[i - 2].is("pub"));
                break;
            }
        }
        let mut part = Parser { tokens: &self.tokens[self.at..end], at: 0 };
        let ty = part.signature_type(&mut Vec::new());
        self.at = end;
        Ok(ty.unwrap_or(Type::Other))
    }

    fn signature(&mut self) -> Parsed<Item> {
        let name = self.name()?;
        self.expect(":")?;
        if let Some(case) = self.case() {
            return Ok(Item::Case { name, case });
        }
        let mut variables = Vec::new();
        let ty = self.signature_type(&mut variables).unwrap_or(Type::Other);
        let ty = if self.ended().is_ok() { ty } else { Type::Other };
        Ok(Item::Signature { name, signature: Signature { variables, ty } })
    }

    fn case(&self) -> Option<Case> {
        let mut part = Parser { tokens: self.tokens, at: self.at };
        let (mut values, mut given) = (Vec::new(), Vec::new());
        while let Some((names, ty)) = part.binder().ok()? {
            values.extend(names.into_iter().map(|name| (name, ty.clone())));
            part.takes("→");
        }
        loop {
            let is_test = part.takes("T");
            let test = if is_test { part.atom() } else { part.expr(0) }.ok()?;
            if !is_test && !is_equation(&test) {
                return None;
            }
            if part.ended().is_ok() {
                return Some(Case { values, given, test });
            }
            given.push(test);
            part.expect("→").ok()?;
        }
    }

    fn clause(&mut self) -> Parsed<Item> {
        let start = self.tokens.first().ok_or("nothing stands there")?.start;
        let name = self.name()?;
        let mut patterns = Vec::new();
        while !self.takes("=") {
            patterns.push(self.pattern_atom()?);
        }
        let body = self.expr(0)?;
        self.ended()?;
        let end = self.tokens.last().map_or(start, |token| token.end);
        Ok(Item::Clause { name, clause: Clause { patterns, body, span: start..end } })
    }

    // ---- types

    fn signature_type(&mut self, variables: &mut Vec<String>) -> Parsed<Type> {
        if self.sees("{") {
            self.at += 1;
            let mut names = Vec::new();
            while !self.takes(":") {
                names.push(self.name()?);
            }
            self.expect("Type")?;
            self.next()?;
            self.expect("}")?;
            variables.extend(names);
            self.takes("→");
            return self.signature_type(variables);
        }
        if let Some((names, from)) = self.binder()? {
            self.takes("→");
            let to = self.signature_type(variables)?;
            return Ok(names.iter().fold(to, |to, _| Type::Arrow(Box::new(from.clone()), Box::new(to))));
        }
        let from = self.ty_product()?;
        if self.takes("→") {
            let to = self.signature_type(variables)?;
            return Ok(Type::Arrow(Box::new(from), Box::new(to)));
        }
        Ok(from)
    }

    /// `(x y : A)`.
    fn binder(&mut self) -> Parsed<Option<(Vec<String>, Type)>> {
        let mut end = self.at + 1;
        while self.tokens.get(end).is_some_and(|token| token.kind == Kind::Name && !token.is(":")) {
            end += 1;
        }
        if !self.sees("(") || end == self.at + 1 || !self.tokens.get(end).is_some_and(|token| token.is(":")) {
            return Ok(None);
        }
        let names = self.tokens[self.at + 1..end].iter().map(|token| token.text.clone()).collect();
        self.at = end + 1;
        let ty = self.signature_type(&mut Vec::new())?;
        self.expect(")")?;
        Ok(Some((names, ty)))
    }

    /// Types of pairs, which group to the right.
    fn ty_product(&mut self) -> Parsed<Type> {
        let one = self.ty_apply()?;
        if self.takes("×") {
            return Ok(Type::Name("×".to_string(), vec![one, self.ty_product()?]));
        }
        Ok(one)
    }

    fn ty_apply(&mut self) -> Parsed<Type> {
        if self.takes("(") {
            let ty = self.signature_type(&mut Vec::new())?;
            self.expect(")")?;
            return Ok(ty);
        }
        let head = self.name()?;
        let mut args = Vec::new();
        while let Some(token) = self.peek() {
            match token.kind {
                Kind::Mark('(') => args.push(self.ty_apply()?),
                Kind::Mark('{') => self.past("}")?,
                Kind::Name if token.text == "→" || fixity(&token.text).is_some() || token.text == "×" => {
                    break
                }
                Kind::Name | Kind::Number if token.text != "=" => {
                    args.push(Type::Name(self.name()?, Vec::new()))
                }
                _ => break,
            }
        }
        match self.peek() {
            Some(token) if token.kind == Kind::Name && !["→", "×", "="].contains(&&token.text[..]) => {
                Err("no type of values".to_string())
            }
            _ => Ok(Type::Name(head, args)),
        }
    }

    // ---- patterns

    fn pattern_atom(&mut self) -> Parsed<Pattern> {
        if self.takes("(") {
            let pattern = self.pattern_pair()?;
            self.expect(")")?;
            return Ok(pattern);
        }
        let token = self.next()?;
        match token.kind {
            Kind::Name => Ok(Pattern::Name(token.text.clone())),
            Kind::Number => Ok(Pattern::Number(Number::parse(&token.text).ok_or("no number")?)),
            _ => Err(format!("{} in a pattern", token.text)),
        }
    }

    /// What stands in parentheses: a pair's sides, or one pattern.
    fn pattern_pair(&mut self) -> Parsed<Pattern> {
        let one = self.pattern()?;
        if self.takes(",") {
            return Ok(Pattern::Apply(",".to_string(), vec![one, self.pattern_pair()?]));
        }
        Ok(one)
    }

    fn pattern(&mut self) -> Parsed<Pattern> {
        let Pattern::Name(head) = self.pattern_atom()? else {
            return Err("a pattern in front of others".to_string());
        };
        if self.takes("∷") {
            let tail = self.pattern()?;
            return Ok(Pattern::Apply("∷".to_string(), vec![Pattern::Name(head), tail]));
        }
        let mut parts = Vec::new();
        while !self.sees(")") && !self.sees(",") {
            if self.takes("∷") {
                let tail = self.pattern()?;
                return Ok(Pattern::Apply("∷".to_string(), vec![Pattern::Apply(head, parts), tail]));
            }
            parts.push(self.pattern_atom()?);
        }
        let alone = parts.is_empty();
        Ok(if alone { Pattern::Name(head) } else { Pattern::Apply(head, parts) })
    }

    // ---- expressions

    fn expr(&mut self, least: u32) -> Parsed<Expr> {
        let start = self.peek().ok_or("it ends early")?.start;
        let mut left = self.apply()?;
        while let Some(token) = self.peek() {
            let (strength, right) = match fixity(&token.text) {
                Some(fixity) if token.kind == Kind::Name && fixity.0 >= least => fixity,
                _ => break,
            };
            self.at += 1;
            let operand = self.expr(if right { strength } else { strength + 1 })?;
            let end = self.tokens[self.at - 1].end;
            let head = made(Form::Name(token.text.clone()), token.start, token.end);
            let form = Form::Apply { head: Box::new(head), args: vec![left, operand], infix: true };
            left = made(form, start, end);
        }
        Ok(left)
    }

    fn apply(&mut self) -> Parsed<Expr> {
        let start = self.peek().ok_or("it ends early")?.start;
        let expr = self.atom()?;
        let mut args: Vec<Expr> = Vec::new();
        loop {
            let Some(token) = self.peek() else { break };
            match token.kind {
                Kind::Mark('{') => self.past("}")?,
                Kind::Mark('(') | Kind::Number | Kind::Text => args.push(self.atom()?),
                Kind::Name
                    if fixity(&token.text).is_none() && !["in", "=", ":", "→"].contains(&&token.text[..]) =>
                {
                    args.push(self.atom()?)
                }
                _ => break,
            }
        }
        Ok(applied(expr, &mut args, start, self.tokens[self.at - 1].end))
    }

    /// A name, a number, a text or what stands in parentheses, with the fields right behind it.
    fn atom(&mut self) -> Parsed<Expr> {
        let mut expr = self.alone()?;
        while let Some(token) = self.peek().filter(|token| token.kind == Kind::Field) {
            self.at += 1;
            let start = expr.outer.start;
            let form = Form::Project { of: Box::new(expr), field: token.text[1..].to_string() };
            expr = made(form, start, token.end);
        }
        Ok(expr)
    }

    fn alone(&mut self) -> Parsed<Expr> {
        let token = self.next()?;
        let form = match token.kind {
            Kind::Mark('(') => {
                let mut expr = self.pair()?;
                self.expect(")")?;
                expr.outer = token.start..self.tokens[self.at - 1].end;
                return Ok(expr);
            }
            Kind::Number => Form::Number(Number::parse(&token.text).ok_or("no number")?),
            Kind::Text => Form::Text(unescaped(&token.text)?),
            Kind::Name => match token.text.as_str() {
                "λ" => self.lambda()?,
                "let" => self.binding()?,
                "record" => self.literal()?,
                "elim" | "do" | "where" => return Err(format!("`{}` is not read", token.text)),
                _ => Form::Name(token.text.clone()),
            },
            _ => return Err(format!("{} is not read", token.text)),
        };
        Ok(made(form, token.start, self.tokens[self.at - 1].end))
    }

    /// The sides of a pair, which groups to the right, or one expression.
    fn pair(&mut self) -> Parsed<Expr> {
        let one = self.expr(0)?;
        let Some(comma) = self.peek().filter(|token| token.is(",")) else { return Ok(one) };
        self.at += 1;
        let two = self.pair()?;
        let (start, end) = (one.outer.start, two.outer.end);
        let head = made(Form::Name(comma.text.clone()), comma.start, comma.end);
        Ok(made(Form::Apply { head: Box::new(head), args: vec![one, two], infix: true }, start, end))
    }

    fn lambda(&mut self) -> Parsed<Form> {
        let mut params = Vec::new();
        while !self.takes(".") {
            if self.takes("(") {
                while !self.sees(":") {
                    params.push(self.name()?);
                }
                self.past(")")?;
            } else {
                params.push(self.name()?);
            }
        }
        Ok(Form::Lambda { params, body: Box::new(self.expr(0)?) })
    }

    fn binding(&mut self) -> Parsed<Form> {
        let name = self.name()?;
        let ty = if self.takes(":") { Some(self.signature_type(&mut Vec::new())?) } else { None };
        self.expect("=")?;
        let value = Box::new(self.expr(0)?);
        self.expect("in")?;
        Ok(Form::Let { name, ty, value, body: Box::new(self.expr(0)?) })
    }

    fn literal(&mut self) -> Parsed<Form> {
        self.expect("{")?;
        let mut fields = Vec::new();
        while !self.takes("}") {
            let field = self.name()?;
            self.expect("=")?;
            fields.push((field, self.expr(0)?));
            self.takes(";");
        }
        Ok(Form::Record(fields))
    }
}

/// `one ≡ other`.
pub fn is_equation(expr: &Expr) -> bool {
    matches!(&expr.form, Form::Apply { head, infix: true, .. } if matches!(&head.form, Form::Name(name) if name == "≡"))
}

fn applied(head: Expr, args: &mut Vec<Expr>, start: usize, end: usize) -> Expr {
    if args.is_empty() {
        return head;
    }
    made(Form::Apply { head: Box::new(head), args: std::mem::take(args), infix: false }, start, end)
}

fn made(form: Form, start: usize, end: usize) -> Expr {
    Expr { form, span: start..end, outer: start..end, place: 0 }
}

fn unescaped(quoted: &str) -> Parsed<String> {
    let mut text = String::new();
    let mut chars = quoted[1..quoted.len() - 1].chars();
    while let Some(c) = chars.next() {
        text.push(match c {
            '\\' => match chars.next() {
                Some('n') => '\n',
                Some('\\') => '\\',
                Some('"') => '"',
                other => return Err(format!("an escape {other:?}")),
            },
            c => c,
        });
    }
    Ok(text)
}
