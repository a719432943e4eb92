//! All specs of a repository, with each name resolved.

use crate::lexer;
use crate::parser;
use crate::syntax::{Case, Clause, Expr, Form, Import, Item, Signature, Type};
use std::collections::{BTreeMap, HashMap};
use std::fs;
use std::path::Path;

pub struct File {
    /// From the repository's root on.
    pub path: String,
    pub text: String,
    pub imports: Vec<Import>,
    /// What the file itself defines.
    pub own: HashMap<String, Entity>,
    pub own_types: HashMap<String, usize>,
    pub scope: HashMap<String, Entity>,
    pub types: HashMap<String, usize>,
    pub aliases: HashMap<String, Module>,
    /// What could not be read of it.
    pub unread: Vec<(String, String)>,
}

#[derive(Clone, Copy, Debug, PartialEq, Eq, Hash)]
pub enum Entity {
    Definition(usize),
    Constructor(usize),
    Builtin(Builtin),
}

#[derive(Clone, Copy, Debug, PartialEq, Eq)]
pub enum Module {
    File(usize),
    /// The variants of a declared type.
    Variants(usize),
    Native,
}

pub struct Definition {
    pub file: usize,
    pub name: String,
    pub signature: Option<Signature>,
    pub clauses: Vec<Clause>,
}

pub struct Constructor {
    pub name: String,
    pub of: usize,
    /// The types of what it holds.
    pub parts: Vec<Type>,
    /// The file whose names these types use, if it is not a declared type's.
    pub file: Option<usize>,
}

/// A type with its fields, or its constructors.
pub struct Declared {
    pub name: String,
    pub home: String,
    pub fields: Vec<(String, Type)>,
    pub constructors: Vec<usize>,
    pub file: Option<usize>,
}

pub struct Named {
    pub file: usize,
    pub name: String,
    pub case: Case,
}

pub struct Program {
    pub files: Vec<File>,
    pub definitions: Vec<Definition>,
    pub constructors: Vec<Constructor>,
    pub types: Vec<Declared>,
    pub cases: Vec<Named>,
    /// How many places there are, counted from 1.
    pub places: usize,
    modules: HashMap<String, usize>,
    declared: HashMap<String, usize>,
}

macro_rules! builtins {
    ($($variant:ident $name:literal $arity:literal $ty:literal,)*) => {
        #[derive(Clone, Copy, Debug, PartialEq, Eq, Hash)]
        pub enum Builtin { $($variant),* }

        impl Builtin {
            pub fn named(name: &str) -> Option<Builtin> {
                match name { $($name => Some(Builtin::$variant),)* _ => None }
            }
            pub fn name(self) -> &'static str {
                match self { $(Builtin::$variant => $name),* }
            }
            pub fn arity(self) -> usize {
                match self { $(Builtin::$variant => $arity),* }
            }
            pub fn ty(self) -> &'static str {
                match self { $(Builtin::$variant => $ty),* }
            }
        }
    };
}

builtins! {
    True "true" 0 "Bool",
    False "false" 0 "Bool",
    Not "not" 1 "Bool → Bool",
    And "&&" 2 "Bool → Bool → Bool",
    Or "||" 2 "Bool → Bool → Bool",
    Cond "cond" 3 "{A : Type 0} → Bool → A → A → A",
    Unit "tt" 0 "Unit",
    Pair "," 2 "{A B : Type 0} → A → B → A × B",
    Ok "Ok" 1 "{A B : Type 0} → A → Result A B",
    Err "Err" 1 "{A B : Type 0} → B → Result A B",
    Some "Some" 1 "{A : Type 0} → A → Option A",
    None "None" 0 "{A : Type 0} → Option A",
    Zero "zero" 0 "ℕ",
    Suc "suc" 1 "ℕ → ℕ",
    Plus "+" 2 "ℕ → ℕ → ℕ",
    Minus "-" 2 "ℕ → ℕ → ℕ",
    Times "*" 2 "ℕ → ℕ → ℕ",
    Divide "/" 2 "ℕ → ℕ → ℕ",
    Rest "%" 2 "ℕ → ℕ → ℕ",
    Power "^" 2 "ℕ → ℕ → ℕ",
    Min "min" 2 "ℕ → ℕ → ℕ",
    Max "max" 2 "ℕ → ℕ → ℕ",
    Eqb "eqb" 2 "ℕ → ℕ → Bool",
    Leb "leb" 2 "ℕ → ℕ → Bool",
    Ltb "ltb" 2 "ℕ → ℕ → Bool",
    Same "≡" 2 "{A : Type 0} → A → A → Bool",
    Nil "[]" 0 "{A : Type 0} → List A",
    Cons "∷" 2 "{A : Type 0} → A → List A → List A",
    Append "++" 2 "{A : Type 0} → List A → List A → List A",
    Reverse "reverse" 1 "{A : Type 0} → List A → List A",
    Map "map" 2 "{A B : Type 0} → (A → B) → List A → List B",
    Length "length" 1 "{A : Type 0} → List A → ℕ",
    GetD "get_or" 3 "{A : Type 0} → List A → ℕ → A → A",
    Set "set" 3 "{A : Type 0} → List A → ℕ → A → List A",
    Sets "sets" 3 "{A : Type 0} → List A → ℕ → List A → List A",
    Paste "paste" 4 "{A : Type 0} → List A → ℕ → List A → ℕ → List A",
    Take "take" 2 "{A : Type 0} → ℕ → List A → List A",
    Drop "drop" 2 "{A : Type 0} → ℕ → List A → List A",
    BytesEq "bytes_eq" 2 "List ℕ → List ℕ → Bool",
    Replicate "replicate" 2 "{A : Type 0} → ℕ → A → List A",
    Code "code" 1 "Char → ℕ",
    EmptyText "string.[]" 0 "String",
    TextCons "string.◌∷◌" 2 "Char → String → String",
}

impl Builtin {
    /// What holds other values, or is `None`.
    pub fn holds(self) -> bool {
        use Builtin::{Err, None, Ok, Pair, Some};
        matches!(self, Pair | Ok | Err | Some | None)
    }
}

/// An operator's name without its argument places.
pub fn bare(name: &str) -> &str {
    let inner = name.strip_prefix('◌').and_then(|name| name.strip_suffix('◌'));
    inner.filter(|inner| !inner.is_empty()).unwrap_or(name)
}

impl Program {
    pub fn load(root: &Path) -> Result<Program, String> {
        let mut program = Program {
            files: Vec::new(),
            definitions: Vec::new(),
            constructors: Vec::new(),
            types: Vec::new(),
            cases: Vec::new(),
            places: 1,
            modules: HashMap::new(),
            declared: HashMap::new(),
        };
        let crates = sorted(&root.join("crates"))?;
        for name in &crates {
            program.declare(name, &root.join("crates").join(name).join("src"))?;
        }
        for name in &crates {
            program.read(name, &root.join("crates").join(name).join("specs"))?;
        }
        for file in 0..program.files.len() {
            program.resolve(file);
        }
        Ok(program)
    }

    // ---- types that the code declares

    fn declare(&mut self, name: &str, folder: &Path) -> Result<(), String> {
        for source in sorted(folder).unwrap_or_default().iter().filter(|source| source.ends_with(".rt")) {
            let text = read(&folder.join(source))?;
            let mut rest = text.as_str();
            while let Some(at) = rest.find("pub struct ").into_iter().chain(rest.find("pub enum ")).min() {
                let is_enum = rest[at..].starts_with("pub enum");
                rest = &rest[at + if is_enum { 9 } else { 11 }..];
                let Some(end) = rest.find(['{', '(', ';', '<']) else { break };
                self.declare_one(name, rest[..end].trim(), &rest[end..], is_enum);
            }
        }
        Ok(())
    }

    fn declare_one(&mut self, home: &str, name: &str, body: &str, is_enum: bool) {
        let Some(inner) = enclosed(body) else { return };
        let of = self.types.len();
        let mut ty = Declared {
            name: name.to_string(),
            home: home.to_string(),
            fields: Vec::new(),
            constructors: Vec::new(),
            file: None,
        };
        for (i, part) in split(inner).into_iter().enumerate() {
            if is_enum {
                let variant = part.split('(').next().unwrap_or("").trim().to_string();
                let parts =
                    part.find('(').and_then(|at| enclosed(&part[at..])).map(split).unwrap_or_default();
                let parts = parts.into_iter().map(coded).collect();
                ty.constructors.push(self.constructors.len());
                self.constructors.push(Constructor { name: variant, of, parts, file: None });
            } else {
                let part = part.trim().trim_start_matches("pub ").to_string();
                let (field, of) = part
                    .split_once(':')
                    .map_or((i.to_string(), part.as_str()), |(f, t)| (f.trim().to_string(), t));
                ty.fields.push((field, coded(of)));
            }
        }
        self.declared.insert(format!("{home}.{name}"), of);
        self.types.push(ty);
    }

    // ---- files

    fn read(&mut self, home: &str, folder: &Path) -> Result<(), String> {
        for source in sorted(folder).unwrap_or_default().iter().filter(|source| source.ends_with(".antt")) {
            let text = read(&folder.join(source))?;
            let file = self.files.len();
            let module = source.trim_end_matches(".antt");
            self.modules.insert(format!("{home}.{module}"), file);
            self.files.push(File {
                path: format!("crates/{home}/specs/{source}"),
                text: String::new(),
                imports: Vec::new(),
                own: HashMap::new(),
                own_types: HashMap::new(),
                scope: HashMap::new(),
                types: HashMap::new(),
                aliases: HashMap::new(),
                unread: Vec::new(),
            });
            for (from, to) in lexer::items(&text) {
                match parser::item(&text, from, to) {
                    Ok(item) => self.add(file, home, item),
                    Err(why) => {
                        let line = text[from..to].lines().next().unwrap_or("").to_string();
                        self.files[file].unread.push((line, why));
                    }
                }
            }
            self.files[file].text = text;
        }
        Ok(())
    }

    fn add(&mut self, file: usize, home: &str, item: Item) {
        match item {
            Item::Import(import) => self.files[file].imports.push(import),
            Item::Record { name, fields } => {
                self.files[file].own_types.insert(name.clone(), self.types.len());
                self.types.push(Declared {
                    name,
                    home: home.to_string(),
                    fields,
                    constructors: Vec::new(),
                    file: Some(file),
                });
            }
            Item::Data { name, constructors } => {
                let of = self.types.len();
                self.files[file].own_types.insert(name.clone(), of);
                let first = self.constructors.len();
                for (name, ty) in constructors {
                    self.files[file].own.insert(name.clone(), Entity::Constructor(self.constructors.len()));
                    self.constructors.push(Constructor { name, of, parts: arguments(ty), file: Some(file) });
                }
                let constructors = (first..self.constructors.len()).collect();
                self.types.push(Declared {
                    name,
                    home: home.to_string(),
                    fields: Vec::new(),
                    constructors,
                    file: Some(file),
                });
            }
            Item::Signature { name, signature } => {
                let definition =
                    Definition { file, name: name.clone(), signature: Some(signature), clauses: Vec::new() };
                self.files[file].own.insert(name, Entity::Definition(self.definitions.len()));
                self.definitions.push(definition);
            }
            Item::Case { name, mut case } => {
                case.given.iter_mut().for_each(|given| self.number(given));
                self.number(&mut case.test);
                self.cases.push(Named { file, name, case });
            }
            Item::Clause { name, mut clause } => {
                self.number(&mut clause.body);
                if let Some(Entity::Definition(definition)) = self.files[file].own.get(&name) {
                    self.definitions[*definition].clauses.push(clause);
                }
            }
            Item::Unfolding | Item::Nothing => {}
        }
    }

    /// Each part of an expression gets a place.
    fn number(&mut self, expr: &mut Expr) {
        expr.place = self.places;
        self.places += 1;
        match &mut expr.form {
            Form::Name(_) | Form::Number(_) | Form::Text(_) => {}
            Form::Apply { head, args, .. } => {
                self.number(head);
                args.iter_mut().for_each(|arg| self.number(arg));
            }
            Form::Project { of, .. } => self.number(of),
            Form::Lambda { body, .. } => self.number(body),
            Form::Let { value, body, .. } => {
                self.number(value);
                self.number(body);
            }
            Form::Record(fields) => fields.iter_mut().for_each(|(_, value)| self.number(value)),
        }
    }

    // ---- names

    /// What a path leads to, by its words behind the crate's.
    fn module(&self, path: &str) -> Option<Module> {
        let Some(path) = path.strip_prefix("Rattle.").filter(|path| !path.starts_with("std.")) else {
            return Some(Module::Native);
        };
        let (home, rest) = path.split_once('.')?;
        let words: Vec<&str> = rest.split('.').collect();
        match words[..] {
            ["specs", "declared", ty] | ["specs", "declared", ty, "TheVariants"] => {
                self.declared.get(&format!("{home}.{ty}")).map(|&ty| Module::Variants(ty))
            }
            ["specs", module] => {
                self.modules.get(&format!("{home}.{module}")).map(|&file| Module::File(file))
            }
            _ => None,
        }
    }

    fn resolve(&mut self, file: usize) {
        let imports = self.files[file].imports.clone();
        let mut scope = HashMap::new();
        let mut types = HashMap::new();
        let mut aliases = HashMap::new();
        for import in &imports {
            let Some(module) = self.module(&import.path) else { continue };
            if let Some(alias) = &import.alias {
                aliases.insert(alias.clone(), module);
            }
            for (name, here) in &import.names {
                if let Some(entity) = self.exported(module, bare(name)) {
                    scope.insert(bare(here).to_string(), entity);
                }
                if let Some(ty) = self.exported_type(module, name) {
                    types.insert(here.clone(), ty);
                }
            }
        }
        let this = &mut self.files[file];
        scope.insert("tt".to_string(), Entity::Builtin(Builtin::Unit));
        scope.extend(this.own.iter().map(|(name, entity)| (name.clone(), *entity)));
        types.extend(this.own_types.iter().map(|(name, ty)| (name.clone(), *ty)));
        (this.scope, this.types, this.aliases) = (scope, types, aliases);
    }

    fn exported(&self, module: Module, name: &str) -> Option<Entity> {
        match module {
            Module::Native => Builtin::named(name).map(Entity::Builtin),
            Module::Variants(ty) => {
                let named = |&&constructor: &&usize| self.constructors[constructor].name == name;
                self.types[ty]
                    .constructors
                    .iter()
                    .find(named)
                    .map(|&constructor| Entity::Constructor(constructor))
            }
            Module::File(file) => {
                let own = self.files[file].own.get(name).copied();
                own.or_else(|| self.again(file, name).and_then(|(module, name)| self.exported(module, &name)))
            }
        }
    }

    fn exported_type(&self, module: Module, name: &str) -> Option<usize> {
        match module {
            Module::Native => None,
            Module::Variants(ty) => (self.types[ty].name == name).then_some(ty),
            Module::File(file) => {
                let own = self.files[file].own_types.get(name).copied();
                own.or_else(|| {
                    self.again(file, name).and_then(|(module, name)| self.exported_type(module, &name))
                })
            }
        }
    }

    /// Where a file hands a name on from.
    fn again(&self, file: usize, name: &str) -> Option<(Module, String)> {
        let handed = self.files[file].imports.iter().filter(|import| import.again);
        handed.flat_map(|import| import.names.iter().map(move |names| (import, names))).find_map(
            |(import, (from, here))| {
                (bare(here) == name)
                    .then(|| self.module(&import.path).map(|module| (module, bare(from).to_string())))?
            },
        )
    }

    /// What a name stands for in a file, unless it is bound nearer.
    pub fn named(&self, file: usize, name: &str) -> Option<Entity> {
        if let Some(entity) = self.files[file].scope.get(bare(name)) {
            return Some(*entity);
        }
        // What antt brings along may stand in a slip, imported or not.
        if let Some(builtin) = Builtin::named(bare(name)) {
            return Some(Entity::Builtin(builtin));
        }
        let (alias, rest) = name.split_once('.')?;
        match self.files[file].aliases.get(alias)? {
            Module::Native => Builtin::named(&format!("string.{rest}")).map(Entity::Builtin),
            module => self.exported(*module, bare(rest)),
        }
    }

    pub fn declared_named(&self, home: &str, name: &str) -> Option<usize> {
        let near = self.declared.get(&format!("{home}.{name}")).copied();
        near.or_else(|| self.types.iter().position(|ty| ty.file.is_none() && ty.name == name))
    }

    /// The definitions of a file by their names.
    pub fn definitions_of(&self, file: usize) -> BTreeMap<&str, usize> {
        let own = self.definitions.iter().enumerate().filter(|(_, definition)| definition.file == file);
        own.map(|(i, definition)| (definition.name.as_str(), i)).collect()
    }
}

/// The types of a constructor's arguments.
fn arguments(ty: Type) -> Vec<Type> {
    let mut parts = Vec::new();
    let mut rest = ty;
    while let Type::Arrow(part, to) = rest {
        parts.push(*part);
        rest = *to;
    }
    parts
}

/// A type of the code, as definitions see it.
fn coded(text: &str) -> Type {
    match text.trim().trim_start_matches("pub ") {
        "u64" | "usize" | "u8" | "u32" | "u16" => Type::Name("ℕ".to_string(), Vec::new()),
        "bool" => Type::Name("Bool".to_string(), Vec::new()),
        name if name.chars().all(|c| c.is_alphanumeric()) => Type::Name(name.to_string(), Vec::new()),
        _ => Type::Other,
    }
}

/// What stands between the bracket in front and its counterpart, comments left out.
fn enclosed(text: &str) -> Option<&str> {
    let open = text.chars().next()?;
    let close = match open {
        '{' => '}',
        '(' => ')',
        _ => return None,
    };
    let mut depth = 0;
    for (at, c) in text.char_indices() {
        depth += i32::from(c == open) - i32::from(c == close);
        if depth == 0 {
            return Some(&text[1..at]);
        }
    }
    None
}

/// The parts between commas outside brackets; lines of comments are none.
fn split(text: &str) -> Vec<&str> {
    let mut parts = Vec::new();
    let (mut depth, mut from) = (0, 0);
    for (at, c) in text.char_indices() {
        match c {
            '(' | '[' | '{' => depth += 1,
            ')' | ']' | '}' => depth -= 1,
            ',' if depth == 0 => {
                parts.push(&text[from..at]);
                from = at + 1;
            }
            _ => {}
        }
    }
    parts.push(&text[from..]);
    parts.retain(|part| !part.trim().is_empty());
    parts
}

fn sorted(folder: &Path) -> Result<Vec<String>, String> {
    let entries = fs::read_dir(folder).map_err(|error| format!("{}: {error}", folder.display()))?;
    let mut names: Vec<String> =
        entries.flatten().map(|entry| entry.file_name().to_string_lossy().into_owned()).collect();
    names.sort();
    Ok(names)
}

fn read(path: &Path) -> Result<String, String> {
    fs::read_to_string(path).map_err(|error| format!("{}: {error}", path.display()))
}
