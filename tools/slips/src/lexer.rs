//! A file's text as tokens, and its items: what begins at the left margin, with the indented lines that go on with it.

#[derive(Clone, Debug, PartialEq)]
pub enum Kind {
    /// Also a name with its module in front, as `vote.Notar`, and an operator.
    Name,
    Number,
    Text,
    /// `.field` right behind what has it.
    Field,
    /// One of `( ) { } ; , .`
    Mark(char),
}

#[derive(Clone, Debug)]
pub struct Token {
    pub kind: Kind,
    pub text: String,
    pub start: usize,
    pub end: usize,
}

impl Token {
    pub fn is(&self, text: &str) -> bool {
        self.text == text && self.kind != Kind::Text
    }
}

fn is_name(c: char) -> bool {
    !c.is_whitespace() && !"(){}.;,@\"«»".contains(c)
}

/// Whether what begins with `next` behind a dot is of the module that begins with `first`, and no field: a path begins with a capital, and
/// of a module that has a name of its own only constructors and operators are named.
fn is_inside(first: char, next: char) -> bool {
    is_name(next) && (first.is_uppercase() || !next.is_ascii_lowercase() && !next.is_ascii_digit())
}

/// The tokens of a part of the text, by their places in the whole.
pub fn tokens(text: &str, from: usize, to: usize) -> Result<Vec<Token>, String> {
    let mut found = Vec::new();
    let mut at = from;
    while let Some(c) = text[at..to].chars().next() {
        let rest = &text[at..to];
        if c.is_whitespace() {
            at += c.len_utf8();
            continue;
        }
        if rest.starts_with("--") && (rest[2..].starts_with([' ', '-', '\n']) || rest.len() == 2) {
            at += rest.find('\n').unwrap_or(rest.len());
            continue;
        }
        let (kind, length) = token(rest, text[..at].chars().next_back(), at)?;
        let token = Token { kind, text: rest[..length].to_string(), start: at, end: at + length };
        at += length;
        found.push(token);
    }
    Ok(found)
}

/// The kind and the length of the token in front.
fn token(rest: &str, before: Option<char>, at: usize) -> Result<(Kind, usize), String> {
    let c = rest.chars().next().unwrap_or(' ');
    let word = |from: usize| rest[from..].find(|c| !is_name(c)).map_or(rest.len(), |end| from + end);
    match c {
        '"' => {
            let mut escaped = false;
            let end = rest[1..].find(|c| {
                let ends = c == '"' && !escaped;
                escaped = c == '\\' && !escaped;
                ends
            });
            end.map(|end| (Kind::Text, end + 2)).ok_or(format!("a text without an end at {at}"))
        }
        '.' if before.is_some_and(|c| c == ')' || is_name(c)) && rest[1..].starts_with(is_name) => {
            Ok((Kind::Field, word(1)))
        }
        '(' | ')' | '{' | '}' | ';' | ',' | '.' => Ok((Kind::Mark(c), 1)),
        '@' | '«' | '»' => Err(format!("`{c}` is not read at {at}")),
        _ => {
            let mut end = word(0);
            while rest[end..].starts_with('.') && rest[end + 1..].starts_with(|next| is_inside(c, next)) {
                end = word(end + 1);
            }
            let numeral =
                c.is_ascii_digit() && rest[..end].chars().all(|c| c.is_ascii_alphanumeric() || c == '_');
            Ok((if numeral { Kind::Number } else { Kind::Name }, end))
        }
    }
}

/// Where each item begins and ends.
pub fn items(text: &str) -> Vec<(usize, usize)> {
    let mut starts = Vec::new();
    let mut at = 0;
    for line in text.split_inclusive('\n') {
        if line.starts_with(|c: char| !c.is_whitespace()) && !line.starts_with("--") {
            starts.push(at);
        }
        at += line.len();
    }
    let ends = starts.iter().skip(1).copied().chain([text.len()]).collect::<Vec<_>>();
    starts.into_iter().zip(ends).collect()
}
