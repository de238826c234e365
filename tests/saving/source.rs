//! The source of all crates, read into items: functions, types, constants, with their tokens. Comments and contracts are left out.

use std::collections::{BTreeMap, BTreeSet};
use std::path::{Path, PathBuf};

#[derive(Clone, Copy, Debug, PartialEq, Eq)]
pub enum Kind {
    Word,
    Number,
    /// A string, a byte string: a constant of bytes.
    Text,
    Lifetime,
    Mark,
}

#[derive(Clone, Debug)]
pub struct Token {
    pub kind: Kind,
    pub text: String,
    pub line: usize,
}

impl Token {
    pub fn is(&self, text: &str) -> bool {
        self.text == text && self.kind != Kind::Text
    }

    /// A name of a thing, and no word of the language.
    pub fn named(&self) -> bool {
        self.kind == Kind::Word && !KEYWORDS.contains(&self.text.as_str())
    }
}

pub const KEYWORDS: [&str; 41] = [
    "as", "async", "await", "break", "const", "continue", "crate", "dyn", "else", "ensures", "enum", "extern", "false", "fn", "for", "ghost", "if",
    "impl", "in", "let", "loop", "match", "mod", "move", "mut", "pub", "ref", "requires", "return", "self", "static", "struct", "super", "trait",
    "true", "type", "unsafe", "use", "where", "while", "yield",
];

#[derive(Clone, Copy, Debug, PartialEq, Eq)]
pub enum What {
    Function,
    Struct,
    Enum,
    Constant,
    Alias,
}

/// An item and where it stands. A method is an item of its module, beside the functions.
#[derive(Clone, Debug)]
pub struct Item {
    pub what: What,
    pub name: String,
    pub module: Vec<String>,
    pub method_of: Option<String>,
    pub file: String,
    pub tokens: Vec<Token>,
}

impl Item {
    pub fn path(&self) -> String {
        let mut parts = self.module.clone();
        parts.extend(self.method_of.clone());
        parts.push(self.name.clone());
        parts.join("::")
    }
}

/// A name that a module takes from elsewhere, and the path that it stands for; `*` is every name of that path.
#[derive(Clone, Debug)]
pub struct Use {
    pub name: String,
    pub path: Vec<String>,
}

#[derive(Default)]
pub struct Source {
    /// The crates that each stands on, itself among them: no other can be named in it.
    pub below: BTreeMap<String, BTreeSet<String>>,
    /// The crates that have a file.
    pub crates: BTreeSet<String>,
    pub items: Vec<Item>,
    pub uses: BTreeMap<Vec<String>, Vec<Use>>,
    /// Where no item could be read, in which module.
    pub unread: BTreeMap<Vec<String>, String>,
}

// ---- tokens

fn is_word(c: char) -> bool {
    c == '_' || c.is_alphanumeric()
}

/// The end of a text in quotes that begins at `at`, escapes passed over.
fn quoted(text: &[char], at: usize) -> usize {
    let mut i = at + 1;
    while i < text.len() && text[i] != '"' {
        i += if text[i] == '\\' { 2 } else { 1 };
    }
    (i + 1).min(text.len())
}

/// The end of a raw text, r"..", r#".."#: `at` is the place after the r.
fn raw(text: &[char], at: usize) -> usize {
    let hashes = text[at..].iter().take_while(|&&c| c == '#').count();
    let mut i = at + hashes + 1;
    while i < text.len() && !(text[i] == '"' && text[i + 1..].iter().take(hashes).filter(|&&c| c == '#').count() == hashes) {
        i += 1;
    }
    (i + 1 + hashes).min(text.len())
}

/// The end of a comment that begins at `at`, if one does. One over several lines may hold others.
fn comment(text: &[char], at: usize) -> Option<usize> {
    let two = |i: usize| (text.get(i).copied(), text.get(i + 1).copied());
    match two(at) {
        (Some('/'), Some('/')) => Some(at + text[at..].iter().take_while(|&&c| c != '\n').count()),
        (Some('/'), Some('*')) => {
            let (mut i, mut depth) = (at + 2, 1);
            while i < text.len() && depth > 0 {
                match two(i) {
                    (Some('/'), Some('*')) => (i, depth) = (i + 2, depth + 1),
                    (Some('*'), Some('/')) => (i, depth) = (i + 2, depth - 1),
                    _ => i += 1,
                }
            }
            Some(i)
        }
        _ => None,
    }
}

/// The kind of the token that begins at `at`, and its end. The `b` of b"x" and b'x' is a word by itself.
fn token(text: &[char], at: usize) -> (Kind, usize) {
    let next = |i: usize| text.get(at + i).copied().unwrap_or(' ');
    if next(0) == '"' {
        return (Kind::Text, quoted(text, at));
    }
    let r = usize::from(matches!(next(0), 'b' | 'c'));
    if next(r) == 'r' && matches!(next(r + 1), '"' | '#') {
        return (Kind::Text, raw(text, at + r + 1));
    }
    // a character is a number; anything else after a quote is a lifetime
    if next(0) == '\'' && next(1) == '\\' {
        return (Kind::Number, at + 4 + text[(at + 3).min(text.len())..].iter().take_while(|&&c| c != '\'').count());
    }
    if next(0) == '\'' && next(2) == '\'' {
        return (Kind::Number, at + 3);
    }
    if next(0) == '\'' {
        return (Kind::Lifetime, at + 1 + text[at + 1..].iter().take_while(|&&c| is_word(c)).count());
    }
    if is_word(next(0)) {
        let end = at + text[at..].iter().take_while(|&&c| is_word(c)).count();
        return (if next(0).is_ascii_digit() { Kind::Number } else { Kind::Word }, end);
    }
    let two: String = text[at..].iter().take(2).collect();
    let long = ["::", "->", "=>", "..", "!=", "==", "<=", ">=", "&&", "||"].contains(&two.as_str());
    (Kind::Mark, at + if long { 2 } else { 1 })
}

/// The end of the contract whose bracket opens at `at`: it is text of the logic, so only its brackets are counted. None where it has a comment or a
/// quote, in which a bracket would be none.
fn contract(text: &[char], at: usize) -> Option<usize> {
    let mut depth = 0;
    for i in at..text.len() {
        let two: String = text[i..].iter().take(2).collect();
        if ["--", "{-", "//", "/*", "'{", "'}"].contains(&two.as_str()) || ['"', '«'].contains(&text[i]) {
            return None;
        }
        depth += i32::from(text[i] == '{') - i32::from(text[i] == '}');
        if depth == 0 {
            return Some(i + 1);
        }
    }
    None
}

/// The place after what a word of the logic stands before: a clause, `ensures { .. }`, `ensures name { .. }`, `ghost { .. }`, or a `ghost use` up to
/// its end; `at` is the place after the word. None where neither stands there, or the end cannot be told.
fn logic(text: &[char], at: usize, word: &str) -> Option<usize> {
    if !["ghost", "requires", "ensures"].contains(&word) {
        return Some(at);
    }
    let spaces = |i: usize| i + text[i..].iter().take_while(|c| c.is_whitespace()).count();
    let name = spaces(at);
    let after = name + text[name..].iter().take_while(|&&c| is_word(c)).count();
    if word == "ghost" && text[name..after] == ['u', 's', 'e'] {
        let end = at + text[at..].iter().take_while(|&&c| c != ';').count();
        let said: String = text[at..end].iter().collect();
        return (!["--", "{-", "\"", "«"].iter().any(|m| said.contains(m))).then_some(end);
    }
    let open = spaces(after);
    // a ghost field, `ghost name: { .. }`, and a ghost member of an `impl`, `ghost name = { .. }`
    let named = word == "ghost" && matches!(text.get(open), Some('=' | ':'));
    let open = if named { spaces(open + 1) } else { open };
    if text.get(open) == Some(&'{') {
        contract(text, open)
    } else {
        None
    }
}

/// The tokens of a file; none where a contract's end cannot be told.
pub fn tokens(text: &str) -> Option<Vec<Token>> {
    let text: Vec<char> = text.chars().collect();
    let (mut found, mut at, mut line) = (Vec::new(), 0, 1);
    while at < text.len() {
        let end = if text[at].is_whitespace() {
            at + 1
        } else if let Some(end) = comment(&text, at) {
            end
        } else {
            let (kind, end) = token(&text, at);
            let word: String = text[at..end.min(text.len())].iter().collect();
            let end = if kind == Kind::Word { logic(&text, end, &word)? } else { end.min(text.len()) };
            found.push(Token { kind, text: word, line });
            end
        };
        line += text[at..end].iter().filter(|&&c| c == '\n').count();
        at = end;
    }
    Some(found)
}

// ---- items

/// The place after the bracket that closes the one at `at`.
pub fn closed(tokens: &[Token], at: usize) -> usize {
    let mut depth = 0;
    for (i, t) in tokens.iter().enumerate().skip(at) {
        if t.is("(") || t.is("[") || t.is("{") {
            depth += 1;
        }
        if t.is(")") || t.is("]") || t.is("}") {
            depth -= 1;
        }
        if depth == 0 {
            return i + 1;
        }
    }
    tokens.len()
}

/// The place of the first of these marks from `at` on that stands in no bracket.
fn first(tokens: &[Token], mut at: usize, marks: &[&str]) -> usize {
    while at < tokens.len() && !marks.iter().any(|m| tokens[at].is(m)) {
        at = if ["(", "[", "{"].iter().any(|m| tokens[at].is(m)) { closed(tokens, at) } else { at + 1 };
    }
    at
}

/// A function from its `fn` on: its tokens without its contract, and the place after it.
fn function(tokens: &[Token], at: usize) -> (Vec<Token>, usize) {
    let (mut kept, mut i) = (Vec::new(), at);
    while i < tokens.len() {
        if ["requires", "ensures", "ghost"].iter().any(|w| tokens[i].is(w)) {
            i += 1;
        } else if tokens[i].is("{") || tokens[i].is(";") {
            let end = if tokens[i].is("{") { closed(tokens, i) } else { i + 1 };
            kept.extend_from_slice(&tokens[i..end]);
            return (kept, end);
        } else {
            let end = if tokens[i].is("(") || tokens[i].is("[") { closed(tokens, i) } else { i + 1 };
            kept.extend_from_slice(&tokens[i..end]);
            i = end;
        }
    }
    (kept, i)
}

/// The names that a `use` brings, with their paths: `a::b`, `a::b as c`, `a::{b, c::d}`, `a::*`.
fn used(tokens: &[Token], front: &[String], out: &mut Vec<Use>) {
    let mut path = front.to_vec();
    let mut i = 0;
    while i < tokens.len() {
        if tokens[i].is("{") {
            let (mut from, end) = (i + 1, closed(tokens, i) - 1);
            while from < end {
                let to = first(&tokens[..end], from, &[","]);
                used(&tokens[from..to], &path, out);
                from = to + 1;
            }
            return;
        }
        if tokens[i].is("as") {
            out.extend(tokens.get(i + 1).map(|t| Use { name: t.text.clone(), path: path.clone() }));
            return;
        }
        if !tokens[i].is("::") {
            path.push(tokens[i].text.clone());
        }
        i += 1;
    }
    out.extend(path.last().map(|name| Use { name: name.clone(), path: path.clone() }));
}

/// The place of an item's first word, behind its attributes, the file's, `#![..]`, and `pub`.
fn word_at(tokens: &[Token], mut at: usize) -> usize {
    while at < tokens.len() && (tokens[at].is("#") || tokens[at].is("pub")) {
        let inner = tokens[at].is("#") && tokens.get(at + 1).is_some_and(|t| t.is("!"));
        at += if inner { 2 } else { 1 };
        if tokens.get(at).is_some_and(|t| t.is("[") || t.is("(")) {
            at = closed(tokens, at);
        }
    }
    at
}

/// Where the `fn` of a function stands that begins at `at`, behind `extern "C"`.
fn function_at(tokens: &[Token], at: usize) -> Option<usize> {
    let f = (at..tokens.len()).find(|&i| !(tokens[i].is("const") || tokens[i].is("extern") || tokens[i].kind == Kind::Text))?;
    tokens[f].is("fn").then_some(f)
}

/// The place of the items that are read: their module, the type whose methods they are, and their file.
struct Place<'a> {
    module: &'a [String],
    method_of: Option<&'a str>,
    file: &'a str,
}

impl Source {
    fn take(&mut self, what: What, tokens: Vec<Token>, place: &Place) {
        self.items.push(Item {
            what,
            name: tokens.get(1).map_or_else(String::new, |t| t.text.clone()),
            module: place.module.to_vec(),
            method_of: place.method_of.map(str::to_string),
            file: place.file.to_string(),
            tokens,
        });
    }

    /// Reads the items of a module, or of an `impl` in it.
    fn read(&mut self, tokens: &[Token], place: &Place) {
        let mut at = word_at(tokens, 0);
        while at < tokens.len() {
            match self.read_one(tokens, at, place) {
                Some(end) => at = word_at(tokens, end),
                None => {
                    let said = format!("{}:{}: not read from `{}` on", place.file, tokens[at].line, tokens[at].text);
                    self.unread.insert(place.module.to_vec(), said);
                    return;
                }
            }
        }
    }

    /// Reads the item whose first word stands at `at`; gives the place after it.
    fn read_one(&mut self, tokens: &[Token], at: usize, place: &Place) -> Option<usize> {
        if let Some(f) = function_at(tokens, at) {
            let (kept, end) = function(tokens, f);
            self.take(What::Function, kept, place);
            return Some(end);
        }
        let ended = (first(tokens, at, &[";"]) + 1).min(tokens.len());
        let whole = || tokens[at..ended].to_vec();
        match tokens[at].text.as_str() {
            "struct" | "enum" => {
                let body = first(tokens, at, &["{", ";"]);
                let end = if tokens.get(body)?.is("{") { closed(tokens, body) } else { body + 1 };
                self.take(if tokens[at].is("struct") { What::Struct } else { What::Enum }, tokens[at..end].to_vec(), place);
                return Some(end);
            }
            "const" | "static" => self.take(What::Constant, whole(), place),
            "type" => self.take(What::Alias, whole(), place),
            "use" => used(&tokens[at + 1..ended - 1], &[], self.uses.entry(place.module.to_vec()).or_default()),
            "ghost" => {}
            "mod" if tokens.get(at + 2)?.is(";") => {}
            "mod" => {
                let (end, inner) = (closed(tokens, at + 2), [place.module, &[tokens[at + 1].text.clone()]].concat());
                self.read(&tokens[at + 3..end - 1], &Place { module: &inner, method_of: None, file: place.file });
                return Some(end);
            }
            "impl" => {
                let body = first(tokens, at, &["{"]);
                let end = closed(tokens, body);
                let of = tokens[at + 1..body].iter().take_while(|t| !t.is("where")).filter(|t| t.named()).last()?;
                self.read(tokens.get(body + 1..end - 1)?, &Place { method_of: Some(&of.text), ..*place });
                return Some(end);
            }
            _ => return None,
        }
        Some(ended)
    }

    /// The source of all crates: `files` by their paths from the root, crates.txt among them.
    pub fn of(files: &BTreeMap<String, String>) -> Source {
        let mut source = Source { below: below(files.get(CRATES).map_or("", String::as_str)), ..Source::default() };
        for (file, text) in files.iter().filter(|f| f.0 != CRATES) {
            // crates/NAME/src/PATH.rt; lib and main are the crate itself
            let mut module: Vec<String> = file.trim_end_matches(".rt").split('/').skip(1).map(str::to_string).collect();
            module.remove(1);
            if module.len() == 2 && matches!(module[1].as_str(), "lib" | "main") {
                module.truncate(1);
            }
            source.crates.insert(module[0].clone());
            match tokens(text) {
                Some(tokens) => source.read(&tokens, &Place { module: &module, method_of: None, file }),
                None => drop(source.unread.insert(module, format!("{file}: a contract with a comment or a quote"))),
            }
        }
        source
    }
}

const CRATES: &str = "crates.txt";

/// The crates that each stands on, itself among them, and what those stand on.
fn below(text: &str) -> BTreeMap<String, BTreeSet<String>> {
    let lines = text.lines().filter_map(|line| line.split('#').next()?.split_once(':'));
    // a line's first word is the crate's name, also in `NAME staticlib: ..`
    let named = lines.filter_map(|(front, others)| Some((front.split_whitespace().next()?, others)));
    let mut all: BTreeMap<String, BTreeSet<String>> =
        named.map(|(name, others)| (name.to_string(), others.split_whitespace().chain([name]).map(str::to_string).collect())).collect();
    for _ in 0..all.len() {
        let next = all
            .iter()
            .map(|(name, others)| (name.clone(), others.iter().flat_map(|o| all.get(o).into_iter().flatten().chain([o])).cloned().collect()));
        all = next.collect();
    }
    all
}

/// The source under a folder: crates.txt, and the files of Rattle by their paths from there.
pub fn files(root: &Path) -> std::io::Result<BTreeMap<String, String>> {
    let mut found = BTreeMap::from([(CRATES.to_string(), std::fs::read_to_string(root.join(CRATES))?)]);
    let mut folders: Vec<PathBuf> = vec![root.join("crates")];
    while let Some(at) = folders.pop() {
        for entry in std::fs::read_dir(&at)? {
            let path = entry?.path();
            if path.is_dir() {
                // what the kit makes of a crate stands in its out/, with copies of its source
                if path.file_name().is_none_or(|name| name != "out") {
                    folders.push(path);
                }
            } else if path.extension().is_some_and(|e| e == "rt") {
                let name = path.strip_prefix(root).unwrap_or(&path).to_string_lossy().into_owned();
                found.insert(name, std::fs::read_to_string(&path)?);
            }
        }
    }
    Ok(found)
}
