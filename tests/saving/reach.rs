//! What saving calls, names and is given, and what is found there that it must not hold.
//!
//! A name leads to every item of that name, of its crate and of those below it; which of them a path, a `use` or a scope would choose is not asked,
//! only whether a path may begin so. What leads nowhere is a finding too: a call, a type, a path, a `use`, a method of the language other than `len`.
//! A single small name that leads nowhere is taken for a local, a parameter or a field.

use super::source::*;
use std::collections::{BTreeMap, BTreeSet};

/// The one array that may be reached: the counters of the record that is saved, which are numbers and no bytes. A function may read one of them.
const RECORD: &str = "rules::Board";
const COUNTERS: &str = "counters";
const COUNTERS_TYPE: &str = "counters : [ u32 ; 9 ]";
const PRIMITIVES: [&str; 13] = ["u8", "u16", "u32", "u64", "usize", "i8", "i16", "i32", "i64", "isize", "bool", "f32", "f64"];
/// What of the language makes nothing but a number.
const METHODS: [&str; 1] = ["len"];
/// The Result of the language and its variants, which hold what they are given.
const VARIANTS: [&str; 3] = ["Result", "Ok", "Err"];
const CONSTANTS: [&str; 2] = ["MAX", "MIN"];
/// Words that stand in no body of a function that can be followed.
const OUTSIDE: [&str; 7] = ["use", "mod", "ghost", "requires", "ensures", "impl", "trait"];

#[derive(Clone, Copy, Debug, PartialEq, Eq)]
pub enum Why {
    Array,
    ConstantOfBytes,
    NotFollowed,
}

#[derive(Clone, Debug)]
pub struct Finding {
    pub why: Why,
    /// The path of the item that has it, or of the module.
    pub item: String,
    pub said: String,
}

#[derive(Default)]
pub struct Reached {
    pub items: BTreeSet<String>,
    pub functions: BTreeSet<String>,
    pub findings: Vec<Finding>,
}

// ---- names

struct Names<'a> {
    source: &'a Source,
    by_name: BTreeMap<&'a str, Vec<usize>>,
    /// Names that a `use` gives to others.
    given: BTreeMap<&'a str, BTreeSet<&'a str>>,
    /// The names of all modules, each part of their paths.
    modules: BTreeSet<&'a str>,
}

impl<'a> Names<'a> {
    fn of(source: &'a Source) -> Names<'a> {
        let mut names = Names { source, by_name: BTreeMap::new(), given: BTreeMap::new(), modules: BTreeSet::new() };
        for (i, item) in source.items.iter().enumerate() {
            names.by_name.entry(&item.name).or_default().push(i);
        }
        for module in source.items.iter().map(|i| &i.module).chain(source.uses.keys()) {
            names.modules.extend(module.iter().map(String::as_str));
        }
        for u in source.uses.values().flatten() {
            names.given.entry(&u.name).or_default().extend(u.path.iter().map(String::as_str));
        }
        names
    }

    /// A name, and those that it is given to.
    fn meant(&self, name: &str) -> BTreeSet<String> {
        let mut all = BTreeSet::from([name.to_string()]);
        loop {
            let more: BTreeSet<String> = all.iter().filter_map(|n| self.given.get(n.as_str())).flatten().map(|n| n.to_string()).collect();
            if more.is_subset(&all) {
                return all;
            }
            all.extend(more);
        }
    }

    /// The items of a name that a crate can have.
    fn items(&self, krate: &str, name: &str) -> Vec<usize> {
        let can = |i: &usize| self.source.below.get(krate).is_some_and(|below| below.contains(&self.source.items[*i].module[0]));
        self.meant(name).iter().filter_map(|n| self.by_name.get(n.as_str())).flatten().copied().filter(can).collect()
    }

    fn types(&self, krate: &str, name: &str) -> Vec<usize> {
        self.items(krate, name).into_iter().filter(|&i| matches!(self.source.items[i].what, What::Struct | What::Enum | What::Alias)).collect()
    }

    /// Can a path in this module begin so? With a crate, a module of this one, a name that a `use` gives to such, or a type.
    fn begins(&self, module: &[String], name: &str) -> bool {
        let krate = &module[0];
        let child = |n: &str| {
            let deeper = |m: &Vec<String>| m.len() > module.len() && m.starts_with(module) && m[module.len()] == n;
            self.source.items.iter().map(|i| &i.module).chain(self.source.uses.keys()).any(deeper)
        };
        let a_module = |n: &str| child(n) || self.source.crates.contains(n);
        ["crate", "self", "super"].contains(&name) || self.meant(name).iter().any(|n| a_module(n)) || !self.types(krate, name).is_empty()
    }

    /// Does a path in this module lead to an item, or to a variant of an enum?
    fn leads(&self, module: &[String], path: &[String]) -> bool {
        let krate = &module[0];
        let last = &path[path.len() - 1];
        let variant = |i: &usize| self.source.items[*i].what == What::Enum && self.source.items[*i].tokens.iter().any(|t| t.is(last));
        match path {
            [name] => !self.items(krate, name).is_empty(),
            [first, .., of, _] | [first @ of, _] => {
                let constant = PRIMITIVES.contains(&first.as_str()) && path.len() == 2 && CONSTANTS.contains(&last.as_str());
                constant || (self.begins(module, first) && (!self.items(krate, last).is_empty() || self.types(krate, of).iter().any(variant)))
            }
            [] => false,
        }
    }

    /// Does a `use` bring what is in the source?
    fn brings(&self, module: &[String], path: &[String]) -> bool {
        let last = path.iter().rfind(|part| *part != "self").map_or("", String::as_str);
        let a_module = self.modules.contains(last) || self.source.crates.contains(last);
        path.first().is_some_and(|first| self.begins(module, first)) && (a_module || !self.items(&module[0], last).is_empty())
    }
}

fn text(tokens: &[Token]) -> String {
    tokens.iter().map(|t| t.text.as_str()).collect::<Vec<_>>().join(" ")
}

// ---- an item

/// What an item holds or names: the items that it leads to, and what is found in it.
struct Look<'a> {
    names: &'a Names<'a>,
    item: &'a Item,
    /// Where the body of a function begins. Before it stand types, and so they do in other items: nothing is indexed there but arrays.
    body: usize,
    leads: Vec<usize>,
    findings: Vec<Finding>,
}

impl<'a> Look<'a> {
    fn at(names: &'a Names<'a>, item: &'a Item) -> Look<'a> {
        let begins = item.tokens.iter().position(|t| item.what == What::Function && t.is("{"));
        let body = begins.unwrap_or(item.tokens.len());
        Look { names, item, body, leads: Vec::new(), findings: Vec::new() }
    }

    fn krate(&self) -> &'a str {
        &self.item.module[0]
    }

    /// The token so many places before one, if there is one.
    fn before(&self, at: usize, places: usize) -> Option<&'a Token> {
        at.checked_sub(places).map(|i| &self.item.tokens[i])
    }

    /// Notes a finding; gives the place after it.
    fn find(&mut self, why: Why, at: usize, said: String) -> usize {
        let line = self.item.tokens[at].line;
        self.findings.push(Finding { why, item: self.item.path(), said: format!("{}:{line}: {}: {said}", self.item.file, self.item.path()) });
        at + 1
    }

    /// Is the bracket at `at` that of an index? Only in a body, behind a value.
    fn indexes(&self, at: usize) -> bool {
        at > self.body && self.before(at, 1).is_some_and(|t| t.named() || t.is(")"))
    }

    /// Is it the bracket of a part that is lent, `&[u8]`? Only among types, with one type in it, behind a reference.
    fn lent_part(&self, at: usize, inside: &[Token]) -> bool {
        let lent = self.before(at, 1).is_some_and(|t| t.is("&") || t.is("&&") || t.is("mut") || t.kind == Kind::Lifetime);
        let a_type = match inside {
            [.., last] if inside.iter().all(|t| t.kind == Kind::Word || t.is("::")) => {
                PRIMITIVES.contains(&last.text.as_str()) || !self.names.types(self.krate(), &last.text).is_empty()
            }
            _ => false,
        };
        at < self.body && lent && a_type
    }

    /// A bracket; what is no index, no part that is lent and not the record's counters is an array. Gives the place after it.
    fn bracket(&mut self, at: usize) -> usize {
        let tokens = &self.item.tokens;
        let end = closed(tokens, at);
        let counters = self.item.path() == RECORD && text(&tokens[at.saturating_sub(2)..end]) == COUNTERS_TYPE;
        let counters = counters && self.names.items(self.krate(), "u32").is_empty();
        if !self.indexes(at) && !self.lent_part(at, &tokens[at + 1..end - 1]) && !counters {
            let said = format!("an array: {}", text(&tokens[at..end]));
            self.find(Why::Array, at, said);
        }
        at + 1
    }

    /// The record's counters in a function: one of them, and read, `b.counters[i]` before what ends or converts a value.
    fn counters(&mut self, at: usize) {
        let tokens = &self.item.tokens;
        let end = closed(tokens, at + 1);
        let one = tokens.get(at + 1).is_some_and(|t| t.is("[")) && !tokens[at + 1..end].iter().any(|t| t.is(".."));
        let read = tokens.get(end).is_some_and(|t| [")", ",", ";", "as"].iter().any(|m| t.is(m)));
        let lent = self.before(at, 3).is_some_and(|t| t.is("&") || t.is("mut"));
        if !(one && read && !lent) {
            self.find(Why::Array, at, "an array: the record's counters, and not one that is read".to_string());
        }
    }

    /// The path that begins at `at`; gives the place after it.
    fn name(&mut self, at: usize) -> usize {
        let tokens = &self.item.tokens;
        let mut end = at + 1;
        while tokens.get(end).is_some_and(|t| t.is("::")) && tokens.get(end + 1).is_some_and(|t| t.kind == Kind::Word) {
            end += 2;
        }
        let own_type = |name: &str| self.item.method_of.clone().filter(|_| name == "Self");
        let path: Vec<String> = tokens[at..end].iter().filter(|t| !t.is("::")).map(|t| own_type(&t.text).unwrap_or(t.text.clone())).collect();
        let called = tokens.get(end).is_some_and(|t| t.is("(") || t.is("!") || t.is("::"));
        let capital = path[0].starts_with(char::is_uppercase);
        let front = self.before(at, 1).is_some_and(|t| t.is("::"));
        let variant = path.len() == 1 && VARIANTS.contains(&path[0].as_str()) && self.names.items(self.krate(), &path[0]).is_empty();
        let led = (variant || self.names.leads(&self.item.module, &path)) && !front;
        self.leads.extend(path.iter().flat_map(|name| self.names.items(&self.item.module[0], name)));
        // a single small name that is not called may be a local, a parameter, a field
        if !led && (called || capital || front || path.len() > 1) {
            self.find(Why::NotFollowed, at, format!("not followed: {}", path.join("::")));
        }
        end
    }

    /// What stands behind a point: a field, or a method that is called; gives the place after it.
    fn member(&mut self, at: usize) -> usize {
        let tokens = &self.item.tokens;
        let name = tokens[at].text.clone();
        if tokens.get(at + 1).is_some_and(|t| t.is("(") || t.is("::")) {
            let methods = self.names.items(self.krate(), &name);
            if methods.is_empty() && !METHODS.contains(&name.as_str()) {
                self.find(Why::NotFollowed, at, format!("not followed: the method {name}"));
            }
            self.leads.extend(methods);
        }
        at + 1
    }

    /// Is the name at `at` the item's own: a field of a struct, or a variant of an enum, `depth` brackets inside it?
    fn own(&self, at: usize, depth: usize) -> bool {
        let field = self.item.tokens.get(at + 1).is_some_and(|t| t.is(":"));
        let variant = self.item.what == What::Enum && depth == 1 && self.before(at, 1).is_some_and(|t| t.is("{") || t.is(",") || t.is("]"));
        matches!(self.item.what, What::Struct | What::Enum) && (field || variant)
    }

    fn whole(&mut self) {
        let tokens = &self.item.tokens;
        let (mut at, mut depth) = (1, 0);
        while at < tokens.len() {
            let t = &tokens[at];
            depth += usize::from(["(", "[", "{"].iter().any(|m| t.is(m)));
            depth -= usize::from([")", "]", "}"].iter().any(|m| t.is(m)));
            if self.item.what == What::Function && t.is(COUNTERS) {
                self.counters(at);
            }
            let path = ["crate", "super", "self"].iter().any(|w| t.is(w)) && tokens.get(at + 1).is_some_and(|n| n.is("::"));
            at = match t.kind {
                Kind::Mark if t.is("#") && self.item.what != What::Function => closed(tokens, at + 1),
                Kind::Mark if t.is("#") => self.find(Why::NotFollowed, at, "not followed: an attribute".to_string()),
                Kind::Mark if t.is("[") => self.bracket(at),
                Kind::Text => self.find(Why::ConstantOfBytes, at, format!("a constant of bytes: {}", t.text)),
                Kind::Word if OUTSIDE.iter().any(|w| t.is(w)) => self.find(Why::NotFollowed, at, format!("not followed: {} in it", t.text)),
                Kind::Word if self.before(at, 1).is_some_and(|t| t.is(".")) => self.member(at),
                Kind::Word if (t.named() || path) && !self.own(at, depth) => self.name(at),
                _ => at + 1,
            };
        }
    }
}

// ---- all of them

/// What these crates have that the source has not: crates below them, what a `use` brings, and files that were not read.
fn astray(names: &Names, crates: &BTreeSet<&String>) -> Vec<Finding> {
    let source = names.source;
    let alone = crates.iter().filter(|c| !source.crates.contains(**c)).map(|c| (vec![c.to_string()], format!("{c}: a crate without source")));
    let uses = source.uses.iter().filter(|u| crates.contains(&u.0[0])).flat_map(|(module, uses)| uses.iter().map(move |u| (module, u)));
    let brought = uses.filter(|(module, u)| !names.brings(module, &u.path)).map(|(m, u)| (m.clone(), format!("use {}", u.path.join("::"))));
    let unread = source.unread.iter().filter(|u| crates.contains(&u.0[0])).map(|(module, said)| (module.clone(), said.clone()));
    let finding =
        |(module, said): (Vec<String>, String)| Finding { why: Why::NotFollowed, item: module.join("::"), said: format!("not followed: {said}") };
    alone.chain(brought).chain(unread).map(finding).collect()
}

/// Everything that the roots call, name or are given, and what is found there.
pub fn reach(source: &Source, roots: &[&str]) -> Reached {
    let names = Names::of(source);
    let mut reached = Reached::default();
    let mut open: Vec<usize> = (0..source.items.len()).filter(|&i| roots.contains(&source.items[i].path().as_str())).collect();
    let mut seen: BTreeSet<usize> = open.iter().copied().collect();
    let mut crates: BTreeSet<&String> = BTreeSet::new();
    while let Some(i) = open.pop() {
        let item = &source.items[i];
        reached.items.insert(item.path());
        if item.what == What::Function {
            reached.functions.insert(item.path());
        }
        let mut look = Look::at(&names, item);
        look.whole();
        reached.findings.extend(look.findings);
        open.extend(look.leads.into_iter().filter(|&j| seen.insert(j)));
        crates.insert(&item.module[0]);
    }
    let below: BTreeSet<&String> = crates.into_iter().filter_map(|c| source.below.get(c)).flatten().collect();
    reached.findings.extend(astray(&names, &below));
    reached
}
