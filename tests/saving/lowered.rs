//! The compiler's account of the functions, as tools/account.sh prints it: their locals with their types, and their calls. A constant that the compiler
//! puts in as a number does not show there.

use std::collections::{BTreeMap, BTreeSet};

/// What stands behind a function's name where its account begins.
const HEAD: &str = "\",{\"lifetimes\":";

/// The record's declaration, whose counters are the one array that may stand in a function's account.
const RECORD: &str = "{\"name\":\"rules::Board\",";
const COUNTERS: &str = "{\"Array\":[{\"Int\":32},{\"Lit\":9}]}";
const ARRAY: &str = "\"Array";
const CALLED: &str = "\"Fn\":[\"";

pub struct Program {
    functions: BTreeMap<String, String>,
}

impl Program {
    pub fn of(text: &str) -> Program {
        let parts: Vec<&str> = text.split(HEAD).collect();
        let name = |front: &str| front.rsplit_once('"').map(|(_, name)| name.to_string());
        Program { functions: parts.windows(2).filter_map(|two| Some((name(two[0])?, two[1].to_string()))).collect() }
    }

    /// A function and all that it calls, and what that calls.
    pub fn called(&self, root: &str) -> BTreeSet<String> {
        let (mut found, mut open) = (BTreeSet::new(), vec![root.to_string()]);
        while let Some(name) = open.pop() {
            let body = self.functions.get(&name).map_or("", String::as_str);
            open.extend(body.split(CALLED).skip(1).filter_map(|part| part.split('"').next()).map(str::to_string).filter(|n| !found.contains(n)));
            found.insert(name);
        }
        found
    }

    /// No local of it is an array, nor has one in it, but for the record's counters in the record.
    pub fn holds_no_array(&self, name: &str) -> bool {
        let Some(body) = self.functions.get(name) else { return false };
        let mut parts = body.split(RECORD);
        let front = parts.next().unwrap_or("");
        !front.contains(ARRAY) && parts.all(|part| !part.replacen(COUNTERS, "", 1).contains(ARRAY))
    }
}

/// Wrong accounts: a text of the right one, and the text in its place wherever it stands, so in the functions of saving too.
pub const WRONG: [(&str, &str, &str); 4] = [
    (
        "a local array",
        "[\"imagefields::put_field\",{\"lifetimes\":",
        "[\"imagefields::put_field\",{\"lifetimes\":0,\"locals\":[{\"ty\":{\"Array\":[{\"Int\":8},{\"Lit\":1}]},\"home\":\"ValueLocal\"}],\"then\":",
    ),
    ("an array beside the record's", COUNTERS, "{\"Array\":[{\"Int\":32},{\"Lit\":9}]},{\"Array\":[{\"Int\":8},{\"Lit\":1}]}"),
    (
        "a call that the source does not have",
        "[\"imagefields::put_field\",{\"lifetimes\":",
        "[\"imagefields::bytes\",{\"lifetimes\":0}],[\"imagefields::put_field\",{\"lifetimes\":0,\"call\":{\"Fn\":[\"imagefields::bytes\"]},\"then\":",
    ),
    ("no account of a function", "[\"imagefields::put_field\",{\"lifetimes\":", "[\"imagefields::other\",{\"lifetimes\":"),
];
