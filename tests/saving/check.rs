//! Saving holds no array of bytes (spec 9.9): a test of the source of everything that it calls, names and is given, tried on copies of the source
//! that it must turn down and on others that it must pass; and the compiler's own account of the same functions.
//! check ROOT ACCOUNT: the repository, and the file that tools/account.sh wrote.

mod copies;
mod lowered;
mod reach;
mod source;

use copies::{changed, Copy, RIGHT, WRONG};
use lowered::Program;
use reach::{reach, Reached};
use source::Source;
use std::collections::BTreeMap;

/// The saving from C, and the one by value.
const ROOTS: [&str; 2] = ["saltdelta_c::saltdelta_save", "image::save"];

/// What the saving from C only calls. The account is of libraries, so it begins here.
const FIRST_CALLED: &str = "saltdelta::saltdelta_save";

/// What saving is made of, at the least.
const EXPECTED: [&str; 7] = [
    "saltdelta_c::saltdelta_save",
    FIRST_CALLED,
    "image::save",
    "imagefields::put_field",
    "rules::refusal_number",
    "rules::Board",
    "rules::IMAGE_LENGTH",
];

#[derive(Default)]
struct Tally {
    passed: usize,
    failed: usize,
}

impl Tally {
    fn expect(&mut self, right: bool, said: impl FnOnce() -> String) {
        if right {
            self.passed += 1;
        } else {
            self.failed += 1;
            println!("{}", said());
        }
    }
}

fn looked_at(texts: &BTreeMap<String, String>) -> Reached {
    reach(&Source::of(texts), &ROOTS)
}

/// The source as it stands: an item passes where nothing is found in it.
fn stands(tally: &mut Tally, reached: &Reached) {
    println!("saving calls, names and is given: {}", reached.items.iter().cloned().collect::<Vec<_>>().join(", "));
    for finding in &reached.findings {
        println!("{}", finding.said);
    }
    for item in &reached.items {
        tally.expect(reached.findings.iter().all(|f| &f.item != item), || format!("{item}: not as saving should be"));
    }
    tally.expect(reached.findings.is_empty(), || "something was found".to_string());
    for name in EXPECTED {
        tally.expect(reached.items.contains(name), || format!("{name} is not reached"));
    }
}

/// A wrong copy is turned down in the item and for the reason that it names; in a right one nothing is found.
fn tried(tally: &mut Tally, texts: &BTreeMap<String, String>, copy: &Copy) {
    let Some(changed) = changed(texts, copy) else {
        return tally.expect(false, || format!("copy '{}': a text that it changes does not stand there once", copy.name));
    };
    let found = looked_at(&changed).findings;
    let right = match copy.found {
        Some((why, item)) => found.iter().any(|f| f.why == why && f.item == item),
        None => found.is_empty(),
    };
    tally.expect(right, || format!("copy '{}': {:?} is to be found, and this is: {found:?}", copy.name, copy.found));
}

/// The functions in which the compiler's account has an array, or that the source test has not reached.
fn other_account(account: &str, reached: &Reached) -> Vec<String> {
    let program = Program::of(account);
    program.called(FIRST_CALLED).into_iter().filter(|name| !reached.functions.contains(name) || !program.holds_no_array(name)).collect()
}

fn accounts(tally: &mut Tally, account: &str, reached: &Reached) {
    let other = other_account(account, reached);
    tally.expect(other.is_empty(), || format!("the compiler has an array, or what the test of the source has not reached: {other:?}"));
    for (name, old, new) in lowered::WRONG {
        let wrong = account.replace(old, new);
        tally.expect(wrong != account && !other_account(&wrong, reached).is_empty(), || format!("the wrong account '{name}' is not turned down"));
    }
}

fn main() -> std::io::Result<()> {
    let words: Vec<String> = std::env::args().collect();
    let texts = source::files(words[1].as_ref())?;
    let mut tally = Tally::default();
    let reached = looked_at(&texts);
    stands(&mut tally, &reached);
    for copy in WRONG.iter().chain(RIGHT) {
        tried(&mut tally, &texts, copy);
    }
    println!("copies of the source: {} wrong ones, {} right ones", WRONG.len(), RIGHT.len());
    accounts(&mut tally, &std::fs::read_to_string(&words[2])?, &reached);
    println!("{} passed, {} failed", tally.passed, tally.failed);
    std::process::exit(i32::from(tally.failed > 0));
}
