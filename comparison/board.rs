//! The comparison program: the job of `board` (docs/SPECIFICATION.md) once more, to be held against the proved one. No
//! code is shared.
//!
//! Who wrote it from what. It was first written from document 01, the paper that the board was ordered by, by a hand
//! that had not seen the proved code, its definitions or its design. Later hands amended it from requests 1 to 7 of
//! document 02, one at a time. Each worked from this program, document 01 and the requests up to its own. Most had a
//! list of what to test; those of requests 2, 3 and 6 also had the interface that the tests call. Some things they were
//! told beside the papers. Request 1: a summary, with one reading that the papers do not state, that the watts of a
//! step are limited by the recovery count after it. Request 2: which lengths of an image are wrong, where the result
//! stands, and that the bytes behind it stay. Request 3: the numbers of the rules, that a limit's place is 1 to 8 or 0,
//! and that a refused step has no rules. Request 6: where side and held power stand, and the number of droop's rule.
//! Request 7: that its saving might hold bytes between record and buffer. On these points agreement is no evidence. In
//! the code "Told:" marks such a point, and "Decision:" one that the papers leave open and a hand decided.
//!
//!     rustc -O --edition 2021 board.rs            the program `board`
//!     rustc -O --edition 2021 --test board.rs     its tests
//!
//! Each file beside this one has one part of the job; tests/ has their tests. Units: spec 1.2.

#![forbid(unsafe_code)]

mod calls;
mod carry;
mod image;
mod program;
mod records;
mod rules;
mod sensing;
mod sheet;
mod step;
#[cfg(test)]
mod tests;

#[allow(unused_imports)] // who links this file in calls some of them
pub use self::{
    calls::run_calls,
    carry::{carry_back, carry_forward, OLD_IMAGE_SIZE},
    image::{save, IMAGE_SIZE},
    program::run,
    records::*,
    rules::{fresh_rules, step_explained},
    sheet::{default_settings, read_sheet, DEFAULT_SHEET},
    step::{fresh, fresh_report, step},
};

use program::INPUT_END;
use std::env;
use std::fs::File;
use std::io::{self, Read};
use std::os::fd::AsFd;
use std::process::ExitCode;

/// Decision: the paper names no exit status. It is 0, for a refused sheet too; after a
/// write error it is 1, since the output is not whole.
fn main() -> ExitCode {
    let input = io::stdin().lock();
    // A file of the same description: unlike `Stdout` it does not hide any write error.
    let Ok(output) = io::stdout().as_fd().try_clone_to_owned().map(File::from) else {
        return ExitCode::FAILURE;
    };
    let calls = env::args_os().nth(1).is_some_and(|argument| argument == "calls");
    let done = if calls { run_calls(input, output) } else { run(input.take(INPUT_END), output) };
    match done {
        Ok(()) => ExitCode::SUCCESS,
        Err(_) => ExitCode::FAILURE,
    }
}
