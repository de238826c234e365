//! The library from Rust: target/staticlib/libsaltdelta.a against the comparison program, the same calls to both.
//!
//! - The calls are made from fixed seeds. Every other step is an explained one, on the same record.
//! - Every call's number, and all memory lent to it, must be the comparison program's. Of what is lent to a refused
//!   call every byte must stay, padding included.
//! - An image carried over and back must be what it was.
//!
//! The last line is 'N passed, M failed', in cases. A case is some calls, up to some seven hundred, which all agree or
//! not; or something that is to be reached a hundred times.

mod agree;
mod any_steps;
mod buffers;
mod carries;
#[allow(dead_code)]
#[path = "../../comparison/board.rs"]
mod comparison;
mod droops;
#[path = "../compare/edges.rs"]
mod edges;
mod lent;
#[allow(dead_code)]
#[path = "../../include/saltdelta.rs"]
mod library;
mod logs;
mod made;
mod ramps;
mod read_sheets;
mod recoveries;
mod replays;
mod rule_names;
mod rule_steps;
mod tally;
mod types;

use agree::*;
use any_steps::*;
use buffers::*;
use carries::*;
use comparison as other;
use droops::{Drooping, Droops};
use edges::{Edges, LIMITS, Step};
use lent::*;
use library::{Board, Explained, Limit, Point, Replayed, Report, Settings, Sheet, Span};
use made::*;
use read_sheets::*;
use recoveries::*;
use replays::*;
use rule_names::*;
use rule_steps::*;
use tally::Tally;
use types::*;

/// The top of the recovery count.
const RECOVERY_TOP: u8 = 40;
/// The bytes of an image, and of one of the old firmware.
const IMAGE: usize = 49;
const OLD_IMAGE: usize = 45;
/// What an image that can be carried back has behind an old one: recovery, side and held power.
const END: [u8; IMAGE - OLD_IMAGE] = [RECOVERY_TOP, 0, 0, 0];

fn main() {
    let mut tally = Tally::default();
    let mut seen = [0; 10];
    boards(&mut tally, &mut Dice(1_547_2018), &mut seen);
    println!("boards: 1000 from fresh, 150 steps and a saving each; statuses reported {:?}", &seen[..6]);
    tally.recoveries(FROM_FRESH);
    let mut seen = [0; 10];
    steps(&mut tally, &mut Dice(20_260_101), &mut seen);
    println!("steps: numbers answered {:?}", &seen[..9]);
    lent_recoveries(&mut tally, &mut Dice(40));
    println!("steps: these, and 20000 of records with low counters:");
    tally.recoveries(RECOVERIES.len());
    status_rules(&mut tally, &mut Dice(86));
    watts_rules(&mut tally, &mut Dice(88));
    far_outside(&mut tally, &mut Dice(5_762));
    println!("droop: boards from fresh, and lent records in events, at their ends and at returns, these and all steps before:");
    droops::walks(&mut tally, &mut Dice(59_964));
    droops::events(&mut tally, &mut Dice(60_036));
    droops::returns(&mut tally, &mut Dice(30_000));
    droops::powers(&mut tally, &mut Dice(8));
    std::mem::take(&mut tally.droops).print(&mut tally);
    println!("explained steps: every other of these, lent records for the rules, and 12800 with edges of the frequency:");
    std::mem::take(&mut tally.rules).print(&mut tally);
    println!("steps at the edges of the frequency's regions, all of these:");
    let edges = std::mem::take(&mut tally.edges);
    for (name, count) in edges.things().into_iter().chain(edges.run_out()) {
        tally.reached("frequency:", &name, count as u64);
    }
    println!("ramps at the ends of their row and outside it, 120 times each:");
    ramps::ends(&mut tally, &mut Dice(60_000));
    ramps::come_apart(&mut tally, &mut Dice(5));
    ramps::stay_together(&mut tally, &mut Dice(4));
    let mut seen = [0; 10];
    saves(&mut tally, &mut Dice(45), &mut seen);
    println!("saves: {} written, {} refused with 9", seen[0], seen[9]);
    logs::savings(&mut tally, &mut Dice(16_049));
    let mut seen = [0; 10];
    sheets(&mut tally, &mut Dice(13), &mut seen);
    println!("sheets: numbers answered {:?}", &seen[..4]);
    let mut seen = [0; 10];
    let (statuses, ends) = replays(&mut tally, &mut Dice(7), &mut seen);
    println!("replays: numbers answered {:?}, statuses at the end {:?}", seen, statuses);
    for ((name, _), count) in ENDS.into_iter().zip(ends) {
        tally.reached("recovery", name, count);
    }
    droops::replays(&mut tally, &mut Dice(6));
    replays_into(&mut tally, &mut Dice(49));
    carries(&mut tally, &mut Dice(4_546));
    long_carries(&mut tally, &mut Dice(65_581));
    let (old_new_old, new_old_new) = round_trips(&mut tally, &mut Dice(4_645));
    println!("images carried over: sources and targets of 0 to {LONGEST} bytes, every value of each byte at the end, there and back:");
    for ((name, _), count) in CARRYINGS.into_iter().zip(tally.carryings) {
        tally.reached("carrying", name, count);
    }
    tally.reached("carrying", "old to new to old", old_new_old);
    tally.reached("carrying", "new to old to new", new_old_new);
    println!("calls: {}, {} of them differ", tally.calls, tally.differ);
    println!("{} passed, {} failed", tally.passed, tally.failed);
    if tally.failed > 0 {
        std::process::exit(1);
    }
}
