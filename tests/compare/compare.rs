//! Holds a `board` program against the comparison program, byte for byte, on made inputs.
//!
//!     rustc -O --edition 2021 compare.rs
//!     compare PROGRAM FOLDER [KIND]
//!
//! The comparison program, `comparison/board.rs`, is linked in; PROGRAM is started anew for every input. The input of the first difference
//! is kept in FOLDER with what each wrote. Seeds are fixed: every run makes the same inputs. With KIND, only inputs of that kind.
//! The last line is 'N passed, M failed': an input on which both agree is a pass, and so is each thing reached often enough; a difference is a
//! failure, and so is a pair of inputs (pairs.rs) that does not part as it should.

#[allow(dead_code)]
#[path = "../../comparison/board.rs"]
mod board;
#[path = "damage.rs"]
mod damage;
#[path = "draw.rs"]
mod draw;
#[path = "droop.rs"]
mod droop;
#[path = "edges.rs"]
mod edges;
#[path = "events.rs"]
mod events;
#[path = "feed.rs"]
mod feed;
#[path = "pairs.rs"]
mod pairs;
#[path = "runs.rs"]
mod runs;

use edges::{Edges, Step};
use events::{Events, Shown};
use feed::Feed;
use pairs::Pairs;
use std::env;
use std::fs;
use std::process::{ExitCode, ExitStatus};
use std::time::Instant;

/// One input: its kind, its name within the kind, its bytes and how they reach the program.
pub struct Input {
    kind: &'static str,
    name: String,
    bytes: Vec<u8>,
    feed: Feed,
}

impl Input {
    pub fn new(kind: &'static str, name: String, bytes: Vec<u8>) -> Input {
        Input { kind, name, bytes, feed: Feed::Whole }
    }

    pub fn fed(kind: &'static str, name: String, bytes: Vec<u8>, feed: Feed) -> Input {
        Input { kind, name, bytes, feed }
    }
}

/// Where makers of inputs put them.
pub type Sink<'a> = &'a mut dyn FnMut(Input);

/// The kinds of inputs, quick ones first.
const MAKERS: [fn(Sink); 28] = [
    runs::sample_numbers,
    runs::bands,
    runs::curves,
    damage::sheet_bytes,
    damage::sheet_numbers,
    damage::ramp_lengths,
    damage::not_rising,
    damage::sheet_lines,
    damage::sample_bytes,
    damage::sample_lines,
    damage::noise,
    runs::waits,
    runs::recoveries,
    runs::drawn,
    damage::pipe_cuts,
    damage::pipe_blocks,
    damage::long_lines,
    runs::far_outside,
    droop::points,
    droop::walks,
    droop::returns,
    droop::cessations,
    droop::trips,
    droop::powers,
    pairs::told,
    pairs::together,
    runs::ramps,
    runs::clearing,
];

const INPUTS_AT_LEAST: usize = 3000;
const REACHED_AT_LEAST: usize = 100;
/// After so many runs that a signal ended, the program's own or that of the watch over long runs, no more are begun.
const SIGNALS_AT_MOST: usize = 3;
const BITS: [&str; 9] = ["uv1", "uv2", "ov1", "ov2", "uf1", "uf2", "of1", "of2", "ready"];

/// What a report line says; of vars the size.
#[derive(Clone, Copy)]
struct Said {
    status: u8,
    bits: u16,
    share: usize,
    recovery: usize,
    side: usize,
    held: usize,
    watts: usize,
    vars: usize,
}

const FRESH: Said = Said { status: board::TRIPPED, bits: 0, share: 0, recovery: 40, side: 0, held: 0, watts: 0, vars: 0 };

impl Said {
    fn in_service(self) -> bool {
        self.status != board::TRIPPED
    }

    fn ceased(self) -> bool {
        [board::MOMENTARY, board::CEASE].contains(&self.status)
    }

    fn shown(self) -> Shown {
        let [share, recovery, held, watts, vars] = [self.share, self.recovery, self.held, self.watts, self.vars].map(|number| number as i64);
        Shown { status: self.status, share, recovery, side: self.side as u8, held, watts, vars }
    }
}

/// In service before, in the status now, and the recovery one more.
fn up(before: Said, now: Said, status: u8) -> bool {
    before.in_service() && now.status == status && now.recovery == before.recovery + 1
}

/// In service before, in the status now, and the recovery from above 0 to 0.
fn back(before: Said, now: Said, status: u8) -> bool {
    before.in_service() && now.status == status && before.recovery > 0 && now.recovery == 0
}

/// The ways in which the recovery moves, and that it limits the watts: each told from a report and the one before it.
const RECOVERIES: [(&str, fn(Said, Said) -> bool); 11] = [
    ("to 0 by momentary", |before, now| back(before, now, board::MOMENTARY)),
    ("to 0 by cease", |before, now| back(before, now, board::CEASE)),
    ("to 0 from 1 to 39", |before, now| now.ceased() && (1..40).contains(&before.recovery) && now.recovery == 0),
    ("held at 0", |before, now| now.ceased() && before.recovery == 0 && now.recovery == 0),
    ("up in entering", |before, now| up(before, now, board::ENTERING)),
    ("up in continuous", |before, now| up(before, now, board::CONTINUOUS)),
    ("up in mandatory", |before, now| up(before, now, board::MANDATORY)),
    ("held at 40", |before, now| before.in_service() && now.in_service() && before.recovery == 40 && now.recovery == 40),
    ("to 40 by a trip", |before, now| before.in_service() && !now.in_service() && before.recovery < 40 && now.recovery == 40),
    ("40 at a return", |before, now| !before.in_service() && now.in_service() && now.recovery == 40),
    ("limits the watts", |_, now| now.recovery < 40 && now.watts > 0 && now.watts == 250 * now.recovery),
];

/// Ramp lengths that are taken, and that are refused with 2 at line 11: each told from the length and what the input was answered first.
const RAMPS: [(&str, fn(usize, &[u8]) -> bool); 6] = [
    ("ramp of 99 refused", |ramp, said| ramp == 99 && said == RAMP_REFUSED),
    ("ramp of 100 taken", |ramp, said| ramp == 100 && said.starts_with(b"(report")),
    ("ramp of 60000 taken", |ramp, said| ramp == 60000 && said.starts_with(b"(report")),
    ("ramp of 60001 refused", |ramp, said| ramp == 60001 && said == RAMP_REFUSED),
    ("ramp of 60002 to 100000 refused", |ramp, said| (60002..=100000).contains(&ramp) && said == RAMP_REFUSED),
    ("ramp above 100000 refused", |ramp, said| ramp > 100000 && said == RAMP_REFUSED),
];
const RAMP_REFUSED: &[u8] = b"(refused 2 11)";

/// The ramp length in an input's line 11, where two numbers can be read there and the wait is within its row.
fn ramp_of(input: &[u8]) -> Option<usize> {
    let line = std::str::from_utf8(input.split(|&byte| byte == b'\n').nth(10)?).ok()?;
    let (wait, ramp) = line.strip_prefix("(enter (wait ")?.strip_suffix("))")?.split_once(' ')?;
    let wait: usize = wait.parse().ok()?;
    ramp.parse().ok().filter(|_| wait <= 60000)
}

/// The power of the watt curve's first point, in an input's line 13 where it can be read there; or 0.
fn curve_of(input: &[u8]) -> i64 {
    let power = || -> Option<i64> {
        let line = std::str::from_utf8(input.split(|&byte| byte == b'\n').nth(12)?).ok()?;
        line.strip_prefix("(watt (")?.split_once(')')?.0.split_once(' ')?.1.parse().ok()
    };
    power().unwrap_or(0)
}

/// The number that the digits of a report line's word make, of vars the size; 0 where there is no such word.
fn size(words: &[&[u8]], place: usize) -> usize {
    let word = words.get(place).copied().unwrap_or_default();
    word.iter().filter(|byte| byte.is_ascii_digit()).fold(0, |number, digit| number * 10 + usize::from(digit - b'0'))
}

/// A number of a report line.
fn number(word: &[u8]) -> usize {
    std::str::from_utf8(word).ok().and_then(|digits| digits.parse().ok()).expect("a number")
}

/// The numbers of an accepted sample's line.
fn numbers(line: &[u8]) -> Vec<u32> {
    line.split(|byte| !byte.is_ascii_digit()).filter(|word| !word.is_empty()).map(|word| number(word) as u32).collect()
}

/// What the inputs reached, counted in what both programs wrote, at the edges of the frequency's regions and in droop events by the samples too.
#[derive(Default)]
struct Reached {
    kinds: Vec<(&'static str, usize)>,
    inputs: usize,
    bytes: usize,
    statuses: [usize; 6],
    refusals: [usize; 21],
    bits: [usize; 9],
    recoveries: [usize; RECOVERIES.len()],
    ramps: [usize; RAMPS.len()],
    edges: Edges,
    events: Events,
    pairs: Pairs,
}

impl Reached {
    fn input(&mut self, input: &Input) {
        match self.kinds.iter_mut().find(|(kind, _)| *kind == input.kind) {
            Some((_, count)) => *count += 1,
            None => self.kinds.push((input.kind, 1)),
        }
        self.inputs += 1;
        self.bytes += input.bytes.len();
    }

    /// What an input's lines after the sheet were answered, one each; a refused sheet has one answer.
    fn output(&mut self, input: &[u8], output: &[u8]) {
        if let (Some(ramp), Some(said)) = (ramp_of(input), output.split(|&byte| byte == b'\n').next()) {
            for (count, (_, shown)) in self.ramps.iter_mut().zip(RAMPS) {
                *count += usize::from(shown(ramp, said));
            }
        }
        let curve = curve_of(input);
        self.events.fresh();
        let (mut before, mut sample_before, mut refused) = (FRESH, vec![0; 7], false);
        let samples = input.split(|&byte| byte == b'\n').skip(13).chain(std::iter::repeat(&b""[..]));
        for (line, sample) in output.split(|&byte| byte == b'\n').filter(|line| !line.is_empty()).zip(samples) {
            let words: Vec<&[u8]> = line.split(|&byte| byte == b' ').collect();
            if words[0] == b"(refused" {
                self.refusals[number(words[1])] += 1;
                refused = true;
                continue;
            }
            let status = board::STATUS_WORDS.iter().position(|word| word.as_bytes() == words[1]).expect("a status word");
            self.statuses[status] += 1;
            for (count, &bit) in self.bits.iter_mut().zip(words[2]) {
                *count += usize::from(bit == b'1');
            }
            let bits = words[2].iter().fold(0, |bits, &bit| 2 * bits + u16::from(bit == b'1'));
            let [share, side, held, watts, vars] = [3, 5, 6, 7, 8].map(|place| size(&words, place));
            let now = Said { status: status as u8, bits, share, recovery: number(words[4]), side, held, watts, vars };
            let sample = numbers(sample);
            for (count, (_, shown)) in self.recoveries.iter_mut().zip(RECOVERIES) {
                *count += usize::from(shown(before, now));
            }
            self.edges.count(&Step {
                sample: &sample,
                service: [before, now].map(Said::in_service),
                recovery: [before, now].map(|said| said.recovery as u8),
                bits: [before.bits, now.bits],
                status: now.status,
            });
            self.events.count(&events::Step {
                sample: &sample,
                sample_before: &sample_before,
                before: before.shown(),
                now: now.shown(),
                refused,
                curve,
            });
            (before, sample_before, refused) = (now, sample, false);
        }
    }

    /// Each thing to be reached, with its count.
    fn things(&self) -> Vec<(String, usize)> {
        let named = |names: &[&str], counts: &[usize]| -> Vec<(String, usize)> {
            names.iter().map(|name| name.to_string()).zip(counts.iter().copied()).collect()
        };
        let mut things = named(&board::STATUS_WORDS, &self.statuses);
        things.extend((1..=8).map(|number| (format!("refused {number}"), self.refusals[number])));
        things.extend(named(&BITS, &self.bits).into_iter().map(|(name, count)| (format!("bit {name}"), count)));
        things.extend(RECOVERIES.iter().zip(self.recoveries).map(|((name, _), count)| (format!("recovery {name}"), count)));
        things.extend(RAMPS.iter().zip(self.ramps).map(|((name, _), count)| (name.to_string(), count)));
        things.extend(self.pairs.things());
        things.extend(self.edges.things());
        things.extend(self.events.things());
        // The clearing times of uf1 and of1 are too long to be run out so often; tests/library/ does it on lent records.
        things.extend(self.edges.run_out().into_iter().filter(|(name, _)| !name.starts_with("uf1") && !name.starts_with("of1")));
        things
    }
}

/// The comparison's state: what is reached, what differs.
struct Comparison {
    program: String,
    folder: String,
    reached: Reached,
    differences: usize,
    wrong_pairs: usize,
    signals: usize,
}

impl Comparison {
    fn compare(&mut self, input: &Input) {
        if self.signals == SIGNALS_AT_MOST {
            return;
        }
        let mut expected = Vec::new();
        board::run(input.bytes.as_slice(), &mut expected).expect("a write to memory");
        let file = format!("{}/input", self.folder);
        let (got, status) = feed::run(&self.program, &input.bytes, &input.feed, &file);
        self.reached.input(input);
        self.see_pair(input, &expected);
        if got == expected && status.code().is_some() {
            self.reached.output(&input.bytes, &expected);
            return;
        }
        self.differences += 1;
        self.signals += usize::from(status.code().is_none());
        if self.differences == 1 {
            self.keep(input, &expected, &got, status);
        } else if self.differences < 10 {
            println!("difference: {}, {}", input.kind, input.name);
        }
    }

    /// With the second input of a pair: whether the two part as they should, by what the comparison program writes.
    fn see_pair(&mut self, input: &Input, expected: &[u8]) {
        if !self.reached.pairs.see(input, expected) {
            self.wrong_pairs += 1;
            if self.wrong_pairs < 10 {
                println!("a pair of ramp counts that parts too early or too late: {}, {}", input.kind, input.name);
            }
        }
    }

    /// Keeps the first difference and says where it is.
    fn keep(&self, input: &Input, expected: &[u8], got: &[u8], status: ExitStatus) {
        let kept = format!("{}/first-difference", self.folder);
        for (end, bytes) in [("in", input.bytes.as_slice()), ("expected", expected), ("got", got)] {
            fs::write(format!("{kept}.{end}"), bytes).expect("the first difference");
        }
        println!("first difference: {}, {} (the program ended with {status})", input.kind, input.name);
        println!("    kept in {kept}.in, .expected (the comparison program) and .got (the program)");
        let lines = |bytes: &[u8]| -> Vec<Vec<u8>> { bytes.split(|&byte| byte == b'\n').map(<[u8]>::to_vec).collect() };
        let (expected, got) = (lines(expected), lines(got));
        let line = (0..).find(|&i| expected.get(i) != got.get(i) || i >= expected.len()).unwrap();
        let shown = |lines: &[Vec<u8>]| lines.get(line).map_or("nothing".into(), |l| String::from_utf8_lossy(&l[..l.len().min(100)]).into_owned());
        println!("    output line {}: expected {}, got {}", line + 1, shown(&expected), shown(&got));
    }

    /// Prints what was reached and gives how many conditions hold and how many do not.
    fn conclude(&self) -> (usize, usize) {
        if self.signals == SIGNALS_AT_MOST {
            println!("stopped: signals ended {SIGNALS_AT_MOST} runs of the program");
        }
        println!("inputs by kind:");
        for (kind, count) in &self.reached.kinds {
            println!("{count:>9}  {kind}");
        }
        println!("{:>9}  in all, {} bytes", self.reached.inputs, self.reached.bytes);
        println!("reached:");
        let mut things = self.reached.things();
        for (name, count) in &things {
            println!("{count:>9}  {name}");
        }
        for (_, count) in &mut things {
            *count = *count / REACHED_AT_LEAST;
        }
        things.push(("inputs".to_string(), self.reached.inputs / INPUTS_AT_LEAST));
        for (name, _) in things.iter().filter(|(_, times)| *times == 0) {
            println!("too few: {name}");
        }
        let held = things.iter().filter(|(_, times)| *times > 0).count();
        (held, things.len() - held)
    }
}

fn main() -> ExitCode {
    let arguments: Vec<String> = env::args().collect();
    let [_, program, folder, kinds @ ..] = arguments.as_slice() else {
        println!("usage: compare PROGRAM FOLDER [KIND]");
        return ExitCode::FAILURE;
    };
    feed::watch();
    let begin = Instant::now();
    let mut comparison =
        Comparison { program: program.clone(), folder: folder.clone(), reached: Reached::default(), differences: 0, wrong_pairs: 0, signals: 0 };
    for make in MAKERS {
        make(&mut |input| {
            if kinds.is_empty() || kinds.iter().any(|kind| kind == input.kind) {
                comparison.compare(&input);
            }
        });
    }
    let (held, short) = comparison.conclude();
    println!("{} s", begin.elapsed().as_secs());
    let failed = comparison.differences + comparison.wrong_pairs + short;
    let passed = comparison.reached.inputs - comparison.differences + held;
    println!("{passed} passed, {failed} failed");
    if failed == 0 { ExitCode::SUCCESS } else { ExitCode::FAILURE }
}
