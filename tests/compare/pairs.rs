//! Two histories whose boards differ in the ramp count alone (spec 13.13), as two inputs, one after the other, with the same run of samples at
//! their ends; and what the two outputs tell: after how many samples of the run they come apart, or in which statuses they stay together.

use crate::board::STATUS_WORDS;
use crate::draw::*;
use crate::runs::{drawn_sample, Run};
use crate::{Input, Sink};

/// A run of five at nominal, which tells; and one of four samples of any kind, which does not.
pub const TOLD: &str = "ramp pairs at nominal";
pub const TOGETHER: &str = "ramp pairs, any samples";
const LONGEST: i64 = 60000;

/// At nominal with no power, so that two boards give the same watts whatever their shares.
const IDLE: [u32; 7] = [1000, 1000, 1000, 60000, 1, 0, 0];

/// Both inputs: a return at nominal, so many steps of the ramp, and the run.
fn put(kind: &'static str, name: &str, sheet: &Sheet, counts: [usize; 2], run: &[[u32; 7]], sink: Sink) {
    for count in counts {
        let mut input = Run::new(sheet);
        input.sample(IDLE, sheet.wait() + count);
        for sample in run {
            input.sample(*sample, 1);
        }
        input.done(kind, format!("{name}, ramp {}, count {count} of {counts:?}", sheet.ramp()), sink);
    }
}

/// Counts next to each other, or nearly, low on the ramp; those of every hundredth pair anywhere on it.
pub fn told(sink: Sink) {
    for seed in 0..1500 {
        let mut draws = Draws::new(13_100_000 + seed);
        let ramp = if draws.once_in(4) { draws.pick(&[100, 10000, 30000, 50001, 59999]) } else { LONGEST };
        let sheet = Sheet::lively(&mut draws).with_wait(draws.below(3) as i64, ramp);
        let low = if seed % 100 == 0 { draws.below(ramp as usize - 1) } else { draws.below(90) };
        let high = (low + draws.pick(&[1, 1, 1, 1, 1, 2, 3, 4])).min(ramp as usize - 1).max(low + 1);
        put(TOLD, &format!("seed {seed}"), &sheet, [low, high], &[IDLE; 5], sink);
    }
}

/// Six times something and one more, under the longest ramp, and four samples of any kind.
pub fn together(sink: Sink) {
    for seed in 0..400 {
        let mut draws = Draws::new(13_500_000 + seed);
        let sheet = Sheet::lively(&mut draws).with_wait(draws.below(2) as i64, LONGEST);
        let count = 6 * if seed % 100 == 0 { draws.below(10000) } else { draws.below(15) };
        let run: Vec<[u32; 7]> = (0..4).map(|_| any_sample(&sheet, &mut draws)).collect();
        put(TOGETHER, &format!("seed {seed}"), &sheet, [count, count + 1], &run, sink);
    }
}

/// An accepted sample: at nominal, a phase or the frequency in another region, permission off, or drawn.
fn any_sample(sheet: &Sheet, draws: &mut Draws) -> [u32; 7] {
    let mut sample = NORMAL;
    match draws.below(8) {
        0 | 1 => (),
        2..=4 => sample[draws.below(3)] = draws.pick(&[0, 249, 250, 774, 1211, 1440, 1441, 4095]),
        5 => sample[3] = draws.pick(&[40000, 57000, 58799, 61201, 62000, 80000]),
        6 => sample[4] = 0,
        _ => sample = drawn_sample(sheet, draws),
    }
    sample
}

/// What the pairs have told.
#[derive(Default)]
pub struct Pairs {
    /// the lines of a pair's first output
    first: Option<Vec<Vec<u8>>>,
    apart: [usize; 6],
    statuses: [usize; 6],
}

impl Pairs {
    /// An output; with a pair's second one the two are compared. False where they do not part within five samples, or part within four, or have not a
    /// line for each sample of the run.
    pub fn see(&mut self, input: &Input, output: &[u8]) -> bool {
        let run = match input.kind {
            TOLD => 5,
            TOGETHER => 4,
            _ => return true,
        };
        let lines: Vec<Vec<u8>> = output.split(|&byte| byte == b'\n').filter(|line| !line.is_empty()).map(<[u8]>::to_vec).collect();
        let Some(first) = self.first.take() else {
            self.first = Some(lines);
            return true;
        };
        if first.len() <= run || lines.len() <= run {
            return false;
        }
        // the last line before the run, and those of the run
        let (one, other) = (&first[first.len() - run - 1..], &lines[lines.len() - run - 1..]);
        let parted = (0..=run).find(|&k| one[k] != other[k]);
        if input.kind == TOLD {
            if let Some(k) = parted {
                self.apart[k] += 1;
            }
            return parted.is_some();
        }
        for line in &one[1..] {
            let word = line.split(|&byte| byte == b' ').nth(1).unwrap_or_default();
            if let Some(status) = STATUS_WORDS.iter().position(|name| name.as_bytes() == word) {
                self.statuses[status] += usize::from(parted.is_none());
            }
        }
        parted.is_none()
    }

    /// Each thing to be reached, with its count. No count of `together` reaches the ramp's end within four samples, so that `continuous` does not occur.
    pub fn things(&self) -> Vec<(String, usize)> {
        let apart = self.apart.into_iter().enumerate().map(|(k, count)| (format!("ramp counts that come apart after {k} samples"), count));
        let together = STATUS_WORDS.into_iter().zip(self.statuses).filter(|(word, _)| *word != "continuous");
        apart.chain(together.map(|(word, count)| (format!("ramp counts that stay together, {word}"), count))).collect()
    }
}
