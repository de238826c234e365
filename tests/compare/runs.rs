//! Accepted sheets and runs of samples.

use crate::draw::*;
use crate::edges::FREQUENCIES;
use crate::{Input, Sink};

/// An input in the making: a sheet, then samples.
pub struct Run<'a> {
    pub sheet: &'a Sheet,
    text: String,
}

impl Run<'_> {
    pub fn new(sheet: &Sheet) -> Run<'_> {
        Run { sheet, text: sheet.text() }
    }

    pub fn sample(&mut self, sample: [u32; 7], times: usize) {
        let line = sample_line(&sample);
        for _ in 0..times {
            self.text.push_str(&line);
        }
    }

    pub fn normal(&mut self, times: usize) {
        self.sample(NORMAL, times);
    }

    /// Into service, and `more` steps up the ramp.
    pub fn enter(&mut self, more: usize) {
        self.normal(self.sheet.wait() + more);
    }

    /// The level on one phase, the rest normal.
    pub fn phase(&mut self, place: usize, code: u32, times: usize) {
        let mut sample = NORMAL;
        sample[place] = code;
        self.sample(sample, times);
    }

    fn frequency(&mut self, frequency: u32, times: usize) {
        self.phase(3, frequency, times);
    }

    /// A limit broken by as little as a code or a frequency can, or by `more` of them.
    pub fn broken(&mut self, limit: usize, place: usize, more: u32, times: usize) {
        let level = self.sheet.limit(limit);
        match limit {
            0 | 1 => self.phase(place, code_below(level).saturating_sub(more), times),
            2 | 3 => self.phase(place, (code_above(level) + more).min(4095), times),
            4 | 5 => self.frequency((level - 1 - more).max(40000), times),
            _ => self.frequency((level + 1 + more).min(80000), times),
        }
    }

    /// A limit met exactly, or as nearly as a code can, and not broken.
    fn met(&mut self, limit: usize, place: usize, times: usize) {
        let level = self.sheet.limit(limit);
        match limit {
            0 | 1 => self.phase(place, code_from(level), times),
            2 | 3 => self.phase(place, code_up_to(level), times),
            _ => self.frequency(level, times),
        }
    }

    pub fn done(self, kind: &'static str, name: String, sink: Sink) {
        sink(Input::new(kind, name, self.text.into_bytes()));
    }
}

/// Drawn sheets, each with a drawn run of everything below.
pub fn drawn(sink: Sink) {
    for seed in 0..700 {
        let mut draws = Draws::new(1_000_000 + seed);
        let sheet = match seed % 7 {
            0 => Sheet::drawn(&mut draws),
            _ => Sheet::lively(&mut draws),
        };
        let mut run = Run::new(&sheet);
        if sheet.wait() <= 100 || draws.once_in(4) {
            let more = draws.below(130);
            run.enter(more);
        }
        for _ in 0..draws.between(5, 40) {
            drawn_part(&mut run, &mut draws);
        }
        run.done("drawn sheets and runs", format!("seed {seed}"), sink);
    }
}

/// How long a part of a drawn run is: some steps, or about the steps that it needs.
fn drawn_length(draws: &mut Draws, needed: usize) -> usize {
    if needed > 5000 || draws.once_in(2) {
        return draws.between(1, 20) as usize;
    }
    (needed + draws.below(3)).saturating_sub(1)
}

fn drawn_part(run: &mut Run, draws: &mut Draws) {
    let place = draws.below(3);
    let limit = draws.below(8);
    let more = draws.pick(&[0, 0, 0, 1, 10, 100, 4000]);
    match draws.below(8) {
        0 => {
            let length = drawn_length(draws, run.sheet.wait());
            run.normal(length)
        }
        1 => {
            let length = drawn_length(draws, run.sheet.ramp());
            run.normal(length)
        }
        2 | 3 => {
            let length = drawn_length(draws, run.sheet.time(limit));
            run.broken(limit, place, more, length)
        }
        4 => run.met(limit, place, draws.below(5)),
        5 => {
            let mut sample = drawn_sample(run.sheet, draws);
            sample[4] = 0;
            run.sample(sample, draws.below(3))
        }
        6 => {
            let sample = drawn_sample(run.sheet, draws);
            run.sample(sample, draws.below(20))
        }
        _ => {
            for _ in 0..draws.below(30) {
                let sample = drawn_sample(run.sheet, draws);
                run.sample(sample, 1)
            }
        }
    }
}

/// Codes at the edges of bands, limits, ranges and curves, and any.
fn drawn_code(sheet: &Sheet, draws: &mut Draws) -> u32 {
    let level = match draws.below(6) {
        0 => draws.pick(&[5000, 8800, 11000, 12000]),
        1 => sheet.limit(draws.below(4)),
        2 => sheet.pairs[VOLTS].0 as u32,
        3 => sheet.pairs[VAR + draws.below(6)].0 as u32,
        4 => return draws.between(700, 1250) as u32,
        _ => return draws.within(0, 4095) as u32,
    };
    draws.pick(&[code_from(level), code_below(level), code_up_to(level), code_above(level)])
}

fn drawn_frequency(sheet: &Sheet, draws: &mut Draws) -> u32 {
    let level = match draws.below(5) {
        0 => draws.pick(&[57000, 58800, 61200, 62000]),
        1 => sheet.limit(4 + draws.below(4)),
        2 => draws.pick(&[sheet.pairs[HERTZ].0 as u32, sheet.pairs[HERTZ].1 as u32]),
        3 => 60000,
        _ => return draws.within(40000, 80000) as u32,
    };
    draws.pick(&[level - 1, level, level + 1])
}

/// A sample that is accepted.
pub fn drawn_sample(sheet: &Sheet, draws: &mut Draws) -> [u32; 7] {
    let mut sample = NORMAL;
    for place in 0..3 {
        if draws.once_in(2) {
            sample[place] = drawn_code(sheet, draws);
        }
    }
    if draws.once_in(2) {
        sample[3] = drawn_frequency(sheet, draws);
    }
    sample[4] = u32::from(!draws.once_in(12));
    for place in 5..7 {
        if draws.once_in(2) {
            sample[place] = draws.within(0, 10000) as u32;
        }
    }
    sample
}

/// Each limit broken for one less, exactly and one more than its clearing time: the shortest, the longest and two drawn times;
/// in service and tripped before.
pub fn clearing(sink: Sink) {
    for limit in 0..8 {
        let (lowest, highest) = ROWS[limit].second;
        for way in 0..4 {
            let mut draws = Draws::new(2_000_000 + 10 * limit as u64 + way);
            let mut sheet = Sheet::lively(&mut draws);
            let time = match way {
                0 => lowest,
                1 => highest,
                _ => draws.between(lowest, highest),
            };
            // A limit at 0 cannot be broken.
            sheet.pairs[limit] = (sheet.pairs[limit].0.max(1), time);
            for less in 0..3 {
                cleared(&sheet, limit, time as usize + less - 1, &mut draws, sink);
            }
        }
    }
}

fn cleared(sheet: &Sheet, limit: usize, times: usize, draws: &mut Draws, sink: Sink) {
    let mut run = Run::new(sheet);
    let place = draws.below(3);
    let reserve = draws.below(120);
    run.enter(reserve);
    run.broken(limit, place, 0, times);
    run.met(limit, place, 2);
    run.enter(1);
    if times <= 6000 {
        run.met(limit, (place + 1) % 3, times.min(200));
        run.broken(limit, (place + 1) % 3, draws.pick(&[0, 5, 4095]), times);
        run.normal(1);
        // Tripped before: the counter runs all the same.
        run.sample([1000, 1000, 1000, 60000, 0, 10000, 10000], 1);
        run.broken(limit, place, 0, times);
        run.enter(2);
    }
    run.done("clearing times", format!("limit {limit} broken {times} times of {}", sheet.time(limit)), sink);
}

/// Waits 0, 1 and longer: one step short of them, broken off in each way, and exactly.
pub fn waits(sink: Sink) {
    for (i, wait) in [0, 1, 2, 3, 5, 17, 100, 999, 1000, 59999, 60000].into_iter().enumerate() {
        let ways = if wait > 1000 { 4..5 } else { 0..6 };
        for way in ways {
            let mut draws = Draws::new(3_000_000 + 10 * i as u64 + way);
            let sheet = Sheet::lively(&mut draws).with_wait(wait, draws.pick(&[100, 101, 250]));
            let mut run = Run::new(&sheet);
            for _ in 0..2 {
                run.normal(sheet.wait() - 1);
                out_of_range(&mut run, way);
            }
            at_the_ends(&mut run, &mut draws);
            out_of_range(&mut run, way);
            run.normal(3);
            run.sample([1000, 1000, 1000, 60000, 0, 10000, 10000], 1);
            run.enter(2);
            run.done("waits", format!("wait {wait}, way {way}"), sink);
        }
    }
}

/// One step just out of the range to enter service, in one of six ways.
fn out_of_range(run: &mut Run, way: u64) {
    let (low, high) = run.sheet.pairs[VOLTS];
    let (slow, fast) = run.sheet.pairs[HERTZ];
    match way {
        0 => run.phase(0, code_below(low as u32), 1),
        1 => run.phase(1, code_above(high as u32), 1),
        2 => run.frequency(slow as u32 - 1, 1),
        3 => run.frequency(fast as u32 + 1, 1),
        4 => run.phase(4, 0, 1),
        _ => run.phase(2, code_below(low as u32), 1),
    }
}

/// As many steps as the wait, each at an end of the range.
fn at_the_ends(run: &mut Run, draws: &mut Draws) {
    let (low, high) = run.sheet.pairs[VOLTS];
    let (slow, fast) = run.sheet.pairs[HERTZ];
    for _ in 0..run.sheet.wait() {
        let codes = [code_from(low as u32), code_up_to(high as u32), 1000];
        let frequency = draws.pick(&[slow, fast]) as u32;
        let turn = draws.below(3);
        run.sample([codes[turn], codes[(turn + 1) % 3], codes[(turn + 2) % 3], frequency, 1, 10000, 10000], 1);
    }
}

/// Ramps short and long, held in every other band on their way.
pub fn ramps(sink: Sink) {
    let lengths = [100, 101, 102, 127, 333, 1000, 7777, 9999, 10000, 10001, 20000, 30000, 40000, 50001, 59999, 60000];
    for (i, ramp) in lengths.into_iter().enumerate() {
        for way in 0..3 {
            let mut draws = Draws::new(4_000_000 + 10 * i as u64 + way);
            let sheet = Sheet::lively(&mut draws).with_wait(way as i64, ramp);
            let mut run = Run::new(&sheet);
            run.enter(0);
            let pieces = [ramp as usize / 3, ramp as usize / 2, ramp as usize];
            let mut climbed = 0;
            for piece in pieces {
                run.normal((piece - climbed).saturating_sub(1));
                held(&mut run, &mut draws);
                run.normal(2);
                climbed = piece;
            }
            run.normal(2);
            run.sample([1000, 1000, 1000, 60000, 0, 10000, 10000], 1);
            run.enter(3);
            run.done("ramps", format!("ramp {ramp}, way {way}"), sink);
        }
    }
}

fn held(run: &mut Run, draws: &mut Draws) {
    for _ in 0..draws.below(4) {
        run.phase(draws.below(3), draws.pick(&[0, 249, 250, 774]), draws.below(5));
        run.phase(draws.below(3), draws.pick(&[1211, 1440, 1441, 4095]), draws.below(5));
        run.frequency(draws.pick(&[40000, 57000, 58799, 61201, 62000, 80000]), draws.below(5));
    }
}

/// Dips and swells into every band and back: each pair of codes around the bands' edges with each frequency.
pub fn bands(sink: Sink) {
    let codes = [0, 1, 249, 250, 774, 775, 1000, 1210, 1211, 1440, 1441, 4095];
    let frequencies = [40000, 56999, 57000, 58799, 58800, 60000, 61200, 61201, 62000, 62001, 80000];
    for seed in 0..120 {
        let mut draws = Draws::new(5_000_000 + seed);
        let sheet = Sheet::lively(&mut draws);
        let mut run = Run::new(&sheet);
        let more = draws.pick(&[0, 1, 50, 99, 100, 200]);
        run.enter(more);
        let mut order: Vec<(u32, u32, u32)> = Vec::new();
        for a in codes {
            for b in codes {
                order.push((a, b, draws.pick(&frequencies)));
            }
        }
        draws.shuffle(&mut order);
        for (a, b, frequency) in order {
            let place = draws.below(3);
            let mut sample = NORMAL;
            (sample[place], sample[(place + 1) % 3], sample[3]) = (a, b, frequency);
            run.sample(sample, draws.pick(&[1, 1, 2, 15]));
            run.normal(draws.pick(&[0, 1, 1, 2]));
        }
        run.done("dips and swells", format!("seed {seed}"), sink);
    }
}

/// Frequencies far outside.
const FAR: [u32; 4] = [40000, 56999, 62001, 80000];

/// Every edge of the frequency's regions with voltages of every region, in service and tripped; then limits that run out far outside, those
/// with short clearing times under drawn sheets.
pub fn far_outside(sink: Sink) {
    for seed in 0..120 {
        let mut draws = Draws::new(9_000_000 + seed);
        let mut sheet = Sheet::lively(&mut draws).with_wait(draws.pick(&[0, 1, 3]), draws.pick(&[100, 101]));
        // A limit at 0 cannot be broken.
        sheet.pairs[1].0 = sheet.pairs[1].0.max(1);
        let mut run = Run::new(&sheet);
        run.enter(draws.pick(&[0, 1, 50, 100, 120]));
        for sample in edges_and_voltages(&mut draws) {
            run.sample(sample, draws.pick(&[1, 1, 2, 15]));
            run.enter(draws.pick(&[0, 1, 2, 45]));
        }
        // Tripped: a wait that a far frequency cuts short, and then edges, none of them in range.
        run.phase(4, 0, 1);
        for _ in 0..2 {
            run.normal(sheet.wait() - 1);
            run.frequency(draws.pick(&FAR), 1);
        }
        for sample in edges_and_voltages(&mut draws) {
            run.sample(sample, draws.pick(&[1, 2]));
        }
        run.enter(1);
        for limit in [1, 2, 3, 5, 7] {
            if sheet.time(limit) <= 3000 {
                run_out(&mut run, limit, &mut draws);
            }
        }
        run.done("frequency far outside", format!("seed {seed}"), sink);
    }
    for (limit, times) in [(0, 120), (4, 2), (6, 2)] {
        let sheet = DEFAULT.with_wait(0, 100);
        let mut draws = Draws::new(9_100_000 + limit as u64);
        let mut run = Run::new(&sheet);
        run.enter(100);
        for _ in 0..times {
            run_out(&mut run, limit, &mut draws);
        }
        run.done("frequency far outside", format!("limit {limit}"), sink);
    }
}

/// Each edge with a code of each region on one phase, in a drawn order.
fn edges_and_voltages(draws: &mut Draws) -> Vec<[u32; 7]> {
    let mut order = Vec::new();
    for frequency in FREQUENCIES {
        for codes in [[775, 1000, 1210, 1000], [250, 774, 500, 774], [0, 249, 1211, 1440], [1441, 4095, 1441, 2000]] {
            let mut sample = NORMAL;
            (sample[draws.below(3)], sample[3]) = (draws.pick(&codes), frequency);
            order.push(sample);
        }
    }
    draws.shuffle(&mut order);
    order
}

/// A limit broken at a frequency far outside.
fn far(run: &mut Run, limit: usize, times: usize, draws: &mut Draws) {
    let (level, place) = (run.sheet.limit(limit), draws.below(3));
    let mut sample = NORMAL;
    sample[3] = draws.pick(&FAR);
    match limit {
        0 | 1 => sample[place] = code_below(level),
        2 | 3 => sample[place] = code_above(level),
        4 | 5 => sample[3] = (level - 1).min(56999),
        _ => sample[3] = (level + 1).max(62001),
    }
    run.sample(sample, times);
}

/// A limit broken for its clearing time, some steps more, and for one step less, the last steps far outside. One step less and one that does not
/// break it, far outside too, begin anew. After each, back in service; at last permission is withdrawn far outside.
fn run_out(run: &mut Run, limit: usize, draws: &mut Draws) {
    for (less, more) in [(0, draws.below(4)), (1, 0)] {
        let last = draws.between(1, 12) as usize;
        run.broken(limit, draws.below(3), 0, run.sheet.time(limit) - less - last);
        far(run, limit, last + more, draws);
        if less == 1 {
            run.frequency(if limit == 4 || limit == 5 { 80000 } else { 40000 }, 1);
            far(run, limit, 1, draws);
        }
        run.enter(draws.pick(&[0, 1, 41]));
    }
    let mut off = NORMAL;
    (off[3], off[4]) = (draws.pick(&FAR), 0);
    run.sample(off, 1);
    run.enter(1);
}

/// Codes that stop power: momentary cessation below and above, and cease.
pub const STOPPING: [u32; 6] = [0, 249, 1211, 1440, 1441, 4095];

/// Recoveries after cessations of every kind: of each length from 1 to 60 steps, cut short by the next one and by a trip; then drawn ones.
pub fn recoveries(sink: Sink) {
    for length in 1..=60 {
        recoveries_of(length, sink);
    }
    for seed in 0..150 {
        let mut draws = Draws::new(8_000_000 + seed);
        let sheet = Sheet::lively(&mut draws);
        let sheet = sheet.with_wait(draws.pick(&[0, 1, 3]), draws.pick(&[100, 101, 300]));
        let mut run = Run::new(&sheet);
        let ramp = sheet.ramp();
        run.enter(draws.pick(&[0, 1, ramp / 2, ramp - 20, ramp, ramp + 5]));
        for _ in 0..draws.between(4, 20) {
            cessation(&mut run, &mut draws);
            recovery(&mut run, &mut draws);
        }
        run.done("recoveries", format!("seed {seed}"), sink);
    }
}

/// Recoveries of one length, the ramp full or not: normal ones and mandatory ones, each cut by the next cessation; then such as a trip cuts.
fn recoveries_of(length: usize, sink: Sink) {
    let sheet = DEFAULT.with_wait(length as i64 % 3, 100);
    let mut run = Run::new(&sheet);
    run.enter(if length % 2 == 0 { 100 } else { length });
    for (i, code) in STOPPING.into_iter().enumerate() {
        run.phase(i % 3, code, 1 + i % 2);
        run.normal(length);
    }
    for (i, code) in STOPPING.into_iter().enumerate() {
        run.phase(i % 3, code, 1);
        run.phase((i + 1) % 3, 774, length);
    }
    for code in STOPPING {
        run.phase(0, code, 1);
        run.frequency(58799, length);
        run.phase(4, 0, 1);
        run.enter(50);
    }
    run.done("recoveries", format!("length {length}"), sink);
}

/// Steps in one band that stops power, by a voltage or by the frequency, or in one after the other; at times as many as trip.
fn cessation(run: &mut Run, draws: &mut Draws) {
    for _ in 0..draws.pick(&[1, 1, 2, 3]) {
        let times = draws.pick(&[1, 1, 2, 5, 15, 16]);
        if draws.once_in(3) {
            run.frequency(draws.pick(&FAR), times);
        } else {
            run.phase(draws.below(3), draws.pick(&STOPPING), times);
        }
    }
}

/// A recovery of 1 to 60 steps, or one that a trip ends on its way.
fn recovery(run: &mut Run, draws: &mut Draws) {
    let length = draws.between(1, 60) as usize;
    match draws.below(7) {
        0 => run.normal(length),
        1 => run.phase(draws.below(3), draws.pick(&[250, 500, 774]), length),
        2 => run.frequency(draws.pick(&[58799, 61201]), length),
        3 => {
            for _ in 0..length {
                run.sample([1000, 1000, 1000, 60000, 1, draws.within(0, 10000) as u32, draws.within(0, 10000) as u32], 1);
            }
        }
        4 => {
            for _ in 0..length {
                run.phase(draws.below(3), draws.pick(&[774, 1000, 1000]), 1);
            }
        }
        5 => {
            // A sample that is refused is no step.
            run.normal(length / 2);
            run.phase(draws.below(3), 4096, 3);
            run.normal(length / 2);
        }
        _ => {
            run.normal(length % 40);
            run.phase(4, 0, 1);
            run.enter(draws.below(150));
        }
    }
}

/// Volt-var and volt-watt sweeps at full ramp, over the curves' points and between them.
pub fn curves(sink: Sink) {
    for seed in 0..250 {
        let mut draws = Draws::new(6_000_000 + seed);
        let sheet = Sheet::lively(&mut draws).with_wait(0, 100);
        let mut run = Run::new(&sheet);
        run.enter(100);
        for i in 0..400 {
            let code = match i % 4 {
                0 => drawn_code(&sheet, &mut draws),
                _ => draws.between(250, 1210) as u32,
            };
            let near = |draws: &mut Draws| (i64::from(code) + draws.between(-40, 40)).clamp(250, 1210) as u32;
            let others = if i % 2 == 0 { (code, code) } else { (near(&mut draws), near(&mut draws)) };
            let power = if draws.once_in(3) { draws.within(0, 10000) as u32 } else { 10000 };
            run.sample([code, others.0, others.1, 60000, 1, power, 10000], 1);
            if i % 8 == 0 {
                run.normal(1);
            }
        }
        run.done("curves", format!("seed {seed}"), sink);
    }
}

/// Sample numbers at and past their ends, in every combination and among a drawn run.
pub fn sample_numbers(sink: Sink) {
    let mut draws = Draws::new(7_000_000);
    let sheet = Sheet::lively(&mut draws).with_wait(1, 100);
    let ends: [&[u32]; 7] = [
        &[4095, 4096], &[0, 4096], &[0, 4095, 999999], &[39999, 40000, 80000, 80001],
        &[0, 1, 2], &[10000, 10001], &[0, 10000, 10001],
    ];
    let mut run = Run::new(&sheet);
    let count: usize = ends.iter().map(|list| list.len()).product();
    for number in 0..count {
        let mut rest = number;
        let sample = ends.map(|list| {
            let item = list[rest % list.len()];
            rest /= list.len();
            item
        });
        run.sample(sample, 1);
        run.normal(1);
    }
    run.done("sample numbers", "all ends".to_string(), sink);
    for seed in 0..60 {
        let mut draws = Draws::new(7_000_001 + seed);
        let sheet = Sheet::lively(&mut draws);
        let mut run = Run::new(&sheet);
        for _ in 0..200 {
            let mut sample = drawn_sample(&sheet, &mut draws);
            if draws.once_in(3) {
                let place = draws.below(7);
                sample[place] = draws.pick(&[0, 1, 2, 4096, 10001, 39999, 40000, 80001, 999999]);
            }
            run.sample(sample, draws.pick(&[1, 1, 3]));
        }
        run.done("sample numbers", format!("seed {seed}"), sink);
    }
}
