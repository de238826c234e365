//! Runs with droop events: the frequencies about the two points, walks from side to side, returns outside the points, events with no output
//! in them, events that trips end, and events in which another limit holds the watts.

use crate::draw::*;
use crate::events::{ABOUT, HIGH_POINT, LOW_POINT};
use crate::runs::{Run, STOPPING};
use crate::Sink;

/// A lively sheet with a short wait; but for one in four its watt curve begins at all of the rating and its vars are few, or none.
fn sheet(draws: &mut Draws) -> Sheet {
    let mut sheet = Sheet::lively(draws).with_wait(draws.pick(&[0, 1, 3]), draws.pick(&[100, 101, 300]));
    if !draws.once_in(4) {
        let most = draws.pick(&[0, 1000, 3000]);
        sheet.pairs[WATT].1 = 10000;
        for pair in VAR..WATT {
            sheet.pairs[pair].1 = draws.between(-most, most);
        }
    }
    sheet
}

/// A frequency of a side, still continuous: next to its point, near it, or as far as takes or adds some thousands.
fn beyond(high: bool, draws: &mut Draws) -> u32 {
    let distance = match draws.below(6) {
        0 => 1,
        1 => draws.between(2, 12),
        2 => draws.between(1, 1160),
        _ => draws.between(1, 500),
    };
    if high { HIGH_POINT + distance as u32 } else { LOW_POINT - distance as u32 }
}

/// Between the points, often on one.
fn within(draws: &mut Draws) -> u32 {
    draws.within(LOW_POINT.into(), HIGH_POINT.into()) as u32
}

/// A power: all, any, or little.
fn power(draws: &mut Draws) -> u32 {
    match draws.below(4) {
        0 | 1 => 10000,
        2 => draws.within(0, 10000) as u32,
        _ => draws.between(0, 2500) as u32,
    }
}

/// At nominal voltages, with permission.
fn at(frequency: u32, available: u32, limit: u32) -> [u32; 7] {
    [1000, 1000, 1000, frequency, 1, available, limit]
}

/// Into service and up the ramp, all of it or some, then a step with less power, which the next event holds.
fn climbed<'a>(sheet: &'a Sheet, draws: &mut Draws) -> Run<'a> {
    let mut run = Run::new(sheet);
    run.enter(draws.pick(&[0, 1, sheet.ramp() / 2, sheet.ramp() - 5, sheet.ramp(), sheet.ramp() + 2]));
    run.sample(at(within(draws), power(draws), power(draws)), 1);
    run
}

/// The frequencies about the points, one between and two beyond, after each other in every pair, in service; then tripped, permission off and on.
pub fn points(sink: Sink) {
    for seed in 0..80 {
        let mut draws = Draws::new(16_000_000 + seed);
        let sheet = sheet(&mut draws);
        let mut run = climbed(&sheet, &mut draws);
        let all: Vec<u32> = ABOUT.into_iter().chain([60000, 59500, 60500]).collect();
        let mut order: Vec<(u32, u32)> = all.iter().flat_map(|&one| all.iter().map(move |&other| (one, other))).collect();
        draws.shuffle(&mut order);
        for (one, other) in order {
            run.sample(at(one, power(&mut draws), power(&mut draws)), 1);
            run.sample(at(other, power(&mut draws), power(&mut draws)), draws.pick(&[1, 1, 2]));
        }
        for frequency in all {
            run.phase(4, 0, 1);
            let mut off = at(frequency, 10000, 10000);
            off[4] = 0;
            run.sample(off, 2);
            // Too low for a return, whatever the frequency.
            let mut low = at(frequency, 10000, 10000);
            low[draws.below(3)] = 774;
            run.sample(low, 2);
        }
        run.enter(1);
        run.done("droop at the points", format!("seed {seed}"), sink);
    }
}

/// Stretches on either side and between, each with its own powers, some of them moving from step to step; refused lines among them.
pub fn walks(sink: Sink) {
    for seed in 0..400 {
        let mut draws = Draws::new(16_100_000 + seed);
        let sheet = sheet(&mut draws);
        let mut run = climbed(&sheet, &mut draws);
        for _ in 0..draws.between(20, 60) {
            stretch(&mut run, &mut draws);
        }
        run.done("droop walks", format!("seed {seed}"), sink);
    }
}

/// Some steps on one side, or between the points.
fn stretch(run: &mut Run, draws: &mut Draws) {
    let place = draws.below(5);
    let (mut available, mut limit) = (power(draws), power(draws));
    let steady = beyond(place < 2, draws);
    let moving = draws.once_in(2);
    for _ in 0..draws.between(1, 9) {
        let frequency = match place {
            4 => within(draws),
            _ if moving => beyond(place < 2, draws),
            _ => steady,
        };
        run.sample(at(frequency, available, limit), 1);
        match draws.below(6) {
            0 => available = power(draws),
            1 => available = available.saturating_sub(draws.between(1, 3000) as u32),
            2 => limit = limit.saturating_sub(draws.between(1, 3000) as u32),
            3 => refused(run, draws),
            _ => (),
        }
    }
}

/// A line that is no step: a number of it is too large or too small.
fn refused(run: &mut Run, draws: &mut Draws) {
    let mut sample = NORMAL;
    let (place, number) = draws.pick(&[(0, 4096), (3, 39999), (3, 80001), (4, 2), (5, 10001), (6, 10001)]);
    sample[place] = number;
    run.sample(sample, 1);
}

/// Returns at each frequency that a sheet's range has about the points and at its ends, the steps of the wait at other ones; some steps on, and off.
pub fn returns(sink: Sink) {
    for seed in 0..150 {
        let mut draws = Draws::new(16_200_000 + seed);
        let sheet = sheet(&mut draws);
        let mut run = climbed(&sheet, &mut draws);
        let (slow, fast) = (sheet.pairs[HERTZ].0 as u32, sheet.pairs[HERTZ].1 as u32);
        let mut order: Vec<u32> = [slow, 59900, 60100, fast].into_iter().chain(ABOUT).cycle().take(24).collect();
        draws.shuffle(&mut order);
        for frequency in order {
            let high = draws.once_in(2);
            let other = beyond(high, &mut draws);
            let mut off = at(draws.pick(&[frequency, 60000, other, other]), 10000, 10000);
            off[4] = 0;
            run.sample(off, draws.pick(&[1, 2]));
            for _ in 1..sheet.wait() {
                run.sample(at(draws.pick(&[60000, slow, fast]), 10000, 10000), 1);
            }
            run.sample(at(frequency, power(&mut draws), power(&mut draws)), 1);
            for _ in 0..draws.below(4) {
                stretch(&mut run, &mut draws);
            }
        }
        run.done("droop returns", format!("seed {seed}"), sink);
    }
}

/// No output, by a voltage or by a frequency far outside: begun in an event or between the points, with jumps in it, and left on either side.
pub fn cessations(sink: Sink) {
    for seed in 0..200 {
        let mut draws = Draws::new(16_300_000 + seed);
        let sheet = sheet(&mut draws);
        let mut run = climbed(&sheet, &mut draws);
        for _ in 0..30 {
            run.sample(at(within(&mut draws), power(&mut draws), power(&mut draws)), draws.pick(&[1, 20, 42]));
            let high = draws.once_in(2);
            for _ in 0..draws.pick(&[0, 0, 1, 3]) {
                run.sample(at(beyond(high, &mut draws), power(&mut draws), power(&mut draws)), 1);
            }
            for _ in 0..draws.pick(&[1, 1, 2, 3]) {
                let high = high != draws.once_in(5);
                let frequency = match draws.below(5) {
                    0 => draws.pick(if high { &[62001, 80000] } else { &[56999, 40000] }),
                    1 => within(&mut draws),
                    _ => beyond(high, &mut draws),
                };
                let mut sample = at(frequency, power(&mut draws), power(&mut draws));
                if (57000..=62000).contains(&frequency) {
                    sample[draws.below(3)] = draws.pick(&STOPPING);
                }
                run.sample(sample, draws.pick(&[1, 1, 2]));
            }
            let high = high != draws.once_in(4);
            for _ in 0..draws.pick(&[1, 3, 10, 45]) {
                run.sample(at(beyond(high, &mut draws), power(&mut draws), power(&mut draws)), 1);
            }
        }
        run.done("droop and no output", format!("seed {seed}"), sink);
    }
}

/// Events that a trip ends, by permission or by a limit that runs out in the event, on either side; then a return, outside or between.
pub fn trips(sink: Sink) {
    for seed in 0..200 {
        let mut draws = Draws::new(16_400_000 + seed);
        let sheet = sheet(&mut draws);
        let mut run = climbed(&sheet, &mut draws);
        for _ in 0..12 {
            let high = draws.once_in(2);
            run.sample(at(beyond(high, &mut draws), power(&mut draws), power(&mut draws)), draws.pick(&[1, 2]));
            tripping(&mut run, high, &mut draws);
            let outside = draws.once_in(3);
            let frequency = if outside { draws.pick(&[59900, 60100]) } else { within(&mut draws) };
            run.sample(at(frequency, 10000, 10000), sheet.wait() + draws.below(3));
            run.normal(draws.pick(&[0, 1, 60]));
        }
        run.done("droop trips", format!("seed {seed}"), sink);
    }
}

/// On a side: permission withdrawn, ov2 run out by a voltage, or uf2 or of2 by the frequency, where their clearing times are short.
fn tripping(run: &mut Run, high: bool, draws: &mut Draws) {
    let mut sample = at(beyond(high, draws), power(draws), power(draws));
    let limit = if high { 7 } else { 5 };
    if draws.once_in(3) {
        sample[4] = 0;
        run.sample(sample, 1);
    } else if draws.once_in(2) && run.sheet.time(limit) < 30 {
        run.broken(limit, 0, draws.pick(&[0, 1, 300]), run.sheet.time(limit));
    } else {
        sample[draws.below(3)] = draws.pick(&[1441, 2000, 4095]);
        run.sample(sample, 16);
    }
}

/// Events under other limits: voltages on the watt curve's slope and with many vars, available power that falls, an operator's limit that falls,
/// a recovery that has just begun, mandatory operation.
pub fn powers(sink: Sink) {
    for seed in 0..250 {
        let mut draws = Draws::new(16_500_000 + seed);
        let mut sheet = sheet(&mut draws);
        if seed % 3 == 0 {
            let voltage = draws.between(10050, 10400);
            (sheet.pairs[WATT], sheet.pairs[WATT + 1]) = ((voltage, 10000), (voltage + draws.between(50, 600), draws.between(0, 3000)));
        }
        if seed % 3 == 1 {
            let many = draws.between(5000, 10000);
            for (pair, point) in (VAR..).zip([(9000, many), (9800, 0), (10200, 0), (10900, -many)]) {
                sheet.pairs[pair] = point;
            }
        }
        let mut run = climbed(&sheet, &mut draws);
        for _ in 0..25 {
            let high = draws.once_in(2);
            run.sample(at(within(&mut draws), draws.between(4000, 10000) as u32, 10000), draws.pick(&[1, 2, 41]));
            match draws.below(5) {
                0 => raised(&mut run, high, &mut draws),
                1 => falling(&mut run, high, 5, &mut draws),
                2 => falling(&mut run, high, 6, &mut draws),
                3 => {
                    run.sample(at(beyond(high, &mut draws), 10000, 10000), 1);
                    run.phase(draws.below(3), draws.pick(&STOPPING), 1);
                    run.sample(at(60000, 10000, 10000), draws.below(30));
                    run.sample(at(beyond(high, &mut draws), 10000, 10000), draws.between(1, 20) as usize);
                }
                _ => mandatory(&mut run, high, &mut draws),
            }
        }
        run.done("droop and other limits", format!("seed {seed}"), sink);
    }
}

/// Voltages of all of continuous operation, in an event near the point.
fn raised(run: &mut Run, high: bool, draws: &mut Draws) {
    let distance = draws.between(1, 60) as u32;
    let frequency = if high { HIGH_POINT + distance } else { LOW_POINT - distance };
    for _ in 0..draws.between(2, 12) {
        let code = draws.between(775, 1210);
        let near = |draws: &mut Draws| (code + draws.between(-20, 20)).clamp(775, 1210) as u32;
        run.sample([near(draws), near(draws), near(draws), frequency, 1, 10000, 10000], 1);
    }
}

/// A power, the available one or the operator's limit, that falls from all to none at one frequency.
fn falling(run: &mut Run, high: bool, place: usize, draws: &mut Draws) {
    let mut sample = at(beyond(high, draws), 10000, 10000);
    while sample[place] > 0 {
        run.sample(sample, 1);
        sample[place] = sample[place].saturating_sub(draws.between(200, 3000) as u32);
    }
    run.sample(sample, 1);
}

/// Mandatory operation by a voltage or by the frequency.
fn mandatory(run: &mut Run, high: bool, draws: &mut Draws) {
    for _ in 0..draws.between(1, 6) {
        let mut sample = at(beyond(high, draws), 10000, power(draws));
        match draws.below(3) {
            0 => sample[3] = if high { draws.between(61201, 62000) } else { draws.between(57000, 58799) } as u32,
            _ => sample[draws.below(3)] = draws.between(250, 774) as u32,
        }
        run.sample(sample, draws.pick(&[1, 2]));
    }
}
