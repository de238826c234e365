//! Tests of pairs of histories that differ in the ramp count.
//!
//! Decision: both histories have the same sheet, and a run of no samples is a run. The pair that
//! needs all five may choose its sheet; ramps of 50000 steps or fewer have none.

use super::*;
use std::collections::BTreeMap;

/// Harmless, without power; mandatory with none and with little, by voltage and, in an event
/// that shows what was fed before, by frequency.
const IDLE: [u32; 7] = [1000, 1000, 1000, 60000, 1, 0, 10000];
const SAG_IDLE: [u32; 7] = [774, 1000, 1000, 60000, 1, 10000, 0];
const SAG_FIVE: [u32; 7] = [774, 1000, 1000, 60000, 1, 5, 10000];
const LOW_IDLE: [u32; 7] = [1000, 1000, 1000, 58799, 1, 0, 10000];
const LOW_FIVE: [u32; 7] = [1000, 1000, 1000, 58799, 1, 5, 10000];

/// Samples of the runs that are tried. The ramp grows in the first four.
pub(super) const TRIED: [[u32; 7]; 12] = [
    NORMAL, IDLE, [841, 841, 841, 60000, 1, 10000, 10000],
    [1180, 1180, 1180, 61200, 1, 10000, 10000], LOW_HERTZ,
    SAG, LOW_DIP, HIGH_SWELL, TOO_HIGH, FAR_BELOW, FAR_ABOVE, NO_PERMISSION,
];

/// Ends of histories: none, then one for each band with output and without, limits about to
/// run out, the way back, and two trips.
const ENDS: [&[[u32; 7]]; 15] = [
    &[], &[IDLE], &[SAG_IDLE], &[SAG_FIVE], &[LOW_IDLE], &[LOW_FIVE], &[LOW_DIP], &[HIGH_SWELL],
    &[TOO_HIGH; 14],
    &[FAR_BELOW], &[FAR_ABOVE; 15], &[LOW_DIP, LOW_HERTZ], &[TOO_HIGH, IDLE],
    &[TOO_HIGH; 16], &[NO_PERMISSION],
];

/// A board after a history: its record, and its report now.
type After = (Board, Report);

/// That board some samples later.
fn later(before: After, settings: &Settings, samples: &[[u32; 7]]) -> After {
    let (mut board, mut report) = before;
    for sample in samples {
        report = step(&mut board, settings, sample).unwrap();
    }
    (board, report)
}

/// Boards with these rising ramp counts, all on one history of normal samples.
fn climbed(settings: &Settings, counts: &[u32]) -> Vec<After> {
    let wait = settings.wait.max(1) as usize;
    let mut now = later((fresh(), fresh_report()), settings, &vec![NORMAL; wait]);
    assert_eq!((now.0.status, now.0.ramp), (ENTERING, 0));
    let mut at = 0;
    let mut climb = |&count: &u32| {
        for _ in at..count {
            now = later(now, settings, &[NORMAL]);
        }
        at = count;
        assert_eq!(now.0.ramp, count);
        now
    };
    counts.iter().map(&mut climb).collect()
}

/// Whether two images differ, and only in the four bytes of the ramp count.
fn differ_in_ramp(a: &Board, b: &Board) -> bool {
    let (a, b) = (imaged_bytes(a), imaged_bytes(b));
    a[..37] == b[..37] && a[37..41] != b[37..41] && a[41..] == b[41..]
}

/// The fewest normal samples that make the reports of two boards differ, if 20 do.
fn parting(settings: &Settings, mut pair: [After; 2]) -> Option<u32> {
    for run in 0..=20 {
        if pair[0].1 != pair[1].1 {
            return Some(run);
        }
        pair = pair.map(|one| later(one, settings, &[NORMAL]));
    }
    None
}

/// The same from the shares of two ramp counts alone, whatever the ramp length.
fn parting_of_shares(ramp: u32, a: u32, b: u32) -> u32 {
    let share = |count: u32| 10000 * u64::from(count.min(ramp)) / u64::from(ramp);
    (0..).find(|run| share(a + run) != share(b + run)).unwrap()
}

/// Sheets with ramps of every size: a quick one, one with other limits, one with no watts,
/// so that entering boards differ in the ramp count alone.
fn sheets() -> Vec<Settings> {
    let ramps = [
        100, 101, 103, 137, 999, 1000, 4999, 5001, 7777, 9999, 10000, 10001, 12345, 19999,
        20000, 20001, 33333, 40000, 40001, 49999, 50000, 50001, 54321, 59999, 60000,
    ];
    let mut sheets = Vec::new();
    for ramp in ramps {
        let quick = Settings { ramp, ..quick_settings() };
        let wide = Settings { ramp, wait: 7, ..wide_settings() };
        let no_watt = quick.watt.map(|point| Point { power: 0, ..point });
        sheets.extend([quick, wide, Settings { watt: no_watt, ..quick }]);
    }
    sheets
}

/// Ramp counts at the start, at the end and around three places between.
fn some_counts(ramp: u32) -> Vec<u32> {
    let places = [6, ramp / 3, ramp / 2, 4 * (ramp / 5), ramp - 6];
    let mut counts: Vec<u32> = places.iter().flat_map(|&at| at - 6..=at + 6).collect();
    counts.sort();
    counts.dedup();
    counts
}

#[test]
fn pairs_come_apart_within_5() {
    let mut pairs = [[0; 6]; 6]; // by status and run
    for settings in sheets() {
        let climbed = climbed(&settings, &some_counts(settings.ramp));
        for end in ENDS {
            let boards: Vec<After> =
                climbed.iter().map(|&board| later(board, &settings, end)).collect();
            for (i, &a) in boards.iter().enumerate() {
                for &b in &boards[i + 1..] {
                    if !differ_in_ramp(&a.0, &b.0) {
                        continue;
                    }
                    let run = parting(&settings, [a, b]).unwrap();
                    assert!(run <= 5, "{} {:?} {:?}", settings.ramp, a.0, b.0);
                    assert_eq!(run, parting_of_shares(settings.ramp, a.0.ramp, b.0.ramp));
                    pairs[usize::from(a.0.status)][run as usize] += 1;
                }
            }
        }
    }
    // Boards that are tripped or have a full ramp never differ so.
    for status in [TRIPPED, CONTINUOUS] {
        assert_eq!(pairs[usize::from(status)], [0; 6]);
    }
    for status in [ENTERING, MANDATORY, MOMENTARY, CEASE] {
        assert!(pairs[usize::from(status)].iter().all(|&times| times > 100), "{:?}", pairs);
    }
}

#[test]
fn pairs_of_made_histories_come_apart_within_5() {
    let mut pairs = [0; 6]; // by run
    for (ramp, wait) in [(100, 0), (101, 2), (9999, 0), (10001, 3), (50001, 1), (60000, 0)] {
        let settings = Settings { ramp, wait, ..quick_settings() };
        // By image without its ramp count: boards of which no two have the same.
        let mut groups: BTreeMap<Vec<u8>, Vec<After>> = BTreeMap::new();
        for seed in 0..60 {
            let mut now = (fresh(), fresh_report());
            for choice in made(seed, 200 + 3 * seed as usize) {
                let sample = TRIED.get(usize::from(choice / 4)).copied().unwrap_or(NORMAL);
                now = later(now, &settings, &[sample]);
                let image = imaged_bytes(&now.0);
                let group = groups.entry([&image[..37], &image[41..]].concat()).or_default();
                if group.iter().all(|other| other.0.ramp != now.0.ramp) {
                    group.push(now);
                }
            }
        }
        for group in groups.values() {
            for (i, &a) in group.iter().enumerate() {
                for &b in &group[i + 1..] {
                    assert!(differ_in_ramp(&a.0, &b.0));
                    let run = parting(&settings, [a, b]).unwrap();
                    assert!(run <= 5, "{} {:?} {:?}", ramp, a.0, b.0);
                    pairs[run as usize] += 1;
                }
            }
        }
    }
    assert!(pairs.iter().all(|&times| times > 50), "{:?}", pairs);
}

#[test]
fn the_longest_run_that_neighbours_need() {
    let rows = [
        (100, 0), (101, 0), (9999, 0), (10000, 0), (10001, 1), (20000, 1), (20001, 2),
        (40000, 3), (50000, 4), (50001, 5), (59999, 5), (60000, 5),
    ];
    for (ramp, longest) in rows {
        let settings = Settings { ramp, ..quick_settings() };
        let counts: Vec<u32> = (0..=ramp).collect();
        let mut boards = climbed(&settings, &counts);
        for board in &mut boards {
            *board = later(*board, &settings, &[LOW_DIP]);
        }
        let runs = boards.windows(2).map(|pair| {
            assert!(differ_in_ramp(&pair[0].0, &pair[1].0));
            parting(&settings, [pair[0], pair[1]]).unwrap()
        });
        assert_eq!(runs.max(), Some(longest), "{}", ramp);
    }
    // A longer ramp is refused, so only its shares can be tried: 5 would be too few.
    for (ramp, longest) in [(60000, 5), (60001, 6), (70000, 6), (70001, 7), (100000, 9)] {
        let runs = (0..ramp).map(|count| parting_of_shares(ramp, count, count + 1));
        assert_eq!(runs.max(), Some(longest), "{}", ramp);
    }
}

/// Tries every run of up to `left` samples on a pair that exactly five climbs tell apart,
/// `climbs` of them done, and counts the steps by status.
fn try_runs(
    settings: &Settings, pair: [After; 2], left: u32, climbs: u32, steps: &mut [u32; 6],
) {
    assert_eq!(pair[0].1 != pair[1].1, climbs == 5, "{:?}", pair);
    if left == 0 {
        return;
    }
    for (i, sample) in TRIED.iter().enumerate() {
        let next = pair.map(|one| later(one, settings, &[*sample]));
        steps[usize::from(next[0].1.status)] += 1;
        try_runs(settings, next, left - 1, climbs + u32::from(i < 4), steps);
    }
}

/// Pairs of neighbours on long ramps, from the first to the last, that need five samples.
fn slow_pairs() -> Vec<(Settings, [After; 2])> {
    let rows = [
        (60000, 0, 0), (60000, 0, 6), (60000, 3, 30000), (60000, 1, 59994), (50001, 0, 0),
        (55555, 2, 0), (59999, 0, 0),
    ];
    let mut pairs = Vec::new();
    for (ramp, wait, count) in rows {
        let settings = Settings { ramp, wait, ..quick_settings() };
        let climbed = climbed(&settings, &[count, count + 1]);
        for end in ENDS {
            let pair = [0, 1].map(|i| later(climbed[i], &settings, end));
            // Not where a climb has been done already, nor where both are tripped.
            if differ_in_ramp(&pair[0].0, &pair[1].0) && pair[0].0.ramp == count {
                pairs.push((settings, pair));
            }
        }
    }
    pairs
}

#[test]
fn no_run_of_up_to_4_tells_them_apart() {
    let pairs = slow_pairs();
    assert_eq!(pairs.len(), 7 * 11);
    let mut steps = [0; 6];
    for &(settings, pair) in &pairs {
        try_runs(&settings, pair, 4, 0, &mut steps);
        assert_eq!(parting(&settings, pair), Some(5));
    }
    let [tripped, entering, continuous, mandatory, momentary, cease] = steps;
    assert_eq!(steps.iter().sum::<u32>(), 77 * (12 + 144 + 1728 + 20736));
    assert_eq!(continuous, 0);
    assert!([tripped, entering, mandatory, momentary, cease].iter().all(|&n| n > 100_000));
}

#[test]
fn only_five_climbs_tell_them_apart() {
    for (i, &(settings, pair)) in slow_pairs().iter().enumerate() {
        if i % 10 == 0 {
            let mut steps = [0; 6];
            try_runs(&settings, pair, 5, 0, &mut steps);
            assert_eq!(steps.iter().sum::<u32>(), 12 + 144 + 1728 + 20736 + 248832);
            // On no pair does the earlier board's ramp become full.
            assert_eq!(steps[usize::from(CONTINUOUS)], 0);
        }
    }
}

#[test]
fn made_runs_of_up_to_4_do_not_tell_them_apart() {
    let pairs = slow_pairs();
    let mut reached = [0; 6];
    for seed in 0..40000 {
        let (settings, mut pair) = pairs[seed as usize % pairs.len()];
        for numbers in made(seed, 40).chunks(10) {
            let two = |i: usize| u32::from(numbers[i]) * 256 + u32::from(numbers[i + 1]);
            // Any codes, or one near nominal for all; any frequency, or a near one.
            let codes = match numbers[0] % 4 {
                0 => [two(1) % 4096, two(3) % 4096, two(5) % 4096],
                1 => [700 + two(1) % 800; 3],
                _ => [900 + two(1) % 200; 3],
            };
            let wide = if numbers[9] % 4 == 0 { 40001 } else { 2500 };
            let hertz = 60000 - wide / 2 + two(3) % wide;
            let permission = u32::from(numbers[9] > 15);
            let [a, b, c] = codes;
            let sample = [a, b, c, hertz, permission, two(5) % 10001, two(7) % 10001];
            pair = pair.map(|one| later(one, &settings, &[sample]));
            assert_eq!(pair[0].1, pair[1].1, "{:?} {:?}", settings.ramp, sample);
            reached[usize::from(pair[0].1.status)] += 1;
        }
    }
    let [tripped, entering, continuous, mandatory, momentary, cease] = reached;
    assert_eq!(continuous, 0);
    assert!([tripped, entering, mandatory, momentary, cease].iter().all(|&n| n > 1000));
}

#[test]
fn the_first_pair_in_full() {
    // One normal sample and two, from a fresh board.
    let settings = Settings { ramp: 60000, ..quick_settings() };
    let begin = (fresh(), fresh_report());
    let (one, two) =
        (later(begin, &settings, &[NORMAL]), later(begin, &settings, &[NORMAL; 2]));
    let image =
        |ramp: &str| format!("01{}00000001{ramp}0000000028000000", "00000000".repeat(8));
    assert_eq!(hex(&imaged_bytes(&one.0)[..49]), image("00000000"));
    assert_eq!(hex(&imaged_bytes(&two.0)[..49]), image("00000001"));
    assert!(differ_in_ramp(&one.0, &two.0));
    for run in 0..5 {
        let samples = vec![NORMAL; run];
        let reports = [one, two].map(|board| later(board, &settings, &samples).1);
        assert_eq!(reports[0], reports[1]);
        assert_eq!(reports[0].share, 0);
    }
    let reports = [one, two].map(|board| later(board, &settings, &[NORMAL; 5]).1);
    assert_eq!(reports.map(|report| (report.share, report.watts)), [(0, 0), (1, 1)]);
}

#[test]
fn the_last_pair_in_full() {
    // A full ramp shows at once, so it is the pair that has six steps to go, and five.
    let settings = Settings { ramp: 60000, ..quick_settings() };
    let boards = climbed(&settings, &[59994, 59995, 59999, 60000]);
    let pair = [boards[0], boards[1]];
    assert!(differ_in_ramp(&pair[0].0, &pair[1].0));
    assert_eq!(parting(&settings, pair), Some(5));
    let reports = pair.map(|board| later(board, &settings, &[NORMAL; 5]).1);
    let shown = reports.map(|report| (report.status, report.share));
    assert_eq!(shown, [(ENTERING, 9999), (CONTINUOUS, 10000)]);
    let full = [2, 3].map(|i| later(boards[i], &settings, &[LOW_DIP]));
    assert!(differ_in_ramp(&full[0].0, &full[1].0));
    assert_eq!(parting(&settings, full), Some(0));
}

#[test]
fn the_first_pair_in_the_program() {
    let runs = [
        (GOOD.repeat(5), true), (GOOD.repeat(4), false),
        ("(at (841 841 841) 61200 1 10000 10000)\n".repeat(5), true),
        ("(at (1000 1000 1000) 58799 1 10000 10000)\n".repeat(5), false),
        ("(at (1000 1000 1000) 58799 1 10000 10000)\n".to_string() + &GOOD.repeat(4), false),
        ("(at (1441 1441 1441) 60000 1 10000 10000)\n".to_string() + &GOOD.repeat(5), true),
        ("(at (1000 1000 1000) 60000 0 10000 10000)\n".to_string() + &GOOD.repeat(9), false),
    ];
    let sheet = sheet_with(11, "(enter (wait 0 60000))");
    for (run, apart) in runs {
        let first = program(format!("{sheet}{GOOD}{run}"));
        let second = program(format!("{sheet}{GOOD}{GOOD}{run}"));
        let first: Vec<&str> = first.lines().skip(1).collect();
        let second: Vec<&str> = second.lines().skip(2).collect();
        assert_eq!(first.len(), run.lines().count());
        let last = first.len() - 1;
        assert_eq!(first[..last], second[..last]);
        assert_eq!(first[last] != second[last], apart, "{}", run);
    }
}
