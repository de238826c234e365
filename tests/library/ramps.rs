//! Ramps in the library's calls: the ends of their row (spec 3.5), and how soon two ramp counts come apart (spec 13.13).

use super::*;

/// Nothing broken, in range with permission and in the continuous region under every accepted sheet; no power, so that two records have the
/// same watts whatever their shares.
const NOMINAL: [u32; 7] = [1000, 1000, 1000, 60000, 1, 0, 0];
const LONGEST_RAMP: i64 = 60_000;
/// The ramp count's bytes in an image.
const COUNT: std::ops::Range<usize> = 37..41;

// ---- the ends of the row

/// Ramp lengths at the ends of their row, and outside it.
const LENGTHS: [i64; 14] =
    [0, 99, 100, 101, 59_999, 60_000, 60_001, 60_002, 65_535, 65_536, 99_999, 100_000, 100_001, 999_999];

/// The number of a refusal and its sheet line; both are 0 where there is none.
type Answer = (u32, u32);

/// What steps plain and explained, the sheet and a replay answer, if all answer alike; of the line only the sheet tells.
fn answered(tally: &mut Tally, dice: &mut Dice, pairs: &Pairs) -> Option<Answer> {
    let (settings, sheet) = (settings_of(pairs), sheet_of(pairs));
    let s = sample(dice, false);
    let plain = compare_plain(tally, &mut wild_record(dice), &settings, &s, &mut wild_report(dice));
    let mut explained = Explained { report: wild_report(dice), status_rule: 77, limit: 77, watts_rule: 77 };
    let explained = compare_explained(tally, &mut wild_record(dice), &settings, &s, &mut explained);
    let mut over = settings_of(&wild_pairs(dice));
    compare_sheet(tally, &mut over, &sheet);
    let read = library::read_sheet(&mut over, &sheet);
    let samples: Vec<u32> = (0..dice.within(0, 5)).flat_map(|_| sample(dice, false)).collect();
    let (replayed, _) = compare_replay(tally, &settings, &samples, &wild_report(dice), &[0xAA; 50]);
    ([plain, explained, replayed.number] == [read.number; 3]).then_some((read.number, read.line))
}

/// Another cause put into good numbers: in a line before the ramp's or behind it a number outside its row, or a curve that does not rise.
fn spoiled(dice: &mut Dice, pairs: &mut Pairs) -> (usize, Answer) {
    match dice.below(3) {
        0 => {
            let line = dice.below(10) as usize;
            match dice.one_in(2) {
                true => pairs[line].0 = ROWS[line].1 + 1,
                false => pairs[line].1 = ROWS[line].3 + 1,
            }
            (0, (2, line as u32 + 1))
        }
        1 => {
            let point = dice.below(6) as usize;
            pairs[11 + point].1 = 10_001;
            (1, (2, if point < 4 { 12 } else { 13 }))
        }
        _ => {
            let (point, line) = [(11, 12), (12, 12), (13, 12), (15, 13)][dice.below(4) as usize];
            pairs[point + 1].0 = pairs[point].0;
            (2, (3, line))
        }
    }
}

const SPOILED: [&str; 3] = ["a number of an earlier line given before it", "given before a number of a later line", "given before voltages that do not rise"];

/// Each length among good numbers, and then beside another cause.
pub fn ends(tally: &mut Tally, dice: &mut Dice) {
    let mut beside = [0; 3];
    for length in LENGTHS {
        let taken = (100..=LONGEST_RAMP).contains(&length);
        let alone: Answer = if taken { (0, 0) } else { (2, 11) };
        let mut times = 0;
        for _ in 0..120 {
            let mut pairs = good_pairs(dice);
            pairs[10].1 = length;
            let found = answered(tally, dice, &pairs);
            tally.call(found == Some(alone), || format!("a ramp of {length}: {found:?}"));
            times += u64::from(found == Some(alone));
            let (way, cause) = spoiled(dice, &mut pairs);
            let expected = if taken || cause.1 < 11 { cause } else { alone };
            let found = answered(tally, dice, &pairs);
            tally.call(found == Some(expected), || format!("a ramp of {length} beside {cause:?}: {found:?}"));
            beside[way] += u64::from(!taken && found == Some(expected));
        }
        tally.case();
        let name = format!("of {length} {} by both steps, a sheet and a replay", if taken { "taken" } else { "refused with 2" });
        tally.reached("ramp", &name, times);
    }
    for (name, times) in SPOILED.into_iter().zip(beside) {
        tally.reached("ramp refused,", name, times);
    }
}

// ---- two ramp counts

/// A board that has returned at nominal, with so many samples at nominal more, as the record and its last report. From fresh on a short way; on a
/// long one the ramp count is put into the record, which has all else as those samples leave it.
fn climbed(tally: &mut Tally, settings: &Settings, count: u32) -> (Board, Report) {
    let (mut board, mut report) = (compare_fresh(tally), library::fresh_report());
    for _ in 0..=count.min(40) {
        compare_step(tally, &mut board, settings, &NOMINAL, &mut report);
    }
    if count > 40 {
        board.ramp = count - 1;
        compare_step(tally, &mut board, settings, &NOMINAL, &mut report);
    }
    (board, report)
}

/// In which bytes the images differ.
fn differing(tally: &mut Tally, pair: &[(Board, Report); 2]) -> Vec<usize> {
    let [one, other] = [&pair[0].0, &pair[1].0].map(|board| {
        let mut image = [0; IMAGE];
        compare_save(tally, board, &mut image);
        image
    });
    (0..IMAGE).filter(|&i| one[i] != other[i]).collect()
}

/// The images differ in the ramp count's bytes, and nowhere else.
fn ramp_alone(bytes: &[usize]) -> bool {
    !bytes.is_empty() && bytes.iter().all(|i| COUNT.contains(i))
}

/// One sample more on both; whether the reports are equal.
fn both(tally: &mut Tally, settings: &Settings, pair: &mut [(Board, Report); 2], sample: &[u32]) -> bool {
    for (board, report) in pair.iter_mut() {
        let number = compare_step(tally, board, settings, sample, report);
        tally.call(number == 0, || format!("{sample:?} refused with {number}"));
    }
    pair[0].1 == pair[1].1
}

/// After how many samples at nominal the reports differ; none where six do not tell.
fn told(tally: &mut Tally, settings: &Settings, pair: &mut [(Board, Report); 2]) -> Option<usize> {
    if pair[0].1 != pair[1].1 {
        return Some(0);
    }
    (1..=6).find(|_| !both(tally, settings, pair, &NOMINAL))
}

/// Ramp counts close to each other under ramps short and long, often the longest: after how many samples each pair comes apart.
pub fn come_apart(tally: &mut Tally, dice: &mut Dice) {
    let mut times = [0; 6];
    let mut not_alone = 0;
    for i in 1..=4_000 {
        let mut pairs = good_pairs(dice);
        let length = match dice.below(6) {
            0 => [100, 101, 9_999, 10_000, 10_001, 59_999][dice.below(6) as usize],
            1 => dice.within(100, LONGEST_RAMP),
            _ => LONGEST_RAMP,
        };
        pairs[10] = (dice.within(0, 1), length);
        let settings = settings_of(&pairs);
        let low = if dice.one_in(8) { length - dice.within(1, 12) } else { dice.inside(0, length - 1) };
        let high = (low + dice.within(1, 6)).min(length);
        let mut pair = [low, high].map(|count| climbed(tally, &settings, count as u32));
        let bytes = differing(tally, &pair);
        if ramp_alone(&bytes) {
            let after = told(tally, &settings, &mut pair);
            tally.call(after.is_some_and(|k| k <= 5), || format!("ramp {length}, counts {low} and {high}: {after:?}"));
            if let Some(k) = after.filter(|&k| k <= 5) {
                times[k] += 1;
            }
        } else {
            // one ramp is full: the status differs besides, and nothing else
            let full = high == length && pair[0].0.status == other::ENTERING && pair[1].0.status == other::CONTINUOUS;
            let status = bytes.split_first().is_some_and(|(first, rest)| *first == 0 && ramp_alone(rest));
            tally.call(full && status, || format!("ramp {length}, counts {low} and {high}: bytes {bytes:?} differ"));
            not_alone += 1;
        }
        if i % 20 == 0 {
            tally.case();
        }
    }
    println!("pairs of ramp counts, {not_alone} of 4000 with one ramp full:");
    for (k, times) in times.into_iter().enumerate() {
        tally.reached("ramp", &format!("counts that come apart after {k} samples"), times);
    }
}

/// An accepted sample of any kind: at nominal, a dip, permission off, or drawn.
fn any_accepted(dice: &mut Dice) -> Vec<u32> {
    match dice.below(8) {
        0..=2 => NOMINAL.to_vec(),
        3..=5 => dip(dice, &[1000, 1010, 990, 60000, 1, 10_000, 9_000]),
        6 => [1000, 1000, 1000, 60000, 0, 10_000, 10_000].to_vec(),
        _ => sample(dice, false),
    }
}

/// Counts of 6 m and one more under the longest ramp: four samples, whatever they hold, tell nothing, and five at nominal do.
pub fn stay_together(tally: &mut Tally, dice: &mut Dice) {
    let (mut statuses, mut told_by_five) = ([0; 6], 0);
    for i in 1..=2_000 {
        let mut pairs = good_pairs(dice);
        pairs[10] = (dice.within(0, 1), LONGEST_RAMP);
        let settings = settings_of(&pairs);
        let sixes = match dice.below(4) {
            0 => dice.within(0, 6),
            1 => dice.within(9_993, 9_999),
            _ => dice.within(0, 9_999),
        };
        let count = 6 * sixes as u32;
        let pair = [count, count + 1].map(|count| climbed(tally, &settings, count));
        let alone = ramp_alone(&differing(tally, &pair));
        let mut run = pair;
        let together = (0..4).all(|_| {
            let same = both(tally, &settings, &mut run, &any_accepted(dice));
            statuses[usize::from(run[0].1.status)] += u64::from(same);
            same
        });
        let mut at_nominal = pair;
        let after = told(tally, &settings, &mut at_nominal);
        tally.call(alone && together && after == Some(5), || format!("counts {count} and one more: {alone} {together} {after:?}"));
        told_by_five += u64::from(after == Some(5));
        if i % 20 == 0 {
            tally.case();
        }
    }
    println!("counts of 6 m and one more under the longest ramp, four samples of any kind:");
    for (word, times) in other::STATUS_WORDS.into_iter().zip(statuses) {
        if word != "continuous" {
            tally.reached("ramp", &format!("counts that stay together, {word}"), times);
        }
    }
    tally.reached("ramp", "counts that stay together, told by five at nominal", told_by_five);
}
