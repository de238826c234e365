//! Boards from fresh, and steps of records, settings and samples of any kind.

use super::*;

/// Counts a status or a number; one that there is none of is found by the comparison, and not counted.
pub fn note(seen: &mut [u64; 10], what: u64) {
    if let Some(count) = seen.get_mut(what as usize) {
        *count += 1;
    }
}

/// Boards from fresh: mostly steady samples, dips, some refused; `seen` counts the statuses reported.
pub fn boards(tally: &mut Tally, dice: &mut Dice, seen: &mut [u64; 10]) {
    for _ in 0..1000 {
        let mut board = compare_fresh(tally);
        let good = settings_of(&good_pairs(dice));
        let mut report = wild_report(dice);
        let mut grid = Grid::new(dice, 40);
        for _ in 0..150 {
            let s = grid.next(dice);
            let settings = if dice.one_in(20) { settings_of(&wild_pairs(dice)) } else { good };
            if compare_step(tally, &mut board, &settings, &s, &mut report) == 0 {
                note(seen, report.status.into());
            }
        }
        compare_save(tally, &board, &mut [0xAA; 51]);
        tally.case();
    }
}

/// Records, settings and slices of any kind; `seen` counts the numbers answered.
pub fn steps(tally: &mut Tally, dice: &mut Dice, seen: &mut [u64; 10]) {
    for i in 1..=100_000 {
        let pairs = if dice.one_in(4) { wild_pairs(dice) } else { good_pairs(dice) };
        let settings = settings_of(&pairs);
        let s = sample(dice, true);
        let number = compare_step(tally, &mut wild_record(dice), &settings, &s, &mut wild_report(dice));
        note(seen, number.into());
        if i % 100 == 0 {
            tally.case();
        }
    }
    for n in 0..=64 {
        let s = vec![1000; n];
        note(seen, compare_step(tally, &mut wild_record(dice), &settings_of(&good_pairs(dice)), &s, &mut wild_report(dice)).into());
    }
    tally.case();
}
