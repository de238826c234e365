//! Replays of recordings with dips, refused samples and a last sample cut short.

use super::*;

/// Reports with which a replay ends.
pub const ENDS: [(&str, fn(&Report) -> bool); 3] = [
    ("0 at the end", |last| last.recovery == 0),
    ("1 to 39 at the end", |last| (1..RECOVERY_TOP).contains(&last.recovery)),
    ("limits the watts at the end", limits),
];

/// Recordings of 0 to 1,000 numbers, with dips, samples that are refused and a last one cut short; settings good and not, buffers of 0 to 60
/// bytes.
pub fn replays(tally: &mut Tally, dice: &mut Dice, seen: &mut [u64; 10]) -> ([u64; 6], [u64; ENDS.len()]) {
    let (mut statuses, mut ends) = ([0; 6], [0; ENDS.len()]);
    for i in 0..4_000 {
        let pairs = if dice.one_in(8) { wild_pairs(dice) } else { good_pairs(dice) };
        let mut grid = Grid::new(dice, 60);
        let mut samples = Vec::new();
        while samples.len() <= 1000 {
            let mut s = grid.next(dice);
            s.resize(7, 0);
            samples.extend(s);
        }
        samples.truncate(if i <= 300 { i } else { dice.below(1001) as usize });
        let length = if dice.one_in(8) { dice.below(IMAGE as u64) } else { IMAGE as u64 + dice.below(12) };
        let (buffer, differ) = (bytes(dice, length as usize), tally.differ);
        let (found, last) = compare_replay(tally, &settings_of(&pairs), &samples, &wild_report(dice), &buffer);
        note(seen, found.number.into());
        if found.number == 0 && tally.differ == differ {
            statuses[last.status as usize] += 1;
            for (count, (_, shown)) in ends.iter_mut().zip(ENDS) {
                *count += u64::from(shown(&last));
            }
        }
        if i % 20 == 19 {
            tally.case();
        }
    }
    (statuses, ends)
}
