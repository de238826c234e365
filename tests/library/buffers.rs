//! Savings into buffers of any length, and replays into those about the image's.

use super::*;

/// Records of any kind into buffers of 0 to 54 bytes.
pub fn saves(tally: &mut Tally, dice: &mut Dice, seen: &mut [u64; 10]) {
    for length in 0..=54 {
        let mut right = 0;
        for _ in 0..200 {
            let (mut buffer, differ) = (bytes(dice, length), tally.differ);
            let number = compare_save(tally, &wild_record(dice), &mut buffer);
            note(seen, number.into());
            right += u64::from(tally.differ == differ && number == if length < IMAGE { 9 } else { 0 });
        }
        tally.case();
        if (OLD_IMAGE..=IMAGE + 1).contains(&length) {
            tally.reached("saving", &into(length), right);
        }
    }
}

/// A buffer of so many bytes, and what comes of it.
fn into(length: usize) -> String {
    format!("into {length} bytes {}", if length < IMAGE { "refused with 9" } else { "done" })
}

/// Short replays into buffers about the image's length.
pub fn replays_into(tally: &mut Tally, dice: &mut Dice) {
    for length in OLD_IMAGE..=IMAGE + 1 {
        let mut right = 0;
        for _ in 0..150 {
            let mut grid = Grid::new(dice, 4);
            let samples: Vec<u32> = (0..dice.below(12)).flat_map(|_| grid.next(dice)).collect();
            let (settings, buffer, differ) = (settings_of(&good_pairs(dice)), bytes(dice, length), tally.differ);
            let (found, _) = compare_replay(tally, &settings, &samples, &wild_report(dice), &buffer);
            right += u64::from(tally.differ == differ && found.number == if length < IMAGE { 9 } else { 0 });
        }
        tally.case();
        tally.reached("replay", &into(length), right);
    }
}
