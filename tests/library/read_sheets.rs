//! Sheets that are good, out of range or damaged.

use super::*;

/// A sheet with something changed: bytes, lines, its end.
fn damage(dice: &mut Dice, sheet: &mut Vec<u8>) {
    let at = dice.below(sheet.len() as u64) as usize;
    match dice.below(8) {
        0 => sheet[at] = dice.next() as u8,
        1 => sheet[at] = b"0123456789-() \nuvofwatrigeh"[dice.below(27) as usize],
        2 => sheet.insert(at, b"0123456789-() \n"[dice.below(15) as usize]),
        3 => drop(sheet.remove(at)),
        4 => sheet.truncate(at),
        5 => drop(sheet.pop()),
        6 => {
            let digits: Vec<usize> = (0..sheet.len()).filter(|&i| sheet[i].is_ascii_digit()).collect();
            sheet[digits[dice.below(digits.len() as u64) as usize]] = b'0' + dice.below(10) as u8;
        }
        _ => {
            let mut lines: Vec<&[u8]> = sheet.split_inclusive(|&b| b == b'\n').collect();
            let i = dice.below(lines.len() as u64) as usize;
            let j = dice.below(lines.len() as u64) as usize;
            lines.swap(i, j);
            *sheet = lines.concat();
        }
    }
}

/// Sheets good, out of range and damaged, with bytes after them, read over settings of any kind.
pub fn sheets(tally: &mut Tally, dice: &mut Dice, seen: &mut [u64; 10]) {
    for i in 1..=20_000 {
        let pairs = if dice.one_in(2) { wild_pairs(dice) } else { good_pairs(dice) };
        let mut sheet = sheet_of(&pairs);
        if dice.one_in(2) {
            damage(dice, &mut sheet);
        }
        if dice.one_in(2) {
            sheet.extend_from_slice(&b"(at (1000 1000 1000) 60000 1 10000 10000)\n"[..dice.below(43) as usize]);
        }
        note(seen, compare_sheet(tally, &mut settings_of(&wild_pairs(dice)), &sheet).into());
        if i % 100 == 0 {
            tally.case();
        }
    }
    let sheet = other::DEFAULT_SHEET.as_bytes();
    for n in 0..=sheet.len() {
        note(seen, compare_sheet(tally, &mut settings_of(&wild_pairs(dice)), &sheet[..n]).into());
    }
    tally.case();
}
