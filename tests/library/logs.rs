//! A logger's savings (spec 9.3): an image after every step, at any place of a log.

use super::*;

/// The image's fields in their order, with their bytes.
const FIELDS: [(&str, usize); 16] = [
    ("status", 1),
    ("uv1", 4),
    ("uv2", 4),
    ("ov1", 4),
    ("ov2", 4),
    ("uf1", 4),
    ("uf2", 4),
    ("of1", 4),
    ("of2", 4),
    ("ninth", 4),
    ("ramp", 4),
    ("watts", 2),
    ("vars", 2),
    ("recovery", 1),
    ("side", 1),
    ("held", 2),
];
const LOG: usize = 4096;

/// A log, full of anything, and what was reached by the savings into it.
struct Log {
    bytes: Vec<u8>,
    /// Savings by their address modulo 16.
    placed: [u64; 16],
    /// For each byte of the image, the savings that changed it to something other than 0.
    written: [u64; IMAGE],
}

impl Log {
    fn new(dice: &mut Dice) -> Log {
        Log { bytes: bytes(dice, LOG), placed: [0; 16], written: [0; IMAGE] }
    }

    /// Saves at a place that has so much room; what stands around it must stay. Gives the number, where all is right.
    fn save(&mut self, tally: &mut Tally, board: &Board, at: usize, room: usize) -> Option<u32> {
        let (before, differ) = (self.bytes.clone(), tally.differ);
        let number = compare_save(tally, board, &mut self.bytes[at..at + room]);
        let end = if number == 0 { at + IMAGE } else { at };
        let kept = self.bytes[..at] == before[..at] && self.bytes[end..] == before[end..];
        tally.call(kept, || format!("save of {board:?} at {at}: bytes around it are not as they were"));
        if tally.differ != differ {
            return None;
        }
        if number == 0 {
            self.placed[self.bytes[at..].as_ptr() as usize % 16] += 1;
            for (k, count) in self.written.iter_mut().enumerate() {
                *count += u64::from(self.bytes[at + k] != 0 && self.bytes[at + k] != before[at + k]);
            }
        }
        Some(number)
    }

    /// The same at a place drawn by lot, with just an image's room or up to 99 bytes more; gives the image, where all is right.
    fn save_somewhere(&mut self, tally: &mut Tally, dice: &mut Dice, board: &Board) -> Option<&[u8]> {
        let room = IMAGE + if dice.one_in(4) { 0 } else { dice.below(100) as usize };
        let at = dice.below((LOG - room) as u64 + 1) as usize;
        let number = self.save(tally, board, at, room)?;
        (number == 0).then(|| &self.bytes[at..at + IMAGE])
    }
}

/// Boards from fresh, saved after every step, accepted or refused. Gives how often each was so, and the refused ones that left the image as it was.
fn lives(tally: &mut Tally, dice: &mut Dice, log: &mut Log) -> [u64; 3] {
    let mut seen = [0; 3];
    for _ in 0..60 {
        let mut board = compare_fresh(tally);
        let settings = settings_of(&good_pairs(dice));
        let mut report = wild_report(dice);
        let mut grid = Grid::new(dice, 40);
        let mut last = log.save_somewhere(tally, dice, &board).map(<[u8]>::to_vec);
        for _ in 0..120 {
            let s = if dice.one_in(8) { sample(dice, true) } else { grid.next(dice) };
            let number = compare_step(tally, &mut board, &settings, &s, &mut report);
            let image = log.save_somewhere(tally, dice, &board).map(<[u8]>::to_vec);
            seen[0] += u64::from(number == 0 && image.is_some());
            seen[1] += u64::from(number != 0 && image.is_some());
            seen[2] += u64::from(number != 0 && image.is_some() && image == last);
            tally.call(number == 0 || image == last, || format!("another image of {board:?} after a refused step, or a saving that differs"));
            last = image;
        }
        tally.case();
    }
    seen
}

/// A record with one field other than it was.
fn with_another(board: &Board, dice: &mut Dice, field: usize) -> Board {
    let mut b = *board;
    let by = dice.next() as u32 | 1;
    match field {
        0 => b.status ^= by as u8,
        1..=9 => b.counters[field - 1] ^= by,
        10 => b.ramp ^= by,
        11 => b.watts ^= by as u16,
        12 => b.vars ^= by as i16,
        13 => b.recovery ^= by as u8,
        14 => b.side ^= by as u8,
        _ => b.held ^= by as u16,
    }
    b
}

/// Records that differ in one field have images that differ in its bytes, and in no other. Gives how often that was so.
fn one_field(tally: &mut Tally, dice: &mut Dice, log: &mut Log, field: usize) -> u64 {
    let from: usize = FIELDS[..field].iter().map(|f| f.1).sum();
    let own = from..from + FIELDS[field].1;
    let mut right = 0;
    for _ in 0..150 {
        let one = wild_record(dice);
        let other = with_another(&one, dice, field);
        let images = [one, other].map(|b| log.save_somewhere(tally, dice, &b).map(<[u8]>::to_vec));
        let [Some(a), Some(b)] = images else { continue };
        let apart = a[own.clone()] != b[own.clone()] && (0..IMAGE).all(|k| own.contains(&k) || a[k] == b[k]);
        tally.call(apart, || format!("{one:?} and {other:?}: images that differ elsewhere, or nowhere"));
        right += u64::from(apart);
    }
    tally.case();
    right
}

/// A log that has no room for an image at its end: every byte of it stays.
fn full(tally: &mut Tally, dice: &mut Dice, log: &mut Log) -> u64 {
    let mut right = 0;
    for i in 0..600 {
        let room = i % IMAGE;
        right += u64::from(log.save(tally, &wild_record(dice), LOG - room, room) == Some(9));
    }
    tally.case();
    right
}

pub fn savings(tally: &mut Tally, dice: &mut Dice) {
    let mut log = Log::new(dice);
    let [accepted, refused, alike] = lives(tally, dice, &mut log);
    tally.reached("log: an image", "after an accepted step", accepted);
    tally.reached("log: an image", "after a refused step", refused);
    tally.reached("log: an image", "after a refused step, as it was", alike);
    for (field, (name, _)) in FIELDS.iter().enumerate() {
        let right = one_field(tally, dice, &mut log, field);
        tally.reached("log: another", &format!("{name} in its own bytes alone"), right);
    }
    let right = full(tally, dice, &mut log);
    tally.reached("log: no room", "at its end, refused with 9", right);
    for (rest, count) in log.placed.into_iter().enumerate() {
        tally.reached("log: an address", &format!("of {rest} modulo 16"), count);
    }
    for (k, count) in log.written.into_iter().enumerate() {
        tally.reached("log: byte", &format!("{k} written"), count);
    }
}
