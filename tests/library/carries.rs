//! Images carried over, forward and back: the calls, and the ways that they reach.

use super::*;

/// A call that carries an image, and what came of it.
pub struct Carrying<'a> {
    pub forward: bool,
    pub source: &'a [u8],
    pub room: usize,
    pub number: u32,
}

impl Carrying<'_> {
    /// The target has no room for the image.
    fn brief(&self) -> bool {
        self.room < if self.forward { IMAGE } else { OLD_IMAGE }
    }

    /// Which of the bytes after an old image's, where they are there, are not those of the end.
    fn off(&self) -> Vec<usize> {
        (0..END.len()).filter(|&i| self.source.get(OLD_IMAGE + i).is_some_and(|&byte| byte != END[i])).collect()
    }

    /// Carried back, refused with 11 for this one byte of the end.
    fn refused_for(&self, at: usize) -> bool {
        !self.forward && self.number == 11 && self.off() == [at]
    }

    /// Of so many bytes, and refused with 10.
    fn of(&self, length: usize) -> bool {
        self.source.len() == length && self.number == 10
    }

    /// Into so many bytes, with this answer.
    fn into(&self, room: usize, number: u32) -> bool {
        self.room == room && self.number == number
    }
}

/// The ways in which an image is carried, and in which it is refused with other causes behind the first.
pub const CARRYINGS: [(&str, fn(&Carrying) -> bool); 31] = [
    ("forward, carried", |c| c.forward && c.number == 0),
    ("forward, refused with 10", |c| c.forward && c.number == 10),
    ("forward, refused with 10, short target too", |c| c.forward && c.number == 10 && c.brief()),
    ("forward, refused with 9", |c| c.forward && c.number == 9),
    ("back, carried", |c| !c.forward && c.number == 0),
    ("back, refused with 10", |c| !c.forward && c.number == 10),
    ("back, refused with 10, another end too", |c| !c.forward && c.number == 10 && !c.off().is_empty()),
    ("back, refused with 10, short target too", |c| !c.forward && c.number == 10 && c.brief()),
    ("back, refused with 11", |c| !c.forward && c.number == 11),
    ("back, refused with 11, short target too", |c| !c.forward && c.number == 11 && c.brief()),
    ("back, refused with 9", |c| !c.forward && c.number == 9),
    ("back, refused with 11 for the recovery alone", |c| c.refused_for(0)),
    ("back, refused with 11 for the side alone", |c| c.refused_for(1)),
    ("back, refused with 11 for the held power's high byte alone", |c| c.refused_for(2)),
    ("back, refused with 11 for the held power's low byte alone", |c| c.refused_for(3)),
    ("back, refused with 11 for the side alone, short target too", |c| c.refused_for(1) && c.brief()),
    ("back, refused with 11 for the held power's low byte alone, short target too", |c| c.refused_for(3) && c.brief()),
    ("back, refused with 10, another end and a short target too", |c| {
        !c.forward && c.number == 10 && !c.off().is_empty() && c.brief()
    }),
    ("forward, 46 bytes refused with 10", |c| c.forward && c.of(46) && !c.brief()),
    ("forward, 47 bytes refused with 10", |c| c.forward && c.of(47)),
    ("forward, 49 bytes refused with 10", |c| c.forward && c.of(49)),
    ("back, 46 bytes that end with a full recovery refused with 10", |c| !c.forward && c.of(46) && c.off().is_empty() && !c.brief()),
    ("back, 48 bytes refused with 10", |c| !c.forward && c.of(48)),
    ("back, 45 bytes refused with 10", |c| !c.forward && c.of(45)),
    ("forward, into 45 bytes refused with 9", |c| c.forward && c.into(45, 9)),
    ("forward, into 46 bytes refused with 9", |c| c.forward && c.into(46, 9)),
    ("forward, into 47 bytes refused with 9", |c| c.forward && c.into(47, 9)),
    ("forward, into 48 bytes refused with 9", |c| c.forward && c.into(48, 9)),
    ("forward, into 49 bytes carried", |c| c.forward && c.into(49, 0)),
    ("back, into 44 bytes refused with 9", |c| !c.forward && c.into(44, 9)),
    ("back, into 45 bytes carried", |c| !c.forward && c.into(45, 0)),
];

/// The longest source and target of an image that is carried over.
pub const LONGEST: usize = 60;

/// Bytes of a source, those after an old image's the ones of an image that can be carried back, as far as it is long enough.
fn recovered(dice: &mut Dice, length: usize) -> Vec<u8> {
    let mut source = bytes(dice, length);
    for (byte, end) in source.iter_mut().skip(OLD_IMAGE).zip(END) {
        *byte = end;
    }
    source
}

/// So many sources of this length, both ways, into targets of this one: with that end, with one byte of it off, and with any.
fn carry_both(tally: &mut Tally, dice: &mut Dice, length: usize, room: usize, times: usize) {
    for k in 0..times {
        let mut source = if k % 3 == 2 { bytes(dice, length) } else { recovered(dice, length) };
        if k % 3 == 1 && length > OLD_IMAGE {
            let at = dice.within(OLD_IMAGE as i64, length.min(IMAGE) as i64 - 1) as usize;
            source[at] = source[at].wrapping_add(dice.within(1, 255) as u8);
        }
        compare_carry(tally, true, &source, &bytes(dice, room));
        compare_carry(tally, false, &source, &bytes(dice, room));
    }
}

/// Sources of 0 to 60 bytes into targets of 0 to 60; more of them about the lengths of images; then every value of each byte of the end.
pub fn carries(tally: &mut Tally, dice: &mut Dice) {
    for length in 0..=LONGEST {
        for room in 0..=LONGEST {
            carry_both(tally, dice, length, room, 6);
        }
        tally.case();
    }
    for length in OLD_IMAGE - 1..=IMAGE + 1 {
        for room in OLD_IMAGE - 1..=IMAGE + 1 {
            carry_both(tally, dice, length, room, 330);
            tally.case();
        }
    }
    for at in OLD_IMAGE..IMAGE {
        for value in 0..=255 {
            for room in 0..=LONGEST {
                let mut source = recovered(dice, IMAGE);
                source[at] = value;
                compare_carry(tally, false, &source, &bytes(dice, room));
            }
            tally.case();
        }
    }
}

/// Lengths whose low 8 or 16 bits are those of an image: a length is not cut on its way.
pub fn long_carries(tally: &mut Tally, dice: &mut Dice) {
    for more in [256, 65_536] {
        for length in [OLD_IMAGE, IMAGE] {
            let source = recovered(dice, length + more);
            for forward in [true, false] {
                compare_carry(tally, forward, &source, &bytes(dice, LONGEST));
                compare_carry(tally, forward, &source[..length], &bytes(dice, more));
                compare_carry(tally, forward, &source[..length], &bytes(dice, more + 1));
            }
        }
    }
    tally.case();
}

/// Old images carried forward and back; images of records carried back and, where that is allowed, forward again. Gives how often each was what it had been.
pub fn round_trips(tally: &mut Tally, dice: &mut Dice) -> (u64, u64) {
    let (mut old_new_old, mut new_old_new) = (0, 0);
    for _ in 0..2_000 {
        let old = bytes(dice, OLD_IMAGE);
        let (_, there) = compare_carry(tally, true, &old, &bytes(dice, IMAGE));
        let (number, again) = compare_carry(tally, false, &there, &bytes(dice, OLD_IMAGE));
        tally.call(number == 0 && again == old, || format!("{old:?} forward and back: {again:?}"));
        old_new_old += u64::from(number == 0 && again == old);
        let mut record = wild_record(dice);
        // each of the three that go into the end is as it must be, but for some
        if !dice.one_in(5) {
            record.recovery = RECOVERY_TOP;
        }
        if !dice.one_in(5) {
            record.side = library::NO_SIDE;
        }
        if !dice.one_in(5) {
            record.held = 0;
        }
        let back = (record.recovery, record.side, record.held) == (RECOVERY_TOP, library::NO_SIDE, 0);
        let mut new = vec![0; IMAGE];
        compare_save(tally, &record, &mut new);
        let (number, there) = compare_carry(tally, false, &new, &bytes(dice, OLD_IMAGE));
        tally.call((number == 0) == back, || format!("the image of {record:?} back: {number}"));
        if number == 0 {
            let (number, again) = compare_carry(tally, true, &there, &bytes(dice, IMAGE));
            tally.call(number == 0 && again == new, || format!("{new:?} back and forward: {again:?}"));
            new_old_new += u64::from(number == 0 && again == new);
        }
        tally.case();
    }
    (old_new_old, new_old_new)
}
