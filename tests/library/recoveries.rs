//! The recovery: the ways in which its count moves, and records that reach them.

use super::*;

/// Statuses without a name are tripped.
pub fn in_service(status: u8) -> bool {
    (other::ENTERING..=other::CEASE).contains(&status)
}

/// In service, and not in a cessation.
pub fn giving(status: u8) -> bool {
    (other::ENTERING..=other::MANDATORY).contains(&status)
}

fn up(lent: &Board, now: &Report, status: u8) -> bool {
    in_service(lent.status) && lent.recovery < RECOVERY_TOP && now.status == status && now.recovery == lent.recovery + 1
}

fn back(lent: &Board, now: &Report, status: u8) -> bool {
    in_service(lent.status) && lent.recovery > 0 && now.status == status && now.recovery == 0
}

/// In service with a count above its top, and after the step one of these statuses and this count.
fn above(lent: &Board, now: &Report, status: fn(u8) -> bool, recovery: u8) -> bool {
    in_service(lent.status) && lent.recovery > RECOVERY_TOP && status(now.status) && now.recovery == recovery
}

/// Tripped with another count than 40, and 40 after the step.
fn unread(lent: &Board, now: &Report) -> bool {
    !in_service(lent.status) && lent.recovery != RECOVERY_TOP && now.recovery == RECOVERY_TOP
}

pub fn limits(now: &Report) -> bool {
    now.recovery < RECOVERY_TOP && now.watts > 0 && now.watts == 250 * u16::from(now.recovery)
}

/// The ways in which the recovery moves, and that it limits the watts: each told from the record lent to a step and its report.
pub const RECOVERIES: [(&str, fn(&Board, &Report) -> bool); 14] = [
    ("to 0 by momentary", |lent, now| back(lent, now, other::MOMENTARY)),
    ("to 0 by cease", |lent, now| back(lent, now, other::CEASE)),
    ("up in entering", |lent, now| up(lent, now, other::ENTERING)),
    ("up in continuous", |lent, now| up(lent, now, other::CONTINUOUS)),
    ("up in mandatory", |lent, now| up(lent, now, other::MANDATORY)),
    ("held at 40", |lent, now| {
        in_service(lent.status) && lent.recovery == RECOVERY_TOP && giving(now.status) && now.recovery == RECOVERY_TOP
    }),
    ("to 40 by a trip", |lent, now| {
        in_service(lent.status) && lent.recovery < RECOVERY_TOP && !in_service(now.status) && now.recovery == RECOVERY_TOP
    }),
    ("40 at a return", |lent, now| !in_service(lent.status) && in_service(now.status) && now.recovery == RECOVERY_TOP),
    ("limits the watts", |_, now| limits(now)),
    // from here on of lent records alone
    ("above 40 and held at 40", |lent, now| above(lent, now, giving, RECOVERY_TOP)),
    ("above 40 and to 0", |lent, now| above(lent, now, |status| in_service(status) && !giving(status), 0)),
    ("above 40 and to 40 by a trip", |lent, now| above(lent, now, |status| !in_service(status), RECOVERY_TOP)),
    ("of a tripped record that stays so", |lent, now| unread(lent, now) && !in_service(now.status)),
    ("of a tripped record that returns", |lent, now| unread(lent, now) && in_service(now.status)),
];
/// So many of them are reached from a fresh board.
pub const FROM_FRESH: usize = 9;

/// Records of any kind but for counters, which are low: few trip, and any recovery is counted on, held, set back and read anew.
pub fn lent_recoveries(tally: &mut Tally, dice: &mut Dice) {
    for i in 1..=20_000 {
        let mut record = wild_record(dice);
        record.counters = std::array::from_fn(|_| dice.below(15) as u32);
        let steady = [1000, 1010, 990, 60000, 1, 10000, 9000];
        let s = if dice.one_in(2) { dip(dice, &steady) } else { steady.to_vec() };
        compare_step(tally, &mut record, &settings_of(&good_pairs(dice)), &s, &mut wild_report(dice));
        if i % 100 == 0 {
            tally.case();
        }
    }
}
