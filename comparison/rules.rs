//! The rules for a report's status and watts: document 02, request 3.
//!
//! They are worked out beside the step, from the record before it, the sheet, the sample and the
//! report.
//! Told: `Rules` with its three numbers, `fresh_rules` and `step_explained`.
//! Decision: they stand in no record and no image. The request names neither, and none is needed:
//! a board that was tripped before has one rule, whatever tripped it.

use super::records::*;
use super::sensing::{curve, voltages, watts_beside};
use super::step::{band_of_frequency, band_of_voltage, droop, step, RECOVERY_TOP};

/// The rules that come with a fresh board's report.
pub fn fresh_rules() -> Rules {
    Rules { status: STATUS_BY_WAIT, limit: NO_LIMIT, watts: WATTS_BY_STATUS }
}

/// The rule for the band: the first of lowest voltage, highest voltage and frequency whose own
/// band is the worst.
/// Decision: in the continuous band all three are continuous, so all are worst and the lowest
/// voltage is named, while the ramp is short and when it is full.
/// Decision: the order stands too where all three phases are too high. The lowest voltage then
/// has the worst band itself and is named, though it is not low.
fn rule_for_band(lowest: u32, highest: u32, frequency: u32) -> u8 {
    let by_lowest = band_of_voltage(lowest);
    let by_highest = band_of_voltage(highest);
    let by_frequency = band_of_frequency(frequency);
    let worst = by_lowest.max(by_highest).max(by_frequency);
    if by_lowest == worst {
        STATUS_BY_LOWEST
    } else if by_highest == worst {
        STATUS_BY_HIGHEST
    } else {
        STATUS_BY_FREQUENCY
    }
}

/// The place in the sheet of the first completed limit.
/// Decision: a limit is completed when its bit is 1, that is with its clearing time full at this
/// step.
fn first_completed(bits: &[bool; 9]) -> u8 {
    let first = bits[..8].iter().position(|&bit| bit);
    first.expect("with permission only a limit trips") as u8 + 1
}

/// The rule for the status, and the limit's place where it is a limit. `by_band` is the rule
/// where service began earlier and goes on.
/// Decision: the status before is the one the step reads. A record with an unknown status has
/// been tripped since an earlier step, as a fresh one.
/// Decision: a board tripped since an earlier step waits, also where permission is 0 or a limit
/// is completed now: the wait is not full then either.
fn rule_for_status(status_before: u8, permission: u32, report: &Report, by_band: u8) -> (u8, u8) {
    let tripped_before = !(ENTERING..=CEASE).contains(&status_before);
    let tripped_now = report.status == TRIPPED;
    match (tripped_before, tripped_now) {
        (false, true) if permission == 0 => (STATUS_BY_PERMISSION, NO_LIMIT),
        (false, true) => (STATUS_BY_LIMIT, first_completed(&report.bits)),
        (true, true) => (STATUS_BY_WAIT, NO_LIMIT),
        (true, false) => (STATUS_BY_RETURN, NO_LIMIT),
        (false, false) => (by_band, NO_LIMIT),
    }
}

/// The rule for the watts: the first of the limits that equals the least of them.
/// Decision: statuses with no output are those whose watts and vars are 0 by their rule: tripped,
/// momentary, cease. Watts that come out as 0 in another status, as at every return, have a limit
/// for a rule.
/// Decision: where nothing holds the watts down all limits are 10000, and the first is named.
fn rule_for_watts(status: u8, limits: &[(u8, i64)]) -> u8 {
    if status == TRIPPED || status == MOMENTARY || status == CEASE {
        return WATTS_BY_STATUS;
    }
    let least = limits.iter().map(|&(_, limit)| limit).min().expect("there are limits");
    let first = limits.iter().find(|&&(_, limit)| limit == least).expect("one is the least");
    first.0
}

/// The rules for the report of an accepted sample. The droop comes first of the limits in an
/// event, where it stands for available, operator's limit and share.
/// Decision: those three are then no limits and never named, and the droop is not without an
/// event. Where it is what is available that keeps the droop's power down, the droop is named.
fn explain(status_before: u8, settings: &Settings, sample: &[u32], report: &Report) -> Rules {
    let &[code_a, code_b, code_c, frequency, permission, available, limit] = sample else {
        unreachable!("an accepted sample has seven numbers");
    };
    let (lowest, highest, mean) = voltages([code_a, code_b, code_c]);
    let by_band = rule_for_band(lowest, highest, frequency);
    let (status, place) = rule_for_status(status_before, permission, report, by_band);
    // The report's vars are the var curve's wherever its watts have a limit for a rule. The
    // recovery count limits as this step leaves it (see the step).
    let recovered = 10000 * i64::from(report.recovery) / i64::from(RECOVERY_TOP);
    let by_curve = (WATTS_BY_CURVE, curve(&settings.watt, mean));
    let by_nameplate = (WATTS_BY_NAMEPLATE, watts_beside(i64::from(report.vars)));
    let by_recovery = (WATTS_BY_RECOVERY, recovered);
    let watts = if report.side == NO_SIDE {
        let by_available = (WATTS_BY_AVAILABLE, i64::from(available));
        let by_operator = (WATTS_BY_OPERATOR, i64::from(limit));
        let by_share = (WATTS_BY_SHARE, i64::from(report.share));
        let limits = [by_available, by_operator, by_share, by_curve, by_nameplate, by_recovery];
        rule_for_watts(report.status, &limits)
    } else {
        let by_droop = (WATTS_BY_DROOP, droop(report.held, frequency, available));
        rule_for_watts(report.status, &[by_droop, by_curve, by_nameplate, by_recovery])
    };
    Rules { status, limit: place, watts }
}

/// The step, with the rules beside its report. A refused call gives no rules.
pub fn step_explained(
    board: &mut Board, settings: &Settings, sample: &[u32],
) -> Result<(Report, Rules), u8> {
    let status_before = board.status;
    let report = step(board, settings, sample)?;
    Ok((report, explain(status_before, settings, sample, &report)))
}
