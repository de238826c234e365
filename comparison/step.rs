//! The step: a lent record, settings and a sample in, the report out.

use super::records::*;
use super::sensing::{curve, voltages, watts_beside};
use super::sheet::check_settings;

/// The bands, from best to worst.
#[derive(Clone, Copy, Debug, PartialEq, Eq, PartialOrd, Ord)]
pub(super) enum Band {
    Continuous,
    Mandatory,
    Momentary,
    Cease,
}

pub(super) fn band_of_voltage(voltage: u32) -> Band {
    match voltage {
        0..=4999 => Band::Momentary,
        5000..=8799 => Band::Mandatory,
        8800..=11000 => Band::Continuous,
        11001..=12000 => Band::Momentary,
        _ => Band::Cease,
    }
}

/// Far outside, on either side, it is cease (document 02, request 4). All that follows from it,
/// such as no output and a recovery from 0, the step takes from the worst band.
pub(super) fn band_of_frequency(frequency: u32) -> Band {
    match frequency {
        0..=56999 => Band::Cease,
        57000..=58799 => Band::Mandatory,
        58800..=61200 => Band::Continuous,
        61201..=62000 => Band::Mandatory,
        _ => Band::Cease,
    }
}

/// Refusals 8, 4, 5, 6, 7 for a lent sample.
fn check_sample(sample: &[u32]) -> Result<[u32; 7], u8> {
    let Ok(numbers) = <[u32; 7]>::try_from(sample) else {
        return Err(SAMPLE_FORM);
    };
    let [code_a, code_b, code_c, frequency, permission, available, limit] = numbers;
    if code_a > 4095 || code_b > 4095 || code_c > 4095 {
        return Err(CODE);
    }
    if !(40000..=80000).contains(&frequency) {
        return Err(FREQUENCY);
    }
    if permission > 1 {
        return Err(PERMISSION);
    }
    if available > 10000 || limit > 10000 {
        return Err(POWER);
    }
    Ok(numbers)
}

/// One more, up to the top, if `again`; otherwise 0. It never gives more than the top, whatever was lent (spec 5.4).
fn count(before: u32, top: u32, again: bool) -> u32 {
    if !again {
        0
    } else if before < top {
        before + 1
    } else {
        top
    }
}

/// The full recovery count.
pub(super) const RECOVERY_TOP: u8 = 40;

/// The highest power, all of the rating.
const POWER_TOP: u16 = 10000;

/// The two points of the droop, in millihertz. On them there is no event.
const DROOP_LOW: u32 = 59964;
const DROOP_HIGH: u32 = 60036;

/// The side of the droop on which a frequency lies.
fn side_of(frequency: u32) -> u8 {
    if frequency > DROOP_HIGH {
        HIGH_SIDE
    } else if frequency < DROOP_LOW {
        LOW_SIDE
    } else {
        NO_SIDE
    }
}

/// The droop's power in an event, on the side of the frequency: the held power moved by the
/// distance from that side's point, at most what is available.
/// Decision: a held power above what is available is not lowered to it before it is moved; only
/// the result is.
pub(super) fn droop(held: u16, frequency: u32, available: u32) -> i64 {
    let held = i64::from(held);
    let quotient = |distance: u32| i64::from(distance * 10 / 3); // rounded down
    let moved = if frequency > DROOP_HIGH {
        (held - quotient(frequency - DROOP_HIGH)).max(0)
    } else {
        held + quotient(DROOP_LOW - frequency)
    };
    moved.min(i64::from(available))
}

/// A fresh board: tripped, the recovery count full, everything else 0.
pub fn fresh() -> Board {
    Board {
        status: TRIPPED, counters: [0; 9], ramp: 0, watts: 0, vars: 0, recovery: RECOVERY_TOP,
        side: NO_SIDE, held: 0,
    }
}

/// The report of a fresh board, before any sample.
#[allow(dead_code)] // the program reports samples only
pub fn fresh_report() -> Report {
    Report {
        status: TRIPPED, bits: [false; 9], share: 0, recovery: RECOVERY_TOP, side: NO_SIDE, held: 0,
        watts: 0, vars: 0,
    }
}

/// One step of the board: updates the lent record and gives the report, or gives the
/// number of the refusal and changes nothing.
pub fn step(board: &mut Board, settings: &Settings, sample: &[u32]) -> Result<Report, u8> {
    check_settings(settings)?;
    let [code_a, code_b, code_c, frequency, permission, available, limit] = check_sample(sample)?;

    let (lowest, highest, mean) = voltages([code_a, code_b, code_c]);

    let mut counters = [0; 9];
    let mut bits = [false; 9];

    // Spec 6.1 to 6.3: the eight limits, always strictly.
    for (i, trip) in settings.trips.iter().enumerate() {
        let broken = match i {
            0 | 1 => lowest < trip.limit,
            2 | 3 => highest > trip.limit,
            4 | 5 => frequency < trip.limit,
            _ => frequency > trip.limit,
        };
        counters[i] = count(board.counters[i], trip.time, broken);
        bits[i] = counters[i] == trip.time;
    }
    let any_limit_bit = bits[..8].contains(&true);

    // Spec 6.4, 6.5: the return counter. It too runs in every status.
    let volts_within = settings.volts.low <= lowest && highest <= settings.volts.high;
    let hertz_within = settings.hertz.low <= frequency && frequency <= settings.hertz.high;
    let wait = settings.wait.max(1); // a wait of 0 counts as 1
    counters[8] = count(board.counters[8], wait, permission == 1 && volts_within && hertz_within);
    bits[8] = counters[8] == wait;
    let ready = bits[8];

    // Spec 6.9: the worst operating region (band).
    let band = band_of_voltage(lowest)
        .max(band_of_voltage(highest))
        .max(band_of_frequency(frequency));

    // Spec 6.10 to 6.12: service and ramp, on the record as it is read (5.4).
    // The record's vars are only written: no rule reads them. Its watts are read where a droop
    // event begins, and nowhere else.
    let in_service_before = (ENTERING..=CEASE).contains(&board.status);
    let ramp_before = if in_service_before { board.ramp.min(settings.ramp) } else { 0 };
    let in_service = if in_service_before { permission == 1 && !any_limit_bit } else { ready };
    let ramp = if !in_service_before || !in_service {
        0
    } else if band == Band::Continuous {
        count(ramp_before, settings.ramp, true)
    } else {
        ramp_before
    };

    // Spec 6.13: status.
    let status = match band {
        _ if !in_service => TRIPPED,
        Band::Continuous if ramp < settings.ramp => ENTERING,
        Band::Continuous => CONTINUOUS,
        Band::Mandatory => MANDATORY,
        Band::Momentary => MOMENTARY,
        Band::Cease => CEASE,
    };

    // Spec 6.14: share.
    let share = 10000 * i64::from(ramp) / i64::from(settings.ramp);

    // Spec 6.15: the recovery count. It runs only where the board was and stays in service;
    // a tripped record's own count is not read, and `count` takes one above 40 as 40 (5.4).
    // A return is always in the continuous band, since no row lets "volts" or "hertz" leave it.
    let recovery = if in_service_before && in_service {
        let again = band < Band::Momentary;
        count(u32::from(board.recovery), u32::from(RECOVERY_TOP), again) as u8
    } else {
        RECOVERY_TOP
    };

    // The droop event (document 02, request 6). It goes on where service and side do; otherwise
    // an outside frequency begins a new one, the jump to the other side included.
    // Decision: momentary and cease are in service, so there too an event begins, goes on and
    // ends, though it gives no watts.
    // Decision: it begins with the watts that the record shows, also where the record is tripped
    // (or read so) and yet shows some: only its side, held power and ramp count are read as 0.
    // Decision: an unknown side is none, so the event begins anew, and a held power without a
    // side plays no part.
    // Decision: the top of the held power is that of watts, 10000.
    let side = if in_service { side_of(frequency) } else { NO_SIDE };
    let held = if side == NO_SIDE {
        0
    } else if in_service_before && board.side == side {
        board.held.min(POWER_TOP)
    } else {
        board.watts.min(POWER_TOP)
    };

    // Spec 7: vars and watts. 7.7: the recovery count limits watts. In an event the droop's power
    // takes the place of three limits.
    // Told: the count is taken as this step leaves it, as share takes the ramp count. The
    // first step out of momentary or cease may thus give 250, and the fortieth all.
    let recovered = 10000 * i64::from(recovery) / i64::from(RECOVERY_TOP);
    let (watts, vars) = if (ENTERING..=MANDATORY).contains(&status) {
        let vars = curve(&settings.var, mean);
        let asked = if side == NO_SIDE {
            i64::from(available).min(i64::from(limit)).min(share)
        } else {
            droop(held, frequency, available)
        };
        let watts = asked
            .min(recovered)
            .min(curve(&settings.watt, mean))
            .min(watts_beside(vars));
        (watts, vars)
    } else {
        (0, 0)
    };

    // All of these are at most 10000 in size.
    let (share, watts, vars) = (share as u16, watts as u16, vars as i16);
    *board = Board { status, counters, ramp, watts, vars, recovery, side, held };
    Ok(Report { status, bits, share, recovery, side, held, watts, vars })
}
