//! The library's settings, records and reports in the comparison program's types, and back.

use super::*;

pub fn other_settings(s: &Settings) -> other::Settings {
    let trip = |l: Limit| other::Trip { limit: l.level, time: l.clearing };
    let range = |s: Span| other::Range { low: s.low, high: s.high };
    let point = |p: Point| other::Point { voltage: p.volts, power: p.power };
    other::Settings {
        trips: s.trip.map(trip),
        volts: range(s.volts),
        hertz: range(s.hertz),
        wait: s.wait,
        ramp: s.ramp,
        var: s.var.map(point),
        watt: s.watt.map(point),
    }
}

pub fn other_record(b: &Board) -> other::Board {
    let Board { status, counters, ramp, watts, vars, recovery, side, held } = *b;
    other::Board { status, counters, ramp, watts, vars, recovery, side, held }
}

pub fn report_of(r: &other::Report) -> Report {
    let bits = r.bits.iter().fold(0, |n, &bit| 2 * n + u16::from(bit));
    let other::Report { status, share, recovery, side, held, watts, vars, .. } = *r;
    Report { status, recovery, bits, share, watts, vars, held, side }
}

pub fn explained_of(r: &other::Report, rules: &other::Rules) -> Explained {
    Explained { report: report_of(r), status_rule: rules.status, limit: rules.limit, watts_rule: rules.watts }
}
