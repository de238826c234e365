//! Tests of the rules in a droop event.

use super::*;

/// An event with four limits, in the order of their rules: those chosen 5000, the others a
/// little more or, if `far`, much. The droop's is met by the held power or, on the low side,
/// by what is available. Gives settings, record and sample.
fn four_limits(
    chosen: u32, far: bool, (frequency, exact): (u32, u16), lent: bool,
) -> (Settings, Board, [u32; 7]) {
    let pick = |i: u32, exact: u32, near: u32, top: u32| match (chosen >> i & 1, far) {
        (1, _) => exact,
        (_, false) => near,
        (_, true) => top,
    };
    let watt = pick(1, 5000, 5001, 10000) as i32;
    let vars = pick(2, 8660, 8659, 0) as i32; // leave 5000, 5002 or 10000
    let mut settings = quick_settings();
    settings.watt = settings.watt.map(|point| Point { power: watt, ..point });
    settings.var = settings.var.map(|point| Point { power: -vars, ..point });
    let recovery = pick(3, 20, 21, 40) as u8 - 1;
    // 10000 held are more than is meant, and what is available makes it less.
    let by_available = exact == 10000;
    let available = if by_available { pick(0, 5000, 5001, 10000) } else { 10000 };
    let more = exact.saturating_add(1).min(10000);
    let held = pick(0, exact.into(), more.into(), 10000) as u16;
    let (side, _) = beyond(frequency);
    // Already in it, or about to begin.
    let event = if lent { drooping(1, side, held) } else { feeding(held) };
    let board = Board { recovery, ..event };
    (settings, board, at_with(frequency, available, 10000))
}

#[test]
fn the_first_of_four_limits_that_equals_the_least() {
    // Frequencies, with the held power that the droop makes 5000.
    let hertz = [
        (60037, 5003), (60066, 5100), (61200, 8880), (61201, 8883), (59963, 4997),
        (59934, 4900), (58800, 1120), (58799, 1117), (57000, 10000), (58800, 10000),
    ];
    let names = [WATTS_BY_DROOP, WATTS_BY_CURVE, WATTS_BY_NAMEPLATE, WATTS_BY_RECOVERY];
    for chosen in 1..16u32 {
        for far in [false, true] {
            for pair in hertz {
                for lent in [false, true] {
                    let (settings, lent, sample) = four_limits(chosen, far, pair, lent);
                    let mut board = lent;
                    let (report, found) = explained(&mut board, &settings, &sample);
                    assert_eq!(report.watts, 5000, "{:04b} {:?}", chosen, pair);
                    let first = names[chosen.trailing_zeros() as usize];
                    let cause = match report.status {
                        MANDATORY => STATUS_BY_FREQUENCY,
                        _ => STATUS_BY_LOWEST,
                    };
                    assert_eq!(found, rules(cause, 0, first), "{:04b} {:?}", chosen, pair);
                    // Limit and share are as good as none, whether they lie below, at the
                    // watts or above.
                    for (limit, ramp) in [(0, 0), (5000, 49), (5000, 50), (4999, 100), (1, 3)] {
                        let mut board = Board { ramp, ..lent };
                        let mut sample = sample;
                        sample[6] = limit;
                        let (other, found) = explained(&mut board, &settings, &sample);
                        assert_eq!(other.watts, 5000);
                        assert_eq!(found, rules(cause, 0, first));
                    }
                }
            }
        }
    }
}

#[test]
fn rules_in_and_out_of_an_event() {
    // What is available keeps the droop down: the droop is named, at its power and below it.
    for available in [0, 1, 4999, 5000, 5897, 5900] {
        let (report, found) =
            explained(&mut feeding(6000), &quick_settings(), &at_with(60066, available, 0));
        assert_eq!((u32::from(report.watts), found.watts), (available, WATTS_BY_DROOP));
    }
    // All are 10000: the droop is the first.
    let (report, found) = explained(&mut feeding(10000), &quick_settings(), &at(59963));
    assert_eq!((report.watts, found.watts), (10000, WATTS_BY_DROOP));
    // On the points it is no rule, whatever event the record tells of.
    for frequency in [59964, 60000, 60036] {
        for side in [0, 1, 2, 3] {
            for (available, limit, ramp, by) in [
                (300, 400, 50, WATTS_BY_AVAILABLE), (400, 300, 50, WATTS_BY_OPERATOR),
                (10000, 10000, 2, WATTS_BY_SHARE), (10000, 10000, 100, WATTS_BY_AVAILABLE),
            ] {
                let mut board = Board { ramp, ..drooping(300, side, 300) };
                let sample = at_with(frequency, available, limit);
                let (report, found) = explained(&mut board, &quick_settings(), &sample);
                assert_eq!((report.side, report.held), (0, 0));
                assert_eq!(found, rules(STATUS_BY_LOWEST, 0, by));
            }
        }
    }
    // No output: the status is the rule, in an event as elsewhere.
    for frequency in [58800, 59963, 60037, 61200] {
        let stops = [
            (249, MOMENTARY, STATUS_BY_LOWEST), (1211, MOMENTARY, STATUS_BY_HIGHEST),
            (1441, CEASE, STATUS_BY_HIGHEST),
        ];
        for (code, status, cause) in stops {
            let sample = [code, 1000, 1000, frequency, 1, 10000, 10000];
            let expected = (status, rules(cause, 0, WATTS_BY_STATUS));
            assert_eq!(quickly(&mut feeding(6000), &sample), expected);
            assert_eq!(quickly(&mut feeding(0), &sample), expected);
        }
        let sample = sample_of([1000; 3], frequency, 0);
        let expected = (TRIPPED, rules(STATUS_BY_PERMISSION, 0, WATTS_BY_STATUS));
        assert_eq!(quickly(&mut drooping(5900, 1, 6000), &sample), expected);
    }
    // Watts of 0 with output: the droop's, even where the watt curve or vars leave none.
    let quick = quick_settings();
    let no_watt =
        Settings { watt: quick.watt.map(|point| Point { power: 0, ..point }), ..quick };
    for (settings, held, by) in [
        (quick, 3, WATTS_BY_DROOP), (no_watt, 3, WATTS_BY_DROOP), (no_watt, 4, WATTS_BY_CURVE),
    ] {
        let (report, found) = explained(&mut feeding(held), &settings, &at(60037));
        assert_eq!((report.watts, found), (0, rules(STATUS_BY_LOWEST, 0, by)));
    }
}
