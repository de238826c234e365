//! Tests of the rule for the watts, without an event.

use super::*;

/// Six limits of watts, in the order of their rules: those chosen 5000, the others a little
/// more or, if `far`, 10000. Gives settings, record and sample, for this lowest code and a
/// frequency without an event; only codes of 1000 and more are continuous.
fn six_limits(
    chosen: u32, far: bool, code: u32, frequency: u32,
) -> (Settings, Board, [u32; 7]) {
    let pick = |i: u32, exact: u32, near: u32, top: u32| match (chosen >> i & 1, far) {
        (1, _) => exact,
        (_, false) => near,
        (_, true) => top,
    };
    let watt = pick(3, 5000, 5001, 10000) as i32;
    let vars = pick(4, 8660, 8659, 0) as i32; // leave 5000, 5002 or 10000
    let mut settings = quick_settings();
    settings.watt = settings.watt.map(|point| Point { power: watt, ..point });
    settings.var = settings.var.map(|point| Point { power: -vars, ..point });
    // The ramp count grows in the continuous band only.
    let ramp = pick(2, 50, 51, 100) - u32::from(code >= 1000);
    let recovery = pick(5, 20, 21, 40) as u8 - 1;
    let board = Board { recovery, ..in_service(ramp) };
    let available = pick(0, 5000, 5001, 10000);
    let limit = pick(1, 5000, 5001, 10000);
    (settings, board, [code, 1000, 1000, frequency, 1, available, limit])
}

#[test]
fn the_first_of_six_limits_that_equals_the_least() {
    for chosen in 1..64 {
        for far in [false, true] {
            for (code, frequency) in
                [(1000, 60000), (774, 60000), (1000, 59964), (1000, 60036), (250, 60036)]
            {
                let (settings, mut board, sample) = six_limits(chosen, far, code, frequency);
                let (report, found) = explained(&mut board, &settings, &sample);
                assert_eq!(report.watts, 5000);
                let first = chosen.trailing_zeros() as u8;
                let expected = rules(STATUS_BY_LOWEST, 0, WATTS_BY_AVAILABLE + first);
                assert_eq!(found, expected, "{:06b}", chosen);
            }
        }
    }
    // Nothing holds the watts down: all six are 10000.
    let (settings, mut board, sample) = six_limits(0, true, 1000, 60000);
    let (report, found) = explained(&mut board, &settings, &sample);
    assert_eq!((report.status, report.watts), (CONTINUOUS, 10000));
    assert_eq!(found, rules(STATUS_BY_LOWEST, 0, WATTS_BY_AVAILABLE));
}

#[test]
fn statuses_with_no_output() {
    for available in [0, 5000, 10000] {
        let cases = [
            (LOW_DIP, MOMENTARY, STATUS_BY_LOWEST),
            (HIGH_SWELL, MOMENTARY, STATUS_BY_HIGHEST),
            (TOO_HIGH, CEASE, STATUS_BY_HIGHEST),
            (FAR_BELOW, CEASE, STATUS_BY_FREQUENCY),
            (FAR_ABOVE, CEASE, STATUS_BY_FREQUENCY),
            (NO_PERMISSION, TRIPPED, STATUS_BY_PERMISSION),
        ];
        for (mut sample, status, cause) in cases {
            sample[5] = available;
            sample[6] = 10000 - available;
            let mut board = in_service(100);
            let expected = (status, rules(cause, 0, WATTS_BY_STATUS));
            assert_eq!(quickly(&mut board, &sample), expected);
        }
    }
}

#[test]
fn watts_of_0_in_statuses_with_output() {
    let quick = quick_settings();
    let no_watt =
        Settings { watt: quick.watt.map(|point| Point { power: 0, ..point }), ..quick };
    let no_room =
        Settings { var: quick.var.map(|point| Point { power: 10000, ..point }), ..quick };
    for (code, frequency) in [(1000, 60000), (774, 60000), (1000, 59964), (774, 60036)] {
        let cases = [
            (quick, 0, 10000, WATTS_BY_AVAILABLE), (quick, 10000, 0, WATTS_BY_OPERATOR),
            (quick, 0, 0, WATTS_BY_AVAILABLE), (no_watt, 10000, 10000, WATTS_BY_CURVE),
            (no_room, 10000, 10000, WATTS_BY_NAMEPLATE), (no_watt, 10000, 0, WATTS_BY_OPERATOR),
        ];
        for (settings, available, limit, expected) in cases {
            let sample = [code, 1000, 1000, frequency, 1, available, limit];
            let (report, found) = explained(&mut in_service(100), &settings, &sample);
            assert_eq!((report.watts, found), (0, rules(STATUS_BY_LOWEST, 0, expected)));
        }
    }
    // In an event on the high side that holds 0, the droop comes first.
    for settings in [quick, no_watt, no_room] {
        for (available, limit) in [(0, 10000), (10000, 0), (0, 0), (10000, 10000)] {
            let sample = [1000, 1000, 1000, 61201, 1, available, limit];
            let (report, found) = explained(&mut in_service(100), &settings, &sample);
            let expected = rules(STATUS_BY_FREQUENCY, 0, WATTS_BY_DROOP);
            assert_eq!((report.watts, found), (0, expected));
        }
    }
    // A share of 0: the ramp is held in mandatory.
    let (status, found) = quickly(&mut in_service(0), &SAG);
    assert_eq!(status, MANDATORY);
    assert_eq!(found, rules(STATUS_BY_LOWEST, 0, WATTS_BY_SHARE));
    // And one that rounds to 0.
    let settings = Settings { ramp: 60000, ..quick };
    let (report, found) = explained(&mut in_service(4), &settings, &NORMAL);
    assert_eq!((report.share, found.watts), (0, WATTS_BY_SHARE));
}

#[test]
fn the_curves_hold_the_watts_down() {
    // 1180: 10862, the watt curve's 4760. 841: 9170, vars leave 8979. 1103: 10502, where
    // vars of -2214 leave 9751. 700 and 1210: 8366 and 11000, in the mean 9244.
    let cases = [
        ([1180, 1180, 1180], CONTINUOUS, 4760, WATTS_BY_CURVE),
        ([841, 841, 841], CONTINUOUS, 8979, WATTS_BY_NAMEPLATE),
        ([1103, 1103, 1103], CONTINUOUS, 9751, WATTS_BY_NAMEPLATE),
        ([700, 700, 1210], MANDATORY, 9130, WATTS_BY_NAMEPLATE),
        ([1000, 1000, 1000], CONTINUOUS, 10000, WATTS_BY_AVAILABLE),
    ];
    for ([a, b, c], status, watts, rule) in cases {
        let sample = [a, b, c, 60000, 1, 10000, 10000];
        let (report, found) = explained(&mut in_service(100), &quick_settings(), &sample);
        assert_eq!((report.status, report.watts, found.watts), (status, watts, rule));
    }
}

#[test]
fn the_recovery_holds_the_watts_down() {
    // Full ramp: for 39 steps; the fortieth has all six at 10000.
    for stop in [LOW_DIP, HIGH_SWELL, TOO_HIGH, FAR_BELOW, FAR_ABOVE] {
        let mut board = in_service(100);
        quickly(&mut board, &stop);
        for k in 1..=45 {
            let (_, rules) = quickly(&mut board, &NORMAL);
            let expected = if k < 40 { WATTS_BY_RECOVERY } else { WATTS_BY_AVAILABLE };
            assert_eq!(rules.watts, expected, "step {}", k);
        }
    }
    // Beside the share, 3000 + 100 k against 250 k: equal at the twentieth step.
    let mut board = in_service(30);
    quickly(&mut board, &LOW_DIP);
    for k in 1..=45 {
        let (report, rules) = explained(&mut board, &quick_settings(), &NORMAL);
        let expected = if k < 20 { WATTS_BY_RECOVERY } else { WATTS_BY_SHARE };
        assert_eq!((report.status, rules.watts), (ENTERING, expected), "step {}", k);
    }
    // At a trip and at a return the count is full, and no rule.
    let mut board = in_service(100);
    quickly(&mut board, &TOO_HIGH);
    assert_eq!(quickly(&mut board, &NO_PERMISSION).1.watts, WATTS_BY_STATUS);
    for _ in 0..3 {
        assert_eq!(quickly(&mut board, &NORMAL).1.watts, WATTS_BY_SHARE);
    }
}
