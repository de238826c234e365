//! Tests of the recovery count and of the watts that it allows.

use super::*;

#[test]
fn recovery_after_momentary_and_after_cease() {
    let all = [
        (LOW_DIP, MOMENTARY), (HIGH_SWELL, MOMENTARY), (TOO_HIGH, CEASE), (FAR_BELOW, CEASE),
        (FAR_ABOVE, CEASE),
    ];
    for (stop, stopped) in all {
        for stops in [1, 2, 15] {
            let mut board = in_service(100);
            for _ in 0..stops {
                assert_eq!(recovering(&mut board, &stop), (stopped, 0, 0));
            }
            for k in 1..=45 {
                let count = k.min(40);
                let expected = (CONTINUOUS, count, 250 * u16::from(count));
                assert_eq!(recovering(&mut board, &NORMAL), expected);
            }
        }
    }
}

#[test]
fn recovery_in_mandatory() {
    for stop in [LOW_DIP, TOO_HIGH, FAR_BELOW, FAR_ABOVE] {
        // By voltage, where vars leave 9890, and by frequency, in an event that holds 0.
        for (sample, top) in [(SAG, 9890), (LOW_HERTZ, 3883)] {
            let mut board = in_service(100);
            recovering(&mut board, &stop);
            for k in 1..=45 {
                let count = k.min(40);
                let expected = (MANDATORY, count, (250 * u16::from(count)).min(top));
                assert_eq!(recovering(&mut board, &sample), expected);
            }
        }
        // By turns with the continuous band. Each event holds the watts of the step before
        // it, 250 less than the recovery lets pass, and adds more.
        let mut board = in_service(100);
        recovering(&mut board, &stop);
        for k in 1..=45 {
            let sample = if k % 2 == 0 { NORMAL } else { LOW_HERTZ };
            let count = k.min(40);
            let status = if k % 2 == 0 { CONTINUOUS } else { MANDATORY };
            let expected = (status, count, 250 * u16::from(count));
            assert_eq!(recovering(&mut board, &sample), expected);
        }
    }
}

#[test]
fn recovery_while_entering() {
    let mut board = in_service(50);
    assert_eq!(recovering(&mut board, &LOW_DIP), (MOMENTARY, 0, 0));
    for k in 1..50 {
        // Share is the lesser from the 34th step on: 8400 beside 8500.
        let count = k.min(40);
        let watts = if k < 34 { 250 * u16::from(k) } else { 5000 + 100 * u16::from(k) };
        assert_eq!(recovering(&mut board, &NORMAL), (ENTERING, count, watts));
    }
    assert_eq!(recovering(&mut board, &NORMAL), (CONTINUOUS, 40, 10000));
}

#[test]
fn recovery_begins_anew_with_each_cessation() {
    let mut board = in_service(100);
    for k in 0..40 {
        let stop = [LOW_DIP, HIGH_SWELL, TOO_HIGH, FAR_BELOW, FAR_ABOVE][k % 5];
        recovering(&mut board, &stop);
        assert_eq!(board.recovery, 0);
        for i in 1..=k {
            let count = i as u8;
            let expected = (CONTINUOUS, count, 250 * u16::from(count));
            assert_eq!(recovering(&mut board, &NORMAL), expected);
        }
    }
    assert_eq!(recovering(&mut board, &TOO_HIGH), (CEASE, 0, 0));
    assert_eq!(recovering(&mut board, &HIGH_SWELL), (MOMENTARY, 0, 0));
    assert_eq!(recovering(&mut board, &FAR_BELOW), (CEASE, 0, 0));
    assert_eq!(recovering(&mut board, &LOW_DIP), (MOMENTARY, 0, 0));
    assert_eq!(recovering(&mut board, &FAR_ABOVE), (CEASE, 0, 0));
    assert_eq!(recovering(&mut board, &TOO_HIGH), (CEASE, 0, 0));
    assert_eq!(recovering(&mut board, &NORMAL), (CONTINUOUS, 1, 250));
}

#[test]
fn recovery_limits_watts_and_no_vars() {
    // 841: 9170, vars 4400. They are 0 in the cessation and whole right after it.
    let mut board = in_service(100);
    let report = step(&mut board, &quick_settings(), &TOO_HIGH).unwrap();
    assert_eq!((report.recovery, report.watts, report.vars), (0, 0, 0));
    let sample = [841, 841, 841, 60000, 1, 10000, 10000];
    for k in 1..=41 {
        let report = step(&mut board, &quick_settings(), &sample).unwrap();
        let watts = (250 * k.min(40)).min(8979);
        assert_eq!((report.watts, report.vars, report.share), (watts, 4400, 10000));
    }
}

#[test]
fn a_trip_in_the_middle_of_recovery() {
    // By permission, in each band.
    for stop in [LOW_DIP, TOO_HIGH, FAR_BELOW] {
        for k in 0..=40 {
            for mut trip in [NORMAL, LOW_HERTZ, LOW_DIP, TOO_HIGH, FAR_BELOW, FAR_ABOVE] {
                trip[4] = 0;
                let mut board = in_service(100);
                recovering(&mut board, &stop);
                for _ in 0..k {
                    recovering(&mut board, &NORMAL);
                }
                assert_eq!(board.recovery, k);
                assert_eq!(recovering(&mut board, &trip), (TRIPPED, 40, 0));
                assert_eq!(recovering(&mut board, &trip), (TRIPPED, 40, 0));
                // And back.
                assert_eq!(recovering(&mut board, &NORMAL), (ENTERING, 40, 0));
                assert_eq!(recovering(&mut board, &NORMAL), (ENTERING, 40, 100));
            }
        }
    }
}

#[test]
fn a_trip_by_a_limit_in_cease() {
    let mut board = in_service(100);
    for _ in 1..=15 {
        assert_eq!(recovering(&mut board, &TOO_HIGH), (CEASE, 0, 0));
    }
    for _ in 16..20 {
        assert_eq!(recovering(&mut board, &TOO_HIGH), (TRIPPED, 40, 0));
    }
    assert_eq!(recovering(&mut board, &LOW_DIP), (TRIPPED, 40, 0));
    assert_eq!(recovering(&mut board, &NORMAL), (ENTERING, 40, 0));
}

#[test]
fn a_return_has_recovered() {
    // The tripped record's own count plays no part, whether the board stays out or returns.
    for status in [0, 6, 255] {
        for recovery in 0..=255 {
            let lent = Board { status, recovery, ..fresh() };
            for sample in
                [NO_PERMISSION, LOW_HERTZ, LOW_DIP, TOO_HIGH, FAR_BELOW, FAR_ABOVE]
            {
                assert_eq!(recovering(&mut lent.clone(), &sample), (TRIPPED, 40, 0));
            }
            let mut board = lent;
            assert_eq!(recovering(&mut board, &NORMAL), (ENTERING, 40, 0));
            for k in 1..=3 {
                assert_eq!(recovering(&mut board, &NORMAL), (ENTERING, 40, 100 * k));
            }
        }
    }
    // A cessation right after the return counts from 0 like any other.
    for (stop, stopped) in [(LOW_DIP, MOMENTARY), (FAR_BELOW, CEASE), (FAR_ABOVE, CEASE)] {
        let mut board = fresh();
        assert_eq!(recovering(&mut board, &NORMAL), (ENTERING, 40, 0));
        assert_eq!(recovering(&mut board, &stop), (stopped, 0, 0));
        assert_eq!(recovering(&mut board, &NORMAL), (ENTERING, 1, 100));
    }
}

#[test]
fn a_return_is_always_in_the_continuous_band() {
    // The widest "volts" and "hertz" that the rows let pass.
    let settings = Settings {
        volts: Range { low: 8800, high: 10600 },
        hertz: Range { low: 59000, high: 61000 },
        ..quick_settings()
    };
    assert_eq!(check_settings(&settings), Ok(()));
    let hertz = [
        40000, 56999, 57000, 58799, 58800, 58999, 59000, 61000, 61001, 61200, 61201, 62000,
        62001, 80000,
    ];
    for code in 0..4096 {
        for frequency in hertz {
            let sample = [code, 1000, 1000, frequency, 1, 10000, 10000];
            let report = step(&mut fresh(), &settings, &sample).unwrap();
            assert!(report.status == TRIPPED || report.status == ENTERING);
            // At 59000 the droop adds 964 x 10 / 3 = 3213 to nothing; at 61000 it takes away.
            let returned = report.status == ENTERING;
            let watts = if returned && frequency == 59000 { 3213 } else { 0 };
            assert_eq!((report.recovery, report.watts), (40, watts));
        }
    }
}

#[test]
fn a_refused_sample_leaves_recovery() {
    let mut board = in_service(100);
    recovering(&mut board, &TOO_HIGH);
    for k in 1..=40 {
        let before = board;
        let no_ramp = Settings { ramp: 0, ..quick_settings() };
        assert_eq!(step(&mut board, &quick_settings(), &[4096, 0, 0, 60000, 1, 0, 0]), Err(4));
        assert_eq!(step(&mut board, &no_ramp, &NORMAL), Err(2));
        assert_eq!(board, before);
        assert_eq!(recovering(&mut board, &NORMAL), (CONTINUOUS, k, 250 * u16::from(k)));
    }
}

#[test]
fn recovery_in_the_program() {
    let good = GOOD.repeat(101);
    let samples = good
        + "(at (1000 1000 1211) 60000 1 10000 10000)\n"
        + GOOD
        + "(at (1000 1000 1000) 58799 1 10000 10000)\n(at)\n"
        + &GOOD.repeat(39);
    let answers = after_quick_sheet(&samples);
    let lines: Vec<&str> = answers.lines().skip(100).collect();
    assert_eq!(lines.len(), 44);
    let expected = [
        "(report continuous 000000001 10000 40 0 0 10000 0)",
        "(report momentary 000000000 10000 0 0 0 0 0)",
        "(report continuous 000000001 10000 1 0 0 250 0)",
        "(report mandatory 000000000 10000 2 2 250 500 0)",
        "(refused 8 118)",
        "(report continuous 000000001 10000 3 0 0 750 0)",
    ];
    assert_eq!(lines[..6], expected);
    let expected = [
        "(report continuous 000000001 10000 39 0 0 9750 0)",
        "(report continuous 000000001 10000 40 0 0 10000 0)",
        "(report continuous 000000001 10000 40 0 0 10000 0)",
    ];
    assert_eq!(lines[41..], expected);
}
