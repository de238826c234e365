//! Tests of wild records: lent ones that no step leaves behind.

use super::*;

#[test]
fn wild_counts_are_read_as_their_top() {
    let settings = default_settings();
    let mut board = Board { counters: [u32::MAX; 9], ..fresh() };
    let sample = [0, 0, 4095, 40000, 1, 10000, 10000];
    let report = step(&mut board, &settings, &sample).unwrap();
    assert_eq!(board.counters, [2100, 200, 1300, 16, 30000, 16, 0, 0, 0]);
    assert_eq!(binary(&report.bits), 0b111111000);
    let mut board = Board { counters: [u32::MAX; 9], ..fresh() };
    let report = step(&mut board, &settings, &NORMAL).unwrap();
    assert_eq!(board.counters, [0, 0, 0, 0, 0, 0, 0, 0, 30000]);
    assert_eq!((report.status, report.bits[8], board.ramp), (ENTERING, true, 0));
}

#[test]
fn unknown_status_is_read_as_tripped_with_ramp_0() {
    for status in [0, 6, 7, 128, 255] {
        let wild = Board { status, ramp: 50, watts: u16::MAX, vars: i16::MIN, ..fresh() };
        let mut board = wild;
        let report = step(&mut board, &quick_settings(), &NORMAL).unwrap();
        assert_eq!((report.status, board.ramp, report.share), (ENTERING, 0, 0));
        let mut board = wild;
        let report = step(&mut board, &default_settings(), &NORMAL).unwrap();
        assert_eq!((report.status, board.ramp, report.watts), (TRIPPED, 0, 0));
        assert_eq!((board.watts, board.vars), (0, 0));
    }
}

#[test]
fn wild_ramp_is_read_as_the_ramp_length() {
    for status in ENTERING..=CEASE {
        for ramp in [99, 100, 101, u32::MAX] {
            let mut board = Board { status, ramp, ..fresh() };
            let report = step(&mut board, &quick_settings(), &NORMAL).unwrap();
            assert_eq!((report.status, board.ramp, report.share), (CONTINUOUS, 100, 10000));
            for (frequency, held) in [(57000, MANDATORY), (50000, CEASE), (70000, CEASE)] {
                let mut board = Board { status, ramp: u32::MAX, ..fresh() };
                let sample = [1000, 1000, 1000, frequency, 1, 10000, 10000];
                let report = step(&mut board, &quick_settings(), &sample).unwrap();
                assert_eq!((report.status, board.ramp, report.share), (held, 100, 10000));
            }
        }
    }
}

#[test]
fn wild_recovery_is_read_as_40() {
    for status in ENTERING..=CEASE {
        for recovery in 0..=255 {
            let lent = Board { status, recovery, ..in_service(100) };
            let count = if recovery < 40 { recovery + 1 } else { 40 };
            let watts = 250 * u16::from(count);
            let expected = [
                (NORMAL, (CONTINUOUS, count, watts)),
                (LOW_HERTZ, (MANDATORY, count, watts.min(3883))),
                (LOW_DIP, (MOMENTARY, 0, 0)), (HIGH_SWELL, (MOMENTARY, 0, 0)),
                (TOO_HIGH, (CEASE, 0, 0)), (NO_PERMISSION, (TRIPPED, 40, 0)),
                (FAR_BELOW, (CEASE, 0, 0)), (FAR_ABOVE, (CEASE, 0, 0)),
            ];
            for (sample, answer) in expected {
                assert_eq!(recovering(&mut lent.clone(), &sample), answer);
            }
        }
        for recovery in [40, 41, 255] {
            let mut board = Board { status, recovery, ..in_service(100) };
            assert_eq!(recovering(&mut board, &NORMAL), (CONTINUOUS, 40, 10000));
        }
    }
}
