//! Tests of sensing: the voltages of codes, and the codes at the edges.

use super::*;

#[test]
fn voltages_at_the_edges() {
    let values = [
        (0, 0), (1, 316), (774, 8797), (775, 8803), (840, 9165), (841, 9170),
        (1440, 12000), (1441, 12004), (4095, 20236), (1000, 10000),
    ];
    for (code, expected) in values {
        assert_eq!(voltage(code), expected, "code {}", code);
    }
}

#[test]
fn square_rule_for_every_code() {
    for code in 0..4096 {
        let v = voltage(code);
        assert!(v * v <= code * 100_000 && code * 100_000 < (v + 1) * (v + 1));
    }
}

#[test]
fn square_root_at_the_ends_of_u32() {
    assert_eq!(square_root(0), 0);
    assert_eq!(square_root(u32::MAX), 65535);
    assert_eq!(square_root(65535 * 65535), 65535);
    assert_eq!(square_root(65535 * 65535 - 1), 65534);
}

#[test]
fn code_774_breaks_uv1_and_775_does_not() {
    for (code, broken) in [(774, 1), (775, 0)] {
        let mut board = fresh();
        let sample = [1000, code, 1000, 60000, 1, 10000, 10000];
        step(&mut board, &default_settings(), &sample).unwrap();
        assert_eq!(board.counters[0], broken);
        assert_eq!(board.counters[1..8], [0; 7]);
    }
}

#[test]
fn code_1440_is_momentary_and_1441_cease() {
    for (code, status, broken) in [(1440, MOMENTARY, 0), (1441, CEASE, 1)] {
        let mut board = in_service(50);
        let sample = [1000, 1000, code, 60000, 1, 10000, 10000];
        let report = step(&mut board, &quick_settings(), &sample).unwrap();
        assert_eq!(report.status, status);
        assert_eq!((report.share, report.watts, report.vars), (5000, 0, 0));
        assert_eq!(board.counters[3], broken);
        assert_eq!(board.counters[2], 1);
        assert_eq!(board.ramp, 50);
    }
}

#[test]
fn code_841_is_in_range_and_840_is_not() {
    for (code, ready) in [(841, true), (840, false)] {
        let mut board = fresh();
        let sample = [code, 1000, 1000, 60000, 1, 10000, 10000];
        let report = step(&mut board, &quick_settings(), &sample).unwrap();
        assert_eq!(report.bits[8], ready);
        assert_eq!(report.status, if ready { ENTERING } else { TRIPPED });
    }
}

#[test]
fn fifteen_steps_above_ov2_do_not_trip_and_sixteen_do() {
    let mut board = in_service(100);
    let sample = [1441, 1000, 1000, 60000, 1, 10000, 10000];
    for i in 1..=15 {
        let report = step(&mut board, &quick_settings(), &sample).unwrap();
        assert_eq!((report.status, report.bits[3], report.share), (CEASE, false, 10000));
        assert_eq!(board.counters[3], i);
    }
    for _ in 16..20 {
        let report = step(&mut board, &quick_settings(), &sample).unwrap();
        assert_eq!((report.status, report.bits[3], report.share), (TRIPPED, true, 0));
        assert_eq!(board.counters[3], 16);
    }
    assert_eq!(board.counters[2], 19); // a trip clears no counter
}
