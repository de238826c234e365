//! Tests of the step: refusals, limits, bands, return, ramp and share.

use super::*;

#[test]
fn refusals_of_a_step_change_nothing() {
    let wild = Board {
        status: 200, counters: [u32::MAX; 9], ramp: u32::MAX, watts: u16::MAX, vars: i16::MIN,
        recovery: u8::MAX, side: u8::MAX, held: u16::MAX,
    };
    let recovering = Board { recovery: 7, side: LOW_SIDE, held: 1234, ..in_service(50) };
    let refusals: [(&[u32], u8); 19] = [
        (&[], 8), (&[1000; 6], 8), (&[1000; 8], 8), (&[u32::MAX; 8], 8),
        (&[4096, 0, 0, 60000, 1, 0, 0], 4), (&[0, 4096, 0, 60000, 1, 0, 0], 4),
        (&[0, 0, 4096, 60000, 1, 0, 0], 4), (&[u32::MAX; 7], 4),
        (&[4095, 0, 0, 39999, 1, 0, 0], 5), (&[0, 0, 0, 80001, 1, 0, 0], 5),
        (&[0, 0, 0, u32::MAX, u32::MAX, 0, 0], 5), (&[0; 7], 5),
        (&[0, 0, 0, 60000, 2, 0, 0], 6), (&[0, 0, 0, 60000, u32::MAX, 10001, 0], 6),
        (&[0, 0, 0, 40000, 1, 10001, 0], 7), (&[0, 0, 0, 80000, 0, 0, 10001], 7),
        (&[0, 0, 0, 60000, 1, u32::MAX, u32::MAX], 7),
        (&[0, 0, 0, 39999, 2, 10001, 10001], 5), (&[4096, 0, 0, 39999, 2, 10001, 10001], 4),
    ];
    for (sample, number) in refusals {
        for before in [fresh(), wild, recovering] {
            let mut board = before;
            assert_eq!(step(&mut board, &default_settings(), sample), Err(number));
            assert_eq!(board, before);
        }
    }
}

#[test]
fn ends_of_the_sample_are_accepted() {
    for sample in [[0, 0, 0, 40000, 0, 0, 0], [4095, 4095, 4095, 80000, 1, 10000, 10000]] {
        assert!(step(&mut fresh(), &default_settings(), &sample).is_ok());
    }
}

#[test]
fn lent_settings_are_checked_before_the_sample() {
    let good = default_settings();
    for i in 0..PAIRS {
        for second in [false, true] {
            let is_power = second && i >= 11;
            let extremes: [i64; 2] = if is_power {
                [i64::from(i32::MIN), i64::from(i32::MAX)]
            } else {
                [1, i64::from(u32::MAX)]
            };
            for extreme in extremes {
                let mut pairs = good.pairs();
                *(if second { &mut pairs[i].1 } else { &mut pairs[i].0 }) = extreme;
                let lent = Settings::from_pairs(&pairs);
                assert_eq!(lent.pairs(), pairs);
                // 1 lies in the rows of uv1, uv2 and wait.
                let inside = extreme == 1 && !second && [0, 1, 10].contains(&i);
                let mut board = in_service(5);
                let answer = step(&mut board, &lent, &[]);
                assert_eq!(answer, Err(if inside { 8 } else { 2 }), "pair {}", i);
                assert_eq!(board, in_service(5));
            }
        }
    }
}

#[test]
fn lent_settings_are_checked_in_sheet_order() {
    let mut lent = default_settings();
    lent.watt[0].voltage = 0;
    assert_eq!(step(&mut fresh(), &lent, &NORMAL), Err(2));
    lent.var[1].voltage = lent.var[0].voltage;
    assert_eq!(step(&mut fresh(), &lent, &NORMAL), Err(3));
    lent.var[3].power = 10001;
    assert_eq!(step(&mut fresh(), &lent, &NORMAL), Err(2));
    let mut lent = default_settings();
    lent.watt[1] = lent.watt[0];
    assert_eq!(step(&mut fresh(), &lent, &[4096; 7]), Err(3));
    lent.ramp = 0;
    assert_eq!(step(&mut fresh(), &lent, &[4096; 7]), Err(2));
}

#[test]
fn fresh_board_and_its_report() {
    let board = Board {
        status: 0, counters: [0; 9], ramp: 0, watts: 0, vars: 0, recovery: 40, side: 0, held: 0,
    };
    assert_eq!(fresh(), board);
    let report = Report {
        status: 0, bits: [false; 9], share: 0, recovery: 40, side: 0, held: 0, watts: 0,
        vars: 0,
    };
    assert_eq!(fresh_report(), report);
    assert_eq!(report_line(&report), "(report tripped 000000000 0 40 0 0 0 0)\n");
}

#[test]
fn limits_are_broken_strictly() {
    // Every limit on the reading itself, then one step beyond.
    let mut settings = quick_settings();
    settings.trips[0].limit = voltage(700);
    settings.trips[1].limit = voltage(200);
    settings.trips[2].limit = voltage(1300);
    let cases: [([u32; 7], [u32; 8]); 14] = [
        ([700, 1000, 1000, 60000, 0, 0, 0], [0; 8]),
        ([1000, 699, 1000, 60000, 0, 0, 0], [1, 0, 0, 0, 0, 0, 0, 0]),
        ([1000, 1000, 200, 60000, 0, 0, 0], [1, 0, 0, 0, 0, 0, 0, 0]),
        ([1000, 1000, 199, 60000, 0, 0, 0], [1, 1, 0, 0, 0, 0, 0, 0]),
        ([1000, 1300, 1000, 60000, 0, 0, 0], [0; 8]),
        ([1000, 1000, 1301, 60000, 0, 0, 0], [0, 0, 1, 0, 0, 0, 0, 0]),
        ([0, 1441, 1000, 60000, 0, 0, 0], [1, 1, 1, 1, 0, 0, 0, 0]),
        ([1000, 1000, 1000, 58500, 0, 0, 0], [0; 8]),
        ([1000, 1000, 1000, 58499, 0, 0, 0], [0, 0, 0, 0, 1, 0, 0, 0]),
        ([1000, 1000, 1000, 56500, 0, 0, 0], [0, 0, 0, 0, 1, 0, 0, 0]),
        ([1000, 1000, 1000, 56499, 0, 0, 0], [0, 0, 0, 0, 1, 1, 0, 0]),
        ([1000, 1000, 1000, 61200, 0, 0, 0], [0; 8]),
        ([1000, 1000, 1000, 62000, 0, 0, 0], [0, 0, 0, 0, 0, 0, 1, 0]),
        ([1000, 1000, 1000, 62001, 0, 0, 0], [0, 0, 0, 0, 0, 0, 1, 1]),
    ];
    for (sample, counters) in cases {
        let mut board = fresh();
        step(&mut board, &settings, &sample).unwrap();
        assert_eq!(board.counters[..8], counters, "{:?}", sample);
        assert_eq!(board.counters[8], 0);
    }
}

#[test]
fn every_clearing_time() {
    let settings = default_settings();
    let low_volts = [200, 1000, 1000, 60000, 1, 10000, 10000];
    let high_volts = [1000, 1441, 1000, 60000, 1, 10000, 10000];
    let low_hertz = [1000, 1000, 1000, 50000, 1, 10000, 10000];
    let high_hertz = [1000, 1000, 1000, 70000, 1, 10000, 10000];
    let samples = [low_volts, low_volts, high_volts, high_volts,
        low_hertz, low_hertz, high_hertz, high_hertz];
    for (i, sample) in samples.iter().enumerate() {
        let mut board = fresh();
        for count in 1..=settings.trips[i].time + 2 {
            let report = step(&mut board, &settings, sample).unwrap();
            assert_eq!(board.counters[i], count.min(settings.trips[i].time));
            assert_eq!(report.bits[i], count >= settings.trips[i].time);
            assert_eq!(report.status, TRIPPED);
        }
        step(&mut board, &settings, &NORMAL).unwrap();
        assert_eq!(board.counters[i], 0);
    }
}

#[test]
fn bands() {
    let cases = [
        ([1000, 1000, 1000, 58800], CONTINUOUS), ([1000, 1000, 1000, 61200], CONTINUOUS),
        ([1000, 1000, 1000, 58799], MANDATORY), ([1000, 1000, 1000, 61201], MANDATORY),
        ([775, 1000, 1000, 60000], CONTINUOUS), ([774, 1000, 1000, 60000], MANDATORY),
        ([250, 1000, 1000, 60000], MANDATORY), ([249, 1000, 1000, 60000], MOMENTARY),
        ([1210, 1000, 1000, 60000], CONTINUOUS), ([1211, 1000, 1000, 60000], MOMENTARY),
        ([1440, 1000, 1000, 60000], MOMENTARY), ([1441, 1000, 1000, 60000], CEASE),
        ([1441, 0, 1000, 60000], CEASE), ([774, 1211, 1000, 57000], MOMENTARY),
        ([249, 1000, 1000, 57000], MOMENTARY), ([0, 0, 0, 60000], MOMENTARY),
        ([1000, 1000, 1000, 57000], MANDATORY), ([1000, 1000, 1000, 62000], MANDATORY),
        ([1000, 1000, 1000, 56999], CEASE), ([1000, 1000, 1000, 62001], CEASE),
        ([774, 1211, 1000, 50000], CEASE), ([249, 1000, 1000, 50000], CEASE),
        ([1441, 0, 1000, 50000], CEASE), ([774, 1000, 1000, 70000], CEASE),
    ];
    for ([a, b, c, frequency], status) in cases {
        // Watts enough to feed in every event: at 62000 it takes 6546 of them.
        let mut board = Board { watts: 10000, ..in_service(99) };
        let sample = [a, b, c, frequency, 1, 10000, 10000];
        let report = step(&mut board, &quick_settings(), &sample).unwrap();
        assert_eq!(report.status, status, "{:?}", sample);
        assert_eq!(board.ramp, if status == CONTINUOUS { 100 } else { 99 });
        let feeds = status == CONTINUOUS || status == MANDATORY;
        assert_eq!(report.watts > 0, feeds);
    }
}

#[test]
fn return_waits_for_consecutive_steps() {
    let settings = Settings { wait: 3, ..quick_settings() };
    let mut board = fresh();
    let outside = [
        [1000, 1000, 1000, 60000, 0, 10000, 10000],
        [1000, 1000, 1000, 59499, 1, 10000, 10000],
        [1000, 1000, 1000, 60101, 1, 10000, 10000],
        [840, 1000, 1000, 60000, 1, 10000, 10000],
        [1103, 1000, 1000, 60000, 1, 10000, 10000], // 10502
    ];
    for sample in outside {
        for count in 1..3 {
            let report = step(&mut board, &settings, &NORMAL).unwrap();
            assert_eq!((report.status, report.bits[8]), (TRIPPED, false));
            assert_eq!(board.counters[8], count);
        }
        step(&mut board, &settings, &sample).unwrap();
        assert_eq!(board.counters[8], 0);
    }
    let edges = [
        [841, 1102, 1000, 59500, 1, 0, 0], // 10497
        [841, 1102, 1000, 60100, 1, 0, 0],
        [841, 1102, 1000, 60100, 1, 0, 0],
    ];
    for (i, sample) in edges.iter().enumerate() {
        let report = step(&mut board, &settings, sample).unwrap();
        assert_eq!(report.bits[8], i == 2);
        assert_eq!(report.status, if i == 2 { ENTERING } else { TRIPPED });
    }
    assert_eq!((board.counters[8], board.ramp), (3, 0));
}

#[test]
fn a_wait_of_0_counts_as_1() {
    for wait in [0, 1] {
        let mut board = fresh();
        let settings = Settings { wait, ..quick_settings() };
        let report = step(&mut board, &settings, &NORMAL).unwrap();
        assert_eq!((report.status, report.bits[8], board.counters[8]), (ENTERING, true, 1));
    }
}

#[test]
fn ramp_to_continuous() {
    let mut board = fresh();
    for count in 0..=102 {
        let report = step(&mut board, &quick_settings(), &NORMAL).unwrap();
        let ramp = count.min(100);
        assert_eq!(board.ramp, ramp);
        assert_eq!(u32::from(report.share), 100 * ramp);
        assert_eq!(report.status, if ramp < 100 { ENTERING } else { CONTINUOUS });
    }
}

#[test]
fn share_is_rounded_down() {
    let settings = Settings { ramp: 30000, ..quick_settings() };
    for (ramp, share) in [(1, 0), (2, 1), (3, 1), (5, 2), (29998, 9999), (29999, 10000)] {
        let report = step(&mut in_service(ramp), &settings, &NORMAL).unwrap();
        assert_eq!(report.share, share, "after {}", ramp);
    }
}

#[test]
fn no_permission_trips_at_once() {
    for status in ENTERING..=CEASE {
        let mut board = Board { status, ramp: 100, ..fresh() };
        let report = step(&mut board, &quick_settings(), &NO_PERMISSION).unwrap();
        assert_eq!(report, fresh_report());
        assert_eq!(board, fresh());
    }
}
