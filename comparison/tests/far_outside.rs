//! Tests of runs of steps whose frequency is far outside.

use super::hertz_and_volts::{HERTZ, VOLTS};
use super::*;

#[test]
fn uf2_and_of2_run_out_far_outside() {
    let cases =
        [(40000, [4, 5]), (56499, [4, 5]), (62001, [6, 7]), (70000, [6, 7]), (80000, [6, 7])];
    for (frequency, [slow, fast]) in cases {
        let sample = sample_of([1000; 3], frequency, 1);
        let mut board = in_service(70);
        let counters = |first: u32, second: u32| {
            let mut counters = [0; 9];
            (counters[slow], counters[fast]) = (first, second);
            counters
        };
        for k in 1..=15 {
            let (report, found) = imaged(&mut board, &quick_settings(), &sample);
            assert_eq!((report.status, report.share, report.recovery), (CEASE, 7000, 0));
            assert_eq!((board.counters, report.bits), (counters(k, k), [false; 9]));
            assert_eq!(found, rules(STATUS_BY_FREQUENCY, 0, WATTS_BY_STATUS));
        }
        for k in 16..=20 {
            let (report, found) = imaged(&mut board, &quick_settings(), &sample);
            assert_eq!((report.status, report.share, report.recovery), (TRIPPED, 0, 40));
            assert_eq!(board.counters, counters(k, 16));
            assert_eq!(report.bits, std::array::from_fn(|i| i == fast));
            let tripped = rules(STATUS_BY_LIMIT, fast as u8 + 1, WATTS_BY_STATUS);
            assert_eq!(found, if k == 16 { tripped } else { fresh_rules() });
        }
        // Back with ramp 0, and recovered.
        assert_eq!(recovering(&mut board, &NORMAL), (ENTERING, 40, 0));
        assert_eq!(board.counters, [0, 0, 0, 0, 0, 0, 0, 0, 1]);
        assert_eq!(recovering(&mut board, &NORMAL), (ENTERING, 40, 100));
    }
}

#[test]
fn uf1_and_of1_run_out_far_outside() {
    // Alone: uf2 is not broken there, of2 lies further out.
    let mut settings = quick_settings();
    settings.trips[4].time = 18000;
    settings.trips[6].time = 18000;
    settings.trips[7].limit = 66000;
    for (frequency, i) in [(56500, 4), (56999, 4), (62001, 6), (66000, 6)] {
        let sample = sample_of([1000; 3], frequency, 1);
        let mut board = in_service(70);
        for k in 1..18000 {
            let (report, found) = explained(&mut board, &settings, &sample);
            assert_eq!((report.status, report.recovery, board.ramp), (CEASE, 0, 70));
            assert_eq!((board.counters[i], report.bits), (k, [false; 9]));
            assert_eq!(found, rules(STATUS_BY_FREQUENCY, 0, WATTS_BY_STATUS));
        }
        let (report, found) = explained(&mut board, &settings, &sample);
        assert_eq!((report.status, report.recovery, report.bits[i]), (TRIPPED, 40, true));
        assert_eq!(found, rules(STATUS_BY_LIMIT, i as u8 + 1, WATTS_BY_STATUS));
        let only: [u32; 9] = std::array::from_fn(|j| if i == j { 18000 } else { 0 });
        assert_eq!(board.counters, only);
    }
}

#[test]
fn no_limit_runs_out_far_outside() {
    let settings = wide_settings();
    for frequency in [50000, 50001, 56999, 62001, 65999, 66000] {
        let sample = sample_of([1000; 3], frequency, 1);
        let mut board = Board { counters: [u32::MAX; 9], ..in_service(70) };
        let side = if frequency < 57000 { LOW_SIDE } else { HIGH_SIDE };
        for _ in 0..20000 {
            let (report, found) = explained(&mut board, &settings, &sample);
            let ceased =
                Report { status: CEASE, share: 7000, recovery: 0, side, ..fresh_report() };
            assert_eq!(report, ceased);
            assert_eq!((board.counters, board.ramp), ([0; 9], 70));
            assert_eq!(found, rules(STATUS_BY_FREQUENCY, 0, WATTS_BY_STATUS));
        }
        let (report, _) = explained(&mut board, &settings, &NORMAL);
        assert_eq!((report.status, report.share), (ENTERING, 7100));
        assert_eq!((report.recovery, report.watts), (1, 250));
    }
    // One further they are broken.
    for (frequency, broken) in [(49999, [1, 1, 0, 0]), (66001, [0, 0, 1, 1])] {
        let mut board = in_service(70);
        let (report, _) =
            explained(&mut board, &settings, &sample_of([1000; 3], frequency, 1));
        assert_eq!((report.status, &board.counters[4..8]), (CEASE, &broken[..]));
    }
}

#[test]
fn counters_run_on_across_the_ends_of_cease() {
    // A limit on the very end: 57000 and 62000 do not break it, one further does.
    let mut settings = quick_settings();
    settings.trips[5].limit = 57000;
    // Inside, the droop moves the 7000 that are held by 9880 or 6546.
    let cases = [(57000, 56999, [4, 5], 10000), (62000, 62001, [6, 7], 454)];
    for (inside, outside, [slow, fast], asked) in cases {
        let mut board = Board { watts: 7000, ..in_service(70) };
        for k in 1..=200 {
            let far = k % 2 == 0;
            let frequency = if far { outside } else { inside };
            let sample = sample_of([1000; 3], frequency, 1);
            let (report, found) = imaged(&mut board, &settings, &sample);
            let (status, recovery, watts, by) = match (far, k) {
                (true, _) => (CEASE, 0, 0, WATTS_BY_STATUS),
                (false, 1) => (MANDATORY, 40, asked, WATTS_BY_DROOP),
                (false, _) => (MANDATORY, 1, 250, WATTS_BY_RECOVERY),
            };
            assert_eq!((report.status, report.recovery), (status, recovery));
            assert_eq!((report.share, report.watts), (7000, watts));
            assert_eq!((board.counters[slow], board.counters[fast]), (k, u32::from(far)));
            assert_eq!(found, rules(STATUS_BY_FREQUENCY, 0, by));
        }
    }
    // From one side to the other the counters change over.
    let mut board = in_service(70);
    for _ in 0..20 {
        for (sample, counters) in [(FAR_BELOW, [1, 1, 0, 0]), (FAR_ABOVE, [0, 0, 1, 1])] {
            let (report, _) = imaged(&mut board, &settings, &sample);
            assert_eq!((report.status, report.recovery), (CEASE, 0));
            assert_eq!(board.counters[4..8], counters);
        }
    }
}

#[test]
fn of2_runs_out_in_mandatory_and_in_cease() {
    // Its lowest limit lies inside: 62000 breaks it and still feeds.
    let mut settings = quick_settings();
    settings.trips[7].limit = 61800;
    for pattern in [[62000, 62000], [62001, 62001], [62000, 62001], [61801, 80000]] {
        let mut board = Board { watts: 10000, ..in_service(100) };
        for k in 1..=16 {
            let frequency = pattern[k % 2];
            let sample = sample_of([1000; 3], frequency, 1);
            let (report, found) = imaged(&mut board, &settings, &sample);
            assert_eq!(board.counters[7], k as u32);
            if k == 16 {
                assert_eq!((report.status, report.recovery), (TRIPPED, 40));
                assert_eq!(found, rules(STATUS_BY_LIMIT, 8, WATTS_BY_STATUS));
            } else if frequency > 62000 {
                assert_eq!((report.status, report.recovery, report.watts), (CEASE, 0, 0));
            } else {
                assert_eq!((report.status, report.watts > 0), (MANDATORY, true));
            }
        }
    }
}

#[test]
fn the_return_waits_far_outside() {
    let settings = Settings { wait: 3, ..quick_settings() };
    let others = HERTZ.iter().filter(|hertz| !(59500..=60100).contains(&hertz.0));
    for &(frequency, band, _) in others {
        let sample = sample_of([1000; 3], frequency, 1);
        // Tripped: two steps are lost, and three have to follow.
        let mut board = fresh();
        for count in [1, 2] {
            explained(&mut board, &settings, &NORMAL);
            assert_eq!(board.counters[8], count);
        }
        let (report, found) = explained(&mut board, &settings, &sample);
        assert_eq!((report.status, report.bits[8], board.counters[8]), (TRIPPED, false, 0));
        assert_eq!((report.recovery, found), (40, fresh_rules()));
        for count in 1..=3 {
            let (report, _) = explained(&mut board, &settings, &NORMAL);
            assert_eq!((board.counters[8], report.bits[8]), (count, count == 3));
            assert_eq!(report.status, if count == 3 { ENTERING } else { TRIPPED });
            assert_eq!((report.recovery, report.watts), (40, 0));
        }
        // In service it is counted too, and begins anew.
        let (report, _) = explained(&mut board, &settings, &sample);
        assert_eq!((board.counters[8], report.bits[8]), (0, false));
        assert_eq!(report.status, if band == CONTINUOUS { ENTERING } else { band });
        for count in 1..=5 {
            explained(&mut board, &settings, &NORMAL);
            assert_eq!(board.counters[8], count.min(3));
        }
        // A full count of the record does not outlast such a step, nor let it return.
        for status in [TRIPPED, 255] {
            let mut board = Board { status, counters: [u32::MAX; 9], ..fresh() };
            let (report, found) = explained(&mut board, &settings, &sample);
            assert_eq!((report.status, board.counters[8]), (TRIPPED, 0));
            assert_eq!(found, fresh_rules());
        }
    }
}

#[test]
fn recovery_from_far_outside() {
    // Whatever the voltages, and both with and without a limit broken beside it.
    let (quick, wide) = (quick_settings(), wide_settings());
    let far = HERTZ.iter().filter(|hertz| hertz.1 == CEASE);
    for &(frequency, ..) in far {
        for (codes, ..) in VOLTS {
            for settings in [quick, wide] {
                let mut board = in_service(100);
                let sample = sample_of(codes, frequency, 1);
                for _ in 0..2 {
                    let (report, _) = explained(&mut board, &settings, &sample);
                    let stopped = (report.status, report.recovery, report.watts, report.vars);
                    assert_eq!(stopped, (CEASE, 0, 0, 0));
                }
                // In the mandatory band up to its ends, then in the continuous one.
                for k in 1..=45u8 {
                    let frequency = [57000, 62000, 60000][usize::from(k) % 3];
                    let sample = sample_of([841; 3], frequency, 1);
                    let (report, found) = explained(&mut board, &settings, &sample);
                    let by_hertz = frequency != 60000;
                    let status = if by_hertz { MANDATORY } else { CONTINUOUS };
                    assert_eq!((report.status, report.recovery), (status, k.min(40)));
                    // At 57000 the droop asks for all. At 62000 it takes 6546 from the watts
                    // of the step before.
                    let recovered = |k: u8| (250 * u16::from(k.min(40))).min(8979);
                    let watts = match frequency {
                        62000 => recovered(k - 1).saturating_sub(6546),
                        _ => recovered(k),
                    };
                    assert_eq!((report.watts, report.vars), (watts, 4400));
                    let cause = if by_hertz { STATUS_BY_FREQUENCY } else { STATUS_BY_LOWEST };
                    let by = match frequency {
                        62000 => WATTS_BY_DROOP,
                        _ if k < 36 => WATTS_BY_RECOVERY,
                        _ => WATTS_BY_NAMEPLATE,
                    };
                    assert_eq!(found, rules(cause, 0, by));
                }
            }
        }
    }
}

#[test]
fn the_ramp_is_held_far_outside() {
    for ramp in 0..=100 {
        for sample in [FAR_BELOW, FAR_ABOVE] {
            let mut board = in_service(ramp);
            for _ in 0..10 {
                let (report, _) = imaged(&mut board, &quick_settings(), &sample);
                assert_eq!((report.status, board.ramp), (CEASE, ramp));
                assert_eq!(u32::from(report.share), 100 * ramp);
            }
            // It goes on from there.
            let (report, _) = imaged(&mut board, &quick_settings(), &NORMAL);
            assert_eq!(board.ramp, 100.min(ramp + 1));
            assert_eq!(report.status, if ramp < 99 { ENTERING } else { CONTINUOUS });
        }
    }
}

#[test]
fn far_outside_in_the_program() {
    let at = |frequency: u32| format!("(at (1000 1000 1000) {frequency} 1 10000 10000)\n");
    let hertz = [57000, 56999, 62000, 62001, 40000, 39999, 80000, 80001];
    let samples = GOOD.repeat(101)
        + &hertz.map(at).concat()
        + "(at (841 841 841) 57000 1 10000 10000)\n"
        + GOOD
        + &at(62001).repeat(17)
        + &at(56999)
        + GOOD
        + &at(56999)
        + GOOD;
    let answers = after_quick_sheet(&samples);
    let lines: Vec<&str> = answers.lines().skip(101).collect();
    let mut expected = vec![
        "(report mandatory 000000000 10000 40 2 10000 10000 0)",
        "(report cease 000000000 10000 0 2 10000 0 0)",
        "(report mandatory 000000000 10000 1 1 0 0 0)",
        "(report cease 000000000 10000 0 1 0 0 0)",
        "(report cease 000000000 10000 0 2 0 0 0)",
        "(refused 5 120)",
        "(report cease 000000000 10000 0 1 0 0 0)",
        "(refused 5 122)",
        "(report mandatory 000000000 10000 1 2 0 250 4400)",
        "(report continuous 000000001 10000 2 0 0 500 0)",
    ];
    expected.extend(["(report cease 000000000 10000 0 1 500 0 0)"; 15]);
    expected.extend(["(report tripped 000000010 0 40 0 0 0 0)"; 2]);
    expected.extend([
        "(report tripped 000000000 0 40 0 0 0 0)",
        "(report entering 000000001 0 40 0 0 0 0)",
        "(report cease 000000000 0 0 2 0 0 0)",
        "(report entering 000000001 100 1 0 0 100 0)",
    ]);
    assert_eq!(lines, expected);
}
