//! Tests of the rule for the status.

use super::*;

#[test]
fn tripped_by_permission() {
    // In every band, with and without completed limits beside it.
    for status in ENTERING..=CEASE {
        for counters in [[0; 9], [u32::MAX; 9]] {
            let samples = [
                NORMAL, LOW_HERTZ, LOW_DIP, HIGH_SWELL, TOO_HIGH, FAR_BELOW, FAR_ABOVE, [0; 7],
            ];
            for mut sample in samples {
                sample[3] = sample[3].max(40000);
                sample[4] = 0;
                let mut board = Board { status, counters, ..in_service(100) };
                let expected = (TRIPPED, rules(STATUS_BY_PERMISSION, 0, WATTS_BY_STATUS));
                assert_eq!(quickly(&mut board, &sample), expected);
                // From the next step on it waits, with permission still 0.
                for _ in 0..3 {
                    assert_eq!(quickly(&mut board, &sample), (TRIPPED, fresh_rules()));
                }
            }
        }
    }
}

#[test]
fn tripped_by_each_limit_alone() {
    let settings = quick_settings();
    let broken = [
        [1000, 774, 1000, 60000], [1000, 1000, 249, 60000], [1211, 1000, 1000, 60000],
        [1000, 1000, 1441, 60000], [1000, 1000, 1000, 58499], [1000, 1000, 1000, 56499],
        [1000, 1000, 1000, 61201], [1000, 1000, 1000, 62001],
    ];
    let names = ["uv1", "uv2", "ov1", "ov2", "uf1", "uf2", "of1", "of2"];
    for (i, [a, b, c, frequency]) in broken.into_iter().enumerate() {
        assert!(DEFAULT_SHEET.lines().nth(i).unwrap().contains(names[i]));
        let sample = [a, b, c, frequency, 1, 10000, 10000];
        let mut board = all_but_one_step(&settings, &[i]);
        let place = i as u8 + 1;
        let expected = (TRIPPED, rules(STATUS_BY_LIMIT, place, WATTS_BY_STATUS));
        assert_eq!(quickly(&mut board, &sample), expected, "{}", names[i]);
        // Its bit stays, but from the next step on the board waits.
        let (report, rules) = explained(&mut board, &settings, &sample);
        assert_eq!((report.status, report.bits[i], rules), (TRIPPED, true, fresh_rules()));
        // Two steps short it does not trip.
        let mut board = all_but_one_step(&settings, &[i]);
        board.counters[i] -= 1;
        let (status, rules) = quickly(&mut board, &sample);
        assert_eq!((status != TRIPPED, rules.limit), (true, 0));
    }
}

#[test]
fn tripped_by_the_first_of_several_limits() {
    // All that can be broken at once, and every choice of those that are completed.
    for (frequency, breakable) in [(40000, [0, 1, 2, 3, 4, 5]), (80000, [0, 1, 2, 3, 6, 7])] {
        let sample = [1000, 4095, 0, frequency, 1, 10000, 10000];
        for choice in 0..64 {
            let chosen: Vec<usize> =
                (0..6).filter(|i| choice >> i & 1 == 1).map(|i| breakable[i]).collect();
            let mut board = all_but_one_step(&quick_settings(), &chosen);
            let expected = match chosen.first() {
                Some(&i) => (TRIPPED, rules(STATUS_BY_LIMIT, i as u8 + 1, WATTS_BY_STATUS)),
                None => (CEASE, rules(STATUS_BY_HIGHEST, 0, WATTS_BY_STATUS)),
            };
            assert_eq!(quickly(&mut board, &sample), expected, "{:?}", chosen);
        }
    }
}

#[test]
fn a_limit_is_completed_at_this_step_only() {
    // Full counters of the record play no part where the limit is not broken now.
    let full = Board { counters: [u32::MAX; 9], ..in_service(100) };
    let expected = (CONTINUOUS, rules(STATUS_BY_LOWEST, 0, WATTS_BY_AVAILABLE));
    assert_eq!(quickly(&mut full.clone(), &NORMAL), expected);
    let expected = (TRIPPED, rules(STATUS_BY_LIMIT, 6, WATTS_BY_STATUS));
    let mut settings = quick_settings();
    settings.trips[4].limit = 50000;
    let sample = [1000, 1000, 1000, 56000, 1, 10000, 10000]; // below uf2, not below uf1
    let (report, rules) = explained(&mut full.clone(), &settings, &sample);
    assert_eq!((report.status, rules), expected);
}

#[test]
fn tripped_since_an_earlier_step() {
    // Unknown statuses are read as tripped. Whatever the sample, the wait is not full.
    for status in [0, 6, 7, 128, 255] {
        for counters in [[0; 9], [u32::MAX; 9]] {
            for permission in [0, 1] {
                let samples = [
                    NORMAL, LOW_HERTZ, LOW_DIP, HIGH_SWELL, TOO_HIGH, FAR_BELOW, FAR_ABOVE,
                ];
                for mut sample in samples {
                    if sample == NORMAL && permission == 1 {
                        continue;
                    }
                    sample[4] = permission;
                    let mut board = Board { status, counters, ..in_service(100) };
                    assert_eq!(quickly(&mut board, &sample), (TRIPPED, fresh_rules()));
                }
            }
        }
    }
    // Also while it fills.
    let settings = Settings { wait: 5, ..quick_settings() };
    let mut board = fresh();
    for k in 1..=4 {
        let (report, rules) = explained(&mut board, &settings, &NORMAL);
        assert_eq!((report.status, board.counters[8]), (TRIPPED, k));
        assert_eq!(rules, fresh_rules());
    }
    let (report, returned) = explained(&mut board, &settings, &NORMAL);
    assert_eq!(report.status, ENTERING);
    assert_eq!(returned, rules(STATUS_BY_RETURN, 0, WATTS_BY_SHARE));
}

#[test]
fn returned_at_this_step() {
    // The share is 0 then, and the rule for the watts unless available or limit is 0 too.
    let powers = [
        (10000, 10000, WATTS_BY_SHARE), (1, 1, WATTS_BY_SHARE),
        (0, 10000, WATTS_BY_AVAILABLE), (10000, 0, WATTS_BY_OPERATOR),
        (0, 0, WATTS_BY_AVAILABLE),
    ];
    for status in [0, 6, 255] {
        for (available, limit, watts) in powers {
            let mut board = Board { status, ..fresh() };
            let sample = [1000, 1000, 1000, 60000, 1, available, limit];
            let expected = (ENTERING, rules(STATUS_BY_RETURN, 0, watts));
            assert_eq!(quickly(&mut board, &sample), expected);
            // The next step is no return.
            let (status, rules) = quickly(&mut board, &sample);
            assert_eq!((status, rules.status), (ENTERING, STATUS_BY_LOWEST));
        }
    }
    // Not before the wait is full, nor in service when it is.
    let mut board = Board { counters: [1; 9], ..in_service(100) };
    let (report, rules) = explained(&mut board, &quick_settings(), &NORMAL);
    assert_eq!((report.bits[8], rules.status), (true, STATUS_BY_LOWEST));
}

#[test]
fn causes_of_the_band() {
    // Lowest and highest code; the cause with a continuous frequency. Below 5000, 5000 to
    // 8799, continuous, up to 12000, above.
    let cases = [
        (249, 249, MOMENTARY, STATUS_BY_LOWEST), (249, 774, MOMENTARY, STATUS_BY_LOWEST),
        (249, 1000, MOMENTARY, STATUS_BY_LOWEST), (249, 1211, MOMENTARY, STATUS_BY_LOWEST),
        (249, 1441, CEASE, STATUS_BY_HIGHEST), (774, 774, MANDATORY, STATUS_BY_LOWEST),
        (774, 1000, MANDATORY, STATUS_BY_LOWEST), (774, 1211, MOMENTARY, STATUS_BY_HIGHEST),
        (774, 1441, CEASE, STATUS_BY_HIGHEST), (1000, 1000, CONTINUOUS, STATUS_BY_LOWEST),
        (1000, 1211, MOMENTARY, STATUS_BY_HIGHEST), (1000, 1441, CEASE, STATUS_BY_HIGHEST),
        (1211, 1211, MOMENTARY, STATUS_BY_LOWEST), (1211, 1441, CEASE, STATUS_BY_HIGHEST),
        (1441, 1441, CEASE, STATUS_BY_LOWEST),
    ];
    for (low, high, status, cause) in cases {
        let orders = [
            [low, low, high], [low, high, low], [high, low, low],
            [low, high, high], [high, low, high], [high, high, low],
        ];
        for [a, b, c] in orders {
            for frequency in [58800, 60000, 61200] {
                let sample = [a, b, c, frequency, 1, 10000, 10000];
                let (now, rules) = quickly(&mut in_service(100), &sample);
                assert_eq!((now, rules.status, rules.limit), (status, cause, 0));
            }
            // A mandatory frequency is the worst alone where all else is continuous.
            for frequency in [57000, 58799, 61201, 62000] {
                let sample = [a, b, c, frequency, 1, 10000, 10000];
                let (now, rules) = quickly(&mut in_service(100), &sample);
                let expected = match status {
                    CONTINUOUS => (MANDATORY, STATUS_BY_FREQUENCY, 0),
                    _ => (status, cause, 0),
                };
                assert_eq!((now, rules.status, rules.limit), expected);
            }
            // One far outside is, unless a voltage is cease too.
            for frequency in [40000, 56999, 62001, 80000] {
                let sample = [a, b, c, frequency, 1, 10000, 10000];
                let (now, rules) = quickly(&mut in_service(100), &sample);
                let first = if status == CEASE { cause } else { STATUS_BY_FREQUENCY };
                assert_eq!((now, rules.status, rules.limit), (CEASE, first, 0));
            }
        }
    }
    // The ramp is no cause.
    for ramp in 0..=100 {
        let (status, rules) = quickly(&mut in_service(ramp), &NORMAL);
        assert_eq!(status, if ramp < 99 { ENTERING } else { CONTINUOUS });
        assert_eq!(rules.status, STATUS_BY_LOWEST);
    }
}
