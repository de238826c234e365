//! Tests of the droop's power, and of what binds it.

use super::*;

#[test]
fn ends_of_the_droop() {
    let rows = [
        (58800, 2, 5000, 8880), (59961, 2, 5000, 5010), (59962, 2, 5000, 5006),
        (59963, 2, 5000, 5003), (59964, 0, 0, 10000), (59965, 0, 0, 10000),
        (60000, 0, 0, 10000), (60035, 0, 0, 10000), (60036, 0, 0, 10000),
        (60037, 1, 5000, 4997), (60038, 1, 5000, 4994), (60039, 1, 5000, 4990),
        (61200, 1, 5000, 1120),
    ];
    for status in ENTERING..=CEASE {
        for (frequency, side, held, watts) in rows {
            let mut board = Board { status, ..feeding(5000) };
            assert_eq!(event(&mut board, &at(frequency)), (side, held, watts), "{}", frequency);
            assert_eq!(board.status, CONTINUOUS);
            // A tripped board that does not return is in none.
            for status in [TRIPPED, 6, 255] {
                let mut board = Board { status, ..feeding(5000) };
                let mut sample = at(frequency);
                sample[4] = 0;
                assert_eq!(event(&mut board, &sample), (0, 0, 0));
            }
        }
    }
}

#[test]
fn quotients_are_rounded_down() {
    // The distance from the point, and the power that it is worth.
    let rows: [(u32, u16); 22] = [
        (1, 3), (2, 6), (3, 10), (4, 13), (5, 16), (6, 20), (7, 23), (8, 26), (9, 30), (10, 33),
        (11, 36), (12, 40), (100, 333), (101, 336), (102, 340), (299, 996), (300, 1000),
        (301, 1003), (999, 3330), (1164, 3880), (1165, 3883), (1499, 4996),
    ];
    for (distance, worth) in rows {
        assert_eq!(beyond(60036 + distance), (1, i64::from(worth)));
        assert_eq!(beyond(59964 - distance), (2, i64::from(worth)));
        for held in [4996, 4997, 4998, 5000, 5001] {
            let high = (1, held, held - worth.min(held));
            assert_eq!(event(&mut feeding(held), &at(60036 + distance)), high);
            let low = (2, held, (held + worth).min(10000));
            assert_eq!(event(&mut feeding(held), &at(59964 - distance)), low);
        }
    }
    // Before it is used, so that 5000 less 3.33 are 4997 and not 4996.
    assert_eq!(event(&mut feeding(5000), &at(60037)), (1, 5000, 4997));
    assert_eq!(event(&mut feeding(5000), &at(60038)), (1, 5000, 4994));
    assert_eq!(event(&mut feeding(5000), &at(59962)), (2, 5000, 5006));
}

#[test]
fn the_ends_of_the_droops_power() {
    // High: down to 0 and never below. Low: up to what is available and never above.
    let high = [
        (60037, 0, 0), (60037, 1, 0), (60037, 2, 0), (60037, 3, 0), (60037, 4, 1),
        (60039, 9, 0), (60039, 10, 0), (60039, 11, 1), (61200, 3879, 0), (61200, 3880, 0),
        (61200, 3881, 1), (61200, 10000, 6120), (62000, 6545, 0), (62000, 6546, 0),
        (62000, 6547, 1), (62000, 10000, 3454), (62000, 0, 0),
    ];
    for (frequency, held, watts) in high {
        assert_eq!(event(&mut feeding(held), &at(frequency)), (1, held, watts));
    }
    let low = [
        (59963, 0, 10000, 3), (59963, 9996, 10000, 9999), (59963, 9997, 10000, 10000),
        (59963, 9998, 10000, 10000), (59963, 10000, 10000, 10000), (59963, 0, 2, 2),
        (59963, 0, 3, 3), (59963, 0, 4, 3), (59963, 5000, 5002, 5002),
        (59963, 5000, 5003, 5003), (59963, 5000, 5004, 5003), (58800, 6119, 10000, 9999),
        (58800, 6120, 10000, 10000), (58800, 6121, 10000, 10000), (57000, 0, 10000, 9880),
        (57000, 119, 10000, 9999), (57000, 120, 10000, 10000), (57000, 10000, 10000, 10000),
        (57000, 10000, 0, 0), (57000, 0, 0, 0),
    ];
    for (frequency, held, available, watts) in low {
        let sample = at_with(frequency, available, 10000);
        assert_eq!(event(&mut feeding(held), &sample), (2, held, watts), "{:?}", sample);
    }
    // Far outside there is no output, though side and held power are there.
    for (frequency, side) in [(40000, 2), (56999, 2), (62001, 1), (80000, 1)] {
        assert_eq!(event(&mut feeding(7000), &at(frequency)), (side, 7000, 0));
    }
    // The power itself, as far as the frequency goes: 66546 and 66546 away.
    for held in [0, 5000, 10000] {
        assert_eq!(droop(held, 80000, 10000), 0);
        assert_eq!(droop(held, 40000, 10000), 10000);
        assert_eq!(droop(held, 40000, 7), 7);
    }
}

#[test]
fn the_droop_by_another_way() {
    for frequency in (40000..59964).chain(60037..=80000) {
        for held in [0, 1, 2, 3, 4, 3333, 5000, 9999, 10000] {
            for available in [0, 1, 3333, 5000, 9999, 10000] {
                let expected = drooped(held, frequency, available);
                assert_eq!(droop(held, frequency, available), expected);
            }
        }
    }
}

#[test]
fn what_is_available_caps_the_result_and_not_the_held_power() {
    // 6000 held, 100 moved. With 5950 available the high side still gives 5900.
    let rows = [
        (60066, 10000, 5900), (60066, 5950, 5900), (60066, 5901, 5900), (60066, 5900, 5900),
        (60066, 5899, 5899), (60066, 100, 100), (60066, 0, 0), (59934, 10000, 6100),
        (59934, 6101, 6100), (59934, 6100, 6100), (59934, 6099, 6099), (59934, 6000, 6000),
        (59934, 5000, 5000), (59934, 0, 0),
    ];
    for (frequency, available, watts) in rows {
        let side = if frequency == 60066 { 1 } else { 2 };
        let sample = at_with(frequency, available, 10000);
        // As the event begins, and as it goes on.
        assert_eq!(event(&mut feeding(6000), &sample), (side, 6000, watts));
        assert_eq!(event(&mut drooping(77, side, 6000), &sample), (side, 6000, watts));
    }
}

#[test]
fn available_power_that_falls_and_rises() {
    for (frequency, side, asked) in [(60066, 1, 5900), (59934, 2, 6100)] {
        let mut board = feeding(6000);
        for available in (0..=10000).rev().step_by(50).chain((0..=10000).step_by(50)) {
            let sample = at_with(frequency, available, 10000);
            let watts = (available as u16).min(asked);
            assert_eq!(event(&mut board, &sample), (side, 6000, watts));
        }
        // Back between the points there is all again.
        assert_eq!(event(&mut board, &NORMAL), (0, 0, 10000));
    }
}

#[test]
fn limit_and_share_do_not_bind_in_an_event() {
    let shares = [(0, 100), (1, 200), (49, 5000), (58, 5900), (99, 10000), (100, 10000)];
    for (ramp, share) in shares {
        for limit in [0, 1, 5899, 5900, 6100, 10000] {
            for (frequency, side, watts) in [(60066, 1, 5900), (59934, 2, 6100)] {
                for lent in [0, side] {
                    let mut board = Board {
                        side: lent, held: 6000, watts: 6000, ..in_service(ramp)
                    };
                    let sample = at_with(frequency, 10000, limit);
                    let (report, found) = imaged(&mut board, &quick_settings(), &sample);
                    assert_eq!((report.share, report.watts), (share, watts));
                    assert_eq!((report.side, report.held), (side, 6000));
                    assert_eq!(found, rules(STATUS_BY_LOWEST, 0, WATTS_BY_DROOP));
                }
            }
            // They do on the points.
            for frequency in [59964, 60036] {
                let mut board = Board { side: 1, held: 6000, watts: 6000, ..in_service(ramp) };
                let watts = share.min(limit as u16);
                let sample = at_with(frequency, 10000, limit);
                assert_eq!(event(&mut board, &sample), (0, 0, watts));
            }
        }
    }
}

#[test]
fn curve_nameplate_and_recovery_bind_in_an_event() {
    // 1180: the watt curve's 4760, vars -4400. 841: vars 4400 leave 8979.
    let rows = [
        ([1180; 3], 40, 60037, 4762, 4759, WATTS_BY_DROOP),
        ([1180; 3], 40, 60037, 4763, 4760, WATTS_BY_DROOP),
        ([1180; 3], 40, 60037, 4764, 4760, WATTS_BY_CURVE),
        ([1180; 3], 40, 59963, 4756, 4759, WATTS_BY_DROOP),
        ([1180; 3], 40, 59963, 4757, 4760, WATTS_BY_DROOP),
        ([1180; 3], 40, 59963, 4758, 4760, WATTS_BY_CURVE),
        ([1180; 3], 40, 59000, 10000, 4760, WATTS_BY_CURVE),
        ([841; 3], 40, 60037, 8981, 8978, WATTS_BY_DROOP),
        ([841; 3], 40, 60037, 8982, 8979, WATTS_BY_DROOP),
        ([841; 3], 40, 60037, 8983, 8979, WATTS_BY_NAMEPLATE),
        ([841; 3], 40, 59000, 10000, 8979, WATTS_BY_NAMEPLATE),
        ([1000; 3], 6, 60037, 1752, 1749, WATTS_BY_DROOP),
        ([1000; 3], 6, 60037, 1753, 1750, WATTS_BY_DROOP),
        ([1000; 3], 6, 60037, 1754, 1750, WATTS_BY_RECOVERY),
        ([1000; 3], 0, 59000, 10000, 250, WATTS_BY_RECOVERY),
        ([1180; 3], 18, 59000, 10000, 4750, WATTS_BY_RECOVERY),
        ([1180; 3], 19, 59000, 10000, 4760, WATTS_BY_CURVE),
        ([841; 3], 34, 59000, 10000, 8750, WATTS_BY_RECOVERY),
        ([841; 3], 35, 59000, 10000, 8979, WATTS_BY_NAMEPLATE),
    ];
    for (codes, recovery, frequency, held, watts, by) in rows {
        let mut board = Board { recovery, ..feeding(held) };
        let sample = sample_of(codes, frequency, 1);
        let (report, found) = imaged(&mut board, &quick_settings(), &sample);
        assert_eq!((report.held, report.watts), (held, watts), "{:?}", sample);
        assert_eq!(found.watts, by, "{:?} {}", sample, held);
        // What they hold down is not held: the event goes on with what it began with.
        let next = drooped(held, 60037, 10000) as u16;
        if frequency == 60037 {
            let mut board = Board { recovery: 40, ..board };
            assert_eq!(event(&mut board, &at(60037)), (1, held, next));
        }
    }
}
