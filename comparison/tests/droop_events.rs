//! Tests of droop events: how they begin, go on and end.

use super::carrying::saved_and_carried;
use super::*;

#[test]
fn held_power_stays_while_the_side_does() {
    // 6000 before the event, by what is available; 30 and 60 millihertz are worth 100 and 200.
    let mut board = feeding(10000);
    assert_eq!(event(&mut board, &at_with(60000, 6000, 10000)), (0, 0, 6000));
    assert_eq!(event(&mut board, &at(60066)), (1, 6000, 5900));
    assert_eq!(event(&mut board, &at(60096)), (1, 6000, 5800));
    assert_eq!(event(&mut board, &at(60037)), (1, 6000, 5997));
    assert_eq!(event(&mut board, &at_with(60037, 300, 20)), (1, 6000, 300));
    assert_eq!(event(&mut board, &at_with(60066, 10000, 20)), (1, 6000, 5900));
    assert_eq!(event(&mut board, &at(61200)), (1, 6000, 2120));
    assert_eq!(event(&mut board, &at(61836)), (1, 6000, 0));
    assert_eq!(event(&mut board, &at(61835)), (1, 6000, 4));
    assert_eq!(event(&mut board, &at(60036)), (0, 0, 10000));
    // The low side, with 4000 before it, by the operator's limit.
    assert_eq!(event(&mut board, &at_with(59964, 10000, 4000)), (0, 0, 4000));
    assert_eq!(event(&mut board, &at(59934)), (2, 4000, 4100));
    assert_eq!(event(&mut board, &at(59904)), (2, 4000, 4200));
    assert_eq!(event(&mut board, &at(59963)), (2, 4000, 4003));
    assert_eq!(event(&mut board, &at_with(59963, 300, 20)), (2, 4000, 300));
    assert_eq!(event(&mut board, &at(57000)), (2, 4000, 10000));
    assert_eq!(event(&mut board, &at(59963)), (2, 4000, 4003));
    assert_eq!(event(&mut board, &at_with(59964, 10000, 4000)), (0, 0, 4000));
    // For long, and with the share, 10000 then, long past what is held.
    let mut board = fresh();
    for k in 0..=20 {
        assert_eq!(event(&mut board, &NORMAL), (0, 0, 100 * k));
    }
    for _ in 0..1000 {
        assert_eq!(event(&mut board, &at(59934)), (2, 2000, 2100));
    }
    assert_eq!((board.status, board.ramp), (CONTINUOUS, 100));
    assert_eq!(event(&mut board, &NORMAL), (0, 0, 10000));
}

#[test]
fn a_jump_begins_a_new_event() {
    let mut board = feeding(6000);
    for _ in 0..100 {
        assert_eq!(event(&mut board, &at(60066)), (1, 6000, 5900));
        assert_eq!(event(&mut board, &at(60096)), (1, 6000, 5800));
        assert_eq!(event(&mut board, &at(60066)), (1, 6000, 5900));
        assert_eq!(event(&mut board, &at(59934)), (2, 5900, 6000));
        assert_eq!(event(&mut board, &at(59904)), (2, 5900, 6100));
        assert_eq!(event(&mut board, &at(59934)), (2, 5900, 6000));
    }
    // From one end to the other.
    assert_eq!(event(&mut board, &at(60037)), (1, 6000, 5997));
    assert_eq!(event(&mut board, &at(59963)), (2, 5997, 6000));
    assert_eq!(event(&mut board, &at(60038)), (1, 6000, 5994));
    assert_eq!(event(&mut board, &at(59962)), (2, 5994, 6000));
    // What held the watts down before the jump counts, whatever it is.
    assert_eq!(event(&mut board, &at_with(59962, 1234, 0)), (2, 5994, 1234));
    assert_eq!(event(&mut board, &at(60037)), (1, 1234, 1231));
    let curve = sample_of([1180; 3], 58800, 1);
    assert_eq!(event(&mut board, &curve), (2, 1231, 4760));
    assert_eq!(event(&mut board, &at(60037)), (1, 4760, 4757));
    // No output before it: nothing is held.
    let ceased = [1441, 1000, 1000, 60037, 1, 10000, 10000];
    assert_eq!(event(&mut board, &ceased), (1, 4760, 0));
    assert_eq!(event(&mut board, &at(59934)), (2, 0, 100));
    assert_eq!(event(&mut board, &FAR_BELOW), (2, 0, 0));
    assert_eq!(event(&mut board, &FAR_ABOVE), (1, 0, 0));
    assert_eq!(event(&mut board, &FAR_BELOW), (2, 0, 0));
}

#[test]
fn one_sample_between_the_points() {
    for between in [59964, 60000, 60036] {
        let rows = [(60066, 1, 5900, 3900), (59934, 2, 6100, 4100)];
        for (first, first_side, first_watts, _) in rows {
            for (second, side, _, watts) in rows {
                let mut board = feeding(6000);
                assert_eq!(event(&mut board, &at(first)), (first_side, 6000, first_watts));
                // Its own watts, 4000, are what the next event holds.
                assert_eq!(event(&mut board, &at_with(between, 4000, 10000)), (0, 0, 4000));
                assert_eq!(event(&mut board, &at(second)), (side, 4000, watts));
            }
        }
        // In momentary it has none.
        let mut board = feeding(6000);
        assert_eq!(event(&mut board, &at(60066)), (1, 6000, 5900));
        assert_eq!(event(&mut board, &[249, 1000, 1000, between, 1, 10000, 10000]), (0, 0, 0));
        assert_eq!(event(&mut board, &at(59934)), (2, 0, 100));
    }
}

#[test]
fn events_in_every_status() {
    // Beside 60066: entering, continuous, mandatory, momentary below and above, cease; the
    // mandatory one has a mean of 9599, where vars 1474 leave 9890.
    let at_volts = |code: u32, frequency: u32| [code, 1000, 1000, frequency, 1, 10000, 10000];
    let rows = [
        (1000, 50, ENTERING, 5900), (1000, 100, CONTINUOUS, 5900), (774, 50, MANDATORY, 5900),
        (774, 100, MANDATORY, 5900), (249, 100, MOMENTARY, 0), (1211, 100, MOMENTARY, 0),
        (1441, 50, CEASE, 0),
    ];
    for (code, ramp, status, watts) in rows {
        for before in ENTERING..=CEASE {
            // It begins there.
            let lent = Board { status: before, watts: 6000, ..in_service(ramp) };
            let mut board = lent;
            assert_eq!(event(&mut board, &at_volts(code, 60066)), (1, 6000, watts));
            assert_eq!(board.status, status);
            // It goes on there, and through it.
            let mut board = lent;
            assert_eq!(event(&mut board, &at(60096)), (1, 6000, 5800));
            for _ in 0..10 {
                assert_eq!(event(&mut board, &at_volts(code, 60066)), (1, 6000, watts));
            }
            let recovered = if watts == 0 { 250 } else { 5800 };
            assert_eq!(event(&mut board, &at(60096)), (1, 6000, recovered));
            // It ends there.
            let between = event(&mut board, &at_volts(code, 60036));
            assert_eq!((between.0, between.1), (0, 0));
            // A jump there holds the watts before it.
            let mut board = Board { side: 2, held: 1, ..lent };
            assert_eq!(event(&mut board, &at_volts(code, 60066)), (1, 6000, watts));
        }
    }
    // By frequency: mandatory 61201 and 62000, cease beyond, each side.
    let mut board = feeding(9000);
    let steps = [
        (61200, CONTINUOUS, (1, 9000, 5120)), (61201, MANDATORY, (1, 9000, 5117)),
        (62000, MANDATORY, (1, 9000, 2454)), (62001, CEASE, (1, 9000, 0)),
        (62000, MANDATORY, (1, 9000, 250)), (57000, MANDATORY, (2, 250, 500)),
        (56999, CEASE, (2, 250, 0)), (58799, MANDATORY, (2, 250, 250)),
        (58800, CONTINUOUS, (2, 250, 500)), (60000, CONTINUOUS, (0, 0, 750)),
    ];
    for (frequency, status, shown) in steps {
        assert_eq!(event(&mut board, &at(frequency)), shown, "{}", frequency);
        assert_eq!(board.status, status);
    }
}

#[test]
fn recovery_in_an_event() {
    // 6000 held; cease in the event. The watts come back up to the droop's, 5900.
    for stop in [LOW_DIP, HIGH_SWELL, TOO_HIGH] {
        let mut sample = stop;
        sample[3] = 60066;
        let mut board = feeding(6000);
        assert_eq!(event(&mut board, &at(60066)), (1, 6000, 5900));
        assert_eq!(event(&mut board, &sample), (1, 6000, 0));
        for k in 1..=45 {
            let (report, found) = imaged(&mut board, &quick_settings(), &at(60066));
            let watts = (250 * k.min(40)).min(5900);
            assert_eq!((report.side, report.held, report.watts), (1, 6000, watts));
            // 23 x 250 = 5750, 24 x 250 = 6000.
            let by = if k < 24 { WATTS_BY_RECOVERY } else { WATTS_BY_DROOP };
            assert_eq!(found, rules(STATUS_BY_LOWEST, 0, by));
        }
    }
}

#[test]
fn lent_watts_begin_an_event() {
    // Above 10000 they are read as 10000, and no step need have written them: with a ramp of
    // 0, in momentary or cease, with what is available far below.
    let rows = [
        (0, 0), (1, 1), (5000, 5000), (9999, 9999), (10000, 10000), (10001, 10000),
        (10003, 10000), (20000, 10000), (32768, 10000), (65535, 10000),
    ];
    for (watts, held) in rows {
        for status in ENTERING..=CEASE {
            for ramp in [0, 50, u32::MAX] {
                let lent = Board { status, watts, ..in_service(ramp) };
                for frequency in [58800, 59963, 60037, 61200, 62000] {
                    let (side, _) = beyond(frequency);
                    let asked = drooped(held, frequency, 10000) as u16;
                    let shown = event(&mut lent.clone(), &at(frequency));
                    assert_eq!(shown, (side, held, asked));
                    let shown = event(&mut lent.clone(), &at_with(frequency, 7, 3));
                    assert_eq!(shown, (side, held, asked.min(7)));
                }
                // Without an event they are not read.
                let mut board = lent;
                assert_eq!(event(&mut board, &at_with(60036, 7, 3)), (0, 0, 3));
            }
        }
    }
}

#[test]
fn every_lent_side() {
    let powers = [
        (0, 0), (1, 1), (2500, 2500), (10000, 10000), (10001, 10000), (65535, 10000),
    ];
    for lent_side in 0..=255 {
        for (lent_held, held) in powers {
            for (watts, begun) in [(0, 0), (6000, 6000), (10001, 10000)] {
                for status in ENTERING..=CEASE {
                    let lent = Board { status, ..drooping(watts, lent_side, lent_held) };
                    for (frequency, side) in [(60037, 1), (61200, 1), (59963, 2), (58800, 2)] {
                        // It goes on only on the side that was lent.
                        let held = if lent_side == side { held } else { begun };
                        let watts = drooped(held, frequency, 10000) as u16;
                        let shown = event(&mut lent.clone(), &at(frequency));
                        assert_eq!(shown, (side, held, watts), "{:?}", lent);
                    }
                    for frequency in [59964, 60036] {
                        let shown = event(&mut lent.clone(), &at(frequency));
                        assert_eq!(shown, (0, 0, 10000), "{:?}", lent);
                    }
                }
            }
        }
    }
}

#[test]
fn an_event_lent_in_a_tripped_record() {
    // Read as none, with a status that is unknown too. What begins at the return holds the
    // watts that the record shows.
    for status in [0].into_iter().chain(6..=255) {
        for side in [0, 1, 2, 3, 255] {
            for held in [0, 5000, 65535] {
                for (watts, begun) in [(0, 0), (6000, 6000), (10001, 10000), (65535, 10000)] {
                    let lent = Board { status, ..drooping(watts, side, held) };
                    for (frequency, now) in [(60037, 1), (60100, 1), (59963, 2), (59500, 2)] {
                        let mut board = lent;
                        let asked = drooped(begun, frequency, 10000) as u16;
                        let shown = event(&mut board, &at(frequency));
                        assert_eq!(shown, (now, begun, asked), "{:?}", lent);
                        assert_eq!((board.status, board.ramp), (ENTERING, 0));
                    }
                    // Between the points, and where it stays tripped.
                    assert_eq!(event(&mut lent.clone(), &NORMAL), (0, 0, 0));
                    for sample in [at(61200), at(58800), NO_PERMISSION, FAR_ABOVE] {
                        let mut board = lent;
                        assert_eq!(event(&mut board, &sample), (0, 0, 0));
                        assert_eq!((board.status, board.recovery), (TRIPPED, 40));
                    }
                }
            }
        }
    }
}

#[test]
fn an_event_begins_at_the_return() {
    // Fresh, nothing is held. Below, 59000 is worth 3213 at once, though the share is 0; above,
    // nothing comes until the event ends.
    let settings = wide_return();
    assert_eq!(check_settings(&settings), Ok(()));
    let rows = [
        (59000, (2, 0, 3213)), (59500, (2, 0, 1546)), (59963, (2, 0, 3)), (59964, (0, 0, 0)),
        (60036, (0, 0, 0)), (60037, (1, 0, 0)), (61000, (1, 0, 0)),
    ];
    for (frequency, shown) in rows {
        let mut board = fresh();
        let (report, found) = imaged(&mut board, &settings, &at(frequency));
        assert_eq!((report.side, report.held, report.watts), shown);
        assert_eq!((report.status, report.share, report.recovery), (ENTERING, 0, 40));
        let by = if shown.0 == 0 { WATTS_BY_SHARE } else { WATTS_BY_DROOP };
        assert_eq!(found, rules(STATUS_BY_RETURN, 0, by));
        // It goes on with nothing held while the ramp grows.
        for k in 1..=150 {
            let (report, found) = imaged(&mut board, &settings, &at(frequency));
            let share = 100 * k.min(100);
            assert_eq!(report.share, share);
            if shown.0 == 0 {
                assert_eq!((report.side, report.held, report.watts), (0, 0, share));
            } else {
                assert_eq!((report.side, report.held, report.watts), shown);
                assert_eq!(found, rules(STATUS_BY_LOWEST, 0, WATTS_BY_DROOP));
            }
        }
        assert_eq!(event_with(&mut board, &settings, &NORMAL), (0, 0, 10000));
    }
    // With less available, a limit of 0, or vars that leave less: 841 leaves 8979.
    assert_eq!(event_with(&mut fresh(), &settings, &at_with(59000, 50, 10000)), (2, 0, 50));
    assert_eq!(event_with(&mut fresh(), &settings, &at_with(59000, 10000, 0)), (2, 0, 3213));
    let lent = Board { watts: 9000, ..fresh() };
    let low = sample_of([841; 3], 59000, 1);
    assert_eq!(event_with(&mut lent.clone(), &settings, &low), (2, 9000, 8979));
    // Lent watts of a tripped record.
    assert_eq!(event_with(&mut lent.clone(), &settings, &at(61000)), (1, 9000, 5787));
    assert_eq!(event_with(&mut lent.clone(), &settings, &at(59000)), (2, 9000, 10000));
    // The step before the return is in none.
    let settings = Settings { wait: 3, ..settings };
    let mut board = Board { watts: 700, ..fresh() };
    for _ in 0..2 {
        assert_eq!(event_with(&mut board, &settings, &at(59000)), (0, 0, 0));
    }
    assert_eq!(event_with(&mut board, &settings, &at(59000)), (2, 0, 3213));
    // A jump right after the return.
    assert_eq!(event_with(&mut board, &settings, &at(60037)), (1, 3213, 3210));
}

#[test]
fn an_event_ends_with_a_trip() {
    let settings = wide_return();
    for (frequency, side, watts) in [(60066, 1, 5900), (59934, 2, 6100)] {
        // Permission goes, in the event.
        let mut board = feeding(6000);
        assert_eq!(event_with(&mut board, &settings, &at(frequency)), (side, 6000, watts));
        let stop = sample_of([1000; 3], frequency, 0);
        for _ in 0..3 {
            assert_eq!(event_with(&mut board, &settings, &stop), (0, 0, 0));
            assert_eq!(board.status, TRIPPED);
        }
        // Back on the same side, with nothing held, and then on the other: 30 are worth 100.
        let (same, other) = if side == 1 { (0, 100) } else { (100, 0) };
        let mut again = board;
        assert_eq!(event_with(&mut again, &settings, &at(frequency)), (side, 0, same));
        assert_eq!(again.status, ENTERING);
        assert_eq!(event_with(&mut again, &settings, &at(frequency)), (side, 0, same));
        let across = 120000 - frequency;
        assert_eq!(event_with(&mut board, &settings, &at(across)), (3 - side, 0, other));
    }
    // A limit runs out, in the event: of2 after 16 steps at 61900, worth 6213, and uf2 at
    // 56900, where there is no output before it.
    let mut settings = wide_return();
    settings.trips[7].limit = 61800;
    settings.trips[5].limit = 57000;
    for (frequency, side, watts) in [(61900, 1, 2787), (56900, 2, 0)] {
        let mut board = feeding(9000);
        for _ in 1..=15 {
            let shown = event_with(&mut board, &settings, &at(frequency));
            assert_eq!(shown, (side, 9000, watts));
        }
        for _ in 16..20 {
            assert_eq!(event_with(&mut board, &settings, &at(frequency)), (0, 0, 0));
            assert_eq!((board.status, board.recovery), (TRIPPED, 40));
        }
        let mut other = board;
        assert_eq!(event_with(&mut board, &settings, &at(60066)), (1, 0, 0));
        assert_eq!(event_with(&mut other, &settings, &at(59934)), (2, 0, 100));
    }
    // By voltage too.
    let mut board = drooping(5900, 1, 6000);
    board.counters[3] = 15;
    let swell = [1441, 1000, 1000, 60066, 1, 10000, 10000];
    assert_eq!(event(&mut board, &swell), (0, 0, 0));
    assert_eq!(board.status, TRIPPED);
}

#[test]
fn a_refused_sample_leaves_the_event() {
    let flat = Settings { ramp: 0, ..quick_settings() };
    let mut board = feeding(6000);
    let samples =
        [at(60066), at(60096), at(59934), NORMAL, at(59934), at_with(60037, 50, 0), at(60037)];
    let shown = [
        (1, 6000, 5900), (1, 6000, 5800), (2, 5800, 5900), (0, 0, 10000), (2, 10000, 10000),
        (1, 10000, 50), (1, 10000, 9997),
    ];
    for (sample, shown) in samples.iter().zip(shown) {
        let before = board;
        let image = imaged_bytes(&before);
        for wrong in [[4096, 0, 0, 59000, 1, 0, 0], [0, 0, 0, 80001, 1, 0, 0]] {
            assert!(step(&mut board, &quick_settings(), &wrong).is_err());
        }
        for wrong in [at_with(59000, 10001, 0), at_with(61000, 0, 10001)] {
            assert_eq!(step_explained(&mut board, &quick_settings(), &wrong), Err(7));
        }
        assert_eq!(step(&mut board, &flat, &at(59000)), Err(2));
        assert_eq!(step(&mut board, &quick_settings(), &[]), Err(8));
        assert_eq!((board, imaged_bytes(&board)), (before, image));
        assert_eq!(event(&mut board, sample), shown);
    }
}

#[test]
fn images_of_events() {
    // 300 held, 3 taken away, the ramp full; then 5900 held and 9880 added.
    let mut board = feeding(300);
    event(&mut board, &at(60037));
    let counters = "00000000".repeat(8);
    let high = format!("02{counters}00000001000000640129000028{}", "01012c");
    assert_eq!(hex(&imaged_bytes(&board)[..49]), high);
    assert_eq!(saved_and_carried(&board), 11);
    board.watts = 5900;
    event(&mut board, &at(57000));
    let counters = "00000000".repeat(4) + "00000001" + &"00000000".repeat(3);
    let low = format!("03{counters}00000000000000642710000028{}", "02170c");
    assert_eq!(hex(&imaged_bytes(&board)[..49]), low);
    assert_eq!(saved_and_carried(&board), 11);
    // Nothing held is an event all the same.
    let mut board = fresh();
    event(&mut board, &at(60037));
    assert_eq!(imaged_bytes(&board)[45..49], [40, 1, 0, 0]);
    assert_eq!(saved_and_carried(&board), 11);
    // It can go back once the event has ended, by the frequency or by a trip.
    let mut ended = board;
    event(&mut ended, &at(60036));
    assert_eq!(saved_and_carried(&ended), 0);
    event(&mut board, &sample_of([1000; 3], 60037, 0));
    assert_eq!(saved_and_carried(&board), 0);
    assert_eq!(imaged_bytes(&board)[45..49], [40, 0, 0, 0]);
}

#[test]
fn an_event_in_the_program() {
    let samples = "\
(at (1000 1000 1000) 60000 1 10000 10000)
(at (1000 1000 1000) 60000 1 10000 10000)
(at (1000 1000 1000) 60036 1 10000 10000)
(at (1000 1000 1000) 60037 1 10000 10000)
(at (1000 1000 1000) 60040 1 10000 10000)
(at (1000 1000 1000) 60101 1 10000 10000)
(at (1000 1000 1000) 80001 1 10000 10000)
(at (1000 1000 1000) 59963 1 10000 10000)
(at (1000 1000 1000) 59500 1 10000 10000)
(at (1000 1000 1000) 59500 1 1000 5)
(at (1441 1000 1000) 59500 1 10000 10000)
(at (1000 1000 1000) 59500 1 10000 10000)
(at (1000 1000 1000) 58799 1 10000 10000)
(at (1000 1000 1000) 59964 1 10000 300)
(at (1000 1000 1000) 60099 1 10000 10000)
(at (1000 1000 1000) 60099 0 10000 10000)
(at (1000 1000 1000) 59934 1 10000 10000)
(at (841 841 841) 59934 1 10000 10000)
";
    let expected = "\
(report entering 000000001 0 40 0 0 0 0)
(report entering 000000001 100 40 0 0 100 0)
(report entering 000000001 200 40 0 0 200 0)
(report entering 000000001 300 40 1 200 197 0)
(report entering 000000001 400 40 1 200 187 0)
(report entering 000000000 500 40 1 200 0 0)
(refused 5 20)
(report entering 000000001 600 40 2 0 3 0)
(report entering 000000001 700 40 2 0 1546 0)
(report entering 000000001 800 40 2 0 1000 0)
(report cease 000000000 800 0 2 0 0 0)
(report entering 000000001 900 1 2 0 250 0)
(report mandatory 000000000 900 2 2 0 500 0)
(report entering 000000001 1000 3 0 0 300 0)
(report entering 000000001 1100 4 1 300 90 0)
(report tripped 000000000 0 40 0 0 0 0)
(report entering 000000001 0 40 2 0 100 0)
(report entering 000000001 100 40 2 0 100 4400)
";
    assert_eq!(after_quick_sheet(samples), expected);
    // Of six numbers, side and held power are the third and the fourth.
    let report = Report {
        status: 3, bits: [true; 9], share: 1, recovery: 2, side: 3, held: 4, watts: 5, vars: -6,
    };
    assert_eq!(report_line(&report), "(report mandatory 111111111 1 2 3 4 5 -6)\n");
    assert_eq!(report_words(&report), "report 3 111111111 1 2 3 4 5 -6");
}
