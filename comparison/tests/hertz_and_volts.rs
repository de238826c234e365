//! Tests of every frequency, and of frequencies beside voltages.

use super::*;

/// Frequencies with the status of their own band and the limits of the default sheet that
/// they break (uf1, uf2, of1, of2). The first and last that are accepted, and the ends of
/// every band, of "hertz", of the droop and of each limit, with their neighbours.
pub(super) const HERTZ: [(u32, u8, [u32; 4]); 37] = [
    (40000, CEASE, [1, 1, 0, 0]), (40001, CEASE, [1, 1, 0, 0]),
    (56499, CEASE, [1, 1, 0, 0]),
    (56500, CEASE, [1, 0, 0, 0]), (56501, CEASE, [1, 0, 0, 0]),
    (56998, CEASE, [1, 0, 0, 0]), (56999, CEASE, [1, 0, 0, 0]),
    (57000, MANDATORY, [1, 0, 0, 0]), (57001, MANDATORY, [1, 0, 0, 0]),
    (58499, MANDATORY, [1, 0, 0, 0]),
    (58500, MANDATORY, [0; 4]), (58501, MANDATORY, [0; 4]),
    (58798, MANDATORY, [0; 4]), (58799, MANDATORY, [0; 4]),
    (58800, CONTINUOUS, [0; 4]), (58801, CONTINUOUS, [0; 4]),
    (59499, CONTINUOUS, [0; 4]), (59500, CONTINUOUS, [0; 4]), (59501, CONTINUOUS, [0; 4]),
    (59963, CONTINUOUS, [0; 4]), (59964, CONTINUOUS, [0; 4]), (60000, CONTINUOUS, [0; 4]),
    (60036, CONTINUOUS, [0; 4]), (60037, CONTINUOUS, [0; 4]),
    (60099, CONTINUOUS, [0; 4]), (60100, CONTINUOUS, [0; 4]), (60101, CONTINUOUS, [0; 4]),
    (61199, CONTINUOUS, [0; 4]), (61200, CONTINUOUS, [0; 4]),
    (61201, MANDATORY, [0, 0, 1, 0]), (61202, MANDATORY, [0, 0, 1, 0]),
    (61999, MANDATORY, [0, 0, 1, 0]), (62000, MANDATORY, [0, 0, 1, 0]),
    (62001, CEASE, [0, 0, 1, 1]), (62002, CEASE, [0, 0, 1, 1]),
    (79999, CEASE, [0, 0, 1, 1]), (80000, CEASE, [0, 0, 1, 1]),
];

/// Three codes with the status of their own band and the voltage that is its cause, the
/// limits they break (uv1, uv2, ov1, ov2), and in the bands with output vars, watt curve
/// and nameplate.
type Volts = ([u32; 3], u8, u8, [u32; 4], i16, u16, u16);

pub(super) const VOLTS: [Volts; 20] = [
    ([1000, 1000, 1000], CONTINUOUS, STATUS_BY_LOWEST, [0; 4], 0, 10000, 10000),
    ([841, 841, 841], CONTINUOUS, STATUS_BY_LOWEST, [0; 4], 4400, 10000, 8979),
    ([775, 1000, 1000], CONTINUOUS, STATUS_BY_LOWEST, [0; 4], 1460, 10000, 9892),
    ([1180, 1180, 1180], CONTINUOUS, STATUS_BY_LOWEST, [0; 4], -4400, 4760, 8979),
    ([1210, 1210, 1210], CONTINUOUS, STATUS_BY_LOWEST, [0; 4], -4400, 2000, 8979),
    ([774, 1000, 1000], MANDATORY, STATUS_BY_LOWEST, [1, 0, 0, 0], 1474, 10000, 9890),
    ([700, 700, 1210], MANDATORY, STATUS_BY_LOWEST, [1, 0, 0, 0], 4078, 10000, 9130),
    ([1210, 774, 1210], MANDATORY, STATUS_BY_LOWEST, [1, 0, 0, 0], -476, 10000, 9988),
    ([250, 250, 250], MANDATORY, STATUS_BY_LOWEST, [1, 0, 0, 0], 4400, 10000, 8979),
    ([249, 1000, 1000], MOMENTARY, STATUS_BY_LOWEST, [1, 1, 0, 0], 0, 0, 0),
    ([0, 0, 0], MOMENTARY, STATUS_BY_LOWEST, [1, 1, 0, 0], 0, 0, 0),
    ([249, 1000, 1440], MOMENTARY, STATUS_BY_LOWEST, [1, 1, 1, 0], 0, 0, 0),
    ([1211, 1211, 1211], MOMENTARY, STATUS_BY_LOWEST, [0, 0, 1, 0], 0, 0, 0),
    ([1440, 1440, 1440], MOMENTARY, STATUS_BY_LOWEST, [0, 0, 1, 0], 0, 0, 0),
    ([1000, 1211, 1000], MOMENTARY, STATUS_BY_HIGHEST, [0, 0, 1, 0], 0, 0, 0),
    ([774, 1211, 1000], MOMENTARY, STATUS_BY_HIGHEST, [1, 0, 1, 0], 0, 0, 0),
    ([1000, 1000, 1441], CEASE, STATUS_BY_HIGHEST, [0, 0, 1, 1], 0, 0, 0),
    ([0, 4095, 1000], CEASE, STATUS_BY_HIGHEST, [1, 1, 1, 1], 0, 0, 0),
    ([1441, 1441, 1441], CEASE, STATUS_BY_LOWEST, [0, 0, 1, 1], 0, 0, 0),
    ([4095, 4095, 4095], CEASE, STATUS_BY_LOWEST, [0, 0, 1, 1], 0, 0, 0),
];

/// Does this for every frequency beside every three codes.
fn for_hertz_and_volts(check: impl Fn((u32, u8, [u32; 4]), Volts)) {
    for hertz in HERTZ {
        for volts in VOLTS {
            check(hertz, volts);
        }
    }
}

/// The nine counters after a step on a record where each was 3. The ninth has a wait of 4.
fn three_and_one(hertz: (u32, u8, [u32; 4]), volts: Volts, permission: u32) -> [u32; 9] {
    let broken = [volts.3, hertz.2].concat();
    let within = [[1000; 3], [841; 3]].contains(&volts.0)
        && (59500..=60100).contains(&hertz.0)
        && permission == 1;
    std::array::from_fn(|i| 4 * broken.get(i).copied().unwrap_or(u32::from(within)))
}

#[test]
fn every_accepted_frequency() {
    for frequency in 40000..=80000 {
        let status = match frequency {
            40000..57000 => CEASE,
            57000..58800 => MANDATORY,
            58800..61201 => CONTINUOUS,
            61201..62001 => MANDATORY,
            _ => CEASE,
        };
        let sample = sample_of([1000; 3], frequency, 1);
        let mut board = Board { watts: 5000, ..in_service(99) };
        let (report, rules) = explained(&mut board, &quick_settings(), &sample);
        assert_eq!(report.status, status, "{}", frequency);
        let cause = if status == CONTINUOUS { STATUS_BY_LOWEST } else { STATUS_BY_FREQUENCY };
        assert_eq!(rules.status, cause);
        // Far below all is asked for that there is, far above nothing: 5000 are used up
        // 1500 beyond the point on either side.
        let side = beyond(frequency).0;
        let asked = match frequency {
            40000..=58464 => 10000,
            61536.. => 0,
            _ => drooped(5000, frequency, 10000) as u16,
        };
        let numbers = match (status, side) {
            (CONTINUOUS, 0) => (10000, 40, 10000, WATTS_BY_AVAILABLE),
            (CONTINUOUS, _) => (10000, 40, asked, WATTS_BY_DROOP),
            (MANDATORY, _) => (9900, 40, asked, WATTS_BY_DROOP),
            _ => (9900, 0, 0, WATTS_BY_STATUS),
        };
        assert_eq!((report.share, report.recovery, report.watts, rules.watts), numbers);
        let held = if side == 0 { 0 } else { 5000 };
        assert_eq!((report.side, report.held), (side, held), "{}", frequency);
        // A tripped board returns within "hertz" and shows no band elsewhere.
        let (report, rules) = explained(&mut fresh(), &quick_settings(), &sample);
        let (status, rule, side) = match frequency {
            59500..60101 => (ENTERING, STATUS_BY_RETURN, side),
            _ => (TRIPPED, STATUS_BY_WAIT, 0),
        };
        assert_eq!((report.status, rules.status), (status, rule), "{}", frequency);
        let watts = if side == 2 { drooped(0, frequency, 10000) as u16 } else { 0 };
        assert_eq!((report.share, report.recovery, report.watts), (0, 40, watts));
        assert_eq!((report.side, report.held), (side, 0), "{}", frequency);
    }
    for frequency in [39999, 80001] {
        let mut board = in_service(99);
        let sample = sample_of([1000; 3], frequency, 1);
        assert_eq!(step_explained(&mut board, &quick_settings(), &sample), Err(5));
        assert_eq!(board, in_service(99));
    }
}

#[test]
fn hertz_beside_volts_in_service() {
    let settings = Settings { wait: 4, ..quick_settings() };
    for_hertz_and_volts(|hertz, volts| {
        let (codes, by_volts, cause, _, vars, curve, nameplate) = volts;
        let sample = sample_of(codes, hertz.0, 1);
        let counters = three_and_one(hertz, volts, 1);
        // The worse of the two; a voltage is named where the frequency is not worse.
        let worst = by_volts.max(hertz.1);
        let feeds = worst == CONTINUOUS || worst == MANDATORY;
        let rule = if hertz.1 > by_volts { STATUS_BY_FREQUENCY } else { cause };
        for (ramp, recovery, lent) in [
            (100, 40, 0), (50, 40, 1), (99, 39, 2), (100, 7, 0), (50, 19, 2), (0, 0, 3),
        ] {
            let mut board = Board {
                counters: [3; 9], recovery, watts: 6000, side: lent, held: 3000,
                ..in_service(ramp)
            };
            let (report, found) = imaged(&mut board, &settings, &sample);
            let ramp = if worst == CONTINUOUS { 100.min(ramp + 1) } else { ramp };
            let recovery = if feeds { 40.min(recovery + 1) } else { 0 };
            let status = if worst == CONTINUOUS && ramp < 100 { ENTERING } else { worst };
            let share = 100 * ramp as u16;
            let (side, _) = beyond(hertz.0);
            let held = match side {
                0 => 0,
                _ if side == lent => 3000,
                _ => 6000,
            };
            let recovered = 250 * u16::from(recovery);
            let six = [10000, 10000, share, curve, nameplate, recovered];
            let asked = drooped(held, hertz.0, 10000) as u16;
            let four = [asked, curve, nameplate, recovered];
            let limits = if side == 0 { &six[..] } else { &four[..] };
            let least = *limits.iter().min().unwrap();
            let first = limits.iter().position(|&limit| limit == least).unwrap() as u8;
            let (watts, vars, by) = match (feeds, side, first) {
                (false, ..) => (0, 0, WATTS_BY_STATUS),
                (true, 0, _) => (least, vars, WATTS_BY_AVAILABLE + first),
                (true, _, 0) => (least, vars, WATTS_BY_DROOP),
                (true, _, _) => (least, vars, WATTS_BY_CURVE + first - 1),
            };
            let expected = Board { status, counters, ramp, watts, vars, recovery, side, held };
            assert_eq!(board, expected, "{:?}", sample);
            let mut bits = [false; 9];
            bits[8] = counters[8] == 4;
            let expected = Report { status, bits, share, recovery, side, held, watts, vars };
            assert_eq!(report, expected);
            assert_eq!(found, rules(rule, 0, by), "{:?}", sample);
        }
    });
}

#[test]
fn hertz_beside_volts_when_tripped() {
    let settings = Settings { wait: 4, ..quick_settings() };
    for_hertz_and_volts(|hertz, volts| {
        let records = [(0, 40, 0), (0, 0, 2000), (6, 7, 500), (255, 255, 1)];
        for (status, recovery, shown) in records {
            for permission in [0, 1] {
                let sample = sample_of(volts.0, hertz.0, permission);
                let counters = three_and_one(hertz, volts, permission);
                let lent = Board {
                    status, counters: [3; 9], recovery, watts: shown, side: 1 + recovery % 2,
                    held: 9000, ..in_service(50)
                };
                let mut board = lent;
                let (report, found) = imaged(&mut board, &settings, &sample);
                let mut bits = [false; 9];
                bits[8] = counters[8] == 4;
                // No band shows, nor a recovery from 0, nor the event that was lent: one that
                // begins now holds the watts shown. They stay below 4000, so that neither
                // watt curve nor nameplate binds where a board returns.
                let (side, _) = beyond(hertz.0);
                let (status, vars, side, by) = match (bits[8], side) {
                    (true, 0) => (ENTERING, volts.4, 0, WATTS_BY_SHARE),
                    (true, _) => (ENTERING, volts.4, side, WATTS_BY_DROOP),
                    (false, _) => (TRIPPED, 0, 0, WATTS_BY_STATUS),
                };
                let (held, watts) = match side {
                    0 => (0, 0),
                    _ => (shown, drooped(shown, hertz.0, 10000) as u16),
                };
                let after = Board { status, counters, watts, vars, side, held, ..fresh() };
                assert_eq!(board, after, "{:?}", sample);
                let expected =
                    Report { status, bits, watts, vars, side, held, ..fresh_report() };
                assert_eq!(report, expected);
                let cause = if bits[8] { STATUS_BY_RETURN } else { STATUS_BY_WAIT };
                assert_eq!(found, rules(cause, 0, by), "{:?}", sample);
            }
        }
    });
}

#[test]
fn hertz_beside_volts_without_permission() {
    let settings = Settings { wait: 4, ..quick_settings() };
    for_hertz_and_volts(|hertz, volts| {
        for status in ENTERING..=CEASE {
            for (recovery, side) in [(0, 0), (7, 1), (40, 2)] {
                let lent = Board {
                    status, counters: [3; 9], recovery, watts: 800, side, held: 900,
                    ..in_service(50)
                };
                let mut board = lent;
                let sample = sample_of(volts.0, hertz.0, 0);
                let (report, found) = imaged(&mut board, &settings, &sample);
                // Tripped, so it has recovered, whatever the frequency.
                assert_eq!(report, fresh_report());
                let counters = three_and_one(hertz, volts, 0);
                assert_eq!(board, Board { counters, ..fresh() });
                assert_eq!(found, rules(STATUS_BY_PERMISSION, 0, WATTS_BY_STATUS));
            }
        }
    });
}

#[test]
fn hertz_beside_volts_with_limits_that_run_out() {
    // Every limit lacks one step, so each that is broken now runs out now.
    let settings = quick_settings();
    for_hertz_and_volts(|hertz, volts| {
        let broken = [volts.3, hertz.2].concat();
        let times: [u32; 8] = std::array::from_fn(|i| broken[i] * settings.trips[i].time);
        let sample = sample_of(volts.0, hertz.0, 1);
        for (recovery, side) in [(0, 0), (7, 1), (40, 2)] {
            let all = all_but_one_step(&settings, &[0, 1, 2, 3, 4, 5, 6, 7]);
            let mut board = Board { recovery, watts: 800, side, held: 900, ..all };
            let (report, found) = imaged(&mut board, &settings, &sample);
            assert_eq!(board.counters[..8], times, "{:?}", sample);
            assert_eq!(report.bits[..8], std::array::from_fn::<bool, 8, _>(|i| broken[i] == 1));
            let Some(first) = broken.iter().position(|&limit| limit == 1) else {
                // With the default limits, far outside one is always broken.
                assert!(report.status == CONTINUOUS || report.status == MANDATORY);
                continue;
            };
            let expected = rules(STATUS_BY_LIMIT, first as u8 + 1, WATTS_BY_STATUS);
            assert_eq!((report.status, found), (TRIPPED, expected), "{:?}", sample);
            let zero = (report.share, report.recovery, report.watts, report.vars, board.ramp);
            assert_eq!(zero, (0, 40, 0, 0, 0));
            assert_eq!((report.side, report.held), (0, 0));
            // Waiting from then on, the counters full.
            let (report, found) = imaged(&mut board, &settings, &sample);
            assert_eq!((report.status, report.recovery, found), (TRIPPED, 40, fresh_rules()));
            assert_eq!(board.counters[..8], times);
        }
    });
}
