//! Tests of both rules of a step together.

use super::*;

#[test]
fn numbers_of_the_rules() {
    let status = [
        STATUS_BY_PERMISSION, STATUS_BY_LIMIT, STATUS_BY_WAIT, STATUS_BY_RETURN,
        STATUS_BY_LOWEST, STATUS_BY_HIGHEST, STATUS_BY_FREQUENCY,
    ];
    assert_eq!(status, [1, 2, 3, 4, 5, 6, 7]);
    let watts = [
        WATTS_BY_STATUS, WATTS_BY_AVAILABLE, WATTS_BY_OPERATOR, WATTS_BY_SHARE,
        WATTS_BY_CURVE, WATTS_BY_NAMEPLATE, WATTS_BY_RECOVERY, WATTS_BY_DROOP,
    ];
    assert_eq!(watts, [1, 2, 3, 4, 5, 6, 7, 8]);
    assert_eq!(NO_LIMIT, 0);
    assert_eq!([NO_SIDE, HIGH_SIDE, LOW_SIDE], [0, 1, 2]);
}

#[test]
fn rules_of_a_fresh_board() {
    assert_eq!(fresh_rules(), rules(3, 0, 1));
    // Those of any step that leaves it tripped, too.
    let (report, rules) = explained(&mut fresh(), &quick_settings(), &NO_PERMISSION);
    assert_eq!((report, rules), (fresh_report(), fresh_rules()));
}

#[test]
fn rules_of_the_listing() {
    let mut board = fresh();
    let mut answers = Vec::new();
    for line in LISTING_SAMPLES.lines() {
        let sample = read_sample(line.as_bytes()).unwrap();
        let answer = step_explained(&mut board, &quick_settings(), &sample);
        answers.push(answer.map(|(_, rules)| rules));
    }
    let expected = [
        Ok(rules(STATUS_BY_RETURN, 0, WATTS_BY_SHARE)),
        Ok(rules(STATUS_BY_LOWEST, 0, WATTS_BY_SHARE)),
        Ok(rules(STATUS_BY_HIGHEST, 0, WATTS_BY_STATUS)),
        Err(4),
        Ok(rules(STATUS_BY_PERMISSION, 0, WATTS_BY_STATUS)),
    ];
    assert_eq!(answers, expected);
}

#[test]
fn rules_through_a_trip_and_a_return() {
    let settings = Settings { wait: 3, ..quick_settings() };
    let mut board = in_service(100);
    let mut next = |sample: &[u32; 7]| explained(&mut board, &settings, sample).1;
    assert_eq!(next(&NORMAL), rules(STATUS_BY_LOWEST, 0, WATTS_BY_AVAILABLE));
    for _ in 1..=15 {
        assert_eq!(next(&TOO_HIGH), rules(STATUS_BY_HIGHEST, 0, WATTS_BY_STATUS));
    }
    assert_eq!(next(&TOO_HIGH), rules(STATUS_BY_LIMIT, 4, WATTS_BY_STATUS));
    for sample in [TOO_HIGH, LOW_DIP, NORMAL, NORMAL, NO_PERMISSION, NORMAL, NORMAL] {
        assert_eq!(next(&sample), rules(STATUS_BY_WAIT, 0, WATTS_BY_STATUS));
    }
    assert_eq!(next(&NORMAL), rules(STATUS_BY_RETURN, 0, WATTS_BY_SHARE));
    assert_eq!(next(&NORMAL), rules(STATUS_BY_LOWEST, 0, WATTS_BY_SHARE));
    assert_eq!(next(&SAG), rules(STATUS_BY_LOWEST, 0, WATTS_BY_SHARE));
    assert_eq!(next(&LOW_HERTZ), rules(STATUS_BY_FREQUENCY, 0, WATTS_BY_DROOP));
    assert_eq!(next(&FAR_BELOW), rules(STATUS_BY_FREQUENCY, 0, WATTS_BY_STATUS));
    assert_eq!(next(&LOW_DIP), rules(STATUS_BY_LOWEST, 0, WATTS_BY_STATUS));
    assert_eq!(next(&NO_PERMISSION), rules(STATUS_BY_PERMISSION, 0, WATTS_BY_STATUS));
    assert_eq!(next(&NO_PERMISSION), rules(STATUS_BY_WAIT, 0, WATTS_BY_STATUS));
}

#[test]
fn a_refused_call_gives_no_rules() {
    let wild = Board {
        status: 200, counters: [u32::MAX; 9], ramp: u32::MAX, watts: u16::MAX, vars: i16::MIN,
        recovery: u8::MAX, side: u8::MAX, held: u16::MAX,
    };
    let no_ramp = Settings { ramp: 0, ..quick_settings() };
    let mut flat = quick_settings();
    flat.watt[1] = flat.watt[0];
    let good = quick_settings();
    let refusals: [(&Settings, &[u32], u8); 10] = [
        (&good, &[], 8), (&good, &[1000; 6], 8), (&good, &[1000; 8], 8),
        (&good, &[4096, 0, 0, 39999, 2, 0, 0], 4), (&good, &[0, 0, 0, 39999, 2, 0, 0], 5),
        (&good, &[0, 0, 0, 60000, 2, 10001, 0], 6), (&good, &[0, 0, 0, 60000, 0, 0, 10001], 7),
        (&no_ramp, &NORMAL, 2), (&flat, &NORMAL, 3), (&flat, &[], 3),
    ];
    for (settings, sample, number) in refusals {
        let drooping = Board { side: HIGH_SIDE, held: 1234, ..in_service(50) };
        for before in [fresh(), wild, Board { recovery: 7, ..in_service(50) }, drooping] {
            let mut board = before;
            assert_eq!(step_explained(&mut board, settings, sample), Err(number));
            assert_eq!(board, before);
        }
    }
    // It is no step: the accepted one after it is the first after the trip.
    let mut board = in_service(100);
    assert_eq!(quickly(&mut board, &NO_PERMISSION).1.status, STATUS_BY_PERMISSION);
    assert_eq!(step_explained(&mut board, &good, &[]), Err(8));
    assert_eq!(quickly(&mut board, &NO_PERMISSION).1.status, STATUS_BY_WAIT);
}

#[test]
fn rules_of_wild_records() {
    for status in ENTERING..=CEASE {
        for (watts, vars) in [(0, 0), (u16::MAX, i16::MIN), (1, i16::MAX)] {
            // Counts above their top are read as the top; where no event begins, watts and
            // vars play no part, and where none is, neither do side and held power.
            let lent = Board {
                status, ramp: u32::MAX, recovery: 255, watts, vars, side: 1, held: 1, ..fresh()
            };
            let expected = (CONTINUOUS, rules(STATUS_BY_LOWEST, 0, WATTS_BY_AVAILABLE));
            assert_eq!(quickly(&mut lent.clone(), &NORMAL), expected);
            let mut board = Board { recovery: 38, ..lent };
            let expected = (CONTINUOUS, rules(STATUS_BY_LOWEST, 0, WATTS_BY_RECOVERY));
            assert_eq!(quickly(&mut board, &NORMAL), expected);
        }
    }
    // Which status of service the record names plays no part.
    let samples = [
        NORMAL, LOW_HERTZ, LOW_DIP, HIGH_SWELL, TOO_HIGH, FAR_BELOW, FAR_ABOVE, NO_PERMISSION,
    ];
    for sample in samples {
        let entering = quickly(&mut in_service(70), &sample);
        for status in ENTERING..=CEASE {
            assert_eq!(quickly(&mut Board { status, ..in_service(70) }, &sample), entering);
        }
    }
    for status in [0].into_iter().chain(6..=255) {
        let lent = Board { status, ramp: 100, recovery: 0, ..fresh() };
        let expected = (ENTERING, rules(STATUS_BY_RETURN, 0, WATTS_BY_SHARE));
        assert_eq!(quickly(&mut lent.clone(), &NORMAL), expected);
        assert_eq!(quickly(&mut lent.clone(), &NO_PERMISSION), (TRIPPED, fresh_rules()));
    }
}

/// What the rules of an accepted step claim, checked from the other side.
fn claims_hold(before: &Board, settings: &Settings, sample: &[u32; 7], step: &(Report, Rules)) {
    let (report, rules) = step;
    let [a, b, c, frequency, permission, available, limit] = *sample;
    let phases = [voltage(a), voltage(b), voltage(c)];
    let tripped_before = before.status == TRIPPED || before.status > CEASE;
    let tripped = report.status == TRIPPED;

    let by_lowest = band_of_voltage(*phases.iter().min().unwrap());
    let by_highest = band_of_voltage(*phases.iter().max().unwrap());
    let by_frequency = band_of_frequency(frequency);
    let causes = [by_lowest, by_highest, by_frequency];
    match rules.status {
        STATUS_BY_PERMISSION => assert!(!tripped_before && tripped && permission == 0),
        STATUS_BY_LIMIT => {
            assert!(!tripped_before && tripped && permission == 1);
            let place = usize::from(rules.limit);
            assert!(report.bits[place - 1] && !report.bits[..place - 1].contains(&true));
        }
        STATUS_BY_WAIT => assert!(tripped_before && tripped && !report.bits[8]),
        STATUS_BY_RETURN => assert!(tripped_before && !tripped && report.bits[8]),
        rule @ STATUS_BY_LOWEST..=STATUS_BY_FREQUENCY => {
            assert!(!tripped_before && !tripped);
            let i = usize::from(rule - STATUS_BY_LOWEST);
            assert!(causes[..i].iter().all(|&cause| cause < causes[i]));
            assert!(causes[i..].iter().all(|&cause| cause <= causes[i]));
            let own = match report.status {
                ENTERING | CONTINUOUS => Band::Continuous,
                MANDATORY => Band::Mandatory,
                MOMENTARY => Band::Momentary,
                _ => Band::Cease,
            };
            assert_eq!(causes[i], own);
        }
        rule => panic!("no rule for the status: {}", rule),
    }
    assert_eq!(rules.limit > 0, rules.status == STATUS_BY_LIMIT);

    let (side, _) = beyond(frequency);
    let expected = match (tripped, side) {
        (true, _) | (_, 0) => (0, 0),
        _ if !tripped_before && before.side == side => (side, before.held.min(10000)),
        _ => (side, before.watts.min(10000)),
    };
    assert_eq!((report.side, report.held), expected);

    // The limits in their order, the droop first, whichever of them there are.
    let mean = phases.iter().sum::<u32>() / 3;
    let event = report.side != 0;
    let seven = [
        (WATTS_BY_DROOP, event.then(|| drooped(report.held, frequency, available))),
        (WATTS_BY_AVAILABLE, (!event).then_some(i64::from(available))),
        (WATTS_BY_OPERATOR, (!event).then_some(i64::from(limit))),
        (WATTS_BY_SHARE, (!event).then_some(i64::from(report.share))),
        (WATTS_BY_CURVE, Some(curve(&settings.watt, mean))),
        (WATTS_BY_NAMEPLATE, Some(watts_beside(curve(&settings.var, mean)))),
        (WATTS_BY_RECOVERY, Some(250 * i64::from(report.recovery))),
    ];
    let watts = i64::from(report.watts);
    if rules.watts == WATTS_BY_STATUS {
        assert!([0, 4, 5].contains(&report.status) && watts == 0);
        return;
    }
    assert!([1, 2, 3].contains(&report.status));
    let i = seven.iter().position(|limit| limit.0 == rules.watts).expect("a rule of the seven");
    assert_eq!(seven[i].1, Some(watts));
    assert!(seven[..i].iter().all(|limit| limit.1.map_or(true, |other| other > watts)));
    assert!(seven[i..].iter().all(|limit| limit.1.map_or(true, |other| other >= watts)));
}

#[test]
fn rules_of_made_steps() {
    let settings = quick_settings();
    let codes =
        [0, 249, 250, 700, 774, 775, 841, 1000, 1000, 1000, 1103, 1180, 1211, 1440, 1441];
    let hertz = [
        40000, 56499, 56999, 57000, 58499, 58799, 59500, 59963, 59964, 60000, 60000, 60000,
        60000, 60000, 60036, 60037, 60100, 61201, 62000, 62001, 80000,
    ];
    let powers = [0, 250, 5000, 9751];
    let mut by_status = [0; 8];
    let mut by_limit = [0; 9];
    let mut by_watts = [0; 9];
    for seed in 0..20000 {
        // A lent record, then some steps on it.
        let bytes = made(seed, 100);
        let mut bytes = bytes.iter().map(|&byte| usize::from(byte));
        let mut byte = move || bytes.next().unwrap();
        let mut board = Board {
            status: (byte() % 8) as u8,
            counters: std::array::from_fn(|i| match byte() % 8 {
                0 if i < 8 => settings.trips[i].time - 1,
                1 => u32::MAX,
                _ => 0,
            }),
            ramp: byte() as u32, // above 100 mostly
            watts: 100 * byte() as u16, // above 10000 mostly
            vars: 0,
            recovery: byte() as u8, // above 40 mostly
            side: (byte() % 4) as u8,
            held: 100 * byte() as u16, // above 10000 mostly
        };
        for _ in 0..8 {
            // Mostly one code for all three phases, permission and full power.
            let one = codes[byte() % codes.len()];
            let mut code = || codes.get(byte() % 60).copied().unwrap_or(one);
            let [a, b, c] = [code(), code(), code()];
            let frequency = hertz[byte() % hertz.len()];
            let permission = u32::from(byte() % 8 > 0);
            let mut power = || powers.get(byte() % 20).copied().unwrap_or(10000);
            let (available, limit) = (power(), power());
            let sample = [a, b, c, frequency, permission, available, limit];
            let before = board;
            let answer = explained(&mut board, &settings, &sample);
            claims_hold(&before, &settings, &sample, &answer);
            by_status[usize::from(answer.1.status)] += 1;
            by_limit[usize::from(answer.1.limit)] += 1;
            by_watts[usize::from(answer.1.watts)] += 1;
        }
    }
    // Every rule has come up.
    assert!(by_status[0] == 0 && by_status[1..].iter().all(|&times| times > 50));
    assert!(by_limit.iter().all(|&times| times > 50));
    assert!(by_watts[0] == 0 && by_watts[1..].iter().all(|&times| times > 50));
}
