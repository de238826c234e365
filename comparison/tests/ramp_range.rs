//! Tests of the end of the ramp range.

use super::carrying::saved_and_carried;
use super::histories::TRIED;
use super::*;

/// Ramps as the sheet writes them, with their answers.
const RAMPS: [(&str, u8); 28] = [
    ("0", 2), ("1", 2), ("10", 2), ("98", 2), ("99", 2), ("100", 0), ("101", 0), ("30000", 0),
    ("59999", 0), ("60000", 0), ("60001", 2), ("60002", 2), ("65535", 2), ("65536", 2),
    ("65636", 2), ("70000", 2), ("99999", 2), ("100000", 2), ("100001", 2), ("125536", 2),
    ("600000", 2), ("999999", 2), ("1000000", 1), ("9999999", 1), ("060000", 1),
    ("0060000", 1), ("-60000", 1), ("", 1),
];

/// Ramps that are lent and refused.
pub(super) const REFUSED_RAMPS: [u32; 17] = [
    0, 1, 98, 99, 60001, 60002, 65535, 65536, 65636, 99999, 100000, 100001, 125536, 999999,
    1000000, 1 << 31, u32::MAX,
];

#[test]
fn ramps_of_the_sheet() {
    for wait in [0, 1, 30000, 60000] {
        for (ramp, answer) in RAMPS {
            let line = format!("(enter (wait {wait} {ramp}))");
            assert_eq!(line_answer(11, &line), answer, "{}", line);
            let text = sheet_with(11, &line);
            if answer == 0 {
                let settings =
                    Settings { wait, ramp: ramp.parse().unwrap(), ..default_settings() };
                let rest_begins = text.len();
                let expected = SheetResult::Accepted { settings, rest_begins };
                assert_eq!(read_sheet(text.as_bytes()), expected);
            } else {
                let begin = text.find(&line).unwrap();
                let expected = (answer, 11, line.into_bytes(), begin);
                assert_eq!(refusal(text.as_bytes()), expected);
            }
        }
    }
}

#[test]
fn ramps_in_the_program() {
    for (ramp, answer) in RAMPS {
        let sheet = sheet_with(11, &format!("(enter (wait 0 {ramp}))"));
        let expected = match answer {
            0 => "(report entering 000000001 0 40 0 0 0 0)\n(refused 8 15)\n".to_string(),
            _ => format!("(refused {answer} 11)\n"),
        };
        let input = sheet + GOOD + "(at)\n";
        for size in [1, 7, 300, input.len()] {
            let mut output = Vec::new();
            run(Trickle(input.as_bytes(), size), &mut output).unwrap();
            assert_eq!(String::from_utf8(output).unwrap(), expected, "{}", ramp);
        }
    }
}

const LONG: (usize, &str) = (11, "(enter (wait 0 60001))");
const FLAT: (usize, &str) = (12, "(var (7000 0) (7000 0) (7000 0) (7000 0))");

/// Lines put in place of their own, and the refusal with its line.
const BESIDE: [(&[(usize, &str)], u8, usize); 21] = [
    // An earlier line.
    (&[LONG, (1, "(trip (uv1 08 2100))")], 1, 1),
    (&[LONG, (4, "(trip (ov2 12001 16))")], 2, 4),
    (&[LONG, (5, "(trip (uf1 58500 100001))")], 2, 5),
    (&[LONG, (10, "(enter (hertz 58999 60100))")], 2, 10),
    (&[LONG, (10, "")], 1, 10),
    // A later line.
    (&[LONG, FLAT], 2, 11),
    (&[(11, "(enter (wait 0 60000))"), FLAT], 3, 12),
    (&[LONG, (12, "")], 2, 11),
    (&[LONG, (13, "(watt (10600 10000))")], 2, 11),
    (&[LONG, (13, "(watt (10600 10001) (11000 0))")], 2, 11),
    (&[LONG, (5, "(trip (uf1 58500 100000))"), FLAT], 2, 11),
    // The wait beside it.
    (&[(11, "(enter (wait 60001 60001))")], 2, 11),
    (&[(11, "(enter (wait 60001 60000))")], 2, 11),
    (&[(11, "(enter (wait 60000 60001))"), FLAT], 2, 11),
    // The form of the same line.
    (&[(11, "(enter (wait 060000 60001))")], 1, 11),
    (&[(11, "(enter (wait 1000000 60001))")], 1, 11),
    (&[(11, "(enter (wait 0 60001)")], 1, 11),
    (&[(11, "(enter (wait 0 60001)) ")], 1, 11),
    (&[(11, "(enter (wait 0  60001))")], 1, 11),
    (&[(11, "(enter (wait 0 60001 1))")], 1, 11),
    (&[(11, "(enter (Wait 60001 60001))")], 1, 11),
];

#[test]
fn the_first_refusal_beside_a_long_ramp() {
    for (changes, number, line_number) in BESIDE {
        let mut lines: Vec<&str> = DEFAULT_SHEET.lines().collect();
        for (place, line) in changes {
            lines[place - 1] = line;
        }
        let text: String = lines.iter().map(|line| format!("{line}\n")).collect();
        let found = refusal(text.as_bytes());
        assert_eq!((found.0, found.1), (number, line_number), "{:?}", changes);
        assert_eq!(found.2, lines[line_number - 1].as_bytes());
        assert_eq!(program(text + GOOD), format!("(refused {number} {line_number})\n"));
    }
}

#[test]
fn every_cut_of_a_sheet_with_a_long_ramp() {
    let text = sheet_with(11, "(enter (wait 0 60001))");
    for cut in 0..=text.len() {
        let ended = text[..cut].matches('\n').count();
        let expected = if ended < 11 { (1, ended + 1) } else { (2, 11) };
        let found = refusal(&text.as_bytes()[..cut]);
        assert_eq!((found.0, found.1), expected, "cut at {}", cut);
        let answer = format!("(refused {} {})\n", expected.0, expected.1);
        assert_eq!(program(&text[..cut]), answer);
    }
}

#[test]
fn every_lent_ramp() {
    let good = default_settings();
    for ramp in 0..=1_000_000 {
        let lent = Settings { ramp, ..good };
        let expected = if (100..60001).contains(&ramp) { Ok(()) } else { Err(2) };
        assert_eq!(check_settings(&lent), expected, "{}", ramp);
    }
}

#[test]
fn refused_lent_ramps_change_nothing() {
    let wild = Board {
        status: 200, counters: [u32::MAX; 9], ramp: u32::MAX, watts: u16::MAX, vars: i16::MIN,
        recovery: u8::MAX, side: u8::MAX, held: u16::MAX,
    };
    let recovering = Board { recovery: 7, side: HIGH_SIDE, held: 1234, ..in_service(50) };
    let records = [fresh(), wild, recovering, in_service(60000)];
    let samples: [&[u32]; 7] =
        [&NORMAL, &NO_PERMISSION, &TOO_HIGH, &[], &[4096; 7], &[0; 7], &[1000; 8]];
    for ramp in REFUSED_RAMPS {
        let lent = Settings { ramp, ..quick_settings() };
        assert_eq!(check_settings(&lent), Err(2), "{}", ramp);
        for before in records {
            let image = imaged_bytes(&before);
            for sample in samples {
                let mut board = before;
                assert_eq!(step(&mut board, &lent, sample), Err(2), "{}", ramp);
                assert_eq!(step_explained(&mut board, &lent, sample), Err(2));
                assert_eq!((board, imaged_bytes(&board)), (before, image));
            }
        }
    }
    for ramp in [100, 101, 59999, 60000] {
        let lent = Settings { ramp, ..quick_settings() };
        for before in records {
            let mut board = before;
            assert_eq!(step(&mut board, &lent, &[]), Err(8));
            assert_eq!(step_explained(&mut board, &lent, &[4096; 7]), Err(4));
            assert_eq!(board, before);
            explained(&mut board, &lent, &NORMAL);
        }
    }
}

#[test]
fn lent_ramps_in_sheet_order() {
    let mut flat = quick_settings();
    flat.var[1].voltage = flat.var[0].voltage;
    for (ramp, number) in [(99, 2), (100, 3), (60000, 3), (60001, 2), (100000, 2)] {
        let mut lent = Settings { ramp, ..flat };
        assert_eq!(step(&mut fresh(), &lent, &[4096; 7]), Err(number), "{}", ramp);
        assert_eq!(step_explained(&mut fresh(), &lent, &[]), Err(number));
        lent.watt[0].voltage = 0;
        assert_eq!(step(&mut fresh(), &lent, &NORMAL), Err(number));
        lent.wait = 60001;
        assert_eq!(step(&mut fresh(), &lent, &NORMAL), Err(2));
    }
}

#[test]
fn a_refused_lent_ramp_is_no_step() {
    let settings = Settings { ramp: 60000, wait: 3, ..quick_settings() };
    let (mut board, mut other) = (fresh(), fresh());
    for (i, choice) in made(5, 3000).iter().enumerate() {
        let sample = TRIED.get(usize::from(*choice)).copied().unwrap_or(NORMAL);
        let ramp = REFUSED_RAMPS[i % REFUSED_RAMPS.len()];
        assert_eq!(step(&mut other, &Settings { ramp, ..settings }, &sample), Err(2));
        assert_eq!(step(&mut other, &settings, &sample), step(&mut board, &settings, &sample));
        assert_eq!(other, board);
    }
    assert!(board.ramp > 0);
}

#[test]
fn clearing_times_and_the_wait_keep_their_ends() {
    let limits = [(5, "uf1", 58500), (6, "uf2", 56500), (7, "of1", 61200), (8, "of2", 62000)];
    let times = [
        (59999, 0), (60000, 0), (60001, 0), (65536, 0), (99999, 0), (100000, 0), (100001, 2),
        (999999, 2), (1000000, 1),
    ];
    for (number, name, limit) in limits {
        for (time, answer) in times {
            let line = format!("(trip ({name} {limit} {time}))");
            assert_eq!(line_answer(number, &line), answer, "{}", line);
            let mut lent = quick_settings();
            lent.trips[number - 1].time = time;
            let expected = if answer == 0 { 8 } else { 2 };
            assert_eq!(step(&mut fresh(), &lent, &[]), Err(expected), "{}", line);
        }
    }
    let waits = [(0, 0), (1, 0), (59999, 0), (60000, 0), (60001, 2), (100000, 2), (1000000, 1)];
    for (wait, answer) in waits {
        for ramp in [100, 60000] {
            assert_eq!(line_answer(11, &format!("(enter (wait {wait} {ramp}))")), answer);
            let lent = Settings { wait, ramp, ..quick_settings() };
            let expected = if answer == 0 { 8 } else { 2 };
            assert_eq!(step(&mut fresh(), &lent, &[]), Err(expected), "{}", wait);
        }
    }
}

#[test]
fn clearing_times_of_100000_run_out() {
    let mut settings = Settings { ramp: 60000, ..quick_settings() };
    for trip in &mut settings.trips[4..] {
        trip.time = 100000;
    }
    for (frequency, [slow, fast]) in [(50000, [4, 5]), (70000, [6, 7])] {
        let sample = sample_of([1000; 3], frequency, 1);
        let mut board = in_service(30000);
        for k in 1..100000 {
            let report = step(&mut board, &settings, &sample).unwrap();
            assert_eq!((report.status, report.bits, report.share), (CEASE, [false; 9], 5000));
            assert_eq!((board.counters[slow], board.counters[fast]), (k, k));
        }
        let (report, found) = explained(&mut board, &settings, &sample);
        assert_eq!((report.status, report.bits[slow]), (TRIPPED, true));
        assert_eq!((report.bits[fast], board.ramp), (true, 0));
        assert_eq!(found, rules(STATUS_BY_LIMIT, slow as u8 + 1, WATTS_BY_STATUS));
    }
}

#[test]
fn the_longest_wait_and_the_longest_ramp() {
    let settings = Settings { wait: 60000, ramp: 60000, ..default_settings() };
    let mut board = fresh();
    for k in 1..60000 {
        let report = step(&mut board, &settings, &NORMAL).unwrap();
        assert_eq!((report.status, board.counters[8], board.ramp), (TRIPPED, k, 0));
    }
    // Six steps move the share by one.
    for k in 0..60010 {
        let (report, found) = imaged(&mut board, &settings, &NORMAL);
        let count = k.min(60000);
        assert_eq!((board.ramp, u32::from(report.share)), (count, count / 6));
        assert_eq!((report.watts, report.recovery), (report.share, 40));
        assert_eq!(report.status, if k < 60000 { ENTERING } else { CONTINUOUS });
        let by = if k < 60000 { WATTS_BY_SHARE } else { WATTS_BY_AVAILABLE };
        let rule = if k == 0 { STATUS_BY_RETURN } else { STATUS_BY_LOWEST };
        assert_eq!(found, rules(rule, 0, by));
    }
    let full = format!("{:08x}{}", 60000, "0000ea602710000028000000");
    assert_eq!(hex(&imaged_bytes(&board)[33..49]), full);
}

#[test]
fn first_and_last_steps_of_long_ramps() {
    let rows: [(u32, &[(u32, u16)]); 4] = [
        (60000, &[(0, 0), (1, 0), (5, 0), (6, 1), (7, 1), (11, 1), (12, 2), (29999, 4999),
            (30000, 5000), (59993, 9998), (59994, 9999), (59999, 9999), (60000, 10000)]),
        (59999, &[(5, 0), (6, 1), (29999, 4999), (30000, 5000), (59993, 9998),
            (59994, 9999), (59998, 9999), (59999, 10000)]),
        (50001, &[(5, 0), (6, 1), (10, 1), (11, 2), (49995, 9998), (49996, 9999),
            (50000, 9999), (50001, 10000)]),
        (100, &[(0, 0), (1, 100), (2, 200), (99, 9900), (100, 10000)]),
    ];
    for (ramp, shares) in rows {
        let settings = Settings { ramp, ..quick_settings() };
        for &(count, share) in shares {
            let status = if count < ramp { ENTERING } else { CONTINUOUS };
            let grown = count.checked_sub(1).map_or(fresh(), in_service);
            let report = step(&mut grown.clone(), &settings, &NORMAL).unwrap();
            assert_eq!((report.share, report.status), (share, status), "{}", count);
            // Held in another band, where a full ramp does not show in the status.
            for sample in [LOW_HERTZ, LOW_DIP, TOO_HIGH] {
                let mut board = in_service(count);
                let report = step(&mut board, &settings, &sample).unwrap();
                assert_eq!((report.share, board.ramp), (share, count));
                assert!(report.status >= MANDATORY);
            }
        }
    }
}

#[test]
fn the_longest_ramp_in_the_program() {
    let sheet = sheet_with(11, "(enter (wait 0 60000))");
    let hold = "(at (1000 1000 1000) 58799 1 10000 10000)\n";
    let samples = GOOD.repeat(60000) + hold + &GOOD.repeat(3) + hold;
    let answers = program(sheet + &samples);
    let lines: Vec<&str> = answers.lines().collect();
    assert_eq!(lines.len(), 60005);
    for k in 0..60000 {
        let share = k / 6;
        let expected = format!("(report entering 000000001 {share} 40 0 0 {share} 0)");
        assert_eq!(lines[k], expected, "sample {}", k);
    }
    let full = "(report continuous 000000001 10000 40 0 0 10000 0)";
    let expected = [
        "(report mandatory 000000000 9999 40 2 9999 10000 0)", full, full, full,
        "(report mandatory 000000000 10000 40 2 10000 10000 0)",
    ];
    assert_eq!(lines[60000..], expected);
}

#[test]
fn counts_that_a_longer_ramp_has_left() {
    let settings = Settings { ramp: 60000, ..quick_settings() };
    for status in ENTERING..=CEASE {
        for ramp in [59999, 60000, 60001, 65536, 99999, 100000, u32::MAX] {
            let lent = Board { status, ramp, ..fresh() };
            let mut board = lent;
            let (report, _) = imaged(&mut board, &settings, &NORMAL);
            let expected = (CONTINUOUS, 60000, 10000);
            assert_eq!((report.status, board.ramp, report.share), expected);
            let mut board = lent;
            let (report, _) = imaged(&mut board, &settings, &LOW_HERTZ);
            let share = if ramp < 60000 { 9999 } else { 10000 };
            let expected = (MANDATORY, ramp.min(60000), share);
            assert_eq!((report.status, board.ramp, report.share), expected);
            // The image is not narrowed, nor is carrying.
            assert_eq!(imaged_bytes(&lent)[37..41], ramp.to_be_bytes());
            assert_eq!(saved_and_carried(&lent), 0);
        }
    }
}
