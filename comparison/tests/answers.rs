//! Tests of the mode `calls`.

use super::ramp_range::REFUSED_RAMPS;
use super::*;

#[test]
fn calls() {
    let settings: String =
        quick_settings().pairs().iter().map(|(a, b)| format!(" {} {}", a, b)).collect();
    let input = format!(
        "settings{}\nstep 1000 1000 1000 60000 1 10000 10000\nstep\nsave 49\nsave 50\nsave 48\n\
         save 0\nrecord 255 1 2 3 4 5 6 7 8 4294967295 9 65535 -32768 254 253 65534\nsave 49\n\
         fresh\nstep 4096 0 0 60000 1 0 0\n",
        settings
    );
    let entered = format!("01{}{}", "00000000".repeat(8), "00000001000000000000000028000000");
    let zero = "00".repeat(45);
    let untouched = "aa".repeat(48);
    let expected = format!(
        "ok\nreport 1 000000001 0 40 0 0 0 0 {entered}\nrefused 8 {entered}\nsaved {entered}\n\
         saved {entered}aa\nrefused 9 {untouched}\nrefused 9 \nok\n\
         saved ff0000000100000002000000030000000400000005000000060000000700000008\
         ffffffff00000009ffff8000fefdfffe\nok\nrefused 4 {zero}28000000\n"
    );
    let mut output = Vec::new();
    run_calls(input.as_bytes(), &mut output).unwrap();
    assert_eq!(String::from_utf8(output).unwrap(), expected);
}

fn answers(calls: &str) -> String {
    let mut output = Vec::new();
    run_calls(calls.as_bytes(), &mut output).unwrap();
    String::from_utf8(output).unwrap()
}

#[test]
fn calls_that_carry() {
    let old = "f10102030400000001000000020000000300000004000000050000000600000007\
               ffffffff0a0b0c0dfedcfffe";
    let aa = |size: usize| "aa".repeat(size);
    let rows = [
        (format!("forward 49 {old}"), format!("carried {old}28000000")),
        (format!("forward 51 {old}"), format!("carried {old}28000000aaaa")),
        (format!("forward 48 {old}"), format!("refused 9 {}", aa(48))),
        (format!("forward 46 {old}"), format!("refused 9 {}", aa(46))),
        (format!("forward 45 {old}"), format!("refused 9 {}", aa(45))),
        (format!("forward 0 {old}"), "refused 9 ".to_string()),
        (format!("forward 49 {old}28"), format!("refused 10 {}", aa(49))),
        (format!("forward 49 {old}28000000"), format!("refused 10 {}", aa(49))),
        (format!("forward 49 {}", &old[2..]), format!("refused 10 {}", aa(49))),
        (format!("forward 45 {old}28"), format!("refused 10 {}", aa(45))),
        (format!("forward 45 {old}28000000"), format!("refused 10 {}", aa(45))),
        ("forward 49".to_string(), format!("refused 10 {}", aa(49))),
        ("forward 1".to_string(), "refused 10 aa".to_string()),
        ("forward 0".to_string(), "refused 10 ".to_string()),
        (format!("back 45 {old}28000000"), format!("carried {old}")),
        (format!("back 48 {old}28000000"), format!("carried {old}aaaaaa")),
        (format!("back 44 {old}28000000"), format!("refused 9 {}", aa(44))),
        (format!("back 0 {old}28000000"), "refused 9 ".to_string()),
        (format!("back 45 {old}27000000"), format!("refused 11 {}", aa(45))),
        (format!("back 49 {old}29000000"), format!("refused 11 {}", aa(49))),
        (format!("back 45 {old}28010000"), format!("refused 11 {}", aa(45))),
        (format!("back 45 {old}28030000"), format!("refused 11 {}", aa(45))),
        (format!("back 45 {old}28000100"), format!("refused 11 {}", aa(45))),
        (format!("back 45 {old}28000001"), format!("refused 11 {}", aa(45))),
        (format!("back 44 {old}28022710"), format!("refused 11 {}", aa(44))),
        (format!("back 44 {old}ff000000"), format!("refused 11 {}", aa(44))),
        (format!("back 0 {old}00000000"), "refused 11 ".to_string()),
        (format!("back 45 {old}"), format!("refused 10 {}", aa(45))),
        (format!("back 45 {old}28"), format!("refused 10 {}", aa(45))),
        (format!("back 45 {old}280000"), format!("refused 10 {}", aa(45))),
        (format!("back 45 {old}2800000000"), format!("refused 10 {}", aa(45))),
        (format!("back 44 {old}2828"), format!("refused 10 {}", aa(44))),
        (format!("back 46 {old}0000"), format!("refused 10 {}", aa(46))),
        ("back 49".to_string(), format!("refused 10 {}", aa(49))),
        ("back 1".to_string(), "refused 10 aa".to_string()),
        ("back 0".to_string(), "refused 10 ".to_string()),
    ];
    for (call, answer) in &rows {
        assert_eq!(answers(&format!("{call}\n")), format!("{answer}\n"), "{}", call);
    }
    // All in a row, the record as it was before and after.
    let record = "record 3 1 2 3 4 5 6 7 8 9 10 11 -12 13 14 15\nsave 49\n";
    let mut calls = record.to_string();
    let mut expected = answers(record);
    for (call, answer) in &rows {
        calls += &format!("{call}\nsave 49\n");
        expected += &format!("{answer}\n{}\n", answers(record).lines().nth(1).unwrap());
    }
    assert_eq!(answers(&calls), expected);
}

#[test]
fn calls_that_carry_sources_of_every_length() {
    for length in 0..=60 {
        for recovery in [39, 40] {
            let mut source = made(length as u64, length);
            if length >= 4 {
                source[length - 4..].copy_from_slice(&[recovery, 0, 0, 0]);
            }
            let word = hex(&source);
            for size in 0..=60 {
                let forward = match (length, size) {
                    (45, 49..) => format!("carried {}28000000{}", word, "aa".repeat(size - 49)),
                    (45, _) => format!("refused 9 {}", "aa".repeat(size)),
                    _ => format!("refused 10 {}", "aa".repeat(size)),
                };
                let back = match (length, recovery, size) {
                    (49, 40, 45..) => {
                        format!("carried {}{}", &word[..90], "aa".repeat(size - 45))
                    }
                    (49, 40, _) => format!("refused 9 {}", "aa".repeat(size)),
                    (49, _, _) => format!("refused 11 {}", "aa".repeat(size)),
                    _ => format!("refused 10 {}", "aa".repeat(size)),
                };
                let calls = format!("forward {size} {word}\nback {size} {word}\n");
                assert_eq!(answers(&calls), format!("{forward}\n{back}\n"));
            }
        }
    }
}

#[test]
fn calls_that_carry_every_byte() {
    for begin in 0..=255u8 {
        let old: String = (0..45).map(|i| format!("{:02x}", begin.wrapping_add(i))).collect();
        let calls = format!("forward 49 {old}\nback 45 {old}28000000\n");
        assert_eq!(answers(&calls), format!("carried {old}28000000\ncarried {old}\n"));
    }
}

#[test]
fn calls_that_explain() {
    let settings: String =
        quick_settings().pairs().iter().map(|(a, b)| format!(" {} {}", a, b)).collect();
    let calls = format!(
        "rules\nsettings{settings}\nrules\nexplain 1000 1000 1000 60000 1 10000 10000\n\
         explain 1000 1000 1000 60000 1 10000 10000\nrules\n\
         explain 1000 1000 1441 60000 1 10000 10000\nexplain 4096 0 0 60000 1 10000 10000\n\
         explain\nexplain 1000 1000 1000 60000 0 10000 10000\nfresh\nrules\n\
         record 5 0 0 1299 15 0 0 0 0 0 100 0 0 7 0 0\n\
         explain 1000 1441 1000 60000 1 10000 10000\nsave 49\n"
    );
    let counters = "00000000".repeat(8);
    let entered = format!("01{counters}00000001000000000000000028000000");
    let growing = format!("01{counters}00000001000000010064000028000000");
    let ceased = "05000000000000000000000001000000010000000000000000000000000000000000000000\
                  00000001".to_string() + "0000000000000000";
    let tripped = format!("00{}28000000", "00".repeat(44));
    let limited =
        format!("000000000000000000{:08x}{:08x}{}28000000", 1300, 16, "00".repeat(28));
    let expected = format!(
        "rules 3 0 1\nok\nrules 3 0 1\nreport 1 000000001 0 40 0 0 0 0 rules 4 0 4 {entered}\n\
         report 1 000000001 100 40 0 0 100 0 rules 5 0 4 {growing}\nrules 3 0 1\n\
         report 5 000000000 100 0 0 0 0 0 rules 6 0 1 {ceased}\nrefused 4 {ceased}\n\
         refused 8 {ceased}\nreport 0 000000000 0 40 0 0 0 0 rules 1 0 1 {tripped}\nok\n\
         rules 3 0 1\nok\nreport 0 001100000 0 40 0 0 0 0 rules 2 3 1 {limited}\n\
         saved {limited}\n"
    );
    assert_eq!(answers(&calls), expected);
}

#[test]
fn calls_that_explain_far_outside() {
    let settings: String =
        quick_settings().pairs().iter().map(|(a, b)| format!(" {} {}", a, b)).collect();
    let record = "record 2 0 0 0 0 0 0 0 0 1 100 10000 0 40 0 0\n";
    // The sample; report and rules; the counters that are 1, from 0; in the image ramp,
    // watts and vars, then recovery, side and held power. At 62000 the droop takes 6546.
    let full = "0000006427100000";
    let part = "000000640d7e0000";
    let none = "0000006400000000";
    let gone = "0000000000000000";
    let low = "3 000000000 10000 40 2 10000 10000 0 rules 7 0 8";
    let high = "3 000000000 10000 40 1 10000 3454 0 rules 7 0 8";
    let below = "5 000000000 10000 0 2 10000 0 0 rules 7 0 1";
    let above = "5 000000000 10000 0 1 10000 0 0 rules 7 0 1";
    let rows: [(&str, &str, &[usize], &str, &str); 9] = [
        ("1000 1000 1000 57000 1", low, &[4], full, "28022710"),
        ("1000 1000 1000 56999 1", below, &[4], none, "00022710"),
        ("1000 1000 1000 62000 1", high, &[6], part, "28012710"),
        ("1211 1000 1000 56999 1", below, &[2, 4], none, "00022710"),
        ("1441 1000 1000 56999 1", "5 000000000 10000 0 2 10000 0 0 rules 6 0 1", &[2, 3, 4],
            none, "00022710"),
        ("1441 1441 1441 62001 1", "5 000000000 10000 0 1 10000 0 0 rules 5 0 1",
            &[2, 3, 6, 7], none, "00012710"),
        ("1000 1000 1000 40000 1", below, &[4, 5], none, "00022710"),
        ("1000 1000 1000 80000 1", above, &[6, 7], none, "00012710"),
        ("1000 1000 1000 80000 0", "0 000000000 0 40 0 0 0 0 rules 1 0 1", &[6, 7], gone,
            "28000000"),
    ];
    for (sample, words, ones, numbers, end) in rows {
        let counters: String =
            (0..9).map(|i| format!("{:08x}", u32::from(ones.contains(&i)))).collect();
        let image = format!("0{}{counters}{numbers}{end}", &words[..1]);
        let calls = format!("settings{settings}\n{record}explain {sample} 10000 10000\n");
        let expected = format!("ok\nok\nreport {words} {image}\n");
        assert_eq!(answers(&calls), expected, "{}", sample);
        // Saved it is the same, and goes back where it has recovered and no event is.
        let calls = format!("{calls}save 49\nback 45 {image}\n");
        let back = match end {
            "28000000" => format!("carried {}", &image[..90]),
            _ => format!("refused 11 {}", "aa".repeat(45)),
        };
        assert_eq!(answers(&calls), format!("{expected}saved {image}\n{back}\n"));
    }
}

#[test]
fn calls_that_explain_are_steps() {
    // One history by `step` and by `explain`, with refused calls and `rules` in between.
    let settings: String =
        quick_settings().pairs().iter().map(|(a, b)| format!(" {} {}", a, b)).collect();
    let others = [
        LOW_HERTZ, LOW_DIP, HIGH_SWELL, TOO_HIGH, NO_PERMISSION, FAR_BELOW, FAR_ABOVE,
        [4096; 7], [0; 7],
    ];
    let mut steps = format!("settings{settings}\n");
    let mut explains = steps.clone();
    for choice in made(7, 2000) {
        let sample = others.get(usize::from(choice) / 4).copied().unwrap_or(NORMAL);
        let words: String = sample.iter().map(|number| format!(" {}", number)).collect();
        steps += &format!("step{words}\n");
        explains += &format!("rules\nexplain{words}\n");
    }
    let mut board = fresh();
    let (steps, explains) = (answers(&steps), answers(&explains));
    let mut explains = explains.lines();
    let mut steps = steps.lines();
    assert_eq!((steps.next(), explains.next()), (Some("ok"), Some("ok")));
    for choice in made(7, 2000) {
        let sample = others.get(usize::from(choice) / 4).copied().unwrap_or(NORMAL);
        assert_eq!(explains.next(), Some("rules 3 0 1"));
        let answer = steps.next().unwrap();
        let expected = match step_explained(&mut board, &quick_settings(), &sample) {
            Ok((_, Rules { status, limit, watts })) => {
                let (report, image) = answer.rsplit_once(' ').unwrap();
                format!("{report} rules {status} {limit} {watts} {image}")
            }
            Err(_) => answer.to_string(),
        };
        assert_eq!(explains.next(), Some(&expected[..]));
    }
    assert_eq!((steps.next(), explains.next()), (None, None));
}

#[test]
fn calls_with_long_ramps() {
    let record = "record 1 0 0 0 0 0 0 0 0 1 59998 9999 0 40 0 0\n";
    let image = |status: u8, ramp: u32, watts: u16| {
        let counters = "00000000".repeat(8);
        format!("{status:02x}{counters}00000001{ramp:08x}{watts:04x}000028000000")
    };
    let normal = "1000 1000 1000 60000 1 10000 10000";
    let calls = format!("step {normal}\nexplain {normal}\nstep\nexplain\nsave 49\n");
    let lend = |ramp: u32| {
        let lent = Settings { ramp, ..quick_settings() };
        let words: String =
            lent.pairs().iter().map(|(a, b)| format!(" {} {}", a, b)).collect();
        format!("settings{words}\n")
    };
    let held = image(1, 59998, 9999);
    let grown = image(1, 59999, 9999);
    let full = image(2, 60000, 10000);
    let accepted = format!(
        "report 1 000000001 9999 40 0 0 9999 0 {grown}\n\
         report 2 000000001 10000 40 0 0 10000 0 rules 5 0 2 {full}\n\
         refused 8 {full}\nrefused 8 {full}\nsaved {full}\n"
    );
    let refused = format!("refused 2 {held}\n").repeat(4) + &format!("saved {held}\n");
    for ramp in REFUSED_RAMPS {
        let input = format!("{}{record}{calls}", lend(ramp));
        assert_eq!(answers(&input), format!("ok\nok\n{refused}"), "{}", ramp);
        // Good settings afterwards go on from the same record.
        let input = format!("{input}{}{calls}", lend(60000));
        assert_eq!(answers(&input), format!("ok\nok\n{refused}ok\n{accepted}"));
    }
    let input = format!("{}{record}{calls}", lend(60000));
    assert_eq!(answers(&input), format!("ok\nok\n{accepted}"));
}

#[test]
fn calls_with_events() {
    let settings: String =
        quick_settings().pairs().iter().map(|(a, b)| format!(" {} {}", a, b)).collect();
    let record = |watts: u16, side: u8, held: u16| {
        format!("record 2 0 0 0 0 0 0 0 0 1 100 {watts} 0 40 {side} {held}\n")
    };
    // Watts, side and held power in hex digits.
    let image = |watts: &str, event: &str| {
        format!("02{}0000000100000064{watts}000028{event}", "00000000".repeat(8))
    };
    let (high, low) = ("1000 1000 1000 60066 1 10000", "1000 1000 1000 59934 1 10000");
    // 30 millihertz are worth 100 on either side.
    let rows = [
        (record(6000, 0, 0), format!("step {high} 10000"),
            "report 2 000000001 10000 40 1 6000 5900 0", image("170c", "011770")),
        (record(6000, 0, 0), format!("explain {high} 0"),
            "report 2 000000001 10000 40 1 6000 5900 0 rules 5 0 8", image("170c", "011770")),
        (record(5900, 1, 6000), format!("explain {low} 0"),
            "report 2 000000001 10000 40 2 5900 6000 0 rules 5 0 8", image("1770", "02170c")),
        (record(6000, 2, 700), format!("step {low} 10000"),
            "report 2 000000001 10000 40 2 700 800 0", image("0320", "0202bc")),
        (record(6000, 2, 65535), format!("explain {low} 10000"),
            "report 2 000000001 10000 40 2 10000 10000 0 rules 5 0 8", image("2710", "022710")),
        (record(65535, 255, 700), format!("explain {high} 10000"),
            "report 2 000000001 10000 40 1 10000 9900 0 rules 5 0 8", image("26ac", "012710")),
        (record(6000, 1, 700), "explain 1000 1000 1000 60036 1 10000 10000".to_string(),
            "report 2 000000001 10000 40 0 0 10000 0 rules 5 0 2", image("2710", "000000")),
        (record(6000, 1, 700), "explain 4096 1000 1000 60066 1 10000 10000".to_string(),
            "refused 4", image("1770", "0102bc")),
        (record(6000, 255, 65535), "step".to_string(), "refused 8", image("1770", "ffffff")),
    ];
    for (record, call, words, image) in rows {
        let calls = format!("settings{settings}\n{record}{call}\nsave 49\nsave 48\n");
        let untouched = "aa".repeat(48);
        let expected = format!(
            "ok\nok\n{words} {image}\nsaved {image}\nrefused 9 {untouched}\n"
        );
        assert_eq!(answers(&calls), expected, "{}", call);
    }
}
