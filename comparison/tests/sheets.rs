//! Tests of the sheet: the ends of its rows, its form and its refusals.

use super::*;

#[test]
fn default_sheet() {
    let settings = default_settings();
    let trips = [
        (8800, 2100), (5000, 200), (11000, 1300), (12000, 16),
        (58500, 30000), (56500, 16), (61200, 30000), (62000, 16),
    ];
    assert_eq!(settings.trips, trips.map(|(limit, time)| Trip { limit, time }));
    assert_eq!(settings.volts, Range { low: 9170, high: 10500 });
    assert_eq!(settings.hertz, Range { low: 59500, high: 60100 });
    assert_eq!((settings.wait, settings.ramp), (30000, 30000));
    let var = [(9200, 4400), (9800, 0), (10200, 0), (10800, -4400)];
    assert_eq!(settings.var, var.map(|(voltage, power)| Point { voltage, power }));
    let watt = [(10600, 10000), (11000, 2000)];
    assert_eq!(settings.watt, watt.map(|(voltage, power)| Point { voltage, power }));
}

#[test]
fn refusal_table_examples_of_the_sheet() {
    assert_eq!(line_answer(1, "(trip (uv1 08 2100))"), 1);
    assert_eq!(line_answer(4, "(trip (ov2 12001 16))"), 2);
    assert_eq!(line_answer(13, "(watt (11000 10000) (11000 0))"), 3);
}

/// The table of spec 3.5, apart from `ROWS`.
const TABLE: [(&str, i64, i64, i64, i64); 11] = [
    ("trip (uv1", 0, 8800, 2100, 5000),
    ("trip (uv2", 0, 5000, 200, 2100),
    ("trip (ov1", 11000, 12000, 100, 1300),
    ("trip (ov2", 12000, 12000, 16, 16),
    ("trip (uf1", 50000, 59000, 18000, 100000),
    ("trip (uf2", 50000, 57000, 16, 100000),
    ("trip (of1", 61000, 66000, 18000, 100000),
    ("trip (of2", 61800, 66000, 16, 100000),
    ("enter (volts", 8800, 9500, 10500, 10600),
    ("enter (hertz", 59000, 59900, 60100, 61000),
    ("enter (wait", 0, 60000, 100, 60000),
];

#[test]
fn ends_of_the_rows() {
    for (i, (name, low1, high1, low2, high2)) in TABLE.iter().copied().enumerate() {
        let answer = |first: i64, second: i64| {
            line_answer(i + 1, &format!("({} {} {}))", name, first, second))
        };
        for first in [low1, high1] {
            for second in [low2, high2] {
                assert_eq!(answer(first, second), 0);
            }
        }
        assert_eq!(answer(low1 - 1, low2), if low1 == 0 { 1 } else { 2 });
        assert_eq!(answer(high1 + 1, low2), 2);
        assert_eq!(answer(low1, low2 - 1), 2);
        assert_eq!(answer(low1, high2 + 1), 2);
        assert_eq!(answer(999999, 999999), 2);
        assert_eq!(answer(0, 0), 2);
        assert_eq!(answer(1000000, low2), 1);
        assert_eq!(answer(low1, 1000000), 1);
    }
}

#[test]
fn ends_of_the_var_row() {
    let line = |pairs: [(&str, &str); 4]| {
        let pairs: String = pairs.iter().map(|(v, p)| format!(" ({} {})", v, p)).collect();
        line_answer(12, &format!("(var{})", pairs))
    };
    let good = [("7000", "-10000"), ("7001", "10000"), ("12999", "0"), ("13000", "-1")];
    assert_eq!(line(good), 0);
    let changes = [
        (0, ("6999", "0"), 2), (3, ("13001", "0"), 2), (1, ("7001", "10001"), 2),
        (2, ("12999", "-10001"), 2), (1, ("7000", "0"), 3), (2, ("13000", "0"), 3),
        (1, ("13000", "0"), 3), (1, ("7001", "-0"), 1), (1, ("7001", "-00"), 1),
        (1, ("7001", "-01"), 1), (1, ("7001", "--1"), 1), (1, ("7001", "+1"), 1),
        (1, ("7001", "-"), 1), (1, ("-7001", "0"), 1), (1, ("7001", "-100000"), 2),
        (1, ("7001", "-1000000"), 1), (0, ("0", "0"), 2), (0, ("999999", "999999"), 2),
    ];
    for (i, pair, answer) in changes {
        let mut pairs = good;
        pairs[i] = pair;
        assert_eq!(line(pairs), answer, "{:?}", pairs);
    }
}

#[test]
fn ends_of_the_watt_row() {
    let lines = [
        ("(watt (10000 0) (12000 10000))", 0), ("(watt (10000 0) (10001 0))", 0),
        ("(watt (9999 0) (12000 10000))", 2), ("(watt (10000 0) (12001 10000))", 2),
        ("(watt (10000 10001) (12000 0))", 2), ("(watt (10000 0) (12000 10001))", 2),
        ("(watt (11000 0) (10999 0))", 3), ("(watt (12001 0) (12000 0))", 2),
        ("(watt (10000 -1) (12000 0))", 1), ("(watt (10000 -0) (12000 0))", 1),
        ("(watt (10000 0) (12000 -1))", 1),
    ];
    for (line, answer) in lines {
        assert_eq!(line_answer(13, line), answer, "{}", line);
    }
}

#[test]
fn sheet_lines_not_of_their_form() {
    let lines = [
        (1, ""), (1, "()"), (1, "(trip (uv1 8800 2100)) "), (1, " (trip (uv1 8800 2100))"),
        (1, "(trip (uv1 8800 2100))\r"), (1, "(trip  (uv1 8800 2100))"),
        (1, "(trip (uv1  8800 2100))"), (1, "(trip (uv1 8800  2100))"),
        (1, "(trip (uv1 8800\t2100))"), (1, "(trip (uv1 8800 2100 ))"),
        (1, "(trip (uv1 8800 2100) )"), (1, "(trip (uv1 8800 2100)"),
        (1, "(trip (uv1 8800 2100)))"), (1, "(trip (uv1 8800))"), (1, "(trip (uv1 8800 ))"),
        (1, "(trip (uv1 8800 2100 1))"), (1, "(trip (uv2 5000 200))"),
        (1, "(trip (uv1 8800 02100))"), (1, "(trip (uv1 00 2100))"),
        (1, "(trip (uv1 -0 2100))"), (1, "(trip (uv1 -1 2100))"),
        (1, "(trip (uv1 8800 -2100))"), (1, "(trip (uv1 0008800 2100))"),
        (1, "(trip (uv1 0000000 2100))"), (1, "(Trip (uv1 8800 2100))"),
        (9, "(trip (volts 9170 10500))"), (11, "(enter (wait -1 100))"),
        (12, "(var (9200 4400) (9800 0) (10200 0))"),
        (12, "(var (9200 4400) (9800 0) (10200 0) (10800 -4400) (10900 0))"),
        (12, "(var (9200 4400)(9800 0) (10200 0) (10800 -4400))"),
        (12, "(var (9200 4400) (9800 0) (10200 0) (10800 - 4400))"),
        (12, "(var 9200 4400 9800 0 10200 0 10800 -4400)"),
        (13, "(watt (10600 10000))"), (13, "(watt (10600 10000) (11000 2000) (11100 0))"),
    ];
    for (number, line) in lines {
        assert_eq!(line_answer(number, line), 1, "{:?}", line);
    }
}

#[test]
fn missing_and_unended_lines() {
    let text = DEFAULT_SHEET.as_bytes();
    for cut in 0..text.len() {
        let part = &text[..cut];
        let ended = part.iter().filter(|&&byte| byte == b'\n').count();
        let begin = part.iter().rposition(|&byte| byte == b'\n').map_or(0, |i| i + 1);
        assert_eq!(refusal(part), (1, ended + 1, part[begin..].to_vec(), begin));
    }
}

#[test]
fn an_unended_line_is_refused_1_whatever_it_holds() {
    assert_eq!(refusal(b"(trip (uv1 8801 2100))"), (1, 1, b"(trip (uv1 8801 2100))".to_vec(), 0));
    assert_eq!(refusal(b"(trip (uv1 8801 2100))\n").0, 2);
}

#[test]
fn an_empty_line_is_refused_at_its_place() {
    let text = sheet_with(2, "");
    assert_eq!(refusal(text.as_bytes()), (1, 2, vec![], 23));
    assert_eq!(refusal(b""), (1, 1, vec![], 0));
    assert_eq!(refusal(b"\n"), (1, 1, vec![], 0));
}

#[test]
fn carriage_returns() {
    let text = DEFAULT_SHEET.replace('\n', "\r\n");
    assert_eq!(refusal(text.as_bytes()), (1, 1, b"(trip (uv1 8800 2100))\r".to_vec(), 0));
}

#[test]
fn the_first_refused_line_is_given() {
    let text = sheet_with(12, "(var (7000 0) (7000 0) (7000 0) (7000 0))")
        .replace("(watt (10600 10000)", "(watt (0 10000)");
    assert_eq!((refusal(text.as_bytes()).0, refusal(text.as_bytes()).1), (3, 12));
    let text = text.replace("(enter (wait 30000", "(enter (wait 60001");
    assert_eq!((refusal(text.as_bytes()).0, refusal(text.as_bytes()).1), (2, 11));
}

#[test]
fn bytes_past_the_thirteenth_line_are_not_the_sheets() {
    let text = DEFAULT_SHEET.to_string() + "\u{0}anything\n(trip";
    let expected = SheetResult::Accepted {
        settings: default_settings(),
        rest_begins: DEFAULT_SHEET.len(),
    };
    assert_eq!(read_sheet(text.as_bytes()), expected);
    assert_eq!(read_sheet(DEFAULT_SHEET.as_bytes()), expected);
}
