//! Damaged sheets, damaged sample lines, lines of any length, and cut pipes.

use crate::draw::*;
use crate::feed::Feed;
use crate::runs::drawn_sample;
use crate::{Input, Sink};

/// The samples of spec 10.11.
const LISTING: &str = "\
(at (1000 1000 1000) 60000 1 10000 10000)
(at (1000 1000 1000) 60000 1 10000 10000)
(at (1000 1000 1441) 60000 1 10000 10000)
(at (4096 0 0) 60000 1 10000 10000)
(at (1000 1000 1000) 60000 0 10000 10000)
";

/// A sheet under which the first sample enters service.
fn quick() -> Sheet {
    DEFAULT.with_wait(0, 100)
}

fn put(kind: &'static str, name: String, text: impl Into<Vec<u8>>, sink: Sink) {
    sink(Input::new(kind, name, text.into()));
}

/// A sheet with samples after it that tell whether it was accepted.
fn sheet_input(kind: &'static str, name: String, lines: &[String], sink: Sink) {
    put(kind, name, join(lines) + LISTING, sink);
}

/// Bytes that could pass for others.
const NEAR: &[u8] = b"()  0123456789-+\n\r\tabuvofti\0\xff";

fn other_byte(byte: u8, draws: &mut Draws) -> u8 {
    loop {
        let other = if draws.once_in(4) { draws.below(256) as u8 } else { draws.pick(NEAR) };
        if other != byte {
            return other;
        }
    }
}

/// Each byte of a sheet changed, dropped, doubled and put after another; then drawn sheets damaged in a drawn place.
pub fn sheet_bytes(sink: Sink) {
    let mut draws = Draws::new(10_000_000);
    let text = quick().text().into_bytes();
    for place in 0..text.len() {
        for (way, name) in ["changed", "dropped", "doubled", "put after another"].into_iter().enumerate() {
            let mut damaged = text.clone();
            damage(&mut damaged, place, way, &mut draws);
            damaged.extend_from_slice(LISTING.as_bytes());
            put("sheet bytes", format!("byte {place} {name}"), damaged, sink);
        }
    }
    for seed in 0..400 {
        let mut text = Sheet::lively(&mut draws).text().into_bytes();
        for _ in 0..draws.pick(&[1, 1, 2, 3]) {
            let (place, way) = (draws.below(text.len()), draws.below(4));
            damage(&mut text, place, way, &mut draws);
        }
        text.extend_from_slice(LISTING.as_bytes());
        put("sheet bytes", format!("drawn {seed}"), text, sink);
    }
}

fn damage(text: &mut Vec<u8>, place: usize, way: usize, draws: &mut Draws) {
    match way {
        0 => text[place] = other_byte(text[place], draws),
        1 => drop(text.remove(place)),
        2 => text.insert(place, text[place]),
        _ => text.insert(place, other_byte(text[place], draws)),
    }
}

/// Ways to write a number that are not of its form, or are just so; `{}` stands for the number.
const WRITTEN: [&str; 14] =
    ["0{}", "00{}", "-{}", "+{}", "-0", "", " {}", "{} ", "{}\r", "\t{}", "0x{}", "{}.0", "1000000", "0000001"];

fn number_written(line: &str, number: usize, written: &str) -> String {
    let mut out = String::new();
    let mut seen = 0;
    let mut rest = line;
    while let Some(begin) = rest.find(|c: char| c == '-' || c.is_ascii_digit()) {
        // The digit of a name such as uv1 is no number.
        let named = rest[..begin].ends_with(|c: char| c.is_ascii_alphabetic());
        let length = rest[begin..].find([' ', ')']).unwrap_or(rest.len() - begin);
        let (before, found) = (&rest[..begin], &rest[begin..begin + length]);
        out.push_str(before);
        if !named && seen == number {
            out.push_str(&written.replace("{}", found));
        } else {
            out.push_str(found);
        }
        seen += usize::from(!named);
        rest = &rest[begin + length..];
    }
    out + rest
}

/// Each number of a sheet written in other ways, and at and past the ends of its row.
pub fn sheet_numbers(sink: Sink) {
    let sheet = quick();
    for line in 0..13 {
        let row = &ROWS[line];
        for number in 0..2 * row.pairs {
            let (low, high) = if number % 2 == 0 { row.first } else { row.second };
            let ends = [low - 1, low, high, high + 1, 0, 999999, -1, -100000];
            let values = ends.map(|value| value.to_string());
            for written in WRITTEN.into_iter().chain(values.iter().map(String::as_str)) {
                let mut lines = sheet.lines();
                lines[line] = number_written(&lines[line], number, written);
                sheet_input("sheet numbers", format!("line {}, number {number}: {written:?}", line + 1), &lines, sink);
            }
        }
    }
}

/// Ramps at the ends of their row and outside it, under drawn sheets, some with another number or line refused too.
pub fn ramp_lengths(sink: Sink) {
    let lengths = [99, 100, 60000, 60001, 60002, 60010, 65535, 65536, 70000, 99999, 100000, 100001, 600000, 999999];
    for (i, length) in lengths.into_iter().enumerate() {
        for seed in 0..if i < 4 { 150 } else { 45 } {
            let mut draws = Draws::new(12_500_000 + 1000 * i as u64 + seed);
            let wait = draws.pick(&[0, 1, 2, 60000]);
            let mut sheet = Sheet::lively(&mut draws).with_wait(wait, length);
            if seed % 8 == 7 {
                let other = draws.below(PAIRS);
                sheet.pairs[other].0 = draws.pick(&[0, 60001, 999999]);
            }
            let mut lines = sheet.lines();
            if seed % 16 == 6 {
                lines[draws.below(13)].push(' ');
            }
            sheet_input("ramp lengths", format!("ramp {length}, seed {seed}"), &lines, sink);
        }
    }
}

/// Curves whose voltages do not rise strictly, alone and beside other causes.
pub fn not_rising(sink: Sink) {
    for seed in 0..220 {
        let mut draws = Draws::new(11_000_000 + seed);
        let mut sheet = Sheet::lively(&mut draws);
        let (begin, count) = draws.pick(&[(VAR, 4), (WATT, 2)]);
        let place = begin + draws.below(count - 1);
        match draws.below(3) {
            0 => sheet.pairs[place].0 = sheet.pairs[place + 1].0,
            1 => sheet.pairs[place + 1].0 = sheet.pairs[place].0,
            _ => (sheet.pairs[place].0, sheet.pairs[place + 1].0) = (sheet.pairs[place + 1].0, sheet.pairs[place].0),
        }
        if seed % 4 == 3 {
            let other = draws.below(PAIRS);
            sheet.pairs[other].1 = draws.pick(&[0, 10001, 999999]);
        }
        let mut lines = sheet.lines();
        if seed % 8 == 6 {
            lines[draws.below(13)].push(' ');
        }
        sheet_input("curves that do not rise", format!("seed {seed}"), &lines, sink);
    }
}

/// Sheet lines missing, doubled, swapped, empty, with carriage returns; sheets cut at each byte; no input at all.
pub fn sheet_lines(sink: Sink) {
    let kind = "sheet lines";
    let lines = quick().lines();
    for line in 0..13 {
        let changed = |change: &dyn Fn(&mut Vec<String>)| {
            let mut lines = lines.clone();
            change(&mut lines);
            lines
        };
        let ways = [
            ("missing", changed(&|l| drop(l.remove(line)))),
            ("doubled", changed(&|l| l.insert(line, l[line].clone()))),
            ("swapped", changed(&|l| l.swap(line, (line + 1) % 13))),
            ("after an empty line", changed(&|l| l.insert(line, String::new()))),
            ("empty", changed(&|l| l[line].clear())),
            ("with a carriage return", changed(&|l| l[line].push('\r'))),
            ("after a carriage return", changed(&|l| l[line].insert(0, '\r'))),
            ("with a space before", changed(&|l| l[line].insert(0, ' '))),
            ("with a space after", changed(&|l| l[line].push(' '))),
            ("in capitals", changed(&|l| l[line] = l[line].to_uppercase())),
            ("and no more", changed(&|l| l.truncate(line))),
        ];
        for (name, lines) in ways {
            sheet_input(kind, format!("line {} {name}", line + 1), &lines, sink);
            put(kind, format!("line {} {name}, no samples", line + 1), join(&lines), sink);
        }
    }
    let text = quick().text();
    put(kind, "carriage returns at all line ends".to_string(), (text.clone() + LISTING).replace('\n', "\r\n"), sink);
    put(kind, "carriage returns for line feeds".to_string(), (text.clone() + LISTING).replace('\n', "\r"), sink);
    for cut in 0..=text.len() {
        put(kind, format!("cut at byte {cut}"), text[..cut].to_string(), sink);
    }
}

/// Each byte of a sample line changed to all others, put after all others, dropped and doubled: an input for each place.
pub fn sample_bytes(sink: Sink) {
    let lines = ["(at (1000 1001 999) 60000 1 10000 9000)\n", "(at (0 4095 1440) 40000 0 0 1)\n", "(at (775 841 1210) 61200 1 10 10000)\n"];
    for (i, line) in lines.into_iter().enumerate() {
        for place in 0..line.len() {
            let mut text = quick().text().into_bytes();
            for byte in 0..=255 {
                let mut damaged = line.as_bytes().to_vec();
                damaged[place] = byte;
                text.extend_from_slice(&damaged);
            }
            for byte in 0..=255 {
                let mut damaged = line.as_bytes().to_vec();
                damaged.insert(place, byte);
                text.extend_from_slice(&damaged);
            }
            let mut draws = Draws::new(0);
            for way in [1, 2] {
                let mut damaged = line.as_bytes().to_vec();
                damage(&mut damaged, place, way, &mut draws);
                text.extend_from_slice(&damaged);
                text.extend_from_slice(lines[0].as_bytes());
            }
            put("sample bytes", format!("line {i}, byte {place}"), text, sink);
        }
    }
    for seed in 0..150 {
        let mut draws = Draws::new(12_000_000 + seed);
        let sheet = Sheet::lively(&mut draws);
        let mut text = sheet.text().into_bytes();
        for _ in 0..100 {
            let mut line = sample_line(&drawn_sample(&sheet, &mut draws)).into_bytes();
            for _ in 0..draws.below(3) {
                let (place, way) = (draws.below(line.len()), draws.below(4));
                damage(&mut line, place, way, &mut draws);
            }
            text.extend_from_slice(&line);
        }
        put("sample bytes", format!("drawn {seed}"), text, sink);
    }
}

/// Sample numbers written in other ways; sample lines missing, cut at each byte and ended otherwise.
pub fn sample_lines(sink: Sink) {
    let kind = "sample lines";
    let sheet = quick().text();
    for number in 0..7 {
        let mut text = sheet.clone();
        for written in WRITTEN.into_iter().chain(["999999", "0", "{}{}", "{} {}"]) {
            text += &number_written("(at (1000 1001 999) 60000 1 10000 9000)", number, written);
            text += "\n(at (1000 1001 999) 60000 1 10000 9000)\n";
        }
        put(kind, format!("number {number}"), text, sink);
    }
    for cut in 0..=LISTING.len() {
        put(kind, format!("cut at byte {cut}"), sheet.clone() + &LISTING[..cut], sink);
    }
    let ends = ["", "\n", "\n\n\n", "\r\n", "\r", " \n", "(at)\n", "(at)", "\0", "\0\n", ")\n", "(at (", "(refused 8 14)\n"];
    for (i, end) in ends.into_iter().enumerate() {
        put(kind, format!("end {i}"), sheet.clone() + LISTING + end, sink);
        put(kind, format!("end {i} before"), sheet.clone() + end + LISTING, sink);
        put(kind, format!("end {i} before the sheet"), end.to_string() + &sheet + LISTING, sink);
        put(kind, format!("end {i} alone"), end.to_string(), sink);
    }
    put(kind, "samples with carriage returns".to_string(), sheet.clone() + &LISTING.replace('\n', "\r\n"), sink);
    put(kind, "the sheet again".to_string(), sheet.clone() + LISTING + &sheet + LISTING, sink);
}

/// Lines of a megabyte, lines about as long as blocks and as the 128 bytes that `board` keeps of a line, among good ones.
pub fn long_lines(sink: Sink) {
    let kind = "long lines";
    let good = "(at (1000 1000 1000) 60000 1 10000 10000)";
    // A fill has one byte more; after the 41 bytes of a good sample, 84 to 88 make lines of 126 to 130.
    let about_kept = [84, 85, 86, 87, 88, 125, 126, 127, 128, 129, 130];
    let about_blocks = [40, 41, 42, 72, 73, 74, 75, 255, 256, 4095, 4096, 4097, 65535, 65536, 65537, 131072, 1_000_000, 1_048_576];
    for fill in [" ", "(", "0", "1", ")", "\0", "\r", "(at (1000 1000 1000) 60000 1 10000 10000)"] {
        let mut text = quick().text();
        for length in about_kept.into_iter().chain(about_blocks) {
            let long = fill.repeat(length / fill.len() + 1);
            for line in [long.clone(), format!("{good}{long}"), format!("{}{long}", &good[..30]), format!("{long}{good}")] {
                text += &format!("{good}\n{line}\n");
            }
        }
        put(kind, format!("samples filled with {fill:?}"), text.clone() + good + "\n", sink);
        put(kind, format!("samples filled with {fill:?}, unended"), text + good + &fill.repeat(1_000_000), sink);
    }
    for line in 0..13 {
        let fill = [" ", "0", ")", "\0"][line % 4];
        for length in [1, 75, 4096, 65536, 1_000_000] {
            let mut lines = quick().lines();
            lines[line] += &fill.repeat(length);
            sheet_input(kind, format!("sheet line {} and {length} times {fill:?}", line + 1), &lines, sink);
        }
        let mut lines = quick().lines();
        lines.truncate(line);
        let text = join(&lines) + &"(".repeat(1_000_000);
        put(kind, format!("sheet line {} of a megabyte, unended", line + 1), text, sink);
    }
    many_lines(sink);
    for watt in ["(watt (08", "(watt (12001", "(watt (11000"] {
        let sheet = quick().text().replace("(watt (10600", watt);
        put(kind, format!("{watt} and a megabyte of samples"), sheet + &LISTING.repeat(5000), sink);
    }
}

/// Many short lines: line numbers of seven digits.
fn many_lines(sink: Sink) {
    let text = quick().text() + &"\n".repeat(1_000_100);
    put("long lines", "a million empty lines".to_string(), text, sink);
    put("long lines", "a million line feeds, no sheet".to_string(), "\n".repeat(1_000_000), sink);
}

/// Noise, alone and after a sheet.
pub fn noise(sink: Sink) {
    for seed in 0..240 {
        let mut draws = Draws::new(13_000_000 + seed);
        let mut text = if seed % 3 == 0 { Vec::new() } else { quick().text().into_bytes() };
        for _ in 0..draws.pick(&[1, 10, 100, 3000]) {
            match seed % 4 {
                0 => text.push(draws.below(256) as u8),
                1 => text.push(draws.pick(b"()at 0123456789\n-")),
                2 => text.extend_from_slice(draws.pick(&["(", ")", " ", "at", "1000", "0", "1", "60000", "\n", "-"]).as_bytes()),
                _ => text.extend_from_slice(draws.pick(&["(at (", "1000 1000 1000", ") ", "60000 1 1 1", ")\n"]).as_bytes()),
            }
        }
        put("noise", format!("seed {seed}"), text, sink);
    }
}

/// A small input through a pipe cut at each of its places, in two and in ones; a refused one likewise.
pub fn pipe_cuts(sink: Sink) {
    let text = quick().text() + LISTING;
    for place in 1..text.len() {
        let feed = Feed::Cut(vec![place]);
        sink(Input::fed("pipes cut at a place", format!("cut at {place}"), text.clone().into_bytes(), feed));
    }
    let [refused1, refused2, refused3] =
        ["(watt (08", "(watt (12001", "(watt (11000"].map(|watt| quick().text().replace("(watt (10600", watt) + LISTING);
    let unended = text[..text.len() - 1].to_string();
    for (name, text) in [("listing", text), ("refused 1", refused1), ("refused 2", refused2), ("refused 3", refused3), ("unended", unended)] {
        for size in [1, 2, 3, 5, 7, 41, 42, 43] {
            let feed = Feed::Blocks(size);
            sink(Input::fed("pipes cut at a place", format!("{name} in blocks of {size}"), text.clone().into_bytes(), feed));
        }
    }
}

/// A long input through a pipe at odd block sizes.
pub fn pipe_blocks(sink: Sink) {
    let sizes = [13, 41, 97, 509, 1021, 4093, 4095, 4096, 4097, 8191, 16381, 32749, 65521, 65535, 65536, 65537, 131071, 262147];
    for (i, size) in sizes.into_iter().enumerate() {
        for way in 0..2 {
            let mut draws = Draws::new(14_000_000 + 2 * i as u64 + way);
            let sheet = Sheet::lively(&mut draws);
            let mut text = sheet.text().into_bytes();
            let length = if size < 1000 { 60_000 } else { 1_200_000 };
            while text.len() < length {
                let mut line = sample_line(&drawn_sample(&sheet, &mut draws)).into_bytes();
                if draws.once_in(50) {
                    let (place, way) = (draws.below(line.len()), draws.below(4));
                    damage(&mut line, place, way, &mut draws);
                }
                text.extend_from_slice(&line);
                if draws.once_in(2000) {
                    text.extend_from_slice(&vec![b' '; draws.below(70_000)]);
                }
            }
            sink(Input::fed("pipes at odd block sizes", format!("blocks of {size}, way {way}"), text, Feed::Blocks(size)));
        }
    }
}
