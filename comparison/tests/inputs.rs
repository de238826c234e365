//! Tests of the program: its listing, what it reads and what it writes.

use super::*;
use std::io::Write;

#[test]
fn listing() {
    assert_eq!(after_quick_sheet(LISTING_SAMPLES), LISTING_ANSWERS);
}

#[test]
fn listing_in_reads_of_every_size() {
    let input = quick_sheet() + LISTING_SAMPLES;
    for size in 1..=input.len() {
        let mut output = Vec::new();
        run(Trickle(input.as_bytes(), size), &mut output).unwrap();
        assert_eq!(String::from_utf8(output).unwrap(), LISTING_ANSWERS);
    }
}

#[test]
fn every_cut_of_the_listing() {
    let input = quick_sheet() + LISTING_SAMPLES;
    let sheet_size = quick_sheet().len();
    for cut in 0..=input.len() {
        let part = &input[..cut];
        let ended = part.matches('\n').count();
        let expected = if cut < sheet_size {
            format!("(refused 1 {})\n", ended + 1)
        } else {
            let mut lines: String =
                LISTING_ANSWERS.split_inclusive('\n').take(ended - 13).collect();
            if !part.ends_with('\n') {
                lines += &format!("(refused 8 {})\n", ended + 1);
            }
            lines
        };
        assert_eq!(program(part), expected, "cut at {}", cut);
        let mut output = Vec::new();
        run(input.as_bytes().take(cut as u64), &mut output).unwrap();
        assert_eq!(String::from_utf8(output).unwrap(), expected);
    }
}

#[test]
fn empty_input() {
    assert_eq!(program(""), "(refused 1 1)\n");
    assert_eq!(program("\n"), "(refused 1 1)\n");
}

#[test]
fn sheet_without_samples() {
    assert_eq!(program(DEFAULT_SHEET), "");
}

#[test]
fn refused_sheet_ends_the_program() {
    let sheet = sheet_with(4, "(trip (ov2 12001 16))");
    assert_eq!(program(sheet + GOOD), "(refused 2 4)\n");
    let sheet = sheet_with(13, "(watt (11000 10000) (11000 0))");
    assert_eq!(program(sheet + GOOD), "(refused 3 13)\n");
}

#[test]
fn sample_lines_not_of_their_form() {
    let lines = [
        "(at)", "", " ", "at", "(at (1000 1000 1000) 60000 1 10000 10000) ",
        " (at (1000 1000 1000) 60000 1 10000 10000)",
        "(at (1000 1000 1000) 60000 1 10000 10000)\r",
        "(at (1000 1000 1000) 60000 1 10000 10000)\0",
        "(at (1000 1000 1000) 60000 1 10000 10000))",
        "(at (1000 1000 1000) 60000 1 10000)",
        "(at (1000 1000 1000) 60000 1 10000 10000 0)",
        "(at (1000 1000) 60000 1 10000 10000)",
        "(at (1000 1000 1000 1000) 60000 1 10000 10000)",
        "(at (1000  1000 1000) 60000 1 10000 10000)",
        "(at (1000\t1000 1000) 60000 1 10000 10000)",
        "(at  (1000 1000 1000) 60000 1 10000 10000)",
        "(at(1000 1000 1000) 60000 1 10000 10000)",
        "(at (1000 1000 1000)60000 1 10000 10000)",
        "(at ( 1000 1000 1000) 60000 1 10000 10000)",
        "(at (1000 1000 1000 ) 60000 1 10000 10000)",
        "(at (01000 1000 1000) 60000 1 10000 10000)",
        "(at (00 1000 1000) 60000 1 10000 10000)",
        "(at (-0 1000 1000) 60000 1 10000 10000)",
        "(at (-1 1000 1000) 60000 1 10000 10000)",
        "(at (+1 1000 1000) 60000 1 10000 10000)",
        "(at (1000 1000 1000) 60000 1 -1 10000)",
        "(at (1000 1000 1000) 60000 1 10000 1000000)",
        "(at (1000 1000 1000) 60000 1 10000 0000001)",
        "(at (1000 1000 1000) 60000 1 10000 )",
        "(AT (1000 1000 1000) 60000 1 10000 10000)",
        "(at (1000 1000 1000) 60000 1 10000 1000\u{661})",
        "(at (1000 1000 1000) 60000.0 1 10000 10000)",
        "(at (1000 1000 1000) 6e4 1 10000 10000)",
        "(at (1000 1000 1000) 0x1 1 10000 10000)",
    ];
    for line in lines {
        let samples = format!("{}\n{}", line, GOOD);
        let expected = "(refused 8 14)\n(report entering 000000001 0 40 0 0 0 0)\n";
        assert_eq!(after_quick_sheet(&samples), expected, "{:?}", line);
    }
}

#[test]
fn sample_refusals_of_the_program() {
    let refusals = [
        ("(at (4096 1000 1000) 60000 1 10000 10000)", 4),
        ("(at (1000 4096 1000) 39999 2 10001 10001)", 4),
        ("(at (1000 1000 999999) 60000 1 10000 10000)", 4),
        ("(at (1000 1000 1000) 39999 1 10000 10000)", 5),
        ("(at (1000 1000 1000) 80001 2 10001 10000)", 5),
        ("(at (1000 1000 1000) 0 2 10001 10000)", 5),
        ("(at (1000 1000 1000) 60000 2 10000 10000)", 6),
        ("(at (1000 1000 1000) 60000 2 10001 10000)", 6),
        ("(at (1000 1000 1000) 60000 1 10001 10000)", 7),
        ("(at (1000 1000 1000) 60000 1 10000 10001)", 7),
        ("(at (4096 1000 1000) 39999 2 10001 1000000)", 8),
    ];
    for (line, number) in refusals {
        let samples = format!("{}{}\n{}", GOOD, line, GOOD);
        let expected = format!(
            "(report entering 000000001 0 40 0 0 0 0)\n(refused {} 15)\n\
             (report entering 000000001 100 40 0 0 100 0)\n",
            number
        );
        assert_eq!(after_quick_sheet(&samples), expected, "{}", line);
    }
}

#[test]
fn lines_of_any_length() {
    // Longer than a block, also where their first 74 bytes or fewer are a good line.
    for size in [1, 32, 33, 34, 73, 74, 75, 1000, BLOCK_SIZE - 1, BLOCK_SIZE, 3 * BLOCK_SIZE] {
        let long = format!("{}{}", GOOD.trim_end(), " ".repeat(size));
        let samples = format!("{}\n{}{}", long, GOOD, long);
        let expected =
            "(refused 8 14)\n(report entering 000000001 0 40 0 0 0 0)\n(refused 8 16)\n";
        assert_eq!(after_quick_sheet(&samples), expected);
        for end in ["", "\n"] {
            let sheet = sheet_with(2, &format!("(trip (uv2 5000 200)){}", " ".repeat(size)));
            assert_eq!(program(sheet + end), "(refused 1 2)\n");
        }
    }
    let mut output = Vec::new();
    run(io::repeat(b'(').take(10_000_000), &mut output).unwrap();
    assert_eq!(output, b"(refused 1 1)\n");
}

#[test]
fn longest_line_has_the_longest_form() {
    let line = "(var (999999 -999999) (999999 -999999) (999999 -999999) (999999 -999999))";
    assert_eq!(line.len(), LONGEST_LINE);
    assert_eq!(line_answer(12, line), 2);
    for size in 1..=line.len() {
        let input = sheet_with(12, line);
        let mut output = Vec::new();
        run(Trickle(input.as_bytes(), size), &mut output).unwrap();
        assert_eq!(output, b"(refused 2 12)\n");
    }
}

#[test]
fn many_blocks() {
    let samples = GOOD.repeat(5000);
    let answers = after_quick_sheet(&samples);
    let lines: Vec<&str> = answers.lines().collect();
    assert_eq!(lines.len(), 5000);
    assert_eq!(lines[99], "(report entering 000000001 9900 40 0 0 9900 0)");
    let full = "(report continuous 000000001 10000 40 0 0 10000 0)";
    assert!(lines[100..].iter().all(|line| *line == full));
}

#[test]
fn bytes_that_are_no_text() {
    let mut input = quick_sheet().into_bytes();
    input.extend_from_slice(b"\xff\xfe\n\0\n");
    input.extend_from_slice(GOOD.as_bytes());
    input.extend_from_slice(b"\xff");
    let expected = "(refused 8 14)\n(refused 8 15)\n(report entering 000000001 0 40 0 0 0 0)\n\
                    (refused 8 17)\n";
    assert_eq!(program(input), expected);
}

/// Gives its bytes, then an error.
struct Failing<'a>(&'a [u8], io::ErrorKind);

impl Read for Failing<'_> {
    fn read(&mut self, block: &mut [u8]) -> io::Result<usize> {
        if self.0.is_empty() {
            let kind = std::mem::replace(&mut self.1, io::ErrorKind::Other);
            return Err(kind.into());
        }
        self.0.read(block)
    }
}

#[test]
fn a_read_error_ends_the_input() {
    for kind in [io::ErrorKind::Other, io::ErrorKind::Interrupted] {
        let input = quick_sheet() + GOOD + "(at";
        let mut output = Vec::new();
        run(Failing(input.as_bytes(), kind), &mut output).unwrap();
        assert_eq!(output, b"(report entering 000000001 0 40 0 0 0 0)\n(refused 8 15)\n");
        let mut output = Vec::new();
        run(Failing(b"(trip", kind), &mut output).unwrap();
        assert_eq!(output, b"(refused 1 1)\n");
    }
}

/// Fails every write.
struct Full;

impl Write for Full {
    fn write(&mut self, _: &[u8]) -> io::Result<usize> {
        Err(io::ErrorKind::StorageFull.into())
    }
    fn flush(&mut self) -> io::Result<()> {
        Ok(())
    }
}

#[test]
fn a_write_error_ends_the_program() {
    let endless = quick_sheet().into_bytes();
    assert!(run(endless.as_slice().chain(io::repeat(b'\n')), Full).is_err());
    assert!(run("".as_bytes(), Full).is_err());
}
