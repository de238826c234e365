//! The tests, a file for each theme, and what several of them use.

mod another_way;
mod answers;
mod carrying;
mod curves;
mod droop_events;
mod droop_power;
mod droop_rules;
mod explained;
mod far_outside;
mod hertz_and_volts;
mod histories;
mod images;
mod inputs;
mod ramp_range;
mod recovery;
mod sheets;
mod status_rules;
mod steps;
mod voltages;
mod watts_rules;
mod wild;

use super::calls::{hex, report_words};
use super::program::{binary, read_sample, report_line, BLOCK_SIZE, LONGEST_LINE};
use super::sensing::{curve, square_root, voltage, watts_beside};
use super::sheet::{check_settings, PAIRS};
use super::step::{band_of_frequency, band_of_voltage, droop, Band};
use super::*;
use std::io::Read;

const LISTING_SAMPLES: &str = "\
(at (1000 1000 1000) 60000 1 10000 10000)
(at (1000 1000 1000) 60000 1 10000 10000)
(at (1000 1000 1441) 60000 1 10000 10000)
(at (4096 0 0) 60000 1 10000 10000)
(at (1000 1000 1000) 60000 0 10000 10000)
";

const LISTING_ANSWERS: &str = "\
(report entering 000000001 0 40 0 0 0 0)
(report entering 000000001 100 40 0 0 100 0)
(report cease 000000000 100 0 0 0 0 0)
(refused 4 17)
(report tripped 000000000 0 40 0 0 0 0)
";

const GOOD: &str = "(at (1000 1000 1000) 60000 1 10000 10000)\n";
const NORMAL: [u32; 7] = [1000, 1000, 1000, 60000, 1, 10000, 10000];
const NO_PERMISSION: [u32; 7] = [1000, 1000, 1000, 60000, 0, 10000, 10000];
/// Mandatory by its frequency alone: vars 0, no limit of the default sheet broken. An event on
/// the low side, whose quotient is 1165 x 10 / 3 = 3883.
const LOW_HERTZ: [u32; 7] = [1000, 1000, 1000, 58799, 1, 10000, 10000];
/// Mandatory by its lowest voltage alone, without an event: uv1 broken, vars 1474 leave 9890.
const SAG: [u32; 7] = [774, 1000, 1000, 60000, 1, 10000, 10000];
/// Momentary below and above, and cease.
const LOW_DIP: [u32; 7] = [1000, 249, 1000, 60000, 1, 10000, 10000];
const HIGH_SWELL: [u32; 7] = [1000, 1000, 1211, 60000, 1, 10000, 10000];
const TOO_HIGH: [u32; 7] = [1441, 1000, 1000, 60000, 1, 10000, 10000];
/// Cease by its frequency alone: of the default sheet uf1 is broken, or of1 and of2.
const FAR_BELOW: [u32; 7] = [1000, 1000, 1000, 56999, 1, 10000, 10000];
const FAR_ABOVE: [u32; 7] = [1000, 1000, 1000, 62001, 1, 10000, 10000];

/// The default sheet with line `number` (from 1) put in place of its own.
fn sheet_with(number: usize, line: &str) -> String {
    let mut lines: Vec<&str> = DEFAULT_SHEET.lines().collect();
    lines[number - 1] = line;
    lines.iter().map(|line| format!("{}\n", line)).collect()
}

fn quick_sheet() -> String {
    sheet_with(11, "(enter (wait 0 100))")
}

fn quick_settings() -> Settings {
    Settings { wait: 0, ramp: 100, ..default_settings() }
}

fn program(input: impl AsRef<[u8]>) -> String {
    let mut output = Vec::new();
    run(input.as_ref(), &mut output).unwrap();
    String::from_utf8(output).unwrap()
}

/// The program's answers to samples after the quick sheet.
fn after_quick_sheet(samples: &str) -> String {
    program(quick_sheet() + samples)
}

/// The refusal of a sheet: number, line number, line. Checks that the line is a part
/// of the text's own bytes and gives where it begins.
fn refusal(text: &[u8]) -> (u8, usize, Vec<u8>, usize) {
    match read_sheet(text) {
        SheetResult::Refused { number, line_number, line } => {
            let begin = line.as_ptr() as usize - text.as_ptr() as usize;
            assert!(begin + line.len() <= text.len());
            (number, line_number, line.to_vec(), begin)
        }
        accepted => panic!("{:?}", accepted),
    }
}

/// Puts `line` in the default sheet; gives 0 if it is accepted, or the refusal.
fn line_answer(number: usize, line: &str) -> u8 {
    let text = sheet_with(number, line);
    match read_sheet(text.as_bytes()) {
        SheetResult::Accepted { rest_begins, .. } => {
            assert_eq!(rest_begins, text.len());
            0
        }
        SheetResult::Refused { number: refusal, line_number, line: refused } => {
            assert_eq!(line_number, number);
            assert_eq!(refused, line.as_bytes());
            refusal
        }
    }
}

fn in_service(ramp: u32) -> Board {
    Board { status: ENTERING, ramp, ..fresh() }
}

/// The side of a frequency, and by how much it moves the held power: by ten for every three
/// millihertz beyond the point, and by 3 or 6 for the one or two that are left.
fn beyond(frequency: u32) -> (u8, i64) {
    let moved = |by: u32| i64::from(10 * (by / 3) + [0, 3, 6][by as usize % 3]);
    match frequency {
        0..=59963 => (2, moved(59964 - frequency)),
        59964..=60036 => (0, 0),
        _ => (1, moved(frequency - 60036)),
    }
}

/// The droop's power in an event.
fn drooped(held: u16, frequency: u32, available: u32) -> i64 {
    let (side, moved) = beyond(frequency);
    let wanted = i64::from(held) + if side == 1 { -moved } else { moved };
    wanted.clamp(0, i64::from(available))
}

/// Gives its bytes in reads of a fixed size.
struct Trickle<'a>(&'a [u8], usize);

impl Read for Trickle<'_> {
    fn read(&mut self, block: &mut [u8]) -> io::Result<usize> {
        let size = self.1.min(self.0.len()).min(block.len());
        block[..size].copy_from_slice(&self.0[..size]);
        self.0 = &self.0[size..];
        Ok(size)
    }
}

/// Steps the board, checks that report, record and image show one count, and gives the
/// report's status, count and watts.
fn recovering(board: &mut Board, sample: &[u32; 7]) -> (u8, u8, u16) {
    let report = step(board, &quick_settings(), sample).unwrap();
    let mut image = [0xAA; 49];
    save(board, &mut image).unwrap();
    assert_eq!((board.recovery, image[45]), (report.recovery, report.recovery));
    assert_eq!(board.watts, report.watts);
    (report.status, report.recovery, report.watts)
}

/// Made bytes: other ones for each seed, the same ones in every run.
fn made(seed: u64, size: usize) -> Vec<u8> {
    let mut state = (seed + 1).wrapping_mul(0x9E37_79B9_7F4A_7C15);
    let next = |_| {
        state ^= state << 13;
        state ^= state >> 7;
        state ^= state << 17;
        (state >> 32) as u8
    };
    (0..size).map(next).collect()
}

/// The new image of an old one.
fn ended(old: &[u8]) -> Vec<u8> {
    [old, &[40, 0, 0, 0]].concat()
}

fn rules(status: u8, limit: u8, watts: u8) -> Rules {
    Rules { status, limit, watts }
}

/// Steps the board with the rules and without. Both must give the same report and record.
fn explained(board: &mut Board, settings: &Settings, sample: &[u32]) -> (Report, Rules) {
    let mut other = *board;
    let (report, rules) = step_explained(board, settings, sample).unwrap();
    assert_eq!(step(&mut other, settings, sample), Ok(report));
    assert_eq!(other, *board);
    (report, rules)
}

/// The status of a step with the quick settings, and its rules.
fn quickly(board: &mut Board, sample: &[u32; 7]) -> (u8, Rules) {
    let (report, rules) = explained(board, &quick_settings(), sample);
    (report.status, rules)
}

/// A board in service whose listed limits, by their index, lack one step.
fn all_but_one_step(settings: &Settings, limits: &[usize]) -> Board {
    let mut board = in_service(100);
    for &i in limits {
        board.counters[i] = settings.trips[i].time - 1;
    }
    board
}

/// Steps the board; the report must show the record, the image every byte of it.
fn imaged(board: &mut Board, settings: &Settings, sample: &[u32]) -> (Report, Rules) {
    let (report, rules) = explained(board, settings, sample);
    let Report { status, share, recovery, side, held, watts, vars, .. } = report;
    assert_eq!(i64::from(share), 10000 * i64::from(board.ramp) / i64::from(settings.ramp));
    let counters: String = board.counters.map(|count| format!("{:08x}", count)).concat();
    let fields = format!("{:08x}{:04x}{:04x}{:02x}", board.ramp, watts, vars, recovery);
    let event = format!("{:02x}{:04x}", side, held);
    let mut image = [0xAA; 49];
    save(board, &mut image).unwrap();
    assert_eq!(hex(&image), format!("{:02x}{}{}{}", status, counters, fields, event));
    (report, rules)
}

fn sample_of(codes: [u32; 3], frequency: u32, permission: u32) -> [u32; 7] {
    let [a, b, c] = codes;
    [a, b, c, frequency, permission, 10000, 10000]
}

/// Frequency limits so far out that far outside need not break any.
fn wide_settings() -> Settings {
    let mut settings = quick_settings();
    for (i, limit) in [(4, 50000), (5, 50000), (6, 66000), (7, 66000)] {
        settings.trips[i].limit = limit;
    }
    settings
}

/// The record's image in a buffer of 53 bytes.
fn imaged_bytes(board: &Board) -> [u8; 53] {
    let mut buffer = [0xAA; 53];
    save(board, &mut buffer).unwrap();
    assert_eq!(buffer[49..], [0xAA; 4]);
    buffer
}

/// A normal sample at this frequency, and one with other powers.
fn at(frequency: u32) -> [u32; 7] {
    sample_of([1000; 3], frequency, 1)
}

fn at_with(frequency: u32, available: u32, limit: u32) -> [u32; 7] {
    [1000, 1000, 1000, frequency, 1, available, limit]
}

/// A board with a full ramp that feeds these watts.
fn feeding(watts: u16) -> Board {
    Board { status: CONTINUOUS, watts, ..in_service(100) }
}

/// The same in an event.
fn drooping(watts: u16, side: u8, held: u16) -> Board {
    Board { side, held, ..feeding(watts) }
}

/// Steps the board and gives side, held power and watts, which report, record and image must
/// show alike.
fn event(board: &mut Board, sample: &[u32; 7]) -> (u8, u16, u16) {
    event_with(board, &quick_settings(), sample)
}

fn event_with(board: &mut Board, settings: &Settings, sample: &[u32; 7]) -> (u8, u16, u16) {
    let (report, _) = imaged(board, settings, sample);
    let shown = (report.side, report.held, report.watts);
    assert_eq!((board.side, board.held, board.watts), shown);
    shown
}

/// "hertz" as wide as its row lets it be.
fn wide_return() -> Settings {
    Settings { hertz: Range { low: 59000, high: 61000 }, ..quick_settings() }
}
