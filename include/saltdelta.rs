//! The grid-interface board for Rust on x86-64: the structs, constants and functions of `saltdelta.h`. Every function
//! is safe.
//!
//! Make the library, and compile your program against it:
//!
//! ```text
//! tools/staticlib.sh
//! rustc -O --edition 2021 program.rs -L target/staticlib
//! ```
//!
//! The program takes this file in as a module. It need not use everything, hence the first line:
//!
//! ```text
//! #[allow(dead_code)]
//! #[path = "…/include/saltdelta.rs"]
//! mod saltdelta;
//! ```
//!
//! `examples/step.rs` is the smallest such program, and `docs/LIBRARY.md` is a guide to the library.
//!
//! Units: voltage 10000 is nominal, frequency is in mHz, power 10000 is the rating, time is in steps of 10 ms.
//!
//! `saltdelta.h` has the full text: what each number means, and which cause of a refusal is looked for first. The
//! comments here are short. What the header asks of a caller, references and slices bring by themselves. Any number may
//! stand in what you lend; there is an answer to each.
//!
//! A call that can be refused answers with a number, `read_sheet` and `replay` in a struct: `ACCEPTED`, or the first
//! cause it found. A refused call writes nothing at all. Every byte that you lent stays as it was, padding included.
//! Any other call writes every field of what it writes, and may change the padding.

// ---- numbers that a call answers

/// Nothing is refused.
pub const ACCEPTED: u32 = 0;
/// A sheet line is missing, unended or not of its form.
pub const FORM: u32 = 1;
/// A setting is outside its allowed range.
pub const RANGE: u32 = 2;
/// The voltages along a curve do not rise strictly.
pub const RISE: u32 = 3;
/// A code is above 4095.
pub const CODE: u32 = 4;
/// The frequency is not 40000 to 80000.
pub const FREQUENCY: u32 = 5;
/// The permission is not 0 or 1.
pub const PERMISSION: u32 = 6;
/// The available power or the operator's limit is above 10000.
pub const POWER: u32 = 7;
/// The sample does not have seven numbers.
pub const SAMPLE: u32 = 8;
/// The buffer or the target is too short for the image.
pub const BUFFER: u32 = 9;
/// The image to be carried over has the wrong length.
pub const SOURCE_LENGTH: u32 = 10;
/// The image to be carried back does not end with recovery count 40, side 0 and held power 0.
pub const ADDED_BYTES: u32 = 11;

// ---- the status of a board; any other number in a lent record is read as tripped

/// Out of service.
pub const TRIPPED: u8 = 0;
/// In service, the ramp not yet full.
pub const ENTERING: u8 = 1;
/// In service, the ramp full.
pub const CONTINUOUS: u8 = 2;
/// Mandatory operation.
pub const MANDATORY: u8 = 3;
/// Momentary cessation.
pub const MOMENTARY: u8 = 4;
/// Cease to energize.
pub const CEASE: u8 = 5;

// ---- the side of a droop event; any other number in a lent record is read as none

/// No event.
pub const NO_SIDE: u8 = 0;
/// In service above 60036 mHz.
pub const HIGH_SIDE: u8 = 1;
/// In service below 59964 mHz.
pub const LOW_SIDE: u8 = 2;

// ---- places in `Settings::trip` and in `Board::counters`

/// The first undervoltage limit.
pub const UV1: usize = 0;
/// The second undervoltage limit.
pub const UV2: usize = 1;
/// The first overvoltage limit.
pub const OV1: usize = 2;
/// The second overvoltage limit.
pub const OV2: usize = 3;
/// The first underfrequency limit.
pub const UF1: usize = 4;
/// The second underfrequency limit.
pub const UF2: usize = 5;
/// The first overfrequency limit.
pub const OF1: usize = 6;
/// The second overfrequency limit.
pub const OF2: usize = 7;
/// The ninth counter, toward return to service. It has no place in `Settings::trip`.
pub const READY: usize = 8;

// ---- sizes

/// The bytes of a record's image.
pub const IMAGE: usize = 49;
/// The bytes of an image of the old firmware.
pub const OLD_IMAGE: usize = 45;
/// A full recovery count: power is back.
pub const RECOVERY_TOP: u8 = 40;

// ---- the rule that held a status

/// Tripped at this step: permission is off.
pub const STATUS_BY_PERMISSION: u8 = 1;
/// Tripped at this step by the limit that is named.
pub const STATUS_BY_LIMIT: u8 = 2;
/// Tripped before this step, or fresh: the return wait is not full.
pub const STATUS_BY_WAIT: u8 = 3;
/// Returned to service at this step.
pub const STATUS_BY_RETURN: u8 = 4;
/// In service: the lowest voltage decides the operating region.
pub const STATUS_BY_LOWEST: u8 = 5;
/// In service: the highest voltage does.
pub const STATUS_BY_HIGHEST: u8 = 6;
/// In service: the frequency does.
pub const STATUS_BY_FREQUENCY: u8 = 7;

// ---- the rule that held the watts

/// The status gives no power.
pub const WATTS_BY_STATUS: u8 = 1;
/// The available power. Also where nothing holds the watts down.
pub const WATTS_BY_AVAILABLE: u8 = 2;
/// The operator's limit.
pub const WATTS_BY_OPERATOR: u8 = 3;
/// The share of the ramp.
pub const WATTS_BY_SHARE: u8 = 4;
/// The volt-watt curve.
pub const WATTS_BY_CURVE: u8 = 5;
/// The nameplate beside the vars.
pub const WATTS_BY_NAMEPLATE: u8 = 6;
/// The recovery after a cessation.
pub const WATTS_BY_RECOVERY: u8 = 7;
/// The droop, with the available power in it. In an event alone.
pub const WATTS_BY_DROOP: u8 = 8;

// ---- structs; the order of their fields is not that of a report line or of an image

/// A trip line of the sheet.
#[repr(C)]
#[derive(Clone, Copy, Debug, Default, PartialEq)]
pub struct Limit {
    /// A voltage or a frequency.
    pub level: u32,
    /// The clearing time.
    pub clearing: u32,
}

/// A range of voltage or frequency in which the board may enter service.
#[repr(C)]
#[derive(Clone, Copy, Debug, Default, PartialEq)]
pub struct Span {
    /// The ends of the range; both belong to it.
    pub low: u32,
    pub high: u32,
}

/// A point of the volt-var or the volt-watt curve.
#[repr(C)]
#[derive(Clone, Copy, Debug, Default, PartialEq)]
pub struct Point {
    /// The voltage.
    pub volts: u32,
    /// The vars, which may be negative, or the watts.
    pub power: i32,
}

/// The settings of a sheet's thirteen lines. All zeros (`Settings::default()`) will do to read a sheet into, but not to
/// step with.
#[repr(C)]
#[derive(Clone, Copy, Debug, Default, PartialEq)]
pub struct Settings {
    /// The trip lines, at `UV1` to `OF2`.
    pub trip: [Limit; 8],
    /// To enter service: voltage and frequency.
    pub volts: Span,
    pub hertz: Span,
    /// The return wait. 0 counts as 1.
    pub wait: u32,
    /// The ramp length, 100 to 60000.
    pub ramp: u32,
    /// The points of the volt-var and of the volt-watt curve.
    pub var: [Point; 4],
    pub watt: [Point; 2],
}

/// The board record, which you keep from step to step. `fresh` makes one.
#[repr(C)]
#[derive(Clone, Copy, Debug, PartialEq)]
pub struct Board {
    /// `TRIPPED` to `CEASE`.
    pub status: u8,
    /// The recovery count, up to `RECOVERY_TOP`.
    pub recovery: u8,
    /// The side of the droop event: `NO_SIDE`, `HIGH_SIDE` or `LOW_SIDE`.
    pub side: u8,
    /// For how many steps each limit has been broken, at `UV1` to `OF2`; then the ninth counter, at `READY`.
    pub counters: [u32; 9],
    /// The ramp count.
    pub ramp: u32,
    /// The watts and vars of the last step. A droop event that the next step begins will hold these watts.
    pub watts: u16,
    pub vars: i16,
    /// The watts before the droop event began, or 0 without one.
    pub held: u16,
}

/// What a step reports.
#[repr(C)]
#[derive(Clone, Copy, Debug, PartialEq)]
pub struct Report {
    /// `TRIPPED` to `CEASE`.
    pub status: u8,
    /// The record's recovery count after the step.
    pub recovery: u8,
    /// `bits >> (8 - UV2) & 1` is the bit of uv2, and so on to `READY`. A limit's bit is 1 when its counter is full.
    pub bits: u16,
    /// Ramp count by ramp length, in ten-thousandths.
    pub share: u16,
    /// The power that the board gives.
    pub watts: u16,
    pub vars: i16,
    /// The record's held power and side after the step.
    pub held: u16,
    pub side: u8,
}

/// A report with the rules that held it.
#[repr(C)]
#[derive(Clone, Copy, Debug, PartialEq)]
pub struct Explained {
    /// The report, as `step` writes it.
    pub report: Report,
    /// `STATUS_BY_PERMISSION` to `STATUS_BY_FREQUENCY`.
    pub status_rule: u8,
    /// With `STATUS_BY_LIMIT` the limit's place in the sheet, from 1: `UV1 + 1` is uv1. Else 0.
    pub limit: u8,
    /// `WATTS_BY_STATUS` to `WATTS_BY_DROOP`.
    pub watts_rule: u8,
}

/// What `read_sheet` answers.
#[repr(C)]
#[derive(Clone, Copy, Debug, PartialEq)]
pub struct Sheet {
    /// `ACCEPTED`, `FORM`, `RANGE` or `RISE`.
    pub number: u32,
    /// The refused line, from 1, or 0 when the sheet is accepted.
    pub line: u32,
    /// The part of your bytes that is handed back: the refused line without its line feed, or what follows an accepted
    /// sheet.
    pub start: usize,
    pub length: usize,
}

/// What `replay` answers.
#[repr(C)]
#[derive(Clone, Copy, Debug, PartialEq)]
pub struct Replayed {
    /// `ACCEPTED`, `RANGE`, `RISE` or `BUFFER`.
    pub number: u32,
    /// How many of the samples were accepted. 0 when the replay is refused.
    pub accepted: usize,
}

// ---- functions

#[link(name = "saltdelta", kind = "static")]
extern "C" {
    fn saltdelta_fresh() -> Board;
    fn saltdelta_fresh_report() -> Report;
    fn saltdelta_fresh_explained() -> Explained;
    fn saltdelta_read_sheet(settings: &mut Settings, bytes: *const u8, length: usize) -> Sheet;
    fn saltdelta_step(
        board: &mut Board,
        settings: &Settings,
        sample: *const u32,
        count: usize,
        report: &mut Report,
    ) -> u32;
    fn saltdelta_step_explained(
        board: &mut Board,
        settings: &Settings,
        sample: *const u32,
        count: usize,
        explained: &mut Explained,
    ) -> u32;
    fn saltdelta_save(board: &Board, buffer: *mut u8, length: usize) -> u32;
    fn saltdelta_carry_forward(source: *const u8, source_length: usize, target: *mut u8, target_length: usize) -> u32;
    fn saltdelta_carry_back(source: *const u8, source_length: usize, target: *mut u8, target_length: usize) -> u32;
    fn saltdelta_replay(
        settings: &Settings,
        samples: *const u32,
        count: usize,
        report: &mut Report,
        buffer: *mut u8,
        length: usize,
    ) -> Replayed;
}

/// A fresh board: tripped, everything 0 but for a recovery count of 40.
pub fn fresh() -> Board {
    unsafe { saltdelta_fresh() }
}

/// The report of a fresh board, before its first sample.
pub fn fresh_report() -> Report {
    unsafe { saltdelta_fresh_report() }
}

/// The same with its rules: the wait and the status.
pub fn fresh_explained() -> Explained {
    unsafe { saltdelta_fresh_explained() }
}

/// Reads the sheet at the front of `bytes` into `settings`. Bytes past its thirteenth line are not the sheet's.
pub fn read_sheet(settings: &mut Settings, bytes: &[u8]) -> Sheet {
    unsafe { saltdelta_read_sheet(settings, bytes.as_ptr(), bytes.len()) }
}

/// One step of `board`. Writes its report. A sample is seven numbers: the mean-square codes of the three phases,
/// frequency, permission, available power, operator's limit. Answers `ACCEPTED` or `RANGE` to `SAMPLE`.
pub fn step(board: &mut Board, settings: &Settings, sample: &[u32], report: &mut Report) -> u32 {
    unsafe { saltdelta_step(board, settings, sample.as_ptr(), sample.len(), report) }
}

/// The same step, with the rules that held the report. You may mix both kinds of step on one record.
pub fn step_explained(board: &mut Board, settings: &Settings, sample: &[u32], explained: &mut Explained) -> u32 {
    unsafe { saltdelta_step_explained(board, settings, sample.as_ptr(), sample.len(), explained) }
}

/// Saves the record's image in the first `IMAGE` bytes of `buffer`. The bytes after it are untouched. Answers
/// `ACCEPTED` or `BUFFER`.
pub fn save(board: &Board, buffer: &mut [u8]) -> u32 {
    unsafe { saltdelta_save(board, buffer.as_mut_ptr(), buffer.len()) }
}

/// Carries an image of the old firmware, `OLD_IMAGE` bytes, over to this one: the bytes of `source` and behind them 40,
/// 0, 0, 0 go into the first `IMAGE` bytes of `target`. Answers `ACCEPTED`, `SOURCE_LENGTH` or `BUFFER`.
pub fn carry_forward(source: &[u8], target: &mut [u8]) -> u32 {
    unsafe { saltdelta_carry_forward(source.as_ptr(), source.len(), target.as_mut_ptr(), target.len()) }
}

/// Carries an image of this firmware, `IMAGE` bytes, back to the old one: its first `OLD_IMAGE` bytes go to the front
/// of `target`. That is possible exactly when its last four bytes are 40, 0, 0, 0: recovery count 40, side 0, held
/// power 0. Answers `ACCEPTED`, `SOURCE_LENGTH`, `ADDED_BYTES` or `BUFFER`.
pub fn carry_back(source: &[u8], target: &mut [u8]) -> u32 {
    unsafe { saltdelta_carry_back(source.as_ptr(), source.len(), target.as_mut_ptr(), target.len()) }
}

/// Replays recorded samples, seven numbers each, on a fresh board. Writes the last report, and saves the record's image
/// in the first `IMAGE` bytes of `buffer`. A refused sample is no step and does not refuse the replay.
pub fn replay(settings: &Settings, samples: &[u32], report: &mut Report, buffer: &mut [u8]) -> Replayed {
    unsafe { saltdelta_replay(settings, samples.as_ptr(), samples.len(), report, buffer.as_mut_ptr(), buffer.len()) }
}
