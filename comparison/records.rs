//! The records, and the numbers of statuses, sides, refusals and rules.

/// A trip limit and its clearing time.
#[derive(Clone, Copy, Debug, PartialEq, Eq)]
pub struct Trip {
    pub limit: u32,
    pub time: u32,
}

/// A range with both ends included.
#[derive(Clone, Copy, Debug, PartialEq, Eq)]
pub struct Range {
    pub low: u32,
    pub high: u32,
}

/// A point of a curve.
#[derive(Clone, Copy, Debug, PartialEq, Eq)]
pub struct Point {
    pub voltage: u32,
    pub power: i32,
}

/// The numbers of a sheet, in fields wide enough for anything a caller could lend.
#[derive(Clone, Copy, Debug, PartialEq, Eq)]
pub struct Settings {
    /// uv1, uv2, ov1, ov2, uf1, uf2, of1, of2.
    pub trips: [Trip; 8],
    pub volts: Range,
    pub hertz: Range,
    pub wait: u32,
    pub ramp: u32,
    pub var: [Point; 4],
    pub watt: [Point; 2],
}

/// The board record that the host keeps and lends to each step.
#[derive(Clone, Copy, Debug, PartialEq, Eq)]
pub struct Board {
    pub status: u8,
    /// Eight limit counters in sheet order, then the return counter.
    pub counters: [u32; 9],
    pub ramp: u32,
    pub watts: u16,
    pub vars: i16,
    /// Steps since momentary or cease, 0 to 40; full when tripped (spec 6.15).
    pub recovery: u8,
    // Told: side and held power, here and in the report right after the recovery.
    /// The side of the droop event, `NO_SIDE`, `HIGH_SIDE` or `LOW_SIDE`.
    pub side: u8,
    /// The held power of the event; 0 where there is none.
    pub held: u16,
}

/// What one accepted sample gives.
#[derive(Clone, Copy, Debug, PartialEq, Eq)]
pub struct Report {
    pub status: u8,
    /// Eight limit bits in sheet order, then "ready".
    pub bits: [bool; 9],
    pub share: u16,
    /// The recovery count after the step.
    pub recovery: u8,
    /// Side and held power of the droop event after the step.
    pub side: u8,
    pub held: u16,
    pub watts: u16,
    pub vars: i16,
}

/// Why a report has its status and its watts.
#[derive(Clone, Copy, Debug, PartialEq, Eq)]
pub struct Rules {
    /// The rule for the status, `STATUS_BY_...`.
    pub status: u8,
    /// Where that rule is a limit, its place in the sheet, 1 (uv1) to 8 (of2); otherwise 0.
    pub limit: u8,
    /// The rule for the watts, `WATTS_BY_...`.
    pub watts: u8,
}

/// What reading a sheet gives.
#[derive(Clone, Copy, Debug, PartialEq, Eq)]
pub enum SheetResult<'a> {
    /// The settings, and the index in the text of the first byte past the thirteenth line.
    Accepted { settings: Settings, rest_begins: usize },
    /// The refusal's number, the sheet line from 1, and that line without its line feed,
    /// as a part of the caller's own text.
    Refused { number: u8, line_number: usize, line: &'a [u8] },
}

pub const TRIPPED: u8 = 0;
pub const ENTERING: u8 = 1;
pub const CONTINUOUS: u8 = 2;
pub const MANDATORY: u8 = 3;
pub const MOMENTARY: u8 = 4;
pub const CEASE: u8 = 5;

/// The status words, by status.
pub const STATUS_WORDS: [&str; 6] =
    ["tripped", "entering", "continuous", "mandatory", "momentary", "cease"];

/// The sides of a droop event.
pub const NO_SIDE: u8 = 0;
pub const HIGH_SIDE: u8 = 1;
pub const LOW_SIDE: u8 = 2;

pub const SHEET_LINE: u8 = 1;
pub const OUTSIDE_ROW: u8 = 2;
pub const CURVE_NOT_RISING: u8 = 3;
pub const CODE: u8 = 4;
pub const FREQUENCY: u8 = 5;
pub const PERMISSION: u8 = 6;
pub const POWER: u8 = 7;
pub const SAMPLE_FORM: u8 = 8;
pub const IMAGE_BUFFER: u8 = 9;
pub const SOURCE_LENGTH: u8 = 10;
pub const NOT_RECOVERED: u8 = 11; // or in an event (document 02, request 6)

// Told: the numbers of the rules.
pub const STATUS_BY_PERMISSION: u8 = 1;
pub const STATUS_BY_LIMIT: u8 = 2;
pub const STATUS_BY_WAIT: u8 = 3;
pub const STATUS_BY_RETURN: u8 = 4;
pub const STATUS_BY_LOWEST: u8 = 5;
pub const STATUS_BY_HIGHEST: u8 = 6;
pub const STATUS_BY_FREQUENCY: u8 = 7;

/// The place of no limit.
pub const NO_LIMIT: u8 = 0;

pub const WATTS_BY_STATUS: u8 = 1;
pub const WATTS_BY_AVAILABLE: u8 = 2;
pub const WATTS_BY_OPERATOR: u8 = 3;
pub const WATTS_BY_SHARE: u8 = 4;
pub const WATTS_BY_CURVE: u8 = 5;
pub const WATTS_BY_NAMEPLATE: u8 = 6;
pub const WATTS_BY_RECOVERY: u8 = 7;
pub const WATTS_BY_DROOP: u8 = 8;
