//! The sheet: its lines, their checks, how it is read, and the default one.

use super::records::*;

/// Two numbers that stand beside each other in the sheet.
type Pair = (i64, i64);

/// One line of the sheet: its text before the first number, how many pairs it holds,
/// and the lowest and highest allowed first and second number of each pair.
pub(super) struct Row {
    head: &'static str,
    pairs: usize,
    first: (i64, i64),
    second: (i64, i64),
}

const fn row(head: &'static str, pairs: usize, first: (i64, i64), second: (i64, i64)) -> Row {
    Row { head, pairs, first, second }
}

/// The lines in sheet order. The ramp's end is that of document 02, request 5; the clearing times
/// and the wait keep theirs.
/// Decision: a ramp of seven digits is refused 1 as before. It is not of the form, and that is
/// checked first; lent as a number it is refused 2.
/// Decision: only settings are narrowed. A lent record whose ramp count a longer ramp has left is
/// read by its top, the ramp length, as any other, and its image is saved and carried as it is.
pub(super) const ROWS: [Row; 13] = [
    row("(trip (uv1 ", 1, (0, 8800), (2100, 5000)),
    row("(trip (uv2 ", 1, (0, 5000), (200, 2100)),
    row("(trip (ov1 ", 1, (11000, 12000), (100, 1300)),
    row("(trip (ov2 ", 1, (12000, 12000), (16, 16)),
    row("(trip (uf1 ", 1, (50000, 59000), (18000, 100000)),
    row("(trip (uf2 ", 1, (50000, 57000), (16, 100000)),
    row("(trip (of1 ", 1, (61000, 66000), (18000, 100000)),
    row("(trip (of2 ", 1, (61800, 66000), (16, 100000)),
    row("(enter (volts ", 1, (8800, 9500), (10500, 10600)),
    row("(enter (hertz ", 1, (59000, 59900), (60100, 61000)),
    row("(enter (wait ", 1, (0, 60000), (100, 60000)),
    row("(var (", 4, (7000, 13000), (-10000, 10000)),
    row("(watt (", 2, (10000, 12000), (0, 10000)),
];

/// All pairs of a sheet: eight trips, volts, hertz, wait, four var and two watt points.
pub(super) const PAIRS: usize = 17;

impl Settings {
    /// The numbers in sheet order.
    pub(super) fn pairs(&self) -> [Pair; PAIRS] {
        let trip = |trip: Trip| (i64::from(trip.limit), i64::from(trip.time));
        let range = |range: Range| (i64::from(range.low), i64::from(range.high));
        let point = |point: Point| (i64::from(point.voltage), i64::from(point.power));
        let mut pairs = [(0, 0); PAIRS];
        for i in 0..8 {
            pairs[i] = trip(self.trips[i]);
        }
        pairs[8] = range(self.volts);
        pairs[9] = range(self.hertz);
        pairs[10] = (i64::from(self.wait), i64::from(self.ramp));
        for i in 0..4 {
            pairs[11 + i] = point(self.var[i]);
        }
        for i in 0..2 {
            pairs[15 + i] = point(self.watt[i]);
        }
        pairs
    }

    /// The settings of numbers in sheet order. The numbers must fit the fields.
    pub(super) fn from_pairs(pairs: &[Pair; PAIRS]) -> Settings {
        let trip = |(limit, time): Pair| Trip { limit: limit as u32, time: time as u32 };
        let range = |(low, high): Pair| Range { low: low as u32, high: high as u32 };
        let point =
            |(voltage, power): Pair| Point { voltage: voltage as u32, power: power as i32 };
        Settings {
            trips: std::array::from_fn(|i| trip(pairs[i])),
            volts: range(pairs[8]),
            hertz: range(pairs[9]),
            wait: pairs[10].0 as u32,
            ramp: pairs[10].1 as u32,
            var: std::array::from_fn(|i| point(pairs[11 + i])),
            watt: std::array::from_fn(|i| point(pairs[15 + i])),
        }
    }
}

/// Refusals 2 and 3 for the numbers of one line.
fn check_line(row: &Row, pairs: &[Pair]) -> Result<(), u8> {
    let within = |number: i64, (lowest, highest): (i64, i64)| lowest <= number && number <= highest;
    if !pairs.iter().all(|&(first, second)| within(first, row.first) && within(second, row.second))
    {
        return Err(OUTSIDE_ROW);
    }
    // Only var and watt hold more than one pair, so only they can fail to rise.
    if !pairs.windows(2).all(|neighbours| neighbours[0].0 < neighbours[1].0) {
        return Err(CURVE_NOT_RISING);
    }
    Ok(())
}

/// Refusals 2 and 3 for lent settings, in sheet order.
/// Decision: "in sheet order" is read as for the sheet itself, line by line and each line
/// for 2, then 3. A var curve that does not rise (3) is thus found before a watt number
/// outside its row (2).
pub(super) fn check_settings(settings: &Settings) -> Result<(), u8> {
    let pairs = settings.pairs();
    let mut begin = 0;
    for row in &ROWS {
        check_line(row, &pairs[begin..begin + row.pairs])?;
        begin += row.pairs;
    }
    Ok(())
}

/// Reads one line of text from its left end.
pub(super) struct Reader<'a> {
    pub(super) rest: &'a [u8],
}

impl Reader<'_> {
    /// Passes over exactly this text.
    pub(super) fn text(&mut self, text: &str) -> Option<()> {
        self.rest = self.rest.strip_prefix(text.as_bytes())?;
        Some(())
    }

    /// A number of 1 to 6 digits without a leading zero; where `minus` says so, a minus
    /// may stand before it if it is not zero.
    /// Decision: 0 itself, written with one digit, has no leading zero.
    /// Decision: the minus is not a digit, so -100000 is of the form (and outside its row).
    pub(super) fn number(&mut self, minus: bool) -> Option<i64> {
        let negative = minus && self.rest.first() == Some(&b'-');
        if negative {
            self.rest = &self.rest[1..];
        }
        let length = self.rest.iter().take_while(|byte| byte.is_ascii_digit()).count();
        let (digits, rest) = self.rest.split_at(length);
        if length < 1 || length > 6 || (length > 1 && digits[0] == b'0') {
            return None;
        }
        self.rest = rest;
        let value = digits.iter().fold(0, |value, digit| value * 10 + i64::from(digit - b'0'));
        match (negative, value) {
            (true, 0) => None,
            (true, _) => Some(-value),
            (false, _) => Some(value),
        }
    }

    /// Nothing is left.
    pub(super) fn end(&self) -> Option<()> {
        self.rest.is_empty().then_some(())
    }
}

/// Reads the numbers of one sheet line into `pairs`; none if the line is not of its form.
fn read_sheet_line(row: &Row, line: &[u8], pairs: &mut [Pair]) -> Option<()> {
    let minus = row.second.0 < 0; // the var row alone
    let mut reader = Reader { rest: line };
    reader.text(row.head)?;
    for (i, pair) in pairs.iter_mut().enumerate() {
        if i > 0 {
            reader.text(") (")?;
        }
        pair.0 = reader.number(false)?;
        reader.text(" ")?;
        pair.1 = reader.number(minus)?;
    }
    reader.text("))")?;
    reader.end()
}

/// Reads a sheet from the beginning of `text`.
///
/// Decision: an unended line is handed back as all that is left of the text. A missing
/// line is the line after the last one that stands there, so its number is one more.
pub fn read_sheet(text: &[u8]) -> SheetResult<'_> {
    let mut pairs = [(0, 0); PAIRS];
    let mut begin = 0; // of the line's pairs
    let mut rest = text;
    for (i, row) in ROWS.iter().enumerate() {
        let refused = |number, line| SheetResult::Refused { number, line_number: i + 1, line };
        let Some(length) = rest.iter().position(|&byte| byte == b'\n') else {
            return refused(SHEET_LINE, rest);
        };
        let line = &rest[..length];
        let line_pairs = &mut pairs[begin..begin + row.pairs];
        if read_sheet_line(row, line, line_pairs).is_none() {
            return refused(SHEET_LINE, line);
        }
        if let Err(number) = check_line(row, line_pairs) {
            return refused(number, line);
        }
        begin += row.pairs;
        rest = &rest[length + 1..];
    }
    let settings = Settings::from_pairs(&pairs);
    SheetResult::Accepted { settings, rest_begins: text.len() - rest.len() }
}

/// The default sheet: spec 3.3.
pub const DEFAULT_SHEET: &str = "\
(trip (uv1 8800 2100))
(trip (uv2 5000 200))
(trip (ov1 11000 1300))
(trip (ov2 12000 16))
(trip (uf1 58500 30000))
(trip (uf2 56500 16))
(trip (of1 61200 30000))
(trip (of2 62000 16))
(enter (volts 9170 10500))
(enter (hertz 59500 60100))
(enter (wait 30000 30000))
(var (9200 4400) (9800 0) (10200 0) (10800 -4400))
(watt (10600 10000) (11000 2000))
";

pub fn default_settings() -> Settings {
    match read_sheet(DEFAULT_SHEET.as_bytes()) {
        SheetResult::Accepted { settings, .. } => settings,
        SheetResult::Refused { .. } => unreachable!("the default sheet is accepted"),
    }
}
