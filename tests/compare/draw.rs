//! Drawing: the numbers, sheets and samples that inputs are made of. Fixed seeds, so that every run makes the same inputs.

/// A small generator (splitmix64).
pub struct Draws(u64);

impl Draws {
    pub fn new(seed: u64) -> Draws {
        Draws(seed)
    }

    pub fn next(&mut self) -> u64 {
        self.0 = self.0.wrapping_add(0x9E37_79B9_7F4A_7C15);
        let mut word = self.0;
        word = (word ^ (word >> 30)).wrapping_mul(0xBF58_476D_1CE4_E5B9);
        word = (word ^ (word >> 27)).wrapping_mul(0x94D0_49BB_1331_11EB);
        word ^ (word >> 31)
    }

    /// 0 to `count` - 1.
    pub fn below(&mut self, count: usize) -> usize {
        (self.next() % count as u64) as usize
    }

    /// `low` to `high`, both included.
    pub fn between(&mut self, low: i64, high: i64) -> i64 {
        low + (self.next() % (high - low + 1) as u64) as i64
    }

    pub fn pick<T: Copy>(&mut self, items: &[T]) -> T {
        items[self.below(items.len())]
    }

    pub fn shuffle<T>(&mut self, items: &mut [T]) {
        for i in (1..items.len()).rev() {
            items.swap(i, self.below(i + 1));
        }
    }

    pub fn once_in(&mut self, count: usize) -> bool {
        self.below(count) == 0
    }

    /// A number of a range, its ends and their neighbours often.
    pub fn within(&mut self, low: i64, high: i64) -> i64 {
        match self.below(8) {
            0 => low,
            1 => high,
            2 => (low + 1).min(high),
            3 => (high - 1).max(low),
            _ => self.between(low, high),
        }
    }

    /// Strictly rising numbers of a range: anywhere, close together, or from end to end.
    pub fn rising(&mut self, count: usize, low: i64, high: i64) -> Vec<i64> {
        let room = high - (count as i64 - 1);
        if self.once_in(5) {
            let first = self.within(low, room);
            return (0..count as i64).map(|i| first + i).collect();
        }
        let mut numbers: Vec<i64> = (0..count).map(|_| self.between(low, room)).collect();
        numbers.sort();
        if self.once_in(4) {
            numbers[0] = low;
            numbers[count - 1] = room;
        }
        numbers.iter().enumerate().map(|(i, number)| number + i as i64).collect()
    }
}

// ---------------------------------------------------------------------------
// Sensing, to find the codes around a level
// ---------------------------------------------------------------------------

/// The lowest code whose voltage (spec 2.2) is at least `level`; or 4095.
pub fn code_from(level: u32) -> u32 {
    let square = u64::from(level) * u64::from(level);
    square.div_ceil(100_000).min(4095) as u32
}

/// The highest code whose voltage is below `level`, or 0.
pub fn code_below(level: u32) -> u32 {
    code_from(level).saturating_sub(1)
}

/// The highest code whose voltage is at most `level`.
pub fn code_up_to(level: u32) -> u32 {
    code_below(level + 1)
}

/// The lowest code whose voltage is above `level`, or 4095.
pub fn code_above(level: u32) -> u32 {
    code_from(level + 1)
}

// ---------------------------------------------------------------------------
// Sheets
// ---------------------------------------------------------------------------

/// A line of the sheet: its words, its pairs, lowest and highest of the first and of the second numbers.
pub struct Row {
    pub head: &'static str,
    pub pairs: usize,
    pub first: (i64, i64),
    pub second: (i64, i64),
}

const fn row(head: &'static str, pairs: usize, first: (i64, i64), second: (i64, i64)) -> Row {
    Row { head, pairs, first, second }
}

pub const ROWS: [Row; 13] = [
    row("(trip (uv1 ", 1, (0, 8800), (2100, 5000)),
    row("(trip (uv2 ", 1, (0, 5000), (200, 2100)),
    row("(trip (ov1 ", 1, (11000, 12000), (100, 1300)),
    row("(trip (ov2 ", 1, (12000, 12000), (16, 16)),
    row("(trip (uf1 ", 1, (50000, 59000), (18000, 100000)),
    row("(trip (uf2 ", 1, (50000, 57000), (16, 100000)),
    row("(trip (of1 ", 1, (61000, 66000), (18000, 100000)),
    row("(trip (of2 ", 1, (61800, 66000), (16, 100000)),
    row("(enter (volts ", 1, (8800, 9500), (10500, 10600)),
    row("(enter (hertz ", 1, (59000, 59900), (60100, 61000)),
    row("(enter (wait ", 1, (0, 60000), (100, 60000)),
    row("(var (", 4, (7000, 13000), (-10000, 10000)),
    row("(watt (", 2, (10000, 12000), (0, 10000)),
];

pub const VOLTS: usize = 8;
pub const HERTZ: usize = 9;
pub const WAIT: usize = 10;
pub const VAR: usize = 11;
pub const WATT: usize = 15;
pub const PAIRS: usize = 17;

/// The numbers of a sheet, pair by pair: thirteen lines, the last two of four pairs and of two.
#[derive(Clone)]
pub struct Sheet {
    pub pairs: [(i64, i64); PAIRS],
}

pub const DEFAULT: Sheet = Sheet {
    pairs: [
        (8800, 2100), (5000, 200), (11000, 1300), (12000, 16),
        (58500, 30000), (56500, 16), (61200, 30000), (62000, 16),
        (9170, 10500), (59500, 60100), (30000, 30000),
        (9200, 4400), (9800, 0), (10200, 0), (10800, -4400),
        (10600, 10000), (11000, 2000),
    ],
};

/// The sheet line of a pair, from 0.
pub fn line_of(pair: usize) -> usize {
    match pair {
        0..=10 => pair,
        11..=14 => 11,
        _ => 12,
    }
}

impl Sheet {
    pub fn with_wait(mut self, wait: i64, ramp: i64) -> Sheet {
        self.pairs[WAIT] = (wait, ramp);
        self
    }

    pub fn limit(&self, trip: usize) -> u32 {
        self.pairs[trip].0 as u32
    }

    pub fn time(&self, trip: usize) -> usize {
        self.pairs[trip].1 as usize
    }

    /// The steps in range that a return takes.
    pub fn wait(&self) -> usize {
        self.pairs[WAIT].0.max(1) as usize
    }

    pub fn ramp(&self) -> usize {
        self.pairs[WAIT].1 as usize
    }

    /// A sheet drawn over all ranges.
    pub fn drawn(draws: &mut Draws) -> Sheet {
        let mut sheet = DEFAULT;
        for pair in 0..PAIRS {
            let row = &ROWS[line_of(pair)];
            let first = draws.within(row.first.0, row.first.1);
            sheet.pairs[pair] = (first, draws.within(row.second.0, row.second.1));
        }
        let var = draws.rising(4, 7000, 13000);
        let watt = draws.rising(2, 10000, 12000);
        for (i, voltage) in var.into_iter().chain(watt).enumerate() {
            sheet.pairs[VAR + i].0 = voltage;
        }
        sheet
    }

    /// A drawn sheet under which much happens in few steps: short waits and ramps, and often the shortest clearing times.
    pub fn lively(draws: &mut Draws) -> Sheet {
        let mut sheet = Sheet::drawn(draws);
        for trip in 0..8 {
            if !draws.once_in(4) {
                sheet.pairs[trip].1 = ROWS[trip].second.0 + draws.between(0, 3);
            }
        }
        sheet.pairs[3].1 = 16;
        let wait = draws.pick(&[0, 1, 2, 3, 7, 20, 60]);
        let ramp = draws.pick(&[100, 101, 113, 150, 300, 1000, 30000, 60000]);
        sheet.with_wait(wait, ramp)
    }

    /// One line of the sheet, without its line feed.
    pub fn line(&self, line: usize) -> String {
        let begin = (0..PAIRS).position(|pair| line_of(pair) == line).unwrap();
        let row = &ROWS[line];
        let pairs: Vec<String> =
            self.pairs[begin..begin + row.pairs].iter().map(|(a, b)| format!("{a} {b}")).collect();
        format!("{}{}))", row.head, pairs.join(") ("))
    }

    pub fn lines(&self) -> Vec<String> {
        (0..13).map(|line| self.line(line)).collect()
    }

    pub fn text(&self) -> String {
        join(&self.lines())
    }
}

/// Lines, each ended by a line feed.
pub fn join(lines: &[String]) -> String {
    lines.iter().map(|line| format!("{line}\n")).collect()
}

/// A line for a sample.
pub fn sample_line(sample: &[u32; 7]) -> String {
    let [a, b, c, frequency, permission, available, limit] = sample;
    format!("(at ({a} {b} {c}) {frequency} {permission} {available} {limit})\n")
}

/// In range for every accepted sheet.
pub const NORMAL: [u32; 7] = [1000, 1000, 1000, 60000, 1, 10000, 10000];
