//! Made numbers: the dice, and settings, sheets, records, reports and samples that are drawn with them.

use super::*;

/// xorshift64*
pub struct Dice(pub u64);

impl Dice {
    pub fn next(&mut self) -> u64 {
        self.0 ^= self.0 >> 12;
        self.0 ^= self.0 << 25;
        self.0 ^= self.0 >> 27;
        self.0.wrapping_mul(0x2545_F491_4F6C_DD1D)
    }

    pub fn below(&mut self, n: u64) -> u64 {
        (self.next() >> 11) % n
    }

    pub fn one_in(&mut self, n: u64) -> bool {
        self.below(n) == 0
    }

    pub fn within(&mut self, lowest: i64, highest: i64) -> i64 {
        lowest + self.below((highest - lowest + 1) as u64) as i64
    }

    /// In a range, often at an end of it.
    pub fn inside(&mut self, lowest: i64, highest: i64) -> i64 {
        match self.below(4) {
            0 => lowest,
            1 => highest,
            _ => self.within(lowest, highest),
        }
    }

    /// Near a range, in it or not, or anything of 32 bits.
    fn near(&mut self, lowest: i64, highest: i64) -> i64 {
        match self.below(8) {
            0 => lowest - 1,
            1 => highest + 1,
            2 => 0,
            3 => self.within(0, u32::MAX as i64),
            _ => self.inside(lowest, highest),
        }
    }
}

/// The allowed values of each line, and its number of pairs.
pub const ROWS: [(i64, i64, i64, i64, usize); 13] = [
    (0, 8800, 2100, 5000, 1),
    (0, 5000, 200, 2100, 1),
    (11000, 12000, 100, 1300, 1),
    (12000, 12000, 16, 16, 1),
    (50000, 59000, 18000, 100000, 1),
    (50000, 57000, 16, 100000, 1),
    (61000, 66000, 18000, 100000, 1),
    (61800, 66000, 16, 100000, 1),
    (8800, 9500, 10500, 10600, 1),
    (59000, 59900, 60100, 61000, 1),
    (0, 60000, 100, 60000, 1),
    (7000, 13000, -10000, 10000, 4),
    (10000, 12000, 0, 10000, 2),
];

pub type Pairs = Vec<(i64, i64)>;

/// The numbers of accepted settings, seventeen pairs in sheet order.
pub fn good_pairs(dice: &mut Dice) -> Pairs {
    let mut pairs = Vec::new();
    for (low, high, second_low, second_high, n) in ROWS {
        let mut volts: Vec<i64> = Vec::new();
        while volts.len() < n {
            let v = dice.inside(low, high);
            if !volts.contains(&v) {
                volts.push(v);
            }
        }
        volts.sort();
        pairs.extend(volts.iter().map(|&v| (v, dice.inside(second_low, second_high))));
    }
    if dice.one_in(2) {
        pairs[10] = (dice.within(0, 3), 100);
    }
    pairs
}

/// Numbers some of which are outside their row, or do not rise.
pub fn wild_pairs(dice: &mut Dice) -> Pairs {
    let mut pairs = good_pairs(dice);
    for _ in 0..dice.below(3) {
        let line = dice.below(13) as usize;
        let (low, high, second_low, second_high, n) = ROWS[line];
        let at = ROWS[..line].iter().map(|r| r.4).sum::<usize>() + dice.below(n as u64) as usize;
        match dice.below(3) {
            0 => pairs[at].0 = dice.near(low, high).max(0),
            1 => pairs[at].1 = dice.near(second_low, second_high),
            _ if n > 1 && at > 0 => pairs[at].0 = pairs[at - 1].0,
            _ => (),
        }
    }
    pairs
}

pub fn settings_of(p: &Pairs) -> Settings {
    let limit = |i: usize| Limit { level: p[i].0 as u32, clearing: p[i].1 as u32 };
    let span = |i: usize| Span { low: p[i].0 as u32, high: p[i].1 as u32 };
    let point = |i: usize| Point { volts: p[i].0 as u32, power: p[i].1 as i32 };
    Settings {
        trip: std::array::from_fn(limit),
        volts: span(8),
        hertz: span(9),
        wait: p[10].0 as u32,
        ramp: p[10].1 as u32,
        var: std::array::from_fn(|i| point(11 + i)),
        watt: std::array::from_fn(|i| point(15 + i)),
    }
}

pub fn sheet_of(p: &Pairs) -> Vec<u8> {
    let names = ["uv1", "uv2", "ov1", "ov2", "uf1", "uf2", "of1", "of2"];
    let mut s = String::new();
    for (i, name) in names.iter().enumerate() {
        s += &format!("(trip ({} {} {}))\n", name, p[i].0, p[i].1);
    }
    for (i, name) in ["volts", "hertz", "wait"].iter().enumerate() {
        s += &format!("(enter ({} {} {}))\n", name, p[8 + i].0, p[8 + i].1);
    }
    let points = |from: usize, to: usize| {
        (from..to).map(|i| format!(" ({} {})", p[i].0, p[i].1)).collect::<String>()
    };
    s += &format!("(var{})\n(watt{})\n", points(11, 15), points(15, 17));
    s.into_bytes()
}

/// Watts or a held power: none, near the top, or anything.
pub fn wild_power(dice: &mut Dice) -> u16 {
    match dice.below(8) {
        0 => 0,
        1 => dice.within(9_999, 10_001) as u16,
        2 => u16::MAX - dice.below(2) as u16,
        3 => dice.next() as u16,
        _ => dice.within(0, 10_000) as u16,
    }
}

/// A side with a name or without one.
fn wild_side(dice: &mut Dice) -> u8 {
    match dice.below(8) {
        0 => 3,
        1 => u8::MAX,
        2 => dice.next() as u8,
        _ => dice.below(3) as u8,
    }
}

/// A record that a step could have written, or anything.
pub fn wild_record(dice: &mut Dice) -> Board {
    let count = |dice: &mut Dice| match dice.below(4) {
        0 => dice.within(0, 20) as u32,
        1 => dice.within(0, 100001) as u32,
        2 => u32::MAX - dice.below(3) as u32,
        _ => dice.next() as u32,
    };
    Board {
        status: if dice.one_in(4) { dice.next() as u8 } else { dice.within(0, 6) as u8 },
        counters: std::array::from_fn(|_| count(dice)),
        ramp: count(dice),
        watts: wild_power(dice),
        vars: dice.next() as i16,
        recovery: match dice.below(4) {
            0 => dice.within(38, 42) as u8,
            1 => dice.within(0, 39) as u8,
            2 => u8::MAX - dice.below(3) as u8,
            _ => dice.next() as u8,
        },
        side: wild_side(dice),
        held: wild_power(dice),
    }
}

pub fn wild_report(dice: &mut Dice) -> Report {
    Report {
        status: dice.next() as u8,
        bits: dice.next() as u16,
        share: dice.next() as u16,
        recovery: dice.next() as u8,
        watts: dice.next() as u16,
        vars: dice.next() as i16,
        held: dice.next() as u16,
        side: dice.next() as u8,
    }
}

/// Mostly seven numbers that are accepted; else numbers near their ranges, and other lengths.
pub fn sample(dice: &mut Dice, wild: bool) -> Vec<u32> {
    let phase = |dice: &mut Dice| if dice.one_in(3) { dice.inside(0, 4095) } else { dice.within(700, 1500) };
    let hertz = if dice.one_in(3) { dice.inside(40000, 80000) } else { dice.within(58000, 63000) };
    let mut s = vec![phase(dice), phase(dice), phase(dice), hertz];
    s.extend([dice.below(8).min(1) as i64, dice.inside(0, 10000), dice.inside(0, 10000)]);
    if wild && dice.one_in(2) {
        let i = dice.below(7) as usize;
        let (low, high) = [(0, 4095), (0, 4095), (0, 4095), (40000, 80000), (0, 1), (0, 10000), (0, 10000)][i];
        s[i] = dice.near(low, high).max(0);
    }
    if wild && dice.one_in(4) {
        s.resize(dice.below(12) as usize, 0);
    }
    s.into_iter().map(|n| n as u32).collect()
}

/// Codes at the edges of mandatory operation, momentary cessation and cease.
const DIPS: [u32; 8] = [0, 249, 250, 774, 1211, 1440, 1441, 4095];

/// Frequencies at the ends of ride-through and far outside, and about the ends of the deadband.
const HERTZ_DIPS: [u32; 12] = [40000, 56999, 57000, 62000, 62001, 80000, 59700, 59963, 59964, 60036, 60037, 60300];

/// A sample in which one phase, or the frequency, is one of these.
pub fn dip(dice: &mut Dice, steady: &[u32]) -> Vec<u32> {
    let mut s = steady.to_vec();
    if dice.one_in(3) {
        s[3] = HERTZ_DIPS[dice.below(12) as usize];
    } else {
        s[dice.below(3) as usize] = DIPS[dice.below(8) as usize];
    }
    s
}

/// Samples one after another: steady ones, often such that let a board return; now and then any sample, or a dip of 1 to 20.
pub struct Grid {
    steady: Vec<u32>,
    often: u64,
    dip: Vec<u32>,
    left: u64,
}

impl Grid {
    pub fn new(dice: &mut Dice, seldom: i64) -> Grid {
        let steady = if dice.one_in(4) { sample(dice, false) } else { vec![1000, 1010, 990, 60000, 1, 10000, 9000] };
        Grid { steady, often: dice.within(2, seldom) as u64, dip: Vec::new(), left: 0 }
    }

    pub fn next(&mut self, dice: &mut Dice) -> Vec<u32> {
        if self.left == 0 && !dice.one_in(self.often) {
            return self.steady.clone();
        }
        if self.left == 0 && dice.one_in(2) {
            return sample(dice, true);
        }
        if self.left == 0 {
            (self.dip, self.left) = (dip(dice, &self.steady), dice.within(1, 20) as u64);
        }
        self.left -= 1;
        self.dip.clone()
    }
}

pub fn bytes(dice: &mut Dice, length: usize) -> Vec<u8> {
    (0..length).map(|_| dice.next() as u8).collect()
}
