//! The droop in the library's calls: how an event begins, goes on and ends, what it makes of the watts, and how watts, side and held power of a lent
//! record are read.

use super::*;
use library::{HIGH_SIDE, LOW_SIDE, NO_SIDE};

/// The two points: on them and between them there is no event.
const LOW_POINT: u32 = 59_964;
const HIGH_POINT: u32 = 60_036;
/// The highest power.
const TOP: u16 = 10_000;
/// The points, and the frequencies that are the first of an event.
const POINTS: [u32; 4] = [LOW_POINT - 1, LOW_POINT, HIGH_POINT, HIGH_POINT + 1];
const SIDES: [(u8, &str); 2] = [(HIGH_SIDE, "high side"), (LOW_SIDE, "low side")];

fn side_of(hertz: u32) -> u8 {
    match hertz {
        LOW_POINT..=HIGH_POINT => NO_SIDE,
        0..LOW_POINT => LOW_SIDE,
        _ => HIGH_SIDE,
    }
}

/// Ten times the way from the point that the frequency is past.
fn tenfold(hertz: u32) -> i64 {
    10 * i64::from(hertz.saturating_sub(HIGH_POINT) + LOW_POINT.saturating_sub(hertz))
}

/// The held power moved by the frequency.
pub fn moved(held: u16, hertz: u32) -> i64 {
    let (held, quotient) = (i64::from(held), tenfold(hertz) / 3);
    if hertz > HIGH_POINT { (held - quotient).max(0) } else { held + quotient }
}

// ---- what is reached

/// An accepted step: what was lent to it and what came of it. What the report does not show is worked out here, only to be counted.
pub struct Drooping<'a> {
    pub lent: &'a Board,
    pub settings: &'a Settings,
    pub sample: &'a [u32],
    pub now: &'a Report,
    /// that of the watts, of an explained step
    pub rule: Option<u8>,
}

impl Drooping<'_> {
    fn was(&self) -> bool {
        in_service(self.lent.status)
    }

    fn is(&self) -> bool {
        in_service(self.now.status)
    }

    fn stays(&self) -> bool {
        self.was() && self.is()
    }

    fn returns(&self) -> bool {
        !self.was() && self.is()
    }

    fn without_name(&self) -> bool {
        self.lent.status > other::CEASE
    }

    fn hertz(&self) -> u32 {
        self.sample[3]
    }

    /// The watts before are held now, on this side.
    fn begins(&self, side: u8) -> bool {
        self.now.side == side && self.now.held == self.lent.watts.min(TOP)
    }

    /// Another held power than the lent one.
    fn held_changes(&self) -> bool {
        self.now.held != self.lent.held.min(TOP)
    }

    /// In service on no side before, with watts that a step writes.
    fn begins_in_service(&self, side: u8) -> bool {
        self.stays() && self.lent.side == NO_SIDE && (1..=TOP).contains(&self.lent.watts) && self.begins(side) && self.held_changes()
    }

    /// In momentary cessation or cease before, and power given now.
    fn begins_after_cessation(&self, side: u8) -> bool {
        self.lent.status >= other::MOMENTARY && self.was() && self.lent.side == NO_SIDE && self.gives(side) && self.begins(side)
    }

    /// The frequency is on this side, and there are watts to hold; but the board is tripped.
    fn does_not_begin(&self, side: u8) -> bool {
        let none = (self.now.side, self.now.held) == (NO_SIDE, 0);
        !self.is() && self.lent.side == NO_SIDE && self.lent.watts > 0 && side_of(self.hertz()) == side && none
    }

    fn begins_at_return(&self, side: u8, watts: std::ops::RangeInclusive<u16>) -> bool {
        self.returns() && watts.contains(&self.lent.watts) && self.begins(side)
    }

    /// Tripped with this side and a held power, of which nothing is taken.
    fn not_taken(&self, side: u8) -> bool {
        !self.was() && self.lent.side == side && self.lent.held > 0 && self.held_changes()
    }

    fn on(&self, side: u8) -> bool {
        self.stays() && self.lent.side == side && self.now.side == side
    }

    /// The held power stays, with other watts before.
    fn goes_on(&self, side: u8) -> bool {
        let (held, watts) = (self.lent.held, self.lent.watts.min(TOP));
        self.on(side) && (1..=TOP).contains(&held) && watts != held && self.now.held == held
    }

    /// Side and held power end, with a power held before.
    fn ends(&self, side: u8) -> bool {
        self.was() && self.lent.side == side && self.lent.held > 0 && (self.now.side, self.now.held) == (NO_SIDE, 0)
    }

    fn ends_at(&self, side: u8, hertz: std::ops::RangeInclusive<u32>) -> bool {
        self.is() && hertz.contains(&self.hertz()) && self.ends(side)
    }

    /// By a trip, the frequency still on its side.
    fn tripped(&self, side: u8, permission: u32) -> bool {
        !self.is() && self.sample[4] == permission && side_of(self.hertz()) == side && self.ends(side)
    }

    fn status(&self, status: u8) -> bool {
        self.now.status == status
    }

    /// In an event of this side, and power given.
    fn gives(&self, side: u8) -> bool {
        self.now.side == side && giving(self.now.status)
    }

    fn moved(&self) -> i64 {
        moved(self.now.held, self.hertz())
    }

    fn watts(&self) -> i64 {
        i64::from(self.now.watts)
    }

    fn available(&self) -> i64 {
        i64::from(self.sample[5])
    }

    /// What watt curve, nameplate and recovery leave.
    fn beside(&self) -> i64 {
        watt_curve(self.settings, self.sample).min(nameplate(self.now.vars)).min(250 * i64::from(self.now.recovery))
    }

    /// The watts are the moved power, and one more would be given too.
    fn free(&self, side: u8) -> bool {
        self.gives(side) && self.watts() == self.moved() && self.moved() < self.available().min(self.beside())
    }

    /// Less is available than the moved power, and more than none.
    fn cut(&self, side: u8) -> bool {
        self.gives(side) && self.watts() == self.available() && (1..self.moved().min(self.beside())).contains(&self.available())
    }

    /// The quotient leaves this remainder; if it were rounded up the watts would be others.
    fn remainder(&self, side: u8, remainder: i64) -> bool {
        tenfold(self.hertz()) % 3 == remainder && self.watts() > 0 && self.free(side)
    }

    /// Nothing was left of the held power, only because of the frequency.
    fn floor(&self) -> bool {
        let quotient = tenfold(self.hertz()) / 3;
        self.gives(HIGH_SIDE) && (1..quotient).contains(&self.now.held.into()) && self.watts() == 0 && self.available().min(self.beside()) > 0
    }

    /// Available power is under the watts before and holds them.
    fn falls(&self, side: u8) -> bool {
        self.on(side) && self.cut(side) && self.available() < i64::from(self.lent.watts.min(TOP))
    }

    fn named(&self, side: u8, rule: u8) -> bool {
        self.now.side == side && self.rule == Some(rule)
    }

    /// Lent in service, with a held power and with such a side; none of it after the step.
    fn cleared(&self, side: fn(u8) -> bool) -> bool {
        self.was() && side(self.lent.side) && self.lent.held > 0 && (self.now.side, self.now.held) == (NO_SIDE, 0)
    }
}

/// What is reached on each side.
const BY_SIDE: [(&str, fn(&Drooping, u8) -> bool); 58] = [
    ("begins in service", |d, side| d.begins_in_service(side)),
    ("begins in service, a held power lent without a side", |d, side| d.begins_in_service(side) && d.lent.held > 0),
    ("begins in service, watts above 10000", |d, side| d.stays() && d.lent.side == NO_SIDE && d.lent.watts > TOP && d.begins(side)),
    ("begins at a return, watts 0", |d, side| d.begins_at_return(side, 0..=0)),
    ("begins at a return, as from fresh", |d, side| {
        d.begins_at_return(side, 0..=0) && *d.lent == Board { counters: d.lent.counters, ..library::fresh() }
    }),
    ("begins at a return, watts lent", |d, side| d.begins_at_return(side, 1..=TOP)),
    ("begins at a return, watts above 10000", |d, side| d.begins_at_return(side, TOP + 1..=u16::MAX)),
    ("begins at a return, side and held power of a tripped record not taken", |d, side| {
        d.begins_at_return(side, 0..=u16::MAX) && d.not_taken(side) && !d.without_name()
    }),
    ("begins at a return, side and held power of a status without a name not taken", |d, side| {
        d.begins_at_return(side, 0..=u16::MAX) && d.not_taken(side) && d.without_name()
    }),
    ("begins anew after a side without a name", |d, side| d.stays() && d.lent.side > LOW_SIDE && d.begins(side) && d.held_changes()),
    ("begins anew after side 3", |d, side| d.stays() && d.lent.side == 3 && d.begins(side) && d.held_changes()),
    ("begins anew after side 255", |d, side| d.stays() && d.lent.side == 255 && d.begins(side) && d.held_changes()),
    ("begins anew after a jump", |d, side| d.stays() && d.lent.side == LOW_SIDE + HIGH_SIDE - side && d.begins(side) && d.held_changes()),
    ("begins anew after a jump, watts above 10000", |d, side| {
        d.stays() && d.lent.side == LOW_SIDE + HIGH_SIDE - side && d.lent.watts > TOP && d.begins(side) && d.held_changes()
    }),
    ("begins in momentary", |d, side| d.begins_in_service(side) && d.status(other::MOMENTARY)),
    ("begins in cease", |d, side| d.begins_in_service(side) && d.status(other::CEASE)),
    ("begins in mandatory", |d, side| d.begins_in_service(side) && d.status(other::MANDATORY)),
    ("begins after a cessation, none held", |d, side| d.begins_after_cessation(side) && d.lent.watts == 0),
    ("begins after a cessation, watts lent", |d, side| d.begins_after_cessation(side) && d.lent.watts > 0),
    ("does not begin at a trip", |d, side| d.was() && d.does_not_begin(side)),
    ("does not begin in a tripped record", |d, side| !d.was() && d.does_not_begin(side)),
    ("goes on", |d, side| d.goes_on(side)),
    ("goes on with watts above 10000 before", |d, side| d.goes_on(side) && d.lent.watts > TOP),
    ("goes on, none held and watts before", |d, side| d.on(side) && d.lent.held == 0 && d.lent.watts > 0 && d.now.held == 0),
    ("goes on, above 10000 held as 10000", |d, side| d.on(side) && d.lent.held > TOP && d.lent.watts < TOP && d.now.held == TOP),
    ("goes on in entering", |d, side| d.goes_on(side) && d.status(other::ENTERING)),
    ("goes on in continuous", |d, side| d.goes_on(side) && d.status(other::CONTINUOUS)),
    ("goes on in mandatory", |d, side| d.goes_on(side) && d.status(other::MANDATORY)),
    ("goes on in momentary", |d, side| d.goes_on(side) && d.status(other::MOMENTARY)),
    ("goes on in cease", |d, side| d.goes_on(side) && d.status(other::CEASE)),
    ("goes on after momentary", |d, side| d.goes_on(side) && d.lent.status == other::MOMENTARY && d.gives(side)),
    ("goes on after cease", |d, side| d.goes_on(side) && d.lent.status == other::CEASE && d.gives(side)),
    ("ends at 59964", |d, side| d.ends_at(side, LOW_POINT..=LOW_POINT)),
    ("ends at 60036", |d, side| d.ends_at(side, HIGH_POINT..=HIGH_POINT)),
    ("ends between the points", |d, side| d.ends_at(side, LOW_POINT + 1..=HIGH_POINT - 1)),
    ("ends in momentary", |d, side| d.ends_at(side, LOW_POINT..=HIGH_POINT) && d.status(other::MOMENTARY)),
    ("ends in cease", |d, side| d.ends_at(side, LOW_POINT..=HIGH_POINT) && d.status(other::CEASE)),
    ("ended by permission", |d, side| d.tripped(side, 0)),
    ("ended by a limit", |d, side| d.tripped(side, 1)),
    ("none in a tripped record that stays so", |d, side| d.not_taken(side) && !d.is() && !d.without_name() && side_of(d.hertz()) == side),
    ("none in a status without a name that stays tripped", |d, side| {
        d.not_taken(side) && !d.is() && d.without_name() && side_of(d.hertz()) == side
    }),
    ("moves the held power", |d, side| d.free(side) && d.watts() > 0 && d.watts() != i64::from(d.now.held)),
    ("moves the held power at a return", |d, side| d.returns() && d.free(side) && d.watts() > 0),
    ("moves the held power by 3, a millihertz past the point", |d, side| {
        d.free(side) && POINTS.contains(&d.hertz()) && d.watts().abs_diff(d.now.held.into()) == 3
    }),
    ("quotient with remainder 1", |d, side| d.remainder(side, 1)),
    ("quotient with remainder 2", |d, side| d.remainder(side, 2)),
    ("cut by available power", |d, side| d.cut(side)),
    ("available power below the watts before holds", |d, side| d.falls(side)),
    ("none available", |d, side| d.gives(side) && d.available() == 0 && d.moved() > 0 && d.watts() == 0),
    ("operator's limit below the watts", |d, side| d.gives(side) && i64::from(d.sample[6]) < d.watts()),
    ("share below the watts", |d, side| d.gives(side) && d.now.share < d.now.watts),
    ("operator's limit and share below the watts at a return", |d, side| {
        d.returns() && d.gives(side) && i64::from(d.sample[6]) < d.watts() && d.now.share < d.now.watts
    }),
    ("status named", |d, side| d.named(side, library::WATTS_BY_STATUS)),
    ("droop named", |d, side| d.named(side, library::WATTS_BY_DROOP)),
    ("droop named, the watts those available", |d, side| d.named(side, library::WATTS_BY_DROOP) && d.cut(side)),
    ("curve named", |d, side| d.named(side, library::WATTS_BY_CURVE)),
    ("nameplate named", |d, side| d.named(side, library::WATTS_BY_NAMEPLATE)),
    ("recovery named", |d, side| d.named(side, library::WATTS_BY_RECOVERY)),
];

/// What is reached once for both.
const OTHERWISE: [(&str, fn(&Drooping) -> bool); 6] = [
    ("0 by the floor", |d| d.floor()),
    ("0 by the floor, one too many", |d| d.floor() && tenfold(d.hertz()) / 3 == i64::from(d.now.held) + 1),
    ("held without a side, ended between the points", |d| d.is() && d.cleared(|side| side == NO_SIDE)),
    ("held under a side without a name, ended between the points", |d| d.is() && d.cleared(|side| side > LOW_SIDE)),
    ("held without a side, ended by a trip", |d| !d.is() && d.cleared(|side| side == NO_SIDE)),
    ("held under a side without a name, ended by a trip", |d| !d.is() && d.cleared(|side| side > LOW_SIDE)),
];

/// At the points and past them: before and after the step.
const SERVICES: [(&str, fn(&Drooping) -> bool); 3] = [
    ("in service", |d| d.stays()),
    ("tripped", |d| !d.was() && !d.is()),
    ("at a return", |d| d.returns()),
];

pub struct Droops {
    by_side: [[u64; BY_SIDE.len()]; 2],
    otherwise: [u64; OTHERWISE.len()],
    points: [[u64; SERVICES.len()]; POINTS.len()],
    /// another side than that of the frequency in service, and than none tripped
    astray: u64,
}

impl Default for Droops {
    fn default() -> Droops {
        Droops { by_side: [[0; BY_SIDE.len()]; 2], otherwise: [0; OTHERWISE.len()], points: Default::default(), astray: 0 }
    }
}

impl Droops {
    /// Counts an accepted step on which both agree.
    pub fn count(&mut self, step: &Drooping) {
        self.astray += u64::from(step.now.side != if step.is() { side_of(step.hertz()) } else { NO_SIDE });
        for (counts, (side, _)) in self.by_side.iter_mut().zip(SIDES) {
            for (count, (_, shown)) in counts.iter_mut().zip(&BY_SIDE) {
                *count += u64::from(shown(step, side));
            }
        }
        for (count, (_, shown)) in self.otherwise.iter_mut().zip(OTHERWISE) {
            *count += u64::from(shown(step));
        }
        if let Some(counts) = POINTS.iter().position(|&point| point == step.hertz()).map(|i| &mut self.points[i]) {
            for (count, (_, shown)) in counts.iter_mut().zip(SERVICES) {
                *count += u64::from(shown(step));
            }
        }
    }

    pub fn print(&self, tally: &mut Tally) {
        println!("{:>9}  sides that are not those of the frequency", self.astray);
        tally.expect(self.astray == 0);
        for (counts, (_, side)) in self.by_side.iter().zip(SIDES) {
            for (count, (name, _)) in counts.iter().zip(BY_SIDE) {
                tally.reached(&format!("droop, {side}:"), name, *count);
            }
        }
        for (count, (name, _)) in self.otherwise.iter().zip(OTHERWISE) {
            tally.reached("droop:", name, *count);
        }
        for (counts, point) in self.points.iter().zip(POINTS) {
            for (count, (name, _)) in counts.iter().zip(SERVICES) {
                tally.reached("droop:", &format!("{point} mHz {name}"), *count);
            }
        }
    }
}

// ---- the groups

/// At the points and one past them, close by, in the continuous region, in the mandatory one, far outside, or nominal.
fn frequency(dice: &mut Dice) -> u32 {
    match dice.below(12) {
        0..=3 => POINTS[dice.below(4) as usize],
        4 | 5 => dice.within(59_900, 60_100) as u32,
        6 | 7 => dice.within(59_000, 61_000) as u32,
        8 => dice.within(57_000, 62_000) as u32,
        9 => [40_000, 56_999, 62_001, 80_000][dice.below(4) as usize],
        10 => dice.within(40_000, 80_000) as u32,
        _ => 60_000,
    }
}

/// In which the droop mostly has the least to give: no vars, and a flat curve.
fn open(dice: &mut Dice, mut settings: Settings) -> Settings {
    if !dice.one_in(4) {
        settings.var = settings.var.map(|point| Point { power: 0, ..point });
        settings.watt = settings.watt.map(|point| Point { power: 10_000, ..point });
    }
    if dice.one_in(2) {
        settings.hertz = Span { low: 59_000, high: 61_000 };
    }
    settings
}

/// Nominal voltages mostly, else of any region; much power available mostly; a low limit of the operator's.
fn event_sample(dice: &mut Dice) -> Vec<u32> {
    let code = if dice.one_in(4) { EDGES[dice.below(12) as usize] } else { 1000 };
    let available = if dice.one_in(2) { 10_000 } else { dice.inside(0, 10_000) as u32 };
    let limit = if dice.one_in(2) { dice.below(500) as u32 } else { dice.inside(0, 10_000) as u32 };
    vec![1000, 1000, code, frequency(dice), u32::from(!dice.one_in(12)), available, limit]
}

/// The next sample of an event: the same, another, less available, or the frequency as far past the other point.
fn next_sample(dice: &mut Dice, s: &mut Vec<u32>, now: &Report) {
    match dice.below(6) {
        0 | 1 => *s = event_sample(dice),
        2 => s[5] = dice.below(u64::from(now.watts).min(10_000) + 1) as u32,
        3 => s[3] = 120_000 - s[3],
        4 => s[3] = frequency(dice),
        _ => (),
    }
}

/// Nominal voltages, all power available.
fn nominal(hertz: u32) -> Vec<u32> {
    vec![1000, 1000, 1000, hertz, 1, 10_000, 10_000]
}

/// Boards from fresh, up a short ramp, with events of some steps.
pub fn walks(tally: &mut Tally, dice: &mut Dice) {
    for _ in 0..600 {
        let drawn = rule_settings(dice);
        let settings = open(dice, drawn);
        let (mut board, mut report) = (compare_fresh(tally), wild_report(dice));
        // many boards return in an event
        let begin = nominal(if dice.one_in(2) { dice.inside(59_900, 60_100) as u32 } else { 60_000 });
        for _ in 0..dice.within(1, 12) {
            compare_step(tally, &mut board, &settings, &begin, &mut report);
        }
        for _ in 0..12 {
            for _ in 0..dice.below(20) {
                compare_step(tally, &mut board, &settings, &nominal(60_000), &mut report);
            }
            let mut s = event_sample(dice);
            for _ in 0..dice.within(1, 5) {
                compare_step(tally, &mut board, &settings, &s, &mut report);
                next_sample(dice, &mut s, &report);
            }
        }
        compare_save(tally, &board, &mut [0xAA; 51]);
        tally.case();
    }
}

/// Reports with which a replay ends.
const ENDS: [(&str, fn(&Report, u8) -> bool); 3] = [
    ("with power held", |last, side| last.side == side && last.held > 0),
    ("with watts", |last, side| last.side == side && last.watts > 0),
    ("after momentary or cease, with power held", |last, side| last.side == side && last.recovery < RECOVERY_TOP && last.held > 0),
];

/// Recordings that go up a short ramp and end in an event or after one.
pub fn replays(tally: &mut Tally, dice: &mut Dice) {
    let mut ends = [[0; ENDS.len()]; 2];
    for i in 1..=2_000 {
        let drawn = rule_settings(dice);
        let settings = open(dice, drawn);
        let mut samples: Vec<u32> = (0..dice.within(4, 40)).flat_map(|_| nominal(60_000)).collect();
        for _ in 0..dice.within(1, 3) {
            let s = event_sample(dice);
            samples.extend((0..dice.within(1, 4)).flat_map(|_| s.clone()));
        }
        let buffer = bytes(dice, IMAGE);
        let differ = tally.differ;
        let (found, last) = compare_replay(tally, &settings, &samples, &wild_report(dice), &buffer);
        for (counts, (side, _)) in ends.iter_mut().zip(SIDES) {
            for (count, (_, shown)) in counts.iter_mut().zip(ENDS) {
                *count += u64::from(found.number == 0 && tally.differ == differ && shown(&last, side));
            }
        }
        if i % 20 == 0 {
            tally.case();
        }
    }
    for (counts, (_, side)) in ends.into_iter().zip(SIDES) {
        for (count, (name, _)) in counts.into_iter().zip(ENDS) {
            tally.reached("replay that ends in an event,", &format!("{side}, {name}"), count);
        }
    }
}

/// Lent records, mostly in service with low counters and a full recovery, with any side, held power and watts; three steps each.
pub fn events(tally: &mut Tally, dice: &mut Dice) {
    for i in 1..=20_000 {
        let drawn = rule_settings(dice);
        let settings = open(dice, drawn);
        let mut record = rule_record(dice, &settings);
        if !dice.one_in(4) {
            record.status = dice.within(1, 5) as u8;
            record.counters = record.counters.map(|_| dice.below(12) as u32);
        }
        if !dice.one_in(4) {
            record.recovery = RECOVERY_TOP;
        }
        let (mut s, mut report) = (event_sample(dice), wild_report(dice));
        if dice.one_in(8) {
            // about where nothing is left
            s[3] = HIGH_POINT + dice.within(1, 1_900) as u32;
            (record.side, record.held) = (HIGH_SIDE, (tenfold(s[3]) / 3 + dice.within(-2, 2)) as u16);
        }
        for _ in 0..3 {
            compare_step(tally, &mut record, &settings, &s, &mut report);
            next_sample(dice, &mut s, &report);
        }
        if i % 100 == 0 {
            tally.case();
        }
    }
}

/// Lent records that are tripped, or have a status without a name; most of them return, many into an event.
pub fn returns(tally: &mut Tally, dice: &mut Dice) {
    for i in 1..=6_000 {
        let drawn = rule_settings(dice);
        let mut settings = open(dice, drawn);
        settings.volts = Span { low: 9_000, high: 10_600 };
        let mut record = rule_record(dice, &settings);
        record.status = if dice.one_in(2) { other::TRIPPED } else { dice.within(6, 255) as u8 };
        record.counters[8] = settings.wait.max(1) - u32::from(dice.one_in(2));
        let mut s = event_sample(dice);
        s[2] = 1000;
        if dice.one_in(2) {
            s[3] = dice.inside(settings.hertz.low.into(), settings.hertz.high.into()) as u32;
        }
        two_steps(tally, record, &settings, &s);
        if i % 100 == 0 {
            tally.case();
        }
    }
}

/// What holds the watts in an event: one of droop, watt curve, nameplate and recovery leaves `least`, those before it more, those behind it the
/// same or more; as with the six, nameplate and recovery leave somewhat more where that cannot be had.
fn four_powers(dice: &mut Dice) -> [i64; 4] {
    let least = match dice.below(8) {
        0 => 0,
        1 => 10_000,
        2 | 3 => dice.within(0, 10_000),
        _ => 250 * dice.within(29, 39),
    };
    let first = dice.below(4) as usize;
    std::array::from_fn(|i| match i {
        _ if i < first => dice.inside((least + 1).min(10_000), 10_000),
        _ if i == first || dice.one_in(2) => least,
        _ => dice.inside(least, 10_000),
    })
}

/// Lent records in events, in continuous and mandatory operation, in which the four leave these powers; available power, or the held power
/// moved, is the droop's.
pub fn powers(tally: &mut Tally, dice: &mut Dice) {
    for i in 1..=12_000 {
        let [droop, curve, nameplate, recovery] = four_powers(dice);
        let mut settings = rule_settings(dice);
        let vars = (100_000_000 - nameplate * nameplate).isqrt() as i32;
        settings.var = settings.var.map(|p| Point { power: if nameplate % 2 == 0 { vars } else { -vars }, ..p });
        settings.watt[0].power = curve as i32;
        if dice.one_in(2) {
            settings.watt[1].power = curve as i32;
        }
        let high = dice.one_in(2);
        // so far that the held power is within its range
        let room = if high { 10_000 - droop } else { droop };
        let way = dice.within(1, (room * 3 / 10).clamp(1, 1_500)) as u32;
        let hertz = if high { HIGH_POINT + way } else { LOW_POINT - way };
        let quotient = i64::from(way) * 10 / 3;
        let held = if high { droop + quotient } else { droop - quotient };
        let available = if dice.one_in(3) || !(0..=10_000).contains(&held) { droop } else { 10_000 };
        let code = [1000, 900, 1150, 700][dice.below(4) as usize];
        let begins = dice.one_in(4);
        let (side, held) = (if high { HIGH_SIDE } else { LOW_SIDE }, held.clamp(0, 10_000) as u16);
        let record = Board {
            status: dice.within(1, 5) as u8,
            counters: std::array::from_fn(|_| dice.below(12) as u32),
            recovery: ((recovery + 249) / 250 - 1).max(0) as u8,
            side: if begins { NO_SIDE } else { side },
            watts: if begins { held } else { wild_power(dice) },
            held: if begins { wild_power(dice) } else { held },
            ..wild_record(dice)
        };
        let limit = if dice.one_in(2) { 0 } else { dice.inside(0, 10_000) as u32 };
        two_steps(tally, record, &settings, &[code, code, code, hertz, 1, available as u32, limit]);
        if i % 100 == 0 {
            tally.case();
        }
    }
}
