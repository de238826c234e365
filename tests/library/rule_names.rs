//! The rules: how often each is named and in which ways, and whether the first that holds the watts is the one named.

use super::*;

/// Each name has the comparison program's number of that name.
const _: () = assert!(
    library::STATUS_BY_PERMISSION == other::STATUS_BY_PERMISSION
    && library::STATUS_BY_LIMIT == other::STATUS_BY_LIMIT
    && library::STATUS_BY_WAIT == other::STATUS_BY_WAIT
    && library::STATUS_BY_RETURN == other::STATUS_BY_RETURN
    && library::STATUS_BY_LOWEST == other::STATUS_BY_LOWEST
    && library::STATUS_BY_HIGHEST == other::STATUS_BY_HIGHEST
    && library::STATUS_BY_FREQUENCY == other::STATUS_BY_FREQUENCY
    && library::WATTS_BY_STATUS == other::WATTS_BY_STATUS
    && library::WATTS_BY_AVAILABLE == other::WATTS_BY_AVAILABLE
    && library::WATTS_BY_OPERATOR == other::WATTS_BY_OPERATOR
    && library::WATTS_BY_SHARE == other::WATTS_BY_SHARE
    && library::WATTS_BY_CURVE == other::WATTS_BY_CURVE
    && library::WATTS_BY_NAMEPLATE == other::WATTS_BY_NAMEPLATE
    && library::WATTS_BY_RECOVERY == other::WATTS_BY_RECOVERY
    && library::WATTS_BY_DROOP == other::WATTS_BY_DROOP
    && library::NO_SIDE == other::NO_SIDE
    && library::HIGH_SIDE == other::HIGH_SIDE
    && library::LOW_SIDE == other::LOW_SIDE
);

/// The rules in the order of their numbers, from 1.
const STATUS_RULES: [(u8, &str); 7] = [
    (library::STATUS_BY_PERMISSION, "permission"),
    (library::STATUS_BY_LIMIT, "a limit"),
    (library::STATUS_BY_WAIT, "the wait"),
    (library::STATUS_BY_RETURN, "a return"),
    (library::STATUS_BY_LOWEST, "lowest"),
    (library::STATUS_BY_HIGHEST, "highest"),
    (library::STATUS_BY_FREQUENCY, "frequency"),
];
const WATTS_RULES: [(u8, &str); 8] = [
    (library::WATTS_BY_STATUS, "the status"),
    (library::WATTS_BY_AVAILABLE, "available"),
    (library::WATTS_BY_OPERATOR, "the operator"),
    (library::WATTS_BY_SHARE, "the share"),
    (library::WATTS_BY_CURVE, "the curve"),
    (library::WATTS_BY_NAMEPLATE, "the nameplate"),
    (library::WATTS_BY_RECOVERY, "the recovery"),
    (library::WATTS_BY_DROOP, "the droop"),
];

/// The powers that may hold the watts of a status that gives power, in the order in which they are named: without an event and in one.
const POWERS: [&[u8]; 2] = [
    &[
        library::WATTS_BY_AVAILABLE,
        library::WATTS_BY_OPERATOR,
        library::WATTS_BY_SHARE,
        library::WATTS_BY_CURVE,
        library::WATTS_BY_NAMEPLATE,
        library::WATTS_BY_RECOVERY,
    ],
    &[library::WATTS_BY_DROOP, library::WATTS_BY_CURVE, library::WATTS_BY_NAMEPLATE, library::WATTS_BY_RECOVERY],
];

/// The volt-watt curve at the mean voltage.
pub fn watt_curve(settings: &Settings, sample: &[u32]) -> i64 {
    let mean = i64::from(sample[..3].iter().map(|code| (code * 100_000).isqrt()).sum::<u32>() / 3);
    let [(from, first), (to, last)] = settings.watt.map(|p| (i64::from(p.volts), i64::from(p.power)));
    match mean {
        _ if mean <= from => first,
        _ if mean >= to => last,
        _ => first + (last - first) * (mean - from) / (to - from),
    }
}

/// What the rating leaves beside the vars.
pub fn nameplate(vars: i16) -> i64 {
    (100_000_000 - i64::from(vars).pow(2)).max(0).isqrt()
}

/// An explained step: what was lent to it and what came of it. What the report does not show is worked out here, only to be counted.
pub struct Explaining<'a> {
    pub lent: &'a Board,
    pub settings: &'a Settings,
    pub sample: &'a [u32],
    pub now: &'a Explained,
}

impl Explaining<'_> {
    fn named(&self, rule: u8) -> bool {
        self.now.status_rule == rule
    }

    fn permitted(&self) -> bool {
        self.sample[4] == 1
    }

    /// A limit behind this place in the sheet is complete; behind place 0, any limit.
    fn complete_behind(&self, place: u8) -> bool {
        self.now.report.bits & ((1 << (9 - place)) - 2) != 0
    }

    /// The regions of lowest voltage, highest voltage and frequency, as statuses: the worse, the higher.
    fn regions(&self) -> [u8; 3] {
        let phases = &self.sample[..3];
        let (lowest, highest) = (*phases.iter().min().unwrap(), *phases.iter().max().unwrap());
        [edges::region_of_code(lowest), edges::region_of_code(highest), edges::region_of_frequency(self.sample[3])]
    }

    /// The lowest voltage is named outside continuous operation, and this one of the regions is as bad.
    fn as_bad_as_lowest(&self, of: usize) -> bool {
        let regions = self.regions();
        self.named(library::STATUS_BY_LOWEST) && regions[0] != other::CONTINUOUS && regions[of] == regions[0]
    }

    /// The highest voltage is named, and this one of the regions is not continuous either, though better.
    fn bad_beside_highest(&self, of: usize) -> bool {
        let regions = self.regions();
        self.named(library::STATUS_BY_HIGHEST) && regions[of] != other::CONTINUOUS && regions[of] < regions[1]
    }

    /// This rule is named in cease, and the frequency is far outside, above 62000 or below 57000.
    fn far(&self, rule: u8, above: bool) -> bool {
        self.named(rule) && self.regions()[2] == other::CEASE && (self.sample[3] > 62000) == above
    }

    /// What the power of a rule leaves in a status that gives power.
    fn left(&self, rule: u8) -> i64 {
        let r = &self.now.report;
        match rule {
            library::WATTS_BY_AVAILABLE => i64::from(self.sample[5]),
            library::WATTS_BY_OPERATOR => i64::from(self.sample[6]),
            library::WATTS_BY_SHARE => i64::from(r.share),
            library::WATTS_BY_CURVE => watt_curve(self.settings, self.sample),
            library::WATTS_BY_NAMEPLATE => nameplate(r.vars),
            library::WATTS_BY_RECOVERY => 250 * i64::from(r.recovery),
            _ => droops::moved(r.held, self.sample[3]).min(i64::from(self.sample[5])),
        }
    }

    fn status_holds(&self, status: u8) -> bool {
        self.now.watts_rule == library::WATTS_BY_STATUS && self.now.report.status == status
    }

    fn held_at(&self, watts: u16) -> bool {
        self.now.watts_rule != library::WATTS_BY_STATUS && giving(self.now.report.status) && self.now.report.watts == watts
    }
}

/// Ways of naming a rule.
const NAMINGS: [(&str, fn(&Explaining) -> bool); 25] = [
    ("permission named, a limit complete too", |e| e.named(library::STATUS_BY_PERMISSION) && e.complete_behind(0)),
    ("permission named, no limit complete", |e| e.named(library::STATUS_BY_PERMISSION) && !e.complete_behind(0)),
    ("the wait named, permission off", |e| e.named(library::STATUS_BY_WAIT) && !e.permitted()),
    ("the wait named, a limit complete", |e| e.named(library::STATUS_BY_WAIT) && e.complete_behind(0)),
    ("the wait named, status without a name", |e| e.named(library::STATUS_BY_WAIT) && e.lent.status > other::CEASE),
    ("a return, status without a name", |e| e.named(library::STATUS_BY_RETURN) && e.lent.status > other::CEASE),
    ("lowest named in entering", |e| e.named(library::STATUS_BY_LOWEST) && e.now.report.status == other::ENTERING),
    ("lowest named in continuous", |e| e.named(library::STATUS_BY_LOWEST) && e.now.report.status == other::CONTINUOUS),
    ("lowest named, highest as bad", |e| e.as_bad_as_lowest(1)),
    ("lowest named, frequency as bad", |e| e.as_bad_as_lowest(2)),
    ("highest named, lowest bad but better", |e| e.bad_beside_highest(0)),
    ("highest named, frequency bad but better", |e| e.bad_beside_highest(2)),
    ("lowest named, frequency below 57000", |e| e.far(library::STATUS_BY_LOWEST, false)),
    ("lowest named, frequency above 62000", |e| e.far(library::STATUS_BY_LOWEST, true)),
    ("highest named, frequency below 57000", |e| e.far(library::STATUS_BY_HIGHEST, false)),
    ("highest named, frequency above 62000", |e| e.far(library::STATUS_BY_HIGHEST, true)),
    ("frequency named below 57000", |e| e.far(library::STATUS_BY_FREQUENCY, false)),
    ("frequency named above 62000", |e| e.far(library::STATUS_BY_FREQUENCY, true)),
    ("frequency named in mandatory", |e| e.named(library::STATUS_BY_FREQUENCY) && e.now.report.status == other::MANDATORY),
    ("frequency named, a voltage in momentary", |e| {
        e.named(library::STATUS_BY_FREQUENCY) && e.regions()[..2].contains(&other::MOMENTARY)
    }),
    ("the status holds the watts in tripped", |e| e.status_holds(other::TRIPPED)),
    ("the status holds the watts in momentary", |e| e.status_holds(other::MOMENTARY)),
    ("the status holds the watts in cease", |e| e.status_holds(other::CEASE)),
    ("another rule holds the watts at 0", |e| e.held_at(0)),
    ("nothing holds the watts down", |e| e.held_at(10_000)),
];

/// What the explained steps reach.
#[derive(Default)]
pub struct Reached {
    status_rules: [u64; STATUS_RULES.len()],
    limits: [u64; LIMITS.len()],
    /// with another one complete behind it in the sheet
    ahead: [u64; LIMITS.len()],
    watts_rules: [u64; WATTS_RULES.len()],
    /// without an event and in one: at [i][k] the power i named where the later k leaves the same, at [i][i] where no other does
    ties: [[[u64; 6]; 6]; 2],
    /// another rule named than the first that leaves what the watts are
    astray: u64,
    namings: [u64; NAMINGS.len()],
    /// by the number of the refusal
    pub refused: [u64; 9],
}

impl Reached {
    /// Counts an accepted step on which both agree.
    pub fn accepted(&mut self, step: &Explaining) {
        for (count, (rule, _)) in self.status_rules.iter_mut().zip(STATUS_RULES) {
            *count += u64::from(step.now.status_rule == rule);
        }
        for (i, place) in (0..8).zip(1..) {
            let named = step.named(library::STATUS_BY_LIMIT) && step.now.limit == place;
            self.limits[i] += u64::from(named);
            self.ahead[i] += u64::from(named && step.complete_behind(place));
        }
        for (count, (rule, _)) in self.watts_rules.iter_mut().zip(WATTS_RULES) {
            *count += u64::from(step.now.watts_rule == rule);
        }
        for (count, (_, shown)) in self.namings.iter_mut().zip(NAMINGS) {
            *count += u64::from(shown(step));
        }
        if giving(step.now.report.status) {
            let event = usize::from(step.now.report.side != library::NO_SIDE);
            let watts = i64::from(step.now.report.watts);
            let same: Vec<usize> = (0..POWERS[event].len()).filter(|&i| step.left(POWERS[event][i]) == watts).collect();
            self.tied(event, step.now.watts_rule, &same);
        }
    }

    /// `same` are those that leave what the watts are, by their places.
    fn tied(&mut self, event: usize, rule: u8, same: &[usize]) {
        match same {
            [first, later @ ..] if POWERS[event][*first] == rule => {
                self.ties[event][*first][*first] += u64::from(later.is_empty());
                for k in later {
                    self.ties[event][*first][*k] += 1;
                }
            }
            _ => self.astray += 1,
        }
    }

    pub fn print(&self, tally: &mut Tally) {
        for ((_, name), count) in STATUS_RULES.into_iter().zip(self.status_rules) {
            tally.reached("status held by", name, count);
        }
        for (i, name) in LIMITS.into_iter().enumerate() {
            tally.reached("limit named:", name, self.limits[i]);
            // uf2 and a limit of overfrequency are not broken at once, and behind of2 is none
            if name != "uf2" && name != "of2" {
                tally.reached("limit named before another that is complete:", name, self.ahead[i]);
            }
        }
        for ((_, name), count) in WATTS_RULES.into_iter().zip(self.watts_rules) {
            tally.reached("watts held by", name, count);
        }
        println!("{:>9}  rules that are not the first to leave what the watts are", self.astray);
        tally.expect(self.astray == 0);
        let name = |rule: u8| WATTS_RULES[usize::from(rule) - 1].1;
        for (ties, (powers, held)) in self.ties.iter().zip(POWERS.into_iter().zip(["watts held", "watts held in an event"])) {
            for (i, &power) in powers.iter().enumerate() {
                tally.reached(&format!("{held} alone by"), name(power), ties[i][i]);
                for (k, &later) in powers.iter().enumerate().skip(i + 1) {
                    tally.reached(&format!("{held} by"), &format!("{}, the same left by {}", name(power), name(later)), ties[i][k]);
                }
            }
        }
        for ((name, _), count) in NAMINGS.into_iter().zip(self.namings) {
            tally.reached("rules:", name, count);
        }
        for number in 2..=8 {
            tally.reached("explained step refused with", &number.to_string(), self.refused[number]);
        }
    }
}
