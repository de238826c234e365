//! What is reached in droop events: how they begin, go on and end on either side, what the watts are meanwhile, and the frequencies about the
//! two points. Each way is told from a sample and its report, with those before them.

/// The last frequencies without an event.
pub const LOW_POINT: u32 = 59964;
pub const HIGH_POINT: u32 = 60036;
/// About the points: the first in an event and the last without one, on each side.
pub const ABOUT: [u32; 4] = [LOW_POINT - 1, LOW_POINT, HIGH_POINT, HIGH_POINT + 1];
const HIGH: u8 = 1;
const LOW: u8 = 2;
const SIDES: [(u8, &str); 2] = [(HIGH, "high"), (LOW, "low")];
const SERVICE: [&str; 2] = ["tripped", "in service"];

/// What a report shows; of vars the size. A status is its number, 0 tripped to 5 cease.
#[derive(Clone, Copy)]
pub struct Shown {
    pub status: u8,
    pub share: i64,
    pub recovery: i64,
    pub side: u8,
    pub held: i64,
    pub watts: i64,
    pub vars: i64,
}

impl Shown {
    fn in_service(self) -> bool {
        self.status > 0
    }

    /// In service, and with no output.
    fn ceased(self) -> bool {
        self.status > 3
    }

    /// In entering, continuous or mandatory.
    fn gives(self) -> bool {
        (1..=3).contains(&self.status)
    }
}

/// An accepted sample and its report, and the accepted one before it.
pub struct Step<'a> {
    pub sample: &'a [u32],
    pub sample_before: &'a [u32],
    pub before: Shown,
    pub now: Shown,
    /// a refused line stands between the two
    pub refused: bool,
    /// the watt curve's power up to its first point
    pub curve: i64,
}

impl Step<'_> {
    fn available(&self) -> i64 {
        i64::from(self.sample[5])
    }

    /// The frequency is beyond one of the points.
    fn outside(&self) -> bool {
        !(LOW_POINT..=HIGH_POINT).contains(&self.sample[3])
    }

    /// How far the frequency is beyond the side's point.
    fn beyond(&self) -> i64 {
        let (low, high) = (i64::from(LOW_POINT), i64::from(HIGH_POINT));
        let frequency = i64::from(self.sample[3]);
        if self.now.side == HIGH { frequency - high } else { low - frequency }
    }

    /// The held power moved by the distance, before it is cut by 0 and by what is available.
    fn moved(&self) -> i64 {
        let quotient = self.beyond() * 10 / 3;
        if self.now.side == HIGH { self.now.held - quotient } else { self.now.held + quotient }
    }

    fn droop(&self) -> i64 {
        self.moved().max(0).min(self.available())
    }

    /// The watts are the droop's own, and neither 0 nor what is available.
    fn follows(&self) -> bool {
        self.now.gives() && self.now.watts == self.moved() && 0 < self.now.watts && self.now.watts < self.available()
    }

    fn begins(&self) -> bool {
        self.before.in_service() && self.before.side == 0
    }

    fn goes_on(&self) -> bool {
        self.before.side == self.now.side
    }

    /// The watts are below the droop's power.
    fn lowered(&self) -> bool {
        self.now.gives() && self.now.watts < self.droop()
    }

    /// The rating leaves no more watts beside these vars.
    fn rated(&self) -> bool {
        (self.now.watts + 1).pow(2) + self.now.vars.pow(2) > 100_000_000
    }

    fn recovered(&self) -> i64 {
        250 * self.now.recovery
    }

    /// One less or one more would be seen in the watts: nothing else holds them there. At codes up to 1000 the watt curve is at its first power.
    fn free(&self) -> bool {
        let flat = self.sample[..3].iter().all(|&code| code <= 1000);
        self.follows() && flat && self.now.watts < self.curve && self.now.watts < self.recovered() && !self.rated()
    }
}

/// Ways of a step in an event, to be reached on each side.
const WITHIN: [(&str, fn(&Step) -> bool); 26] = [
    ("begins", |s| s.begins() && s.now.held > 0),
    ("begins after no output, nothing held", |s| s.begins() && s.before.ceased() && s.now.held == 0),
    ("begins at a return, nothing held", |s| !s.before.in_service() && s.now.held == 0),
    ("begins in momentary", |s| s.begins() && s.now.status == 4 && s.now.held > 0),
    ("begins in cease", |s| s.begins() && s.now.status == 5 && s.now.held > 0),
    ("begins by a jump, another power held", |s| s.before.side != 0 && !s.goes_on() && s.now.held != s.before.held),
    ("begins by a jump, nothing held any more", |s| s.before.side != 0 && !s.goes_on() && s.before.held > 0 && s.now.held == 0),
    ("goes on, held as before, other watts before", |s| s.goes_on() && s.now.held == s.before.held && s.before.watts != s.before.held),
    ("goes on in momentary", |s| s.goes_on() && s.now.status == 4 && s.now.held > 0),
    ("goes on in cease", |s| s.goes_on() && s.now.status == 5 && s.now.held > 0),
    ("goes on after no output", |s| s.goes_on() && s.before.ceased() && s.now.gives() && s.now.held > 0),
    ("goes on after a refused line", |s| s.goes_on() && s.refused && s.now.held > 0),
    ("gives the watts in entering", |s| s.follows() && s.now.status == 1),
    ("gives the watts in continuous", |s| s.follows() && s.now.status == 2),
    ("gives the watts in mandatory", |s| s.follows() && s.now.status == 3),
    ("has a remainder that rounding up would show", |s| s.beyond() % 3 != 0 && s.free()),
    ("is cut by available", |s| s.now.gives() && s.now.watts == s.available() && s.available() < s.moved()),
    ("is cut by available as that falls", |s| {
        let free_before = s.goes_on() && s.before.gives() && s.before.watts < i64::from(s.sample_before[5]);
        free_before && s.now.gives() && s.sample[5] < s.sample_before[5] && s.now.watts == s.available() && s.available() < s.moved()
    }),
    ("leaves the operator's limit below the watts", |s| i64::from(s.sample[6]) < s.now.watts),
    ("leaves the share below the watts", |s| s.now.share < s.now.watts),
    ("goes on above an operator's limit that has fallen", |s| {
        s.goes_on() && s.sample[6] < s.sample_before[6] && i64::from(s.sample[6]) < s.now.watts
    }),
    ("gives way to the watt curve", |s| s.lowered() && !s.rated() && s.now.watts < s.recovered()),
    ("gives way to the nameplate", |s| s.lowered() && s.rated()),
    ("gives way to the recovery", |s| s.lowered() && s.now.watts == s.recovered()),
    ("holds all of the rating", |s| s.now.held == 10000),
    ("is at the first frequency", |s| s.beyond() == 1 && s.follows()),
];

/// Ways in which an event that held power ends, on each side.
const ENDS: [(&str, fn(&Step) -> bool); 4] = [
    ("ends at its point", |s| s.now.in_service() && s.sample[3] == if s.before.side == HIGH { HIGH_POINT } else { LOW_POINT }),
    ("ends within the points", |s| s.now.in_service() && LOW_POINT < s.sample[3] && s.sample[3] < HIGH_POINT),
    ("ends by permission, the frequency outside", |s| !s.now.in_service() && s.outside() && s.sample[4] == 0),
    ("ends by a limit, the frequency outside", |s| !s.now.in_service() && s.outside() && s.sample[4] == 1),
];

/// Ways that one side alone has.
const ONE_SIDED: [(&str, fn(&Step) -> bool); 4] = [
    ("high, below held and above 0", |s| s.now.side == HIGH && s.follows() && s.now.watts < s.now.held),
    ("high, 0 and no less", |s| s.now.side == HIGH && s.now.gives() && s.now.held > 0 && s.moved() < 0 && s.now.watts == 0),
    ("low, above held and below available", |s| s.now.side == LOW && s.follows() && s.now.watts > s.now.held),
    ("low, watts at a return", |s| s.now.side == LOW && !s.before.in_service() && s.now.watts > 0),
];

/// Ways in which an event begins on the side of the last one, told from the power that the last one held.
const AGAIN: [(&str, fn(&Step, i64) -> bool); 2] = [
    ("begins again, another power held", |s, last| s.begins() && s.now.held > 0 && s.now.held != last),
    ("begins again at a return, nothing held any more", |s, last| !s.before.in_service() && last > 0 && s.now.held == 0),
];

#[derive(Default)]
pub struct Events {
    /// side and held power of the last event
    last: (u8, i64),
    /// by side
    within: [[usize; WITHIN.len()]; 2],
    ends: [[usize; ENDS.len()]; 2],
    again: [[usize; AGAIN.len()]; 2],
    one_sided: [usize; ONE_SIDED.len()],
    /// by frequency and service
    about: [[usize; 2]; ABOUT.len()],
}

impl Events {
    /// Another board.
    pub fn fresh(&mut self) {
        self.last = (0, 0);
    }

    pub fn count(&mut self, step: &Step) {
        let (before, now) = (step.before, step.now);
        if let Some(place) = ABOUT.iter().position(|&frequency| frequency == step.sample[3]) {
            self.about[place][usize::from(now.in_service())] += usize::from(before.in_service() == now.in_service());
        }
        for (place, (side, _)) in SIDES.into_iter().enumerate() {
            if now.side == side {
                tally(&mut self.within[place], &WITHIN, step);
                for (count, (_, shown)) in self.again[place].iter_mut().zip(AGAIN) {
                    *count += usize::from(self.last.0 == side && shown(step, self.last.1));
                }
            } else if now.side == 0 && before.side == side && before.held > 0 {
                tally(&mut self.ends[place], &ENDS, step);
            }
        }
        if now.side != 0 {
            tally(&mut self.one_sided, &ONE_SIDED, step);
            self.last = (now.side, now.held);
        }
    }

    /// Each thing to be reached, with its count.
    pub fn things(&self) -> Vec<(String, usize)> {
        let mut things = Vec::new();
        for (place, (_, side)) in SIDES.into_iter().enumerate() {
            let within = WITHIN.iter().zip(self.within[place]);
            let ends = ENDS.iter().zip(self.ends[place]);
            let again = AGAIN.iter().zip(self.again[place]);
            things.extend(within.chain(ends).map(|((name, _), count)| (format!("droop {side}, {name}"), count)));
            things.extend(again.map(|((name, _), count)| (format!("droop {side}, {name}"), count)));
        }
        things.extend(ONE_SIDED.iter().zip(self.one_sided).map(|((name, _), count)| (format!("droop {name}"), count)));
        for (frequency, counts) in ABOUT.into_iter().zip(self.about) {
            things.extend(SERVICE.into_iter().zip(counts).map(|(service, count)| (format!("{frequency} mHz {service}"), count)));
        }
        things
    }
}

fn tally(counts: &mut [usize], ways: &[(&str, fn(&Step) -> bool)], step: &Step) {
    for (count, (_, shown)) in counts.iter_mut().zip(ways) {
        *count += usize::from(shown(step));
    }
}
