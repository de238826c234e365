//! The tally: calls, cases, and what the calls reach.

use super::*;

const REACHED_AT_LEAST: u64 = 100;

#[derive(Default)]
pub struct Tally {
    pub calls: u64,
    pub differ: u64,
    differ_in_case: u64,
    pub passed: u64,
    pub failed: u64,
    /// of these every other is an explained one
    pub steps: u64,
    recoveries: [u64; RECOVERIES.len()],
    pub droops: Droops,
    pub edges: Edges,
    pub rules: Reached,
    pub carryings: [u64; CARRYINGS.len()],
}

impl Tally {
    pub fn call(&mut self, same: bool, what: impl FnOnce() -> String) {
        self.calls += 1;
        if same {
            return;
        }
        self.differ += 1;
        self.differ_in_case += 1;
        if self.differ <= 10 {
            println!("differs: {}", what());
        }
    }

    /// The calls since the last case are one case.
    pub fn case(&mut self) {
        self.expect(self.differ_in_case == 0);
        self.differ_in_case = 0;
    }

    /// What is no call and no count, and right or not, is a case as well.
    pub fn expect(&mut self, right: bool) {
        if right {
            self.passed += 1;
        } else {
            self.failed += 1;
        }
    }

    /// Counts an accepted step on which both agree; `rule` is that of the watts, where it was an explained one.
    pub fn accepted(&mut self, lent: &Board, settings: &Settings, sample: &[u32], now: &Report, rule: Option<u8>) {
        let full = (0..8).filter(|&i| lent.counters[i] >= settings.trip[i].clearing);
        self.edges.count(&Step {
            sample,
            service: [lent.status, now.status].map(in_service),
            recovery: [lent.recovery, now.recovery],
            bits: [full.map(|i| 1 << (8 - i)).sum(), now.bits],
            status: now.status,
        });
        for (count, (_, shown)) in self.recoveries.iter_mut().zip(RECOVERIES) {
            *count += u64::from(shown(lent, now));
        }
        self.droops.count(&Drooping { lent, settings, sample, now, rule });
    }

    /// A thing to be reached often enough is a case.
    pub fn reached(&mut self, what: &str, name: &str, count: u64) {
        println!("{count:>9}  {what} {name}");
        let often = count >= REACHED_AT_LEAST;
        if !often {
            println!("too few: {what} {name}");
        }
        self.expect(often);
    }

    /// The first of the ways, counted since this was last asked.
    pub fn recoveries(&mut self, ways: usize) {
        let counts = std::mem::take(&mut self.recoveries);
        for ((name, _), count) in RECOVERIES.into_iter().zip(counts).take(ways) {
            self.reached("recovery", name, count);
        }
    }
}
