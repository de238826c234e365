//! Steps on lent records that are made for the rules: every rule, limit and tie is named.

use super::*;

/// Codes and frequencies at the edges of regions, of limits and of entering service.
pub const EDGES: [u32; 12] = [0, 249, 250, 774, 775, 841, 1000, 1210, 1211, 1440, 1441, 4095];
const HERTZ_EDGES: [u32; 18] =
    [40000, 49999, 56999, 57000, 58799, 58800, 58999, 59000, 61000, 61001, 61200, 61201, 61800, 61801, 62000, 62001, 66001, 80000];

/// Accepted settings, the trip levels mostly those nearest to nominal and the clearing times the shortest; a wait of 0 to 3.
pub fn rule_settings(dice: &mut Dice) -> Settings {
    let mut pairs = good_pairs(dice);
    for (i, pair) in pairs.iter_mut().enumerate().take(8) {
        let (low, high, shortest, _, _) = ROWS[i];
        let under = matches!(i, 0 | 1 | 4 | 5);
        if !dice.one_in(6) {
            pair.0 = if under { high } else { low };
        }
        if !dice.one_in(6) {
            pair.1 = shortest;
        }
    }
    pairs[10] = (dice.within(0, 3), dice.inside(100, 110));
    settings_of(&pairs)
}

/// A record of any status whose counters are full, full after this step, one short of that, or low.
pub fn rule_record(dice: &mut Dice, s: &Settings) -> Board {
    let tops: [u32; 9] = std::array::from_fn(|i| if i < 8 { s.trip[i].clearing } else { s.wait.max(1) });
    let counters = tops.map(|top| match dice.below(8) {
        0 | 1 => top - 1,
        2 => top,
        3 => u32::MAX,
        4 => top.saturating_sub(2),
        _ => dice.below(14) as u32,
    });
    let status = if dice.one_in(8) { dice.within(6, 255) as u8 } else { dice.within(0, 5) as u8 };
    let ramp = if dice.one_in(2) { s.ramp - dice.below(2) as u32 } else { dice.within(0, s.ramp.into()) as u32 };
    Board { status, counters, ramp, ..wild_record(dice) }
}

/// One code on all phases or most, one frequency, permission mostly, powers of a few kinds.
fn rule_sample(dice: &mut Dice) -> Vec<u32> {
    let edge = |dice: &mut Dice| EDGES[dice.below(12) as usize];
    let most = if dice.one_in(2) { 1000 } else { edge(dice) };
    let mut s: Vec<u32> = (0..3).map(|_| if dice.one_in(4) { edge(dice) } else { most }).collect();
    s.push(if dice.one_in(2) { 60000 } else { HERTZ_EDGES[dice.below(18) as usize] });
    s.push(dice.below(4).min(1) as u32);
    s.extend((0..2).map(|_| dice.inside(0, 10000) as u32));
    s
}

/// An explained step of a lent record, over numbers that no step writes; then a step, explained or not, with the same sample.
pub fn two_steps(tally: &mut Tally, mut record: Board, settings: &Settings, sample: &[u32]) {
    let report = Report { status: 77, recovery: 77, bits: 20_077, share: 20_077, watts: 20_077, vars: -20_077, held: 20_077, side: 77 };
    let mut explained = Explained { report, status_rule: 77, limit: 77, watts_rule: 77 };
    compare_explained(tally, &mut record, settings, sample, &mut explained);
    compare_step(tally, &mut record, settings, sample, &mut explained.report);
}

/// Lent records that trip, wait, return or stay in service, several limits and regions at once.
pub fn status_rules(tally: &mut Tally, dice: &mut Dice) {
    for i in 1..=20_000 {
        let settings = rule_settings(dice);
        let record = rule_record(dice, &settings);
        two_steps(tally, record, &settings, &rule_sample(dice));
        if i % 100 == 0 {
            tally.case();
        }
    }
}

/// Lent records, about half of them in service with low counters, with each edge of the frequency's regions and voltages of each region, on one
/// phase or on all.
pub fn far_outside(tally: &mut Tally, dice: &mut Dice) {
    for _ in 0..400 {
        for hertz in edges::FREQUENCIES {
            for codes in [[775, 1000, 1210, 1000], [250, 500, 774, 774], [0, 249, 1211, 1440], [1441, 2000, 4095, 1441]] {
                let settings = rule_settings(dice);
                let mut record = rule_record(dice, &settings);
                if dice.one_in(2) {
                    record.status = dice.within(1, 5) as u8;
                    record.counters = record.counters.map(|_| dice.below(13) as u32);
                }
                let (code, phase) = (codes[dice.below(4) as usize], dice.below(7) as usize);
                let mut s = vec![1000, 1000, 1000, hertz, u32::from(!dice.one_in(8)), 10_000, dice.inside(0, 10_000) as u32];
                match phase {
                    0..=2 => s[phase] = code,
                    _ => s[..3].fill(code),
                }
                two_steps(tally, record, &settings, &s);
            }
        }
        tally.case();
    }
}

/// What holds the watts: one of the six leaves `least`, those before it more, those behind it the same or more. A nameplate and a recovery
/// of just so much are not always to be had: then they leave somewhat more.
fn six_powers(dice: &mut Dice) -> [i64; 6] {
    let least = match dice.below(8) {
        0 => 0,
        1 => 10_000,
        2 | 3 => dice.within(0, 10_000),
        _ => 250 * dice.within(29, 39),
    };
    let first = dice.below(6) as usize;
    std::array::from_fn(|i| match i {
        _ if i < first => dice.inside((least + 1).min(10_000), 10_000),
        _ if i == first || dice.one_in(2) => least,
        _ => dice.inside(least, 10_000),
    })
}

/// Lent records in service, in continuous and mandatory operation, under settings in which the six leave these powers.
pub fn watts_rules(tally: &mut Tally, dice: &mut Dice) {
    for i in 1..=20_000 {
        let [available, limit, share, curve, nameplate, recovery] = six_powers(dice);
        let mut settings = rule_settings(dice);
        settings.ramp = [100, 10_000, 60_000][dice.below(3) as usize];
        let vars = (100_000_000 - nameplate * nameplate).isqrt() as i32;
        settings.var = settings.var.map(|p| Point { power: if nameplate % 2 == 0 { vars } else { -vars }, ..p });
        settings.watt[0].power = curve as i32;
        if dice.one_in(2) {
            settings.watt[1].power = curve as i32;
        }
        let (code, hertz) = [(1000, 60000), (900, 60000), (1150, 60000), (700, 60000), (1000, 58500)][dice.below(5) as usize];
        let ramping = code > 774 && hertz == 60000;
        let count = (share * i64::from(settings.ramp) + 9_999) / 10_000;
        let record = Board {
            status: dice.within(1, 5) as u8,
            counters: std::array::from_fn(|_| dice.below(12) as u32),
            ramp: (count - i64::from(ramping)).max(0) as u32,
            recovery: ((recovery + 249) / 250 - 1).max(0) as u8,
            ..wild_record(dice)
        };
        two_steps(tally, record, &settings, &[code, code, code, hertz, 1, available as u32, limit as u32]);
        if i % 100 == 0 {
            tally.case();
        }
    }
}
