//! Tests of made histories, their reports worked out from the samples alone.

use super::*;

/// The reports of a list of accepted samples, from the sheet and the list alone: whatever a
/// step needs of those before it is looked up in the list and in their reports, anew each
/// time and in no record.
fn reports_of(settings: &Settings, samples: &[[u32; 7]]) -> Vec<Report> {
    // How many samples up to and with the n-th, without a gap, have something.
    let run = |n: usize, has: &dyn Fn(&[u32; 7]) -> bool| {
        samples[..=n].iter().rev().take_while(|sample| has(sample)).count() as u32
    };
    let least = |s: &[u32; 7]| voltage(s[0]).min(voltage(s[1])).min(voltage(s[2]));
    let most = |s: &[u32; 7]| voltage(s[0]).max(voltage(s[1])).max(voltage(s[2]));
    let band = |s: &[u32; 7]| {
        let volts = band_of_voltage(least(s)).max(band_of_voltage(most(s)));
        volts.max(band_of_frequency(s[3]))
    };
    let mut reports: Vec<Report> = Vec::new();
    for n in 0..samples.len() {
        let now = samples[n];
        let mut bits = [false; 9];
        for (i, Trip { limit, time }) in settings.trips.into_iter().enumerate() {
            let broken = |s: &[u32; 7]| match i {
                0 | 1 => least(s) < limit,
                2 | 3 => most(s) > limit,
                4 | 5 => s[3] < limit,
                _ => s[3] > limit,
            };
            bits[i] = run(n, &broken) >= time;
        }
        let within = |s: &[u32; 7]| {
            s[4] == 1
                && least(s) >= settings.volts.low
                && most(s) <= settings.volts.high
                && (settings.hertz.low..=settings.hertz.high).contains(&s[3])
        };
        bits[8] = run(n, &within) >= settings.wait.max(1);

        let served = n > 0 && reports[n - 1].status != TRIPPED;
        let serves = match served {
            true => now[4] == 1 && !bits[..8].contains(&true),
            false => bits[8],
        };
        if !serves {
            reports.push(Report { bits, ..fresh_report() });
            continue;
        }
        // The service began right after the last tripped report; what has happened since.
        let tripped = reports.iter().rposition(|report| report.status == TRIPPED);
        let returned = tripped.map_or(0, |at| at + 1);
        let since = &samples[returned + 1..n + 1];
        let climbs = since.iter().filter(|s| band(s) == Band::Continuous).count() as u32;
        let ramp = climbs.min(settings.ramp);
        let share = (10000 * u64::from(ramp) / u64::from(settings.ramp)) as u16;
        let stopped = since.iter().rev().position(|s| band(s) >= Band::Momentary);
        let recovery = stopped.map_or(40, |steps| steps.min(40)) as u8;
        let status = match band(&now) {
            Band::Continuous if ramp < settings.ramp => ENTERING,
            Band::Continuous => CONTINUOUS,
            Band::Mandatory => MANDATORY,
            Band::Momentary => MOMENTARY,
            Band::Cease => CEASE,
        };
        // The event: back through this service as long as the side is the same.
        let (side, _) = beyond(now[3]);
        let event = samples[returned..=n].iter().rev();
        let steps = event.take_while(|s| beyond(s[3]).0 == side).count();
        let held = match n + 1 - steps {
            _ if side == 0 => 0,
            0 => 0,
            first => reports[first - 1].watts,
        };
        let (mut watts, mut vars) = (0, 0);
        if [ENTERING, CONTINUOUS, MANDATORY].contains(&status) {
            let mean = (voltage(now[0]) + voltage(now[1]) + voltage(now[2])) / 3;
            vars = curve(&settings.var, mean);
            let recovered = 250 * i64::from(recovery);
            let mut limits = vec![curve(&settings.watt, mean), watts_beside(vars), recovered];
            match side {
                0 => limits.extend([now[5].into(), now[6].into(), i64::from(share)]),
                _ => limits.push(drooped(held, now[3], now[5])),
            }
            watts = *limits.iter().min().unwrap();
        }
        let (watts, vars) = (watts as u16, vars as i16);
        reports.push(Report { status, bits, share, recovery, side, held, watts, vars });
    }
    reports
}

#[test]
fn made_histories_by_another_way() {
    let mut wide = wide_return();
    wide.trips[5].limit = 57000;
    wide.trips[7].limit = 61800;
    let sheets = [quick_settings(), wide, Settings { wait: 4, ramp: 333, ..wide }];
    let hertz = [
        59963, 59964, 60036, 60037, 59962, 60038, 59934, 60066, 59500, 60100, 59000, 61000,
        58800, 61200, 58799, 61201, 57000, 62000, 56999, 62001, 61900, 40000, 80000,
    ];
    let codes = [249, 774, 841, 1180, 1211, 1441];
    let refused = [[4096; 7], [0; 7], at_with(59000, 10001, 0), [0, 0, 0, 59000, 2, 0, 0]];
    let mut steps = 0;
    let mut turned_away = 0;
    let mut by_side = [[0; 6]; 3]; // by side and status
    let mut begun = [[0; 3]; 4]; // by side before (3 for tripped) and side
    let mut tripped_in = [0; 3]; // by side
    for seed in 0..90 {
        let settings = sheets[seed as usize % 3];
        let no_ramp = Settings { ramp: 0, ..settings };
        let bytes = made(1000 + seed, 10000);
        let mut bytes = bytes.iter().map(|&byte| u32::from(byte));
        let mut byte = move || bytes.next().unwrap();
        let mut board = fresh();
        let mut accepted: Vec<[u32; 7]> = Vec::new();
        let mut reports: Vec<Report> = Vec::new();
        let mut sample = NORMAL;
        while accepted.len() < 400 {
            // Some numbers change, the others stay: runs of samples that are much alike.
            if byte() < 100 {
                let near = 59900 + 8 * (byte() % 25);
                sample[3] = hertz.get(byte() as usize % 40).copied().unwrap_or(near);
            }
            if byte() < 30 {
                let code = codes.get(byte() as usize % 12).copied().unwrap_or(1000);
                (sample[0], sample[1]) = (code, if byte() < 128 { code } else { 1000 });
            } else if byte() < 60 {
                (sample[0], sample[1]) = (1000, 1000);
            }
            if byte() < 60 {
                sample[5] = (40 * byte()).min(10000);
                sample[6] = (40 * byte()).min(10000);
            } else if byte() < 60 {
                (sample[5], sample[6]) = (10000, 10000);
            }
            sample[4] = u32::from(byte() > 3);
            match byte() {
                choice @ 0..=15 => {
                    let wrong = refused[choice as usize % 4];
                    assert!(step(&mut board, &settings, &wrong).is_err());
                    turned_away += 1;
                }
                16..=20 => {
                    assert_eq!(step(&mut board, &no_ramp, &sample), Err(2));
                    turned_away += 1;
                }
                _ => {
                    let (report, _) = imaged(&mut board, &settings, &sample);
                    accepted.push(sample);
                    reports.push(report);
                }
            }
        }
        let expected = reports_of(&settings, &accepted);
        for n in 0..accepted.len() {
            assert_eq!(reports[n], expected[n], "seed {} step {} {:?}", seed, n, accepted[n]);
            let before = if n == 0 { fresh_report() } else { expected[n - 1] };
            let now = expected[n];
            by_side[usize::from(now.side)][usize::from(now.status)] += 1;
            let side = if before.status == TRIPPED { 3 } else { before.side };
            if now.status == TRIPPED {
                tripped_in[usize::from(before.side)] += 1;
            } else {
                begun[usize::from(side)][usize::from(now.side)] += 1;
            }
            steps += 1;
        }
        // The last report of every list that is a part of it is the same.
        for n in [0, 1, 50, 399] {
            assert_eq!(reports_of(&settings, &accepted[..n]).last(), expected[..n].last());
        }
    }
    assert!(steps == 36000 && turned_away > 2000);
    assert!(by_side[1..].iter().all(|statuses| statuses[1..].iter().all(|&times| times > 100)));
    assert!(by_side[1][0] == 0 && by_side[2][0] == 0);
    assert!(begun.iter().flatten().all(|&times| times > 100), "{:?}", begun);
    assert!(tripped_in[1] > 50 && tripped_in[2] > 50, "{:?}", tripped_in);
}
