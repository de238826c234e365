//! The comparisons: each makes one call to the library and the same to the comparison program, and says whether they
//! agree.

use super::*;

pub fn compare_fresh(tally: &mut Tally) -> Board {
    let b = library::fresh();
    let r = library::fresh_report();
    let e = library::fresh_explained();
    tally.call(other_record(&b) == other::fresh(), || format!("fresh: {:?}", b));
    tally.call(r == report_of(&other::fresh_report()), || format!("fresh report: {:?}", r));
    tally.call(e == explained_of(&other::fresh_report(), &other::fresh_rules()), || format!("fresh report, explained: {:?}", e));
    b
}

/// A step, every other time an explained one.
pub fn compare_step(tally: &mut Tally, board: &mut Board, settings: &Settings, sample: &[u32], report: &mut Report) -> u32 {
    tally.steps += 1;
    if tally.steps % 2 == 0 {
        return compare_plain(tally, board, settings, sample, report);
    }
    let rule = !tally.calls as u8;
    let mut explained = Explained { report: *report, status_rule: rule, limit: rule, watts_rule: rule };
    let number = compare_explained(tally, board, settings, sample, &mut explained);
    *report = explained.report;
    number
}

pub fn compare_explained(tally: &mut Tally, board: &mut Board, settings: &Settings, sample: &[u32], explained: &mut Explained) -> u32 {
    let lent = (*board, *settings, *explained);
    let mut record = other_record(board);
    let (number, reported) = match other::step_explained(&mut record, &other_settings(settings), sample) {
        Ok((r, rules)) => (0, explained_of(&r, &rules)),
        Err(n) => (u32::from(n), *explained),
    };
    let pattern = tally.calls as u8;
    let (mut b, mut s, mut e) = (lent_board(pattern, board), lent_settings(pattern, settings), lent_explained(pattern, explained));
    let (before, behind, numbers) = ((b.bytes(), s.bytes(), e.bytes()), (b.behind(), e.behind()), sample.to_vec());
    let found = library::step_explained(b.get(), s.get(), &numbers, e.get());
    let untouched = b.bytes() == before.0 && e.bytes() == before.2;
    (*board, *explained) = (*b.get(), *e.get());
    let same = found == number
        && other_record(board) == record
        && *explained == reported
        && s.bytes() == before.1
        && numbers == sample
        && (b.behind(), e.behind()) == behind
        && (found == 0 || untouched);
    tally.call(same, || {
        format!("explained step of {lent:?} with {sample:?}: {found} {board:?} {explained:?}, not {number} {record:?} {reported:?}")
    });
    if same && found == 0 {
        tally.accepted(&lent.0, settings, sample, &explained.report, Some(explained.watts_rule));
        tally.rules.accepted(&Explaining { lent: &lent.0, settings, sample, now: explained });
    } else if same {
        tally.rules.refused[found as usize] += 1;
    }
    found
}

pub fn compare_plain(tally: &mut Tally, board: &mut Board, settings: &Settings, sample: &[u32], report: &mut Report) -> u32 {
    let lent = (*board, *settings, *report);
    let mut record = other_record(board);
    let (number, reported) = match other::step(&mut record, &other_settings(settings), sample) {
        Ok(r) => (0, report_of(&r)),
        Err(n) => (u32::from(n), *report),
    };
    let pattern = tally.calls as u8;
    let (mut b, mut s, mut r) = (lent_board(pattern, board), lent_settings(pattern, settings), lent_report(pattern, report));
    let before = (b.bytes(), s.bytes(), r.bytes());
    let found = library::step(b.get(), s.get(), sample, r.get());
    let untouched = b.bytes() == before.0 && r.bytes() == before.2;
    (*board, *report) = (*b.get(), *r.get());
    let same = found == number
        && other_record(board) == record
        && *report == reported
        && s.bytes() == before.1
        && (found == 0 || untouched);
    tally.call(same, || format!("step of {:?} with {:?}: {} {:?} {:?}, not {} {:?} {:?}", lent, sample, found, board, report, number, record, reported));
    if same && found == 0 {
        tally.accepted(&lent.0, settings, sample, report, None);
    }
    found
}

pub fn compare_save(tally: &mut Tally, board: &Board, buffer: &mut [u8]) -> u32 {
    let mut bytes = buffer.to_vec();
    let number = other::save(&other_record(board), &mut bytes).map_or_else(u32::from, |()| 0);
    let mut b = lent_board(tally.calls as u8, board);
    let before = b.bytes();
    let found = library::save(b.get(), buffer);
    let same = found == number && buffer == bytes && b.bytes() == before;
    tally.call(same, || format!("save of {:?}: {} {:?}, not {} {:?}", board, found, buffer, number, bytes));
    found
}

pub fn compare_sheet(tally: &mut Tally, settings: &mut Settings, bytes: &[u8]) -> u32 {
    let (expected, after) = match other::read_sheet(bytes) {
        other::SheetResult::Accepted { settings, rest_begins } => {
            let (start, length) = (rest_begins, bytes.len() - rest_begins);
            (Sheet { number: 0, line: 0, start, length }, settings)
        }
        other::SheetResult::Refused { number, line_number, line } => {
            let (start, length) = (line.as_ptr() as usize - bytes.as_ptr() as usize, line.len());
            (Sheet { number: number.into(), line: line_number as u32, start, length }, other_settings(settings))
        }
    };
    let mut s = lent_settings(tally.calls as u8, settings);
    let before = s.bytes();
    let found = library::read_sheet(s.get(), bytes);
    *settings = *s.get();
    let same = found == expected && other_settings(settings) == after && (found.number == 0 || s.bytes() == before);
    tally.call(same, || format!("sheet {:?}: {:?}, not {:?}", String::from_utf8_lossy(bytes), found, expected));
    found.number
}

/// What the comparison program makes of a replay, sample by sample: the answer, the report and the buffer.
fn other_replay(settings: &Settings, samples: &[u32], report: &Report, buffer: &[u8]) -> (Replayed, Report, Vec<u8>) {
    let refused = |number: u8| (Replayed { number: number.into(), accepted: 0 }, *report, buffer.to_vec());
    let settings = other_settings(settings);
    let (mut record, mut last, mut accepted) = (other::fresh(), other::fresh_report(), 0);
    // a slice of no numbers is refused with 8 under accepted settings
    match other::step(&mut record, &settings, &[]) {
        Err(8) => (),
        Err(number) => return refused(number),
        Ok(_) => unreachable!(),
    }
    for sample in samples.chunks(7) {
        if let Ok(r) = other::step(&mut record, &settings, sample) {
            (last, accepted) = (r, accepted + 1);
        }
    }
    let mut bytes = buffer.to_vec();
    match other::save(&record, &mut bytes) {
        Ok(()) => (Replayed { number: 0, accepted }, report_of(&last), bytes),
        Err(number) => refused(number),
    }
}

/// One direction by the library and by the comparison program, the target with what stood in it before. Gives the number and the target. Bytes
/// behind the target, which are not lent, stay as well.
pub fn compare_carry(tally: &mut Tally, forward: bool, source: &[u8], target: &[u8]) -> (u32, Vec<u8>) {
    let (ours, theirs): (fn(&[u8], &mut [u8]) -> u32, fn(&[u8], &mut [u8]) -> Result<(), u8>) =
        if forward { (library::carry_forward, other::carry_forward) } else { (library::carry_back, other::carry_back) };
    let (lent, mut after, mut expected) = (source.to_vec(), [target, &[0xAA; 4]].concat(), target.to_vec());
    let number = theirs(source, &mut expected).map_or_else(u32::from, |()| 0);
    let found = ours(&lent, &mut after[..target.len()]);
    let behind = after.split_off(target.len());
    let same = found == number && after == expected && lent == source && behind == [0xAA; 4] && (found == 0 || after == target);
    tally.call(same, || format!("carrying {source:?} into {target:?}, forward {forward}: {found} {after:?}, not {number} {expected:?}"));
    let carrying = Carrying { forward, source, room: target.len(), number: found };
    for (count, (_, shown)) in tally.carryings.iter_mut().zip(CARRYINGS) {
        *count += u64::from(same && shown(&carrying));
    }
    (found, after)
}

/// The same by the library's own steps, every other an explained one, for a replay that is not refused.
fn step_by_step(settings: &Settings, samples: &[u32], buffer: &mut [u8]) -> (usize, Report) {
    let (mut board, mut last) = (library::fresh(), library::fresh_explained());
    let mut accepted = 0;
    for (i, s) in samples.chunks(7).enumerate() {
        let number = if i % 2 == 0 {
            library::step_explained(&mut board, settings, s, &mut last)
        } else {
            library::step(&mut board, settings, s, &mut last.report)
        };
        accepted += usize::from(number == 0);
    }
    library::save(&board, buffer);
    (accepted, last.report)
}

pub fn compare_replay(tally: &mut Tally, settings: &Settings, samples: &[u32], report: &Report, buffer: &[u8]) -> (Replayed, Report) {
    let (expected, reported, saved) = other_replay(settings, samples, report, buffer);
    let pattern = tally.calls as u8;
    let (mut s, mut r) = (lent_settings(pattern, settings), lent_report(pattern, report));
    let before = (s.bytes(), r.bytes(), samples.to_vec());
    let mut bytes = buffer.to_vec();
    let found = library::replay(s.get(), samples, r.get(), &mut bytes);
    let last = *r.get();
    let same = found == expected
        && last == reported
        && bytes == saved
        && s.bytes() == before.0
        && samples == before.2
        && (found.number == 0 || r.bytes() == before.1);
    let mut stepped = buffer.to_vec();
    let by_steps = found.number != 0 || (step_by_step(settings, samples, &mut stepped) == (found.accepted, last) && stepped == bytes);
    tally.call(same && by_steps, || format!("replay of {:?} under {:?}: {:?} {:?}, not {:?} {:?}", samples, settings, found, last, expected, reported));
    (found, last)
}
