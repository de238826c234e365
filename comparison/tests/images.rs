//! Tests of the image, and of its being written straight out.

use super::*;
use std::collections::BTreeMap;

#[test]
fn image_of_a_record_as_it_is() {
    let board = Board {
        status: 0xF1,
        counters: [0x01020304, 1, 2, 3, 4, 5, 6, 7, 0xFFFFFFFF],
        ramp: 0x0A0B0C0D,
        watts: 0xFEDC,
        vars: -2,
        recovery: 0x27,
        side: 0xC3,
        held: 0x9876,
    };
    let expected = "f10102030400000001000000020000000300000004000000050000000600000007\
                    ffffffff0a0b0c0dfedcfffe27c39876";
    for size in [49, 50, 100] {
        let mut buffer = vec![0xAA; size];
        assert_eq!(save(&board, &mut buffer), Ok(()));
        assert_eq!(hex(&buffer[..49]), expected);
        assert!(buffer[49..].iter().all(|&byte| byte == 0xAA));
    }
}

#[test]
fn last_bytes_of_the_image() {
    let mut fresh_image = [0xAA; 49];
    assert_eq!(save(&fresh(), &mut fresh_image), Ok(()));
    assert_eq!((&fresh_image[..45], &fresh_image[45..]), (&[0; 45][..], &[40, 0, 0, 0][..]));
    // As they are, above their tops too; no other byte moves with them.
    let ended = |board: Board| {
        let mut image = [0xAA; 50];
        assert_eq!(save(&board, &mut image), Ok(()));
        assert_eq!(image[..45], fresh_image[..45]);
        [image[45], image[46], image[47], image[48], image[49]]
    };
    for byte in 0..=255 {
        assert_eq!(ended(Board { recovery: byte, ..fresh() }), [byte, 0, 0, 0, 0xAA]);
        assert_eq!(ended(Board { side: byte, ..fresh() }), [40, byte, 0, 0, 0xAA]);
    }
    let powers = [
        (1, [0, 1]), (255, [0, 255]), (256, [1, 0]), (5000, [19, 136]), (10000, [39, 16]),
        (10001, [39, 17]), (65535, [255, 255]),
    ];
    for (held, [high, low]) in powers {
        assert_eq!(ended(Board { held, ..fresh() }), [40, 0, high, low, 0xAA]);
    }
}

#[test]
fn image_buffer_under_49_bytes() {
    for size in [0, 1, 44, 45, 46, 47, 48] {
        let mut buffer = vec![0xAA; size];
        assert_eq!(save(&fresh(), &mut buffer), Err(9));
        assert!(buffer.iter().all(|&byte| byte == 0xAA));
    }
    assert_eq!(save(&fresh(), &mut [0xAA; 49]), Ok(()));
}

/// Where each field stands in the image, and its size: status, nine counters, ramp count,
/// watts, vars, recovery, side, held power.
const FIELDS: [(usize, usize); 16] = [
    (0, 1), (1, 4), (5, 4), (9, 4), (13, 4), (17, 4), (21, 4), (25, 4), (29, 4), (33, 4),
    (37, 4), (41, 2), (43, 2), (45, 1), (46, 1), (47, 2),
];

/// Which of them is vars.
const VARS: usize = 12;

/// The numbers that the fields of an image show.
fn shown(image: &[u8]) -> [i64; 16] {
    let mut numbers = FIELDS.map(|(begin, size)| {
        let bytes = &image[begin..begin + size];
        bytes.iter().fold(0, |number, &byte| 256 * number + i64::from(byte))
    });
    if numbers[VARS] > 32767 {
        numbers[VARS] -= 65536;
    }
    numbers
}

/// The numbers of a record, in the same order.
fn numbers_of(board: &Board) -> [i64; 16] {
    let Board { status, counters: [a, b, c, d, e, f, g, h, ninth], ramp, .. } = *board;
    let Board { watts, vars, recovery, side, held, .. } = *board;
    [
        status.into(), a.into(), b.into(), c.into(), d.into(), e.into(), f.into(), g.into(),
        h.into(), ninth.into(), ramp.into(), watts.into(), vars.into(), recovery.into(),
        side.into(), held.into(),
    ]
}

/// The record of such numbers.
fn record_of(numbers: [i64; 16]) -> Board {
    let board = Board {
        status: numbers[0] as u8,
        counters: std::array::from_fn(|i| numbers[1 + i] as u32),
        ramp: numbers[10] as u32,
        watts: numbers[11] as u16,
        vars: numbers[12] as i16,
        recovery: numbers[13] as u8,
        side: numbers[14] as u8,
        held: numbers[15] as u16,
    };
    assert_eq!(numbers_of(&board), numbers, "the width of the fields");
    board
}

/// Images with all bytes alike, with no two alike, and made ones; that of a fresh board first.
fn some_images() -> Vec<Vec<u8>> {
    let mut images = vec![ended(&[0; 45]), vec![0; 49], vec![255; 49], vec![128; 49]];
    images.extend([(1..=49).collect(), (207..=255).rev().collect()]);
    images.extend((0..4).map(|seed| made(seed, 49)));
    images
}

/// Things that a buffer of this size may hold before.
fn rubbish(size: usize) -> Vec<Vec<u8>> {
    vec![vec![0; size], vec![255; size], vec![0xAA; size], vec![40; size], made(11, size)]
}

/// Saves into the part of a log that begins and ends here. The record must stay. If the part
/// is long enough, its first 49 bytes must show the record, and they are given; all the rest of
/// the log must stay, and all of it if the part is too short.
fn logged(board: &Board, log: &mut [u8], (begin, end): (usize, usize)) -> Option<Vec<u8>> {
    let (record, before) = (*board, log.to_vec());
    let answer = save(board, &mut log[begin..end]);
    assert_eq!(*board, record);
    if end - begin < 49 {
        assert_eq!((answer, &log[..]), (Err(9), &before[..]), "{} to {}", begin, end);
        return None;
    }
    assert_eq!(answer, Ok(()), "{} to {}", begin, end);
    let image = &log[begin..begin + 49];
    assert_eq!(shown(image), numbers_of(board));
    assert_eq!(log[..begin], before[..begin], "{} to {}", begin, end);
    assert_eq!(log[begin + 49..], before[begin + 49..], "{} to {}", begin, end);
    Some(image.to_vec())
}

/// The record's image.
fn image_of(board: &Board) -> Vec<u8> {
    logged(board, &mut [0xAA; 60], (0, 60)).unwrap()
}

#[test]
fn the_life_of_a_logger() {
    let settings = Settings { wait: 300, ..quick_settings() };
    // Return and ramp; a dip, a sag and a swell; droop to both sides; falling vars; a trip by
    // ov2; another return, an event while entering, and a trip without permission.
    let life = [
        (410, NORMAL), (5, LOW_DIP), (50, NORMAL), (300, SAG), (10, HIGH_SWELL), (20, NORMAL),
        (20, at(60066)), (20, at(59934)), (30, sample_of([1180; 3], 60000, 1)), (20, TOO_HIGH),
        (320, NORMAL), (9, at(60090)), (3, FAR_ABOVE), (1, NO_PERMISSION), (20, NORMAL),
    ];
    let refused: [&[u32]; 4] = [&[4096; 7], &[0; 7], &[], &[0, 0, 0, 60000, 2, 0, 0]];
    let size = 49 * 1238 + 20;
    let mut log = made(12, size);
    let mut board = fresh();
    let mut records = Vec::new();
    for (times, sample) in life {
        for _ in 0..times {
            let part = (49 * records.len(), size);
            step(&mut board, &settings, &sample).unwrap();
            let image = logged(&board, &mut log, part);
            records.push(board);
            // A refused sample is no step: the image is the same.
            assert!(step(&mut board, &settings, refused[records.len() % 4]).is_err());
            assert_eq!(logged(&board, &mut log, part), image);
        }
    }
    // In the end the log shows the whole life.
    assert_eq!(records.len(), 1238);
    for (image, record) in log.chunks_exact(49).zip(&records) {
        assert_eq!(shown(image), numbers_of(record));
    }
    assert_eq!(log[size - 20..], made(12, size)[size - 20..]);
    // All of this has come up.
    let times = |has: &dyn Fn(&Board) -> bool| records.iter().filter(|b| has(b)).count();
    let by_status: [usize; 6] = std::array::from_fn(|i| times(&|b| usize::from(b.status) == i));
    assert_eq!(by_status, [624, 130, 151, 300, 15, 18]);
    assert_eq!([times(&|b| b.side == 1), times(&|b| b.side == 2)], [32, 20]);
    assert_eq!([times(&|b| b.vars < 0), times(&|b| b.vars > 0)], [30, 300]);
    assert!(times(&|b| b.counters[0] > 255) > 0 && times(&|b| b.counters[8] > 255) > 0);
    assert!(times(&|b| b.held > 255) > 0 && times(&|b| b.recovery < 40) > 0);
}

#[test]
fn one_field_at_a_time() {
    let numbers = [
        -32768, -32767, -10000, -257, -256, -255, -1, 0, 1, 127, 128, 255, 256, 257, 10000,
        32767, 32768, 65535, 65536, 65537, 0x01020304, 16777215, 16777216, 2147483647,
        2147483648, 4294967294, 4294967295,
    ];
    let mut tried = BTreeMap::new(); // by size, vars as 0
    for before in some_images() {
        let record = shown(&before);
        assert_eq!(image_of(&record_of(record)), before);
        for (i, (begin, size)) in FIELDS.into_iter().enumerate() {
            let all = 256i64.pow(size as u32);
            let fits = if i == VARS { -32768..32768 } else { 0..all };
            for number in numbers.into_iter().filter(|number| fits.contains(number)) {
                let mut changed = record;
                changed[i] = number;
                let image = image_of(&record_of(changed));
                assert_eq!(shown(&image), changed);
                assert_eq!(image[..begin], before[..begin], "field {}", i);
                assert_eq!(image[begin + size..], before[begin + size..], "field {}", i);
                *tried.entry(if i == VARS { 0 } else { size }).or_insert(0) += 1;
            }
        }
    }
    assert_eq!(tried, BTreeMap::from([(0, 160), (1, 3 * 50), (2, 2 * 110), (4, 10 * 200)]));
}

#[test]
fn every_value_of_every_saved_byte() {
    for (place, value) in (0..49).flat_map(|i| (0..=255).map(move |value| (i, value))) {
        for mut image in some_images() {
            image[place] = value;
            assert_eq!(image_of(&record_of(shown(&image))), image);
        }
    }
    for seed in 0..20000 {
        let image = made(seed, 49);
        assert_eq!(image_of(&record_of(shown(&image))), image);
    }
}

#[test]
fn saving_into_the_middle_of_a_log() {
    for image in some_images() {
        let board = record_of(shown(&image));
        for (begin, end) in (0..=130).flat_map(|i| (i..=130).map(move |end| (i, end))) {
            let saved = logged(&board, &mut made(13, 130), (begin, end));
            assert_eq!(saved, (end - begin >= 49).then(|| image.clone()));
        }
    }
    // One image right behind the other, the later ones first: each stays as it was saved.
    for begin in 0..60 {
        let images = some_images();
        let mut log = made(14, begin + 49 * images.len() + 7);
        for (i, image) in images.iter().enumerate().rev() {
            let place = begin + 49 * i;
            logged(&record_of(shown(image)), &mut log, (place, place + 49));
        }
        let before = made(14, log.len());
        let behind = log.len() - 7;
        assert_eq!(log, [&before[..begin], &images.concat(), &before[behind..]].concat());
    }
}

#[test]
fn every_size_of_the_buffer() {
    let mut answers = [0, 0]; // refused, saved
    for size in 0..=60 {
        for image in some_images() {
            for mut buffer in rubbish(size) {
                let saved = logged(&record_of(shown(&image)), &mut buffer, (0, size));
                answers[usize::from(saved.is_some())] += 1;
            }
        }
    }
    assert_eq!(answers, [49 * 50, 12 * 50]);
}

#[test]
fn saving_over_any_rubbish() {
    for image in some_images() {
        let board = record_of(shown(&image));
        // Other images, this one, and one that shares no byte with it stand there before too.
        let mut all = rubbish(60);
        let others = [some_images(), vec![image.iter().map(|byte| !byte).collect()]].concat();
        all.extend(others.iter().map(|other| [&other[..], &made(15, 11)].concat()));
        for mut buffer in all {
            for _ in 0..2 {
                assert_eq!(logged(&board, &mut buffer, (0, 60)), Some(image.clone()));
            }
        }
    }
}

/// Saving as it stood before request 7, with the bytes of each number made and then copied.
fn save_by_copies(board: &Board, buffer: &mut [u8]) -> Result<(), u8> {
    if buffer.len() < 49 {
        return Err(9);
    }
    buffer[0] = board.status;
    for (i, counter) in board.counters.iter().enumerate() {
        buffer[1 + 4 * i..5 + 4 * i].copy_from_slice(&counter.to_be_bytes());
    }
    buffer[37..41].copy_from_slice(&board.ramp.to_be_bytes());
    buffer[41..43].copy_from_slice(&board.watts.to_be_bytes());
    buffer[43..45].copy_from_slice(&board.vars.to_be_bytes());
    buffer[45] = board.recovery;
    buffer[46] = board.side;
    buffer[47..49].copy_from_slice(&board.held.to_be_bytes());
    Ok(())
}

#[test]
fn saving_answers_as_before() {
    for seed in 0..5000 {
        let board = record_of(shown(&made(seed, 49)));
        let size = seed as usize % 61;
        for mut buffer in rubbish(size) {
            let mut other = buffer.clone();
            let expected = save_by_copies(&board, &mut other);
            assert_eq!((save(&board, &mut buffer), buffer), (expected, other));
        }
    }
}
