//! Tests of images carried over, forward and back.

use super::*;

type Carry = fn(&[u8], &mut [u8]) -> Result<(), u8>;

/// A made new image with this recovery byte, without side and held power.
fn made_image(seed: u64, recovery: u8) -> Vec<u8> {
    let mut image = made(seed, 49);
    image[45..].copy_from_slice(&[recovery, 0, 0, 0]);
    image
}

/// Zeros, but this in the 46th place and, if there is none, in the fourth from the end.
fn with_recovery(length: usize, recovery: u8) -> Vec<u8> {
    let mut source = vec![0; length];
    let place = if length > 45 { 45 } else { length.saturating_sub(4) };
    if length > 0 {
        source[place] = recovery;
    }
    source
}

/// Carries into targets of this size that differ in what they held before. Each must give
/// the expected answer and afterwards hold the expected bytes, if any, at its front and
/// what it held before everywhere else.
fn carries(carry: Carry, source: &[u8], size: usize, expected: Result<&[u8], u8>) {
    for before in [vec![0; size], vec![0xAA; size], vec![40; size], made(size as u64, size)] {
        let mut target = before.clone();
        let answer = carry(source, &mut target);
        assert_eq!(answer, expected.map(|_| ()), "{} to {} bytes", source.len(), size);
        let mut after = before;
        if let Ok(front) = expected {
            after[..front.len()].copy_from_slice(front);
        }
        assert_eq!(target, after, "{} to {} bytes", source.len(), size);
    }
}

/// The image carried into a target that it fills.
fn carried(carry: Carry, source: &[u8], size: usize) -> Vec<u8> {
    let mut target = vec![0xAA; size];
    assert_eq!(carry(source, &mut target), Ok(()));
    target
}

#[test]
fn forward_adds_recovery_side_and_held_power() {
    let old: Vec<u8> = (101..=145).collect();
    let mut new = old.clone();
    new.extend([40, 0, 0, 0]);
    assert_eq!(carried(carry_forward, &old, 49), new);
    carries(carry_forward, &old, 49, Ok(&new));
    // The last byte of an old image is one of vars, not a count.
    for last in 0..=255 {
        let mut old = old.clone();
        old[44] = last;
        let expected: Vec<u8> = (101..145).chain([last, 40, 0, 0, 0]).collect();
        carries(carry_forward, &old, 49, Ok(&expected));
    }
}

#[test]
fn back_drops_recovery_side_and_held_power() {
    let old: Vec<u8> = (101..=145).collect();
    let new: Vec<u8> = (101..=145).chain([40, 0, 0, 0]).collect();
    assert_eq!(carried(carry_back, &new, 45), old);
    carries(carry_back, &new, 45, Ok(&old));
    for byte in [0, 40, 255] {
        carries(carry_back, &ended(&[byte; 45]), 45, Ok(&[byte; 45]));
    }
}

#[test]
fn every_value_of_each_of_the_last_four_bytes() {
    for (place, right) in [(45, 40), (46, 0), (47, 0), (48, 0)] {
        for byte in 0..=255 {
            let mut new = made_image(u64::from(byte), 40);
            new[place] = byte;
            for size in [45, 46, 49, 60] {
                let expected = if byte == right { Ok(&new[..45]) } else { Err(11) };
                carries(carry_back, &new, size, expected);
            }
            // The right bytes elsewhere do not help.
            for other in [0, 40] {
                let mut new = ended(&[other; 45]);
                new[place] = byte;
                let expected = if byte == right { Ok(&[other; 45][..]) } else { Err(11) };
                carries(carry_back, &new, 45, expected);
            }
            carries(carry_back, &[byte; 49], 45, Err(11));
        }
    }
    // Any choice of them off, each by one, all the rest right.
    for choice in 0..16 {
        let mut new = made_image(choice, 40);
        for i in 0..4 {
            new[45 + i] += (choice >> i & 1) as u8;
        }
        let expected = if choice == 0 { Ok(&new[..45]) } else { Err(11) };
        carries(carry_back, &new, 45, expected);
    }
    // The right ones in another order.
    for end in [[0, 40, 0, 0], [0, 0, 40, 0], [0, 0, 0, 40], [0, 0, 0, 0], [40; 4]] {
        carries(carry_back, &[&[7; 45][..], &end].concat(), 45, Err(11));
    }
}

#[test]
fn each_refusal_of_carrying_alone() {
    for length in [0, 1, 44, 46, 47, 48, 49, 50, 90, 1000] {
        for size in [49, 50, 100, 1000] {
            carries(carry_forward, &vec![40; length], size, Err(10));
            carries(carry_forward, &with_recovery(length, 40), size, Err(10));
        }
    }
    for length in [0, 1, 44, 45, 46, 47, 48, 50, 98, 1000] {
        for size in [45, 46, 49, 100, 1000] {
            carries(carry_back, &vec![40; length], size, Err(10));
            carries(carry_back, &with_recovery(length, 40), size, Err(10));
        }
    }
    for recovery in [0, 1, 39, 41, 168, 255] {
        for size in [45, 46, 49, 100, 1000] {
            carries(carry_back, &made_image(1, recovery), size, Err(11));
        }
    }
    for size in [0, 1, 44, 45, 46, 47, 48] {
        carries(carry_forward, &made(2, 45), size, Err(9));
    }
    for size in [0, 1, 43, 44] {
        carries(carry_back, &made_image(3, 40), size, Err(9));
    }
}

#[test]
fn the_first_of_the_refusals_of_carrying() {
    // Length (10) before target (9), both ways, where no byte of the end is wrong.
    for length in [0, 1, 44, 46, 47, 48, 49, 50] {
        for size in [0, 1, 44, 45, 46, 48] {
            carries(carry_forward, &with_recovery(length, 40), size, Err(10));
        }
    }
    for length in [0, 1, 44, 45, 46, 47, 48, 50, 51] {
        for size in [0, 1, 44] {
            carries(carry_back, &with_recovery(length, 40), size, Err(10));
        }
    }
    // A wrong end (11) before target (9).
    for byte in [0, 1, 39, 41, 255] {
        for size in [0, 1, 43, 44] {
            carries(carry_back, &made_image(4, byte), size, Err(11));
            carries(carry_back, &[byte; 49], size, Err(11));
        }
    }
    for place in 45..49 {
        for size in [0, 1, 43, 44] {
            let mut source = made_image(4, 40);
            source[place] += 1;
            carries(carry_back, &source, size, Err(11));
        }
    }
    // Length (10) before a wrong end (11), whichever bytes of the source are taken for it;
    // and before end and target together.
    for length in [0, 1, 44, 45, 46, 47, 48, 50, 51] {
        for size in [0, 1, 44, 45, 46, 49, 60] {
            carries(carry_back, &vec![39; length], size, Err(10));
            for wrong in 0..length {
                let mut source = with_recovery(length, 40);
                source[wrong] += 1;
                carries(carry_back, &source, size, Err(10));
            }
        }
    }
}

#[test]
fn every_source_and_target_length() {
    let mut answers = [[0; 12]; 3]; // by source and number, 0 for none
    for length in 0..=60 {
        for size in 0..=60 {
            let full = with_recovery(length, 40);
            let short = with_recovery(length, 39);
            let made = made(5, length);
            for source in [&full, &short, &made] {
                let new = ended(source);
                let expected = match (length, size) {
                    (45, 49..) => Ok(&new[..]),
                    (45, _) => Err(9),
                    _ => Err(10),
                };
                carries(carry_forward, source, size, expected);
            }
            for (i, source) in [&full, &short, &made].into_iter().enumerate() {
                let expected = match (length, i, size) {
                    (49, 0, 45..) => Ok(&source[..45]),
                    (49, 0, _) => Err(9),
                    (49, _, _) => Err(11),
                    _ => Err(10),
                };
                carries(carry_back, source, size, expected);
                answers[i][usize::from(expected.err().unwrap_or(0))] += 1;
            }
        }
    }
    assert_ne!(made(5, 49)[45..], [40, 0, 0, 0]);
    assert_eq!(answers[0], [16, 0, 0, 0, 0, 0, 0, 0, 0, 45, 3660, 0]);
    assert_eq!(answers[1], [0, 0, 0, 0, 0, 0, 0, 0, 0, 0, 3660, 61]);
    assert_eq!(answers[2], answers[1]);
}

#[test]
fn bytes_behind_the_result() {
    for size in (49..=100).chain([1000, 65536]) {
        let old = made(size as u64 + 1, 45);
        let new = ended(&old);
        let behind = made(size as u64 + 2, size);
        let mut target = behind.clone();
        assert_eq!(carry_forward(&old, &mut target), Ok(()));
        assert_eq!((&target[..49], &target[49..]), (&new[..], &behind[49..]));
        let mut target = behind.clone();
        assert_eq!(carry_back(&new, &mut target), Ok(()));
        assert_eq!((&target[..45], &target[45..]), (&old[..], &behind[45..]));
        // The bytes right behind an old image may hold anything.
        for byte in 0..=255 {
            let mut target = [byte; 50];
            assert_eq!(carry_back(&new, &mut target), Ok(()));
            assert_eq!(target[45..], [byte; 5]);
        }
    }
}

#[test]
fn every_value_of_every_byte() {
    for (place, value) in (0..45).flat_map(|i| (0..=255).map(move |value| (i, value))) {
        for mut old in [vec![0; 45], vec![255; 45], made(6, 45)] {
            old[place] = value;
            let new = ended(&old);
            assert_eq!(carried(carry_forward, &old, 49), new);
            assert_eq!(carried(carry_back, &new, 45), old);
        }
    }
}

#[test]
fn old_to_new_to_old() {
    for seed in 0..20000 {
        let old = made(seed, 45);
        let new = carried(carry_forward, &old, 49);
        assert_eq!((&new[..45], &new[45..]), (&old[..], &[40, 0, 0, 0][..]));
        assert_eq!(carried(carry_back, &new, 45), old);
    }
}

#[test]
fn new_to_old_to_new() {
    for seed in 0..20000 {
        let new = made_image(seed, 40);
        let old = carried(carry_back, &new, 45);
        assert_eq!(old, new[..45]);
        assert_eq!(carried(carry_forward, &old, 49), new);
        // Over what stood in the same two places before.
        let (mut there, mut back) = (made(seed + 1, 45), made(seed + 2, 49));
        assert_eq!(carry_back(&new, &mut there), Ok(()));
        assert_eq!(carry_forward(&there, &mut back), Ok(()));
        assert_eq!(back, new);
    }
    // Last bytes that are each made or right, by turns: there and back, or not at all.
    let mut allowed = 0;
    for seed in 0..20000 {
        let mut new = made(seed, 49);
        for (i, right) in [40, 0, 0, 0].into_iter().enumerate() {
            if new[i] < 128 {
                new[45 + i] = right;
            }
        }
        let mut old = [0xAA; 45];
        if carry_back(&new, &mut old).is_ok() {
            assert_eq!(carried(carry_forward, &old, 49), new);
            allowed += 1;
        } else {
            assert_eq!((carry_back(&new, &mut old), old), (Err(11), [0xAA; 45]));
            assert_ne!(new[45..], [40, 0, 0, 0]);
        }
    }
    assert!((1000..1600).contains(&allowed), "{} of 20000", allowed);
}

/// The record's image carried back and, where that is allowed, forward again. Gives the
/// refusal's number, or 0.
pub(super) fn saved_and_carried(board: &Board) -> u8 {
    let mut new = [0xAA; 49];
    save(board, &mut new).unwrap();
    if (board.recovery, board.side, board.held) != (40, 0, 0) {
        carries(carry_back, &new, 45, Err(11));
        return 11;
    }
    carries(carry_back, &new, 45, Ok(&new[..45]));
    carries(carry_forward, &new[..45], 49, Ok(&new));
    let old = carried(carry_back, &new, 45);
    assert_eq!(carried(carry_forward, &old, 49), new);
    0
}

#[test]
fn images_of_records_carried() {
    assert_eq!(saved_and_carried(&fresh()), 0);
    let mut new = [0xAA; 49];
    save(&fresh(), &mut new).unwrap();
    assert_eq!(carried(carry_back, &new, 45), [0; 45]);
    assert_eq!(carried(carry_forward, &[0; 45], 49), new);
    // Wild ones.
    for status in 0..=255 {
        for recovery in 0..=255 {
            let board = Board {
                status, counters: [u32::MAX; 9], ramp: u32::MAX, watts: u16::MAX,
                vars: i16::MIN, recovery, side: 0, held: 0,
            };
            assert_eq!(saved_and_carried(&board), if recovery == 40 { 0 } else { 11 });
        }
        // A side or a held power keeps it, in a tripped record too.
        for (side, held) in [(1, 0), (2, 0), (3, 0), (255, 0), (0, 1), (0, 256), (1, 10000)] {
            let board = Board { status, recovery: 40, side, held, ..fresh() };
            assert_eq!(saved_and_carried(&board), 11);
        }
    }
    // The fields keep their places.
    let board = Board {
        status: 3, counters: [1, 2, 3, 4, 5, 6, 7, 8, 9], ramp: 0x0A0B0C0D, watts: 0x0E0F,
        vars: -2, recovery: 40, side: 0, held: 0,
    };
    save(&board, &mut new).unwrap();
    let expected = "030000000100000002000000030000000400000005000000060000000700000008\
                    000000090a0b0c0d0e0ffffe";
    assert_eq!(hex(&carried(carry_back, &new, 45)), expected);
}

#[test]
fn images_of_a_history_carried() {
    // A cessation, forty steps of recovery, a trip in the middle of the next one.
    let mut board = in_service(100);
    assert_eq!(saved_and_carried(&board), 0);
    for stop in [LOW_DIP, HIGH_SWELL, TOO_HIGH, FAR_BELOW, FAR_ABOVE] {
        recovering(&mut board, &stop);
        assert_eq!(saved_and_carried(&board), 11);
        for k in 1..=45 {
            recovering(&mut board, &NORMAL);
            assert_eq!(saved_and_carried(&board), if k < 40 { 11 } else { 0 });
        }
    }
    recovering(&mut board, &LOW_DIP);
    recovering(&mut board, &NORMAL);
    assert_eq!(saved_and_carried(&board), 11);
    recovering(&mut board, &NO_PERMISSION);
    assert_eq!(saved_and_carried(&board), 0);
    // Made histories, mostly of normal samples.
    let others =
        [SAG, LOW_HERTZ, LOW_DIP, HIGH_SWELL, TOO_HIGH, NO_PERMISSION, FAR_BELOW, FAR_ABOVE];
    let mut answers = [[0, 0]; 6]; // by status: carried, refused
    for seed in 0..50 {
        let mut board = fresh();
        for choice in made(seed, 400) {
            let sample = others.get(usize::from(choice)).copied().unwrap_or(NORMAL);
            let (status, ..) = recovering(&mut board, &sample);
            let refused = saved_and_carried(&board) != 0;
            answers[usize::from(status)][usize::from(refused)] += 1;
        }
    }
    let [tripped, entering, continuous, mandatory, momentary, cease] = answers;
    assert!(tripped[0] > 0 && tripped[1] == 0);
    for both in [entering, continuous, mandatory] {
        assert!(both[0] > 0 && both[1] > 0);
    }
    for stopped in [momentary, cease] {
        assert!(stopped[0] == 0 && stopped[1] > 0);
    }
}
