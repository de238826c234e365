//! The mode `calls`: one library call a line, for tests/library.sh.

use super::carry::{carry_back, carry_forward};
use super::image::{save, IMAGE_SIZE};
use super::program::{binary, BLOCK_SIZE};
use super::records::*;
use super::rules::{fresh_rules, step_explained};
use super::sheet::{default_settings, PAIRS};
use super::step::{fresh, step};
use std::io::{self, BufRead, BufReader, BufWriter, Read, Write};

pub(super) fn hex(bytes: &[u8]) -> String {
    bytes.iter().map(|byte| format!("{:02x}", byte)).collect()
}

/// The numbers after the first word of a call. Other lines than those of the protocol
/// never occur, so a number that cannot be read ends the program.
fn numbers(words: &[&str]) -> Vec<i64> {
    words.iter().map(|word| word.parse().expect("a decimal number")).collect()
}

/// The bytes of a word of small hex digits, two a byte. Another word ends the program.
fn bytes(word: &str) -> Vec<u8> {
    let value = |digit: u8| {
        let value = b"0123456789abcdef".iter().position(|&small| small == digit);
        value.expect("a small hex digit") as u8
    };
    assert_eq!(word.len() % 2, 0, "two digits a byte");
    word.as_bytes().chunks_exact(2).map(|pair| 16 * value(pair[0]) + value(pair[1])).collect()
}

/// The words of an accepted step's report in an answer.
pub(super) fn report_words(report: &Report) -> String {
    let Report { status, bits, share, recovery, side, held, watts, vars } = *report;
    let bits = binary(&bits);
    format!("report {status} {bits:09b} {share} {recovery} {side} {held} {watts} {vars}")
}

/// The words of the rules in an answer.
fn rules_words(rules: &Rules) -> String {
    format!("rules {} {} {}", rules.status, rules.limit, rules.watts)
}

/// Answers one call.
/// Told: `explain` is `step` with the rules between report and image where it is accepted;
/// `rules` answers with those of a fresh board's report, whatever record is lent.
/// Told: `forward` and `back` name the target's size and the source, whose word is missing when
/// it is empty; the target is filled as the buffer of `save` is.
/// Decision: STATUS is the number of the status, as in the record; hex digits are small.
/// Decision: the recovery count is the fourteenth number of a `record` call, as in the image; in
/// the answer to a `step` call it stands as in a report line.
/// Told: side and held power are the fifteenth and the sixteenth, and stand right after the
/// recovery in the answers too.
fn answer_call(call: &str, board: &mut Board, settings: &mut Settings) -> String {
    let words: Vec<&str> = call.split_ascii_whitespace().collect();
    match words[0] {
        "fresh" => {
            *board = fresh();
            "ok".to_string()
        }
        "record" => {
            let numbers = numbers(&words[1..]);
            assert_eq!(numbers.len(), 16, "numbers of a record");
            *board = Board {
                status: u8::try_from(numbers[0]).expect("status"),
                counters: std::array::from_fn(|i| u32::try_from(numbers[1 + i]).expect("counter")),
                ramp: u32::try_from(numbers[10]).expect("ramp"),
                watts: u16::try_from(numbers[11]).expect("watts"),
                vars: i16::try_from(numbers[12]).expect("vars"),
                recovery: u8::try_from(numbers[13]).expect("recovery"),
                side: u8::try_from(numbers[14]).expect("side"),
                held: u16::try_from(numbers[15]).expect("held"),
            };
            "ok".to_string()
        }
        "settings" => {
            let numbers = numbers(&words[1..]);
            assert_eq!(numbers.len(), 2 * PAIRS, "numbers of settings");
            let pairs = std::array::from_fn(|i| (numbers[2 * i], numbers[2 * i + 1]));
            *settings = Settings::from_pairs(&pairs);
            assert_eq!(settings.pairs(), pairs, "the width of the settings");
            "ok".to_string()
        }
        "step" | "explain" => {
            let sample: Vec<u32> =
                numbers(&words[1..]).iter().map(|&n| u32::try_from(n).expect("u32")).collect();
            let answer = if words[0] == "step" {
                step(board, settings, &sample).map(|report| report_words(&report))
            } else {
                step_explained(board, settings, &sample).map(|(report, rules)| {
                    format!("{} {}", report_words(&report), rules_words(&rules))
                })
            };
            let answer = answer.unwrap_or_else(|number| format!("refused {}", number));
            let mut image = [0; IMAGE_SIZE];
            save(board, &mut image).expect("49 bytes hold an image");
            format!("{} {}", answer, hex(&image))
        }
        "rules" => rules_words(&fresh_rules()),
        "save" => {
            let mut buffer = vec![0xAA; words[1].parse().expect("a size")];
            match save(board, &mut buffer) {
                Ok(()) => format!("saved {}", hex(&buffer)),
                Err(number) => format!("refused {} {}", number, hex(&buffer)),
            }
        }
        "forward" | "back" => {
            assert!(words.len() <= 3, "one size and one source");
            let carry = if words[0] == "forward" { carry_forward } else { carry_back };
            let mut target = vec![0xAA; words[1].parse().expect("a size")];
            let source = words.get(2).map_or(Vec::new(), |word| bytes(word));
            match carry(&source, &mut target) {
                Ok(()) => format!("carried {}", hex(&target)),
                Err(number) => format!("refused {} {}", number, hex(&target)),
            }
        }
        _ => panic!("not a call: {}", call),
    }
}

/// Answers calls, one a line.
/// Decision: until the first `settings` call, the default sheet's settings are lent.
pub fn run_calls(input: impl Read, output: impl Write) -> io::Result<()> {
    let mut input = BufReader::with_capacity(BLOCK_SIZE, input);
    let mut output = BufWriter::with_capacity(BLOCK_SIZE, output);
    let mut board = fresh();
    let mut settings = default_settings();
    let mut call = String::new();
    while input.read_line(&mut call)? > 0 {
        writeln!(output, "{}", answer_call(&call, &mut board, &mut settings))?;
        call.clear();
        // Who waits for an answer before the next call gets it.
        if !input.buffer().contains(&b'\n') {
            output.flush()?;
        }
    }
    output.flush()
}
