//! The program `board`: a sheet and sample lines in, a line a sample out.

use super::records::*;
use super::sheet::{read_sheet, Reader, ROWS};
use super::step::{fresh, step};
use std::io::{self, Read, Write};

/// The input ends at this byte at the latest.
/// Decision: bytes are counted from 1, so this byte is the last that can belong to it. A
/// line that the end cuts off is unended.
pub(super) const INPUT_END: u64 = 1_000_000_000_000;

/// How much is read at once, at most.
pub(super) const BLOCK_SIZE: usize = 65536;

/// No line of the sheet and no sample line is longer than the longest var line:
/// `(var`, four times ` (NNNNNN -NNNNNN)`, `)`. A longer line is not of its form, so
/// bytes beyond the first 74 of a line need not be kept.
pub(super) const LONGEST_LINE: usize = 4 + 4 * 17 + 1;

/// The seven numbers of a sample line; none if it is not of its form.
pub(super) fn read_sample(line: &[u8]) -> Option<[u32; 7]> {
    let mut reader = Reader { rest: line };
    let mut sample = [0; 7];
    let before = ["(at (", " ", " ", ") ", " ", " ", " "];
    for (number, before) in sample.iter_mut().zip(before) {
        reader.text(before)?;
        *number = reader.number(false)? as u32; // at most 999999
    }
    reader.text(")")?;
    reader.end()?;
    Some(sample)
}

/// The nine bits as one binary number, to be written with nine digits.
pub(super) fn binary(bits: &[bool; 9]) -> u16 {
    bits.iter().fold(0, |number, &bit| 2 * number + u16::from(bit))
}

pub(super) fn report_line(report: &Report) -> String {
    let word = STATUS_WORDS[usize::from(report.status)];
    let bits = binary(&report.bits);
    let Report { share, recovery, side, held, watts, vars, .. } = *report;
    format!("(report {word} {bits:09b} {share} {recovery} {side} {held} {watts} {vars})\n")
}

fn refused_line(number: u8, line_number: u64) -> String {
    format!("(refused {} {})\n", number, line_number)
}

/// Reads the next block into `block` and gives its size, 0 when the input has ended.
/// A read error ends the input.
/// Decision: a read that a signal interrupted has not failed, it is begun again.
fn read_block(input: &mut impl Read, block: &mut [u8]) -> usize {
    loop {
        match input.read(block) {
            Ok(size) => return size,
            Err(error) if error.kind() == io::ErrorKind::Interrupted => continue,
            Err(_) => return 0,
        }
    }
}

/// The samples of the program's input, handled block by block.
struct Samples {
    settings: Settings,
    board: Board,
    /// Line feeds passed so far, those of the sheet included.
    lines: u64,
    /// The beginning of a line whose end is still to come: at most its first 74 bytes.
    begun: Vec<u8>,
}

impl Samples {
    fn new(settings: Settings) -> Samples {
        Samples { settings, board: fresh(), lines: ROWS.len() as u64, begun: Vec::new() }
    }

    /// Handles one block of the input, adding to the answers.
    fn block(&mut self, block: &[u8], answers: &mut Vec<u8>) {
        let mut rest = block;
        while let Some(length) = rest.iter().position(|&byte| byte == b'\n') {
            let line = &rest[..length];
            if self.begun.is_empty() {
                self.line(line, answers);
            } else {
                self.keep(line);
                let line = std::mem::take(&mut self.begun);
                self.line(&line, answers);
            }
            rest = &rest[length + 1..];
        }
        self.keep(rest);
    }

    /// Adds to the begun line, up to one byte more than any line can have.
    fn keep(&mut self, bytes: &[u8]) {
        let room = LONGEST_LINE + 1 - self.begun.len();
        self.begun.extend_from_slice(&bytes[..bytes.len().min(room)]);
    }

    /// Handles one ended line, given without its line feed.
    /// Decision: an empty line is a line, not of its form.
    fn line(&mut self, line: &[u8], answers: &mut Vec<u8>) {
        self.lines += 1;
        let answer = match read_sample(line) {
            Some(sample) => step(&mut self.board, &self.settings, &sample),
            None => Err(SAMPLE_FORM),
        };
        let text = match answer {
            Ok(report) => report_line(&report),
            Err(number) => refused_line(number, self.lines),
        };
        answers.extend_from_slice(text.as_bytes());
    }

    /// Handles the end of the input: a begun line is unended, whatever it holds.
    /// Decision: nothing after the last line feed is no line.
    fn end(&mut self, answers: &mut Vec<u8>) {
        if !self.begun.is_empty() {
            let text = refused_line(SAMPLE_FORM, self.lines + 1);
            answers.extend_from_slice(text.as_bytes());
        }
    }
}

/// The program: a sheet and sample lines in, a line a sample out. Ends early with the
/// error of a failed write.
pub fn run(mut input: impl Read, mut output: impl Write) -> io::Result<()> {
    let mut block = vec![0; BLOCK_SIZE];

    // The sheet, gathered until it is accepted or refused for good.
    let mut gathered = Vec::new();
    let (settings, rest_begins) = loop {
        let size = read_block(&mut input, &mut block);
        gathered.extend_from_slice(&block[..size]);
        match read_sheet(&gathered) {
            SheetResult::Accepted { settings, rest_begins } => break (settings, rest_begins),
            SheetResult::Refused { number, line_number, line } => {
                // More input can change this only if the line is still unended and not
                // too long already.
                // Decision: a sheet line too long for its form is refused as soon as that
                // is seen; its end, if it has one, is not waited for.
                let input_ended = size == 0;
                let ends = gathered.iter().filter(|&&byte| byte == b'\n').count();
                let line_ended = line_number <= ends;
                if input_ended || line_ended || line.len() > LONGEST_LINE {
                    output.write_all(refused_line(number, line_number as u64).as_bytes())?;
                    return output.flush();
                }
            }
        }
    };

    // The samples.
    let mut samples = Samples::new(settings);
    let mut answers = Vec::new();
    samples.block(&gathered[rest_begins..], &mut answers);
    loop {
        output.write_all(&answers)?;
        output.flush()?;
        answers.clear();
        let size = read_block(&mut input, &mut block);
        if size == 0 {
            break;
        }
        samples.block(&block[..size], &mut answers);
    }
    samples.end(&mut answers);
    output.write_all(&answers)?;
    output.flush()
}
