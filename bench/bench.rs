//! Makes the benchmark's inputs and measures programs on them.
//!
//!     bench make BYTES FILE             a sheet and samples, about BYTES in all; the same at every run
//!     bench time RUNS FILE PROGRAM...   wall time in microseconds, the best of RUNS; a line a program
//!     bench memory FILE PROGRAM...      peak memory (VmHWM) in kilobytes when the whole file is read; a line a program

#[allow(dead_code)]
#[path = "../tests/compare/draw.rs"]
mod draw;

use draw::{sample_line, Draws, DEFAULT};
use std::env;
use std::fs::{self, File};
use std::io::{self, BufWriter, Write};
use std::process::{Command, Stdio};
use std::thread;
use std::time::{Duration, Instant};

/// A quiet grid with noise on every reading; now and then some steps of trouble, and more often a stretch outside the deadband, which takes
/// two or three samples of a hundred.
fn make(bytes: usize, file: &str) -> io::Result<()> {
    let mut draws = Draws::new(15_000_000);
    let mut output = BufWriter::new(File::create(file)?);
    let sheet = DEFAULT.with_wait(500, 2000).text();
    output.write_all(sheet.as_bytes())?;
    let mut made = sheet.len();
    let (mut event, mut left) = (0, 0);
    while made < bytes {
        if left == 0 {
            (event, left) = match draws.below(40) {
                0 => (draws.between(1, 6), draws.between(1, 30)),
                1..=3 => (draws.between(7, 8), draws.between(10, 90)),
                _ => (0, draws.between(50, 200)),
            };
        }
        left -= 1;
        let line = sample_line(&sample(event, &mut draws));
        output.write_all(line.as_bytes())?;
        made += line.len();
    }
    output.flush()
}

fn sample(event: i64, draws: &mut Draws) -> [u32; 7] {
    let mut near = |middle: i64, off: i64| draws.between(middle - off, middle + off) as u32;
    let mut sample = [near(1000, 60), near(1000, 60), near(1000, 60), near(60000, 30), 1, near(8000, 2000), near(9500, 500)];
    match event {
        1 => sample[0] = near(500, 200),
        2 => sample[1] = near(1320, 100),
        3 => sample[2] = near(150, 90),
        4 => sample[3] = near(57300, 800),
        5 => sample[3] = near(62000, 700),
        6 => sample[0] = near(4095, 3),
        7 => sample[3] = near(60080, 40),
        8 => sample[3] = near(59920, 40),
        _ => (),
    }
    sample
}

fn microseconds(program: &str, file: &str) -> u128 {
    let mut words = program.split(' ');
    let mut command = Command::new(words.next().unwrap());
    command.args(words).stdin(File::open(file).expect("the input")).stdout(Stdio::null());
    let begin = Instant::now();
    command.status().expect("the program");
    begin.elapsed().as_micros()
}

/// Feeds the file through a pipe and looks when all of it has been read, before the program ends.
fn kilobytes(program: &str, file: &str) -> String {
    let mut words = program.split(' ');
    let mut command = Command::new(words.next().unwrap());
    let mut child = command.args(words).stdin(Stdio::piped()).stdout(Stdio::null()).spawn().expect("the program");
    let mut pipe = child.stdin.take().unwrap();
    io::copy(&mut File::open(file).expect("the input"), &mut pipe).expect("the pipe");
    // What still stands in the pipe is read within this time; it is at most 64 KB.
    thread::sleep(Duration::from_millis(200));
    let status = fs::read_to_string(format!("/proc/{}/status", child.id())).unwrap_or_default();
    drop(pipe);
    child.wait().expect("the program's end");
    let peak = status.lines().find_map(|line| line.strip_prefix("VmHWM:"));
    peak.map_or("?".to_string(), |text| text.trim().trim_end_matches(" kB").to_string())
}

fn main() {
    let arguments: Vec<String> = env::args().collect();
    match arguments.iter().map(String::as_str).collect::<Vec<_>>().as_slice() {
        [_, "make", bytes, file] => make(bytes.parse().expect("a size"), file).expect("the input"),
        [_, "time", runs, file, programs @ ..] => {
            let mut best = vec![u128::MAX; programs.len()];
            for _ in 0..runs.parse().expect("how many runs") {
                // By turns, so that a slow moment of the machine meets all of them.
                for (best, program) in best.iter_mut().zip(programs) {
                    *best = (*best).min(microseconds(program, file));
                }
            }
            best.iter().for_each(|time| println!("{time}"));
        }
        [_, "memory", file, programs @ ..] => programs.iter().for_each(|program| println!("{}", kilobytes(program, file))),
        _ => panic!("bench make | time | memory"),
    }
}
