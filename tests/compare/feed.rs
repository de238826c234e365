//! Running a program on an input: through a file or a pipe, whole or cut so that its reads come cut there.

use std::fs::{self, File};
use std::io::{Read, Write};
use std::os::fd::AsRawFd;
use std::process::{Child, ChildStdin, Command, ExitStatus, Stdio};
use std::sync::Mutex;
use std::thread;
use std::time::{Duration, Instant};

/// How an input reaches the program.
#[derive(Clone)]
pub enum Feed {
    /// From a file or, where it is short, through a pipe at once.
    Whole,
    /// Through a pipe, cut at these places.
    Cut(Vec<usize>),
    /// Through a pipe, in blocks of this size.
    Blocks(usize),
}

/// A run longer than this is ended and counts as a difference.
const LONGEST_RUN: Duration = Duration::from_secs(60);

/// What a pipe takes without a reader.
const PIPE_SIZE: usize = 65536;

static RUNNING: Mutex<Option<(Child, Instant)>> = Mutex::new(None);

/// Ends the running program when it takes too long.
pub fn watch() {
    thread::spawn(|| loop {
        thread::sleep(Duration::from_secs(1));
        if let Some((child, since)) = RUNNING.lock().unwrap().as_mut() {
            if since.elapsed() > LONGEST_RUN {
                let _ = child.kill();
            }
        }
    });
}

/// What the program writes for an input, and how it ended.
pub fn run(program: &str, input: &[u8], feed: &Feed, file: &str) -> (Vec<u8>, ExitStatus) {
    let through_file = matches!(feed, Feed::Whole) && input.len() > PIPE_SIZE / 2;
    let stdin = if through_file {
        fs::write(file, input).expect("the input file");
        Stdio::from(File::open(file).expect("the input file"))
    } else {
        Stdio::piped()
    };
    let mut child =
        Command::new(program).stdin(stdin).stdout(Stdio::piped()).spawn().expect("the program");
    let mut stdout = child.stdout.take().unwrap();
    let stdin = child.stdin.take();
    *RUNNING.lock().unwrap() = Some((child, Instant::now()));
    let mut output = Vec::new();
    thread::scope(|scope| {
        match (stdin, feed) {
            (None, _) => (),
            // Short enough to fit the pipe, so that this write cannot wait.
            (Some(mut pipe), Feed::Whole) => drop(pipe.write_all(input)),
            (Some(pipe), Feed::Cut(places)) => drop(scope.spawn(|| cut(pipe, input, places))),
            (Some(pipe), Feed::Blocks(size)) => {
                let places: Vec<usize> = (1..).map(|i| i * size).take_while(|&i| i < input.len()).collect();
                scope.spawn(move || cut(pipe, input, &places));
            }
        }
        stdout.read_to_end(&mut output).expect("the program's output");
    });
    let (mut child, _) = RUNNING.lock().unwrap().take().unwrap();
    (output, child.wait().expect("the program's end"))
}

/// Writes an input piece by piece, each when the one before it has been read.
fn cut(mut pipe: ChildStdin, input: &[u8], places: &[usize]) {
    let mut begin = 0;
    for &place in places {
        // An error means that the program has ended: the rest is not its input.
        if pipe.write_all(&input[begin..place]).is_err() || !drained(&pipe) {
            return;
        }
        begin = place;
    }
    drop(pipe.write_all(&input[begin..]));
}

extern "C" {
    fn ioctl(descriptor: i32, request: u64, bytes: *mut i32) -> i32;
}

/// Linux: how many bytes stand unread in a pipe.
const FIONREAD: u64 = 0x541B;

/// Waits until the pipe is empty; not, where its reader ends before that.
fn drained(pipe: &ChildStdin) -> bool {
    loop {
        let mut unread = 0;
        // SAFETY: the descriptor is the open pipe's, and the request writes one int.
        if unsafe { ioctl(pipe.as_raw_fd(), FIONREAD, &mut unread) } != 0 {
            return false;
        }
        if unread == 0 {
            return true;
        }
        let running = RUNNING.lock().unwrap().as_mut().is_some_and(|(child, _)| matches!(child.try_wait(), Ok(None)));
        if !running {
            return false;
        }
        thread::yield_now();
    }
}
