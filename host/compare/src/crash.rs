//! Says which input is to blame where the library crashes or does not come back.

use std::cell::Cell;
use std::fmt::{self, Write};
use std::process;
use std::sync::atomic::{AtomicU64, Ordering};
use std::thread;
use std::time::{Duration, Instant};

use crate::cases::GROUPS;

/// What is being compared.
#[derive(Clone, Copy)]
pub enum Input {
    /// A fixed case of a group of `GROUPS`.
    Case { group: usize, number: u64 },
    /// A generated input of a format.
    Generated { format: u32, number: u64 },
    /// A generated room file.
    Room { number: u64 },
}

/// What stands for room files where other inputs have a format.
const ROOMS: u64 = 0xF0;

/// The inputs that the threads are at, as format and number in one word; 0 for none.
static AT: [AtomicU64; 64] = [const { AtomicU64::new(0) }; 64];
static SEED: AtomicU64 = AtomicU64::new(0);

thread_local! {
    static THREAD: Cell<usize> = const { Cell::new(0) };
}

extern "C" {
    fn signal(number: i32, handler: extern "C" fn(i32)) -> usize;
    fn write(file: i32, text: *const u8, length: usize) -> isize;
    fn _exit(status: i32) -> !;
}

/// Has crashes reported from here on.
pub fn report_crashes(seed: u64) {
    SEED.store(seed, Ordering::Relaxed);
    // The numbers of SIGILL, SIGABRT, SIGBUS, SIGFPE and SIGSEGV.
    for number in [4, 6, 7, 8, 11] {
        // The handler only formats numbers into its own stack and writes them.
        unsafe { signal(number, crashed) };
    }
}

/// Says which of the threads this one is.
pub fn this_is_thread(number: usize) {
    THREAD.set(number % AT.len());
}

/// Says that this thread is at an input: a generated one, or a fixed case.
pub fn now_at(input: Input) {
    let (format, number) = match input {
        Input::Case { group, number } => (0, (group as u64) << 40 | number),
        Input::Generated { format, number } => (u64::from(format), number),
        Input::Room { number } => (ROOMS, number),
    };
    AT[THREAD.get()].store((format + 1) << 56 | number, Ordering::Relaxed);
}

/// Says that this thread is at no input.
pub fn now_at_none() {
    AT[THREAD.get()].store(0, Ordering::Relaxed);
}

/// Waits until all is done, and ends the program where one input takes longer than the limit.
pub fn watch(done: impl Fn() -> bool, limit: Duration) {
    let mut seen = [(0, Instant::now()); 64];
    while !done() {
        thread::sleep(Duration::from_millis(20));
        for (at, (last, since)) in AT.iter().zip(&mut seen) {
            let at = at.load(Ordering::Relaxed);
            if at != *last {
                (*last, *since) = (at, Instant::now());
            } else if at != 0 && since.elapsed() > limit {
                println!(
                    "compare: no answer in {} seconds, at {}",
                    limit.as_secs(),
                    Again(at)
                );
                process::exit(1);
            }
        }
    }
}

extern "C" fn crashed(number: i32) {
    let mut text = Line {
        bytes: [0; 256],
        length: 0,
    };
    let at = AT[THREAD.get()].load(Ordering::Relaxed);
    let _ = writeln!(text, "compare: a crash, signal {number}, at {}", Again(at));
    unsafe {
        write(1, text.bytes.as_ptr(), text.length);
        _exit(1)
    }
}

/// An input as the threads' table has it, in words.
struct Again(u64);

impl fmt::Display for Again {
    fn fmt(&self, to: &mut fmt::Formatter) -> fmt::Result {
        let number = self.0 & ((1 << 56) - 1);
        let input = match self.0 >> 56 {
            0 => return write!(to, "no input"),
            1 => Input::Case {
                group: (number >> 40) as usize,
                number: number & ((1 << 40) - 1),
            },
            format if format == ROOMS + 1 => Input::Room { number },
            format => Input::Generated {
                format: format as u32 - 1,
                number,
            },
        };
        input.fmt(to)
    }
}

impl fmt::Display for Input {
    fn fmt(&self, to: &mut fmt::Formatter) -> fmt::Result {
        match *self {
            Input::Case { group, number } => {
                let (name, _) = GROUPS[group];
                write!(
                    to,
                    "fixed case {number} of '{name}' (again: compare --inputs 0)"
                )
            }
            Input::Generated { format, number } => {
                let seed = SEED.load(Ordering::Relaxed);
                write!(
                    to,
                    "input {number} of format {format} (again: compare --seed {seed} --format {format} --first {number} --inputs 1)"
                )
            }
            Input::Room { number } => {
                let seed = SEED.load(Ordering::Relaxed);
                write!(
                    to,
                    "room file {number} (again: compare --seed {seed} --rooms --first {number} --inputs 1)"
                )
            }
        }
    }
}

/// A line of text that needs no heap.
struct Line {
    bytes: [u8; 256],
    length: usize,
}

impl Write for Line {
    fn write_str(&mut self, text: &str) -> fmt::Result {
        for &byte in text.as_bytes() {
            if let Some(place) = self.bytes.get_mut(self.length) {
                *place = byte;
                self.length += 1;
            }
        }
        Ok(())
    }
}
