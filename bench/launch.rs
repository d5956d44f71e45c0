//! Runs a program, and tells the seconds that it took and its peak memory in KiB, as the last line of standard error.
//!
//! The peak of a process counts what the one that starts it held at that moment, so the one that starts it holds little.
//!
//!     launch PROGRAM [WORD]...

use std::process::{exit, Command};
use std::time::Instant;

// the `struct rusage` of Linux on 64 bits: four words of times, the peak, and what is not asked for
unsafe extern "C" {
    fn getrusage(who: i32, usage: *mut [i64; 18]) -> i32;
}

const CHILDREN: i32 = -1;
const PEAK: usize = 4;

fn main() {
    let words: Vec<_> = std::env::args_os().skip(1).collect();
    let (program, words) = words.split_first().expect("usage: launch PROGRAM [WORD]...");
    let begin = Instant::now();
    let status = Command::new(program).args(words).status().expect("a program");
    let seconds = begin.elapsed().as_secs_f64();
    let mut usage = [0; 18];
    // `getrusage` writes into the 144 bytes that it is given and nowhere else
    assert_eq!(unsafe { getrusage(CHILDREN, &mut usage) }, 0);
    eprintln!("{seconds} {}", usage[PEAK]);
    exit(status.code().unwrap_or(1));
}
