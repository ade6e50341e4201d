//! Runs a program once: `measure IN OUT PROGRAM WORD..` with its output into a file and on standard input a pipe with the
//! bytes of the file IN, or nothing where IN is empty. Prints status, nanoseconds, nanoseconds of processors and the
//! greatest resident memory in KiB. It is small, since a started program counts its parent's memory as its own until it
//! begins.

use std::fs::File;
use std::io::copy;
use std::process::{Command, ExitCode, Stdio};
use std::thread::spawn;
use std::time::Instant;

/// The C library's `struct rusage` on 64-bit Linux: user and system time, then the greatest resident memory.
#[repr(C)]
struct Usage {
    times: [i64; 4],
    resident: i64,
    rest: [i64; 13],
}

unsafe extern "C" {
    fn wait4(process: i32, status: *mut i32, options: i32, usage: *mut Usage) -> i32;
}

fn main() -> ExitCode {
    let words: Vec<_> = std::env::args_os().skip(1).collect();
    let [given, out, program, words @ ..] = words.as_slice() else {
        return ExitCode::from(2);
    };
    let Ok(out) = File::create(out) else {
        return ExitCode::from(4);
    };
    let stdin = if given.is_empty() { Stdio::null() } else { Stdio::piped() };
    let begin = Instant::now();
    let Ok(mut child) = Command::new(program).args(words).stdin(stdin).stdout(out).spawn() else {
        return ExitCode::from(4);
    };
    if let Some(mut pipe) = child.stdin.take() {
        let given = given.clone();
        // a program that ends early reads no more, and its status says why
        spawn(move || File::open(given).and_then(|mut file| copy(&mut file, &mut pipe)));
    }
    let (mut status, mut usage) = (0, Usage { times: [0; 4], resident: 0, rest: [0; 13] });
    // SAFETY: both places outlive the call, and nothing else waits for the child
    let ended = unsafe { wait4(child.id() as i32, &mut status, 0, &mut usage) };
    let time = begin.elapsed().as_nanos();
    if ended < 0 {
        return ExitCode::from(4);
    }
    let status = if status & 0x7f == 0 { status >> 8 & 0xff } else { 128 + (status & 0x7f) };
    let [seconds, micros, more_seconds, more_micros] = usage.times;
    let used = 1000 * (1_000_000 * (seconds + more_seconds) + micros + more_micros);
    println!("{status} {time} {used} {}", usage.resident);
    ExitCode::SUCCESS
}
