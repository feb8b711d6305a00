//! Runs a program once, and prints what it took.
//!
//!     measure INPUT OUTPUT PROGRAM ARGUMENTS..
//!
//! PROGRAM reads the file INPUT and writes the file OUTPUT. Printed are five numbers: nanoseconds of
//! wall time, microseconds of user and of system time, peak resident memory in KiB, and the status (256
//! plus the signal, where one ended it). A program of its own, and a small one, since the peak that Linux
//! gives of a child is at least that of the process that started it.
//!
//! Built by `make build/bench/measure`, for Linux on 64 bits.

use std::fs::File;
use std::process::{exit, Command};
use std::time::Instant;

#[repr(C)]
#[derive(Clone, Copy, Default)]
struct Time {
    seconds: i64,
    microseconds: i64,
}

impl Time {
    fn in_microseconds(self) -> i64 {
        self.seconds * 1_000_000 + self.microseconds
    }
}

/// `struct rusage` of Linux.
#[repr(C)]
#[derive(Default)]
struct Usage {
    user: Time,
    system: Time,
    peak_memory: i64,
    others: [i64; 13],
}

extern "C" {
    fn wait4(process: i32, status: *mut i32, options: i32, usage: *mut Usage) -> i32;
}

fn give_up(what: &str, why: impl std::fmt::Display) -> ! {
    eprintln!("measure: {what}: {why}");
    exit(125);
}

fn main() {
    let words: Vec<String> = std::env::args().collect();
    let [_, input, output, program, arguments @ ..] = &words[..] else {
        give_up("usage", "measure INPUT OUTPUT PROGRAM ARGUMENTS..");
    };
    let input = File::open(input).unwrap_or_else(|why| give_up(input, why));
    let output = File::create(output).unwrap_or_else(|why| give_up(output, why));
    let mut command = Command::new(program);
    command.args(arguments).stdin(input).stdout(output);
    let start = Instant::now();
    let child = command.spawn().unwrap_or_else(|why| give_up(program, why));
    let (mut status, mut usage) = (0, Usage::default());
    // SAFETY: the child is not waited for elsewhere, and `Usage` is laid out as `struct rusage`.
    if unsafe { wait4(child.id() as i32, &mut status, 0, &mut usage) } < 0 {
        give_up(program, std::io::Error::last_os_error());
    }
    let wall = start.elapsed().as_nanos();
    let signal = status & 0x7f;
    let status = if signal == 0 {
        status >> 8 & 0xff
    } else {
        256 + signal
    };
    let (user, system) = (usage.user.in_microseconds(), usage.system.in_microseconds());
    println!("{wall} {user} {system} {} {status}", usage.peak_memory);
}
