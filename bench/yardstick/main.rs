//! The yardstick: `hgd check` and `hgd graph` as somebody would write them in plain Rust for speed
//! alone, with no proof. On every trace it prints the bytes that `hgd` prints, so it shows both how
//! fast `hgd` is and, being another program, whether their answers agree.
//!
//!     yardstick check < trace    the reports and the end line
//!     yardstick graph < trace    the segments
//!     yardstick parse < trace    reads the events and adds up their numbers
//!     yardstick lines < trace    counts line feeds: what reading the input alone costs
//!
//! Built by `make build/bench/yardstick`.
//!
//! Statuses are those of `hgd`: 0 done, 2 a refused or bad line, 3 a failed stream, 4 a bad command
//! line. Want of memory ends it by a signal.

mod detector;
mod event;
mod input;
mod output;
mod sets;
mod shadow;

use std::process::ExitCode;

use detector::Detector;
use event::{Events, Refusal, Step};
use input::{Input, Piece};

/// How the reading of a trace ended.
pub enum End {
    Whole,
    Refused { line: u64, refusal: Refusal },
    Bad { line: u64 },
    ReadFailed,
}

/// Hands each event of standard input to `events`, up to the first line that is not accepted.
fn read_trace<E: Events>(events: &mut E) -> End {
    let mut input = Input::new();
    let mut line = 0;
    loop {
        match input.next_piece() {
            Piece::End => return End::Whole,
            Piece::Failed => return End::ReadFailed,
            Piece::LongLine { is_comment } => {
                line += 1;
                if !is_comment {
                    return End::Bad { line };
                }
                if input.skip_long_line().is_err() {
                    return End::ReadFailed;
                }
            }
            Piece::Lines(mut cursor) => {
                while !cursor.is_at_end() {
                    line += 1;
                    // SAFETY: the cursor is at the beginning of a line that ends in a line feed.
                    match unsafe { event::read_line(events, cursor.at()) } {
                        Step::To(next) => cursor.move_to(next),
                        Step::Refused(refusal) => return End::Refused { line, refusal },
                        Step::Bad => return End::Bad { line },
                    }
                }
            }
        }
    }
}

/// Events that are counted and added up, so that no part of the reading can be left out.
struct Sums {
    events: u64,
    sum: u64,
}

impl Sums {
    #[inline(always)]
    fn add(&mut self, a: u64, b: u64, c: u64) -> Result<(), Refusal> {
        self.events += 1;
        self.sum = self
            .sum
            .wrapping_add(a ^ b.rotate_left(7) ^ c.rotate_left(40));
        Ok(())
    }
}

impl Events for Sums {
    #[inline(always)]
    fn fork(&mut self, parent: u16, child: u16) -> Result<(), Refusal> {
        self.add(parent as u64, child as u64, 1)
    }
    #[inline(always)]
    fn join(&mut self, parent: u16, child: u16) -> Result<(), Refusal> {
        self.add(parent as u64, child as u64, 2)
    }
    #[inline(always)]
    fn lock(&mut self, thread: u16, lock: u16) -> Result<(), Refusal> {
        self.add(thread as u64, lock as u64, 3)
    }
    #[inline(always)]
    fn read_lock(&mut self, thread: u16, lock: u16) -> Result<(), Refusal> {
        self.add(thread as u64, lock as u64, 4)
    }
    #[inline(always)]
    fn unlock(&mut self, thread: u16, lock: u16) -> Result<(), Refusal> {
        self.add(thread as u64, lock as u64, 5)
    }
    #[inline(always)]
    fn access<const WRITES: bool>(
        &mut self,
        thread: u16,
        at: u64,
        length: u64,
    ) -> Result<(), Refusal> {
        self.add(thread as u64, at, length)
    }
    #[inline(always)]
    fn renew(&mut self, thread: u16, at: u64, length: u64) -> Result<(), Refusal> {
        self.add(thread as u64, at, length)
    }
    #[inline(always)]
    fn send(&mut self, thread: u16, message: u32) -> Result<(), Refusal> {
        self.add(thread as u64, message as u64, 6)
    }
    #[inline(always)]
    fn receive(&mut self, thread: u16, message: u32) -> Result<(), Refusal> {
        self.add(thread as u64, message as u64, 7)
    }
}

fn failed_stream() -> ExitCode {
    eprintln!("fault 21");
    ExitCode::from(3)
}

fn detect(write: fn(&Detector, &End) -> std::io::Result<()>) -> ExitCode {
    let mut detector = Detector::new();
    let end = read_trace(&mut detector);
    if let End::ReadFailed = end {
        return failed_stream();
    }
    let written = write(&detector, &end);
    // The end of the process frees the memory sooner than its owners would.
    std::mem::forget(detector);
    match (written, end) {
        (Err(_), _) => failed_stream(),
        (Ok(()), End::Whole) => ExitCode::SUCCESS,
        (Ok(()), _) => ExitCode::from(2),
    }
}

fn parse() -> ExitCode {
    let mut sums = Sums { events: 0, sum: 0 };
    match read_trace(&mut sums) {
        End::Whole => {
            println!("events {} sum {:016x}", sums.events, sums.sum);
            ExitCode::SUCCESS
        }
        End::ReadFailed => failed_stream(),
        _ => ExitCode::from(2),
    }
}

fn lines() -> ExitCode {
    match input::count_line_feeds() {
        Ok(count) => {
            println!("lines {count}");
            ExitCode::SUCCESS
        }
        Err(_) => failed_stream(),
    }
}

fn main() -> ExitCode {
    let words: Vec<String> = std::env::args().skip(1).collect();
    match words.iter().map(String::as_str).collect::<Vec<_>>()[..] {
        ["check"] => detect(output::write_check),
        ["graph"] => detect(output::write_graph),
        ["parse"] => parse(),
        ["lines"] => lines(),
        _ => {
            eprintln!("usage: yardstick check|graph|parse|lines < trace");
            ExitCode::from(4)
        }
    }
}
