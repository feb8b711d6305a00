//! What is printed: reports, segments and the last line.

use std::fs::File;
use std::io::{self, BufWriter, Write};
use std::mem::ManuallyDrop;
use std::os::fd::FromRawFd;

use crate::detector::{Detector, Report, NONE};
use crate::End;

/// Standard output, which is written in large pieces and not line by line.
struct Output {
    writer: ManuallyDrop<BufWriter<File>>,
}

impl Output {
    fn new() -> Self {
        // SAFETY: the file is never dropped, so it closes nothing.
        let file = unsafe { File::from_raw_fd(1) };
        Output {
            writer: ManuallyDrop::new(BufWriter::with_capacity(1 << 16, file)),
        }
    }

    fn text(&mut self, text: &[u8]) -> io::Result<()> {
        self.writer.write_all(text)
    }

    fn decimal(&mut self, mut value: u64) -> io::Result<()> {
        let mut digits = [0; 20];
        let mut at = digits.len();
        loop {
            at -= 1;
            digits[at] = b'0' + (value % 10) as u8;
            value /= 10;
            if value == 0 {
                return self.text(&digits[at..]);
            }
        }
    }

    fn word(&mut self, address: u64) -> io::Result<()> {
        let digits: [u8; 16] =
            std::array::from_fn(|at| b"0123456789abcdef"[(address >> (60 - 4 * at)) as usize & 15]);
        self.text(b"0x")?;
        self.text(&digits)
    }

    fn report(&mut self, number: u64, report: &Report, threads: &[u16]) -> io::Result<()> {
        self.text(b"race ")?;
        self.decimal(number)?;
        self.text(b" event ")?;
        self.decimal(report.event)?;
        self.text(if report.writes {
            b" write thread "
        } else {
            b" read thread "
        })?;
        self.decimal(report.thread as u64)?;
        self.text(b" word ")?;
        self.word(report.word)?;
        self.text(b" threads ")?;
        for (at, thread) in threads.iter().enumerate() {
            self.text(if at > 0 { b"," } else { b"" })?;
            self.decimal(*thread as u64)?;
        }
        self.text(b"\n")
    }

    /// The line of a trace that did not end well, if it did not.
    fn end(&mut self, end: &End) -> io::Result<()> {
        match end {
            End::Refused { line, refusal } => {
                writeln!(self.writer, "refused line {line} code {}", *refusal as u8)
            }
            End::Bad { line } => writeln!(self.writer, "bad line {line}"),
            End::Whole | End::ReadFailed => Ok(()),
        }
    }
}

pub fn write_check(detector: &Detector, end: &End) -> io::Result<()> {
    let mut output = Output::new();
    for (number, report) in (1..).zip(&detector.reports) {
        output.report(number, report, detector.sets.members(report.threads))?;
    }
    output.end(end)?;
    if let End::Whole = end {
        let (events, races, segments) = (detector.events, detector.races, detector.thread_of.len());
        writeln!(
            output.writer,
            "end events {events} races {races} segments {segments}"
        )?;
    }
    output.writer.flush()
}

pub fn write_graph(detector: &Detector, end: &End) -> io::Result<()> {
    let mut output = Output::new();
    for (number, (thread, before)) in detector.thread_of.iter().zip(&detector.before).enumerate() {
        write!(output.writer, "segment {number} thread {thread} after ")?;
        match *before {
            [NONE, NONE] => writeln!(output.writer, "-")?,
            [only, NONE] => writeln!(output.writer, "{only}")?,
            [first, second] => writeln!(output.writer, "{first},{second}")?,
        }
    }
    output.end(end)?;
    output.writer.flush()
}
