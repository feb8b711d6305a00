//! Standard input in large pieces that are cut at line ends, with no copy of a line.

use std::fs::File;
use std::io::{self, Read};
use std::marker::PhantomData;
use std::mem::ManuallyDrop;
use std::ops::Range;
use std::os::fd::FromRawFd;

const CAPACITY: usize = 256 * 1024;
/// Bytes behind the last line that may be read, so that a line's first 8 bytes can be taken at once.
const PADDING: usize = 64;

pub struct Input {
    file: ManuallyDrop<File>,
    buffer: Vec<u8>,
    /// The bytes `start..end` of the buffer are not handed out yet.
    start: usize,
    end: usize,
    is_ended: bool,
}

/// What the input has next.
pub enum Piece<'a> {
    /// One or more whole lines, the last of which may have got its line feed here.
    Lines(Cursor<'a>),
    /// A line that fills the whole buffer and goes on.
    LongLine {
        is_comment: bool,
    },
    End,
    Failed,
}

/// A place in a piece. Each line from there on ends in a line feed.
pub struct Cursor<'a> {
    at: *const u8,
    end: *const u8,
    lives_for: PhantomData<&'a [u8]>,
}

impl Cursor<'_> {
    #[inline(always)]
    pub fn is_at_end(&self) -> bool {
        self.at >= self.end
    }

    #[inline(always)]
    pub fn at(&self) -> *const u8 {
        self.at
    }

    #[inline(always)]
    pub fn move_to(&mut self, at: *const u8) {
        self.at = at;
    }
}

fn standard_input() -> ManuallyDrop<File> {
    // SAFETY: the file is never dropped, so it closes nothing.
    ManuallyDrop::new(unsafe { File::from_raw_fd(0) })
}

fn read(file: &mut File, into: &mut [u8]) -> io::Result<usize> {
    loop {
        match file.read(into) {
            Err(error) if error.kind() == io::ErrorKind::Interrupted => {}
            answer => return answer,
        }
    }
}

impl Input {
    pub fn new() -> Self {
        Input {
            file: standard_input(),
            buffer: vec![0; CAPACITY + PADDING],
            start: 0,
            end: 0,
            is_ended: false,
        }
    }

    pub fn next_piece(&mut self) -> Piece<'_> {
        self.buffer.copy_within(self.start..self.end, 0);
        self.end -= self.start;
        self.start = 0;
        let mut searched = 0;
        loop {
            // (also before the first read: a skipped line may have left whole lines behind it)
            if let Some(at) = self.buffer[searched..self.end]
                .iter()
                .rposition(|byte| *byte == b'\n')
            {
                return self.lines_up_to(searched + at + 1);
            }
            searched = self.end;
            if self.is_ended && self.end == 0 {
                return Piece::End;
            }
            if self.is_ended {
                self.buffer[self.end] = b'\n';
                self.end += 1;
                return self.lines_up_to(self.end);
            }
            if self.end == CAPACITY {
                return Piece::LongLine {
                    is_comment: self.buffer[0] == b'#',
                };
            }
            match read(&mut self.file, &mut self.buffer[self.end..CAPACITY]) {
                Ok(0) => self.is_ended = true,
                Ok(count) => self.end += count,
                Err(_) => return Piece::Failed,
            }
        }
    }

    fn lines_up_to(&mut self, upto: usize) -> Piece<'_> {
        let lines = &self.buffer[self.start..upto];
        self.start = upto;
        let Range { start, end } = lines.as_ptr_range();
        Piece::Lines(Cursor {
            at: start,
            end,
            lives_for: PhantomData,
        })
    }

    /// Drops what is left of a line that filled the whole buffer.
    pub fn skip_long_line(&mut self) -> io::Result<()> {
        loop {
            if let Some(at) = self.buffer[self.start..self.end]
                .iter()
                .position(|byte| *byte == b'\n')
            {
                self.start += at + 1;
                return Ok(());
            }
            self.start = 0;
            self.end = read(&mut self.file, &mut self.buffer[..CAPACITY])?;
            if self.end == 0 {
                self.is_ended = true;
                return Ok(());
            }
        }
    }
}

pub fn count_line_feeds() -> io::Result<u64> {
    let mut file = standard_input();
    let mut buffer = vec![0; CAPACITY];
    let mut count = 0;
    loop {
        let size = read(&mut file, &mut buffer)?;
        if size == 0 {
            return Ok(count);
        }
        // Up to 255 bytes are counted in one byte before they are widened.
        for block in buffer[..size].chunks(192) {
            count += block.iter().map(|byte| (*byte == b'\n') as u8).sum::<u8>() as u64;
        }
    }
}
