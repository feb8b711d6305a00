//! Writes the batches of a journal to another file, with the calls that a store makes of each and nothing else.
//!
//!     plain-journal JOURNAL COPY
//!
//! JOURNAL, one of the two of a store, is read first. Then, timed: its front (a gate, the header and the base) and a closed gate are written
//! and synced; for each batch its length, its body and the next closed gate are written and synced, and then its open gate. Printed are nanoseconds and batches.
//!
//! Built by `make build/bench/plain-journal`.

use std::fs::File;
use std::io::Result;
use std::os::unix::fs::FileExt;
use std::time::Instant;

const OPEN: u8 = 0xA5;
const CLOSED: u8 = 0x5A;
const FRONT_LEN: usize = 17;

/// The lengths of the bodies of a journal's batches.
fn bodies(journal: &[u8]) -> Vec<usize> {
    let (mut at, mut found) = (FRONT_LEN, Vec::new());
    while journal[at] == OPEN {
        let len = u32::from_be_bytes(journal[at + 1..at + 5].try_into().unwrap()) as usize;
        found.push(len);
        at += 5 + len;
    }
    found
}

fn main() -> Result<()> {
    let words: Vec<String> = std::env::args().collect();
    let [_, journal, copy] = &words[..] else {
        panic!("usage: plain-journal JOURNAL COPY");
    };
    let journal = std::fs::read(journal)?;
    let bodies = bodies(&journal);
    let file = File::create(copy)?;
    let begun = Instant::now();
    let mut start = journal[..FRONT_LEN].to_vec();
    start.push(CLOSED);
    file.write_all_at(&start, 0)?;
    file.sync_all()?;
    let (mut at, mut frame) = (FRONT_LEN, Vec::new());
    for len in &bodies {
        frame.clear();
        frame.extend_from_slice(&journal[at + 1..at + 5 + len]);
        frame.push(CLOSED);
        file.write_all_at(&frame, at as u64 + 1)?;
        file.sync_all()?;
        file.write_all_at(&[OPEN], at as u64)?;
        file.sync_all()?;
        at += 5 + len;
    }
    println!("{} {}", begun.elapsed().as_nanos(), bodies.len());
    Ok(())
}
