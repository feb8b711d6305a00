//! Writes a large trace of one shape, the same each time.
//!
//!     generate --shape SHAPE --events N [--seed K] [--children C]
//!
//! The trace has exactly N events, each of which the trace rules accept. `README.md` says what each
//! shape is for. C, 1 to 1023, is the number of threads that the shape `waves` forks.
//!
//! Built by `make build/bench/generate`.

use std::io::{self, BufWriter, StdoutLock, Write};
use std::process::ExitCode;

/// Where blocks of memory, shared tables and the stacks of threads begin.
const HEAP: u64 = 0x7f3a_4000_0000;
const TABLES: u64 = 0x55d0_1c20_0000;
const STACKS: u64 = 0x7ffc_0000_0000;
/// Bytes between the private memory of one thread and of the next.
const APART: u64 = 0x100_0000;

/// SplitMix64.
struct Random(u64);

impl Random {
    fn next(&mut self) -> u64 {
        self.0 = self.0.wrapping_add(0x9E37_79B9_7F4A_7C15);
        let mut bits = self.0;
        bits = (bits ^ (bits >> 30)).wrapping_mul(0xBF58_476D_1CE4_E5B9);
        bits = (bits ^ (bits >> 27)).wrapping_mul(0x94D0_49BB_1331_11EB);
        bits ^ (bits >> 31)
    }

    /// A number below `bound`, which is at least 1.
    fn below(&mut self, bound: u64) -> u64 {
        ((self.next() as u128 * bound as u128) >> 64) as u64
    }

    /// True once in `times`.
    fn once_in(&mut self, times: u64) -> bool {
        self.below(times) == 0
    }
}

/// Why a shape goes no further.
enum Stop {
    Enough,
    Failed(io::Error),
}

type Step = Result<(), Stop>;

/// The trace so far, which stops a shape at the wanted number of events.
struct Trace {
    writer: BufWriter<StdoutLock<'static>>,
    left: u64,
}

impl Trace {
    fn two(&mut self, verb: &str, thread: u64, other: u64) -> Step {
        self.count()?;
        writeln!(self.writer, "{verb} {thread} {other}").map_err(Stop::Failed)
    }

    fn three(&mut self, verb: &str, thread: u64, at: u64, length: u64) -> Step {
        self.count()?;
        writeln!(self.writer, "{verb} {thread} {at:#x} {length}").map_err(Stop::Failed)
    }

    fn count(&mut self) -> Step {
        if self.left == 0 {
            return Err(Stop::Enough);
        }
        self.left -= 1;
        Ok(())
    }

    fn fork(&mut self, parent: u64, child: u64) -> Step {
        self.two("fork", parent, child)
    }

    fn join(&mut self, parent: u64, child: u64) -> Step {
        self.two("join", parent, child)
    }

    fn lock(&mut self, thread: u64, lock: u64) -> Step {
        self.two("lock", thread, lock)
    }

    fn read_lock(&mut self, thread: u64, lock: u64) -> Step {
        self.two("rdlock", thread, lock)
    }

    fn unlock(&mut self, thread: u64, lock: u64) -> Step {
        self.two("unlock", thread, lock)
    }

    fn read(&mut self, thread: u64, at: u64, length: u64) -> Step {
        self.three("read", thread, at, length)
    }

    fn write(&mut self, thread: u64, at: u64, length: u64) -> Step {
        self.three("write", thread, at, length)
    }

    fn access(&mut self, writes: bool, thread: u64, at: u64, length: u64) -> Step {
        if writes {
            self.write(thread, at, length)
        } else {
            self.read(thread, at, length)
        }
    }

    fn send(&mut self, thread: u64, message: u64) -> Step {
        self.two("send", thread, message)
    }

    fn receive(&mut self, thread: u64, message: u64) -> Step {
        self.two("recv", thread, message)
    }

    /// Thread 0 forks the threads from 1 up to `threads` - 1.
    fn fork_up_to(&mut self, threads: u64) -> Step {
        (1..threads).try_for_each(|child| self.fork(0, child))
    }
}

/// 16 threads, each over 64 pages of its own, in bursts: almost every word is Exclusive.
fn private(trace: &mut Trace, random: &mut Random) -> Step {
    const LENGTHS: [u64; 8] = [4, 4, 8, 8, 8, 1, 2, 16];
    trace.fork_up_to(16)?;
    loop {
        let thread = random.below(16);
        let mut at = HEAP + thread * APART + random.below(63 * 1024);
        for _ in 0..8 + random.below(56) {
            let length = LENGTHS[random.below(8) as usize];
            trace.access(random.below(10) < 4, thread, at & !(length - 1), length)?;
            at += if random.once_in(4) {
                random.below(64)
            } else {
                length
            };
        }
    }
}

/// Threads are forked and joined in waves of 31, and blocks pass from parent to child and back. Each
/// fork and join opens segments, and the first access of a word in each is a question of order.
fn waves(trace: &mut Trace, random: &mut Random, children: u64) -> Step {
    let share = (trace.left / children).max(12);
    let block = |child: u64| HEAP + child % 64 * 0x4000;
    let mut first = 1;
    while first <= children {
        let wave = first..=children.min(first + 30);
        for child in wave.clone() {
            for word in 0..share / 4 {
                trace.write(0, block(child) + word * 8 % 0x4000, 8)?;
            }
            trace.fork(0, child)?;
        }
        for _ in 0..share / 8 {
            for child in wave.clone() {
                let at = block(child) + random.below(0x7fe) * 8;
                for part in 0..4 {
                    trace.access(part % 2 == 1, child, at + 4 * part, 4)?;
                }
            }
        }
        for child in wave.clone() {
            trace.join(0, child)?;
            for word in 0..share / 4 {
                trace.read(0, block(child) + word * 8 % 0x4000, 8)?;
            }
        }
        first = wave.end() + 1;
    }
    loop {
        trace.read(0, STACKS + random.below(64) * 4, 4)?;
    }
}

/// 8 threads with no lock over many words: from half a million events on more races than are kept.
fn races(trace: &mut Trace, random: &mut Random) -> Step {
    let words = (trace.left / 4).max(1000);
    trace.fork_up_to(8)?;
    loop {
        trace.access(
            random.once_in(2),
            random.below(8),
            TABLES + random.below(words) * 4,
            4,
        )?;
    }
}

/// 4 threads, each at random over 8 MiB of its own: 32,768 pages, and hardly an access near the last.
fn scatter(trace: &mut Trace, random: &mut Random) -> Step {
    trace.fork_up_to(4)?;
    loop {
        let thread = random.below(4);
        trace.access(
            random.once_in(2),
            thread,
            HEAP + thread * APART + random.below(1 << 21) * 4,
            4,
        )?;
    }
}

/// 16 threads count in 512 counters under 64 locks, now and then with a second lock around.
fn counters(trace: &mut Trace, random: &mut Random) -> Step {
    const OUTER: u64 = 100;
    trace.fork_up_to(16)?;
    loop {
        let (thread, counter) = (random.below(16), random.below(512));
        let (at, lock, has_outer) = (TABLES + counter * 40, counter % 64, random.once_in(4));
        if has_outer {
            trace.lock(thread, OUTER)?;
        }
        trace.lock(thread, lock)?;
        for word in 0..2 {
            trace.read(thread, at + 8 * word, 8)?;
            trace.write(thread, at + 8 * word, 8)?;
        }
        trace.read(thread, STACKS + thread * APART + random.below(4096) * 4, 4)?;
        trace.unlock(thread, lock)?;
        if has_outer {
            trace.unlock(thread, OUTER)?;
        }
    }
}

/// 8 threads look up in 16 tables under reader-writer locks, and one time in 50 one changes a table.
fn readers(trace: &mut Trace, random: &mut Random) -> Step {
    trace.fork_up_to(8)?;
    loop {
        let (thread, table) = (random.below(8), random.below(16));
        let writes = random.once_in(50);
        if writes {
            trace.lock(thread, table)?;
        } else {
            trace.read_lock(thread, table)?;
        }
        for _ in 0..8 {
            trace.access(
                writes,
                thread,
                TABLES + table * 4096 + random.below(512) * 8,
                8,
            )?;
        }
        trace.unlock(thread, table)?;
    }
}

/// 16 threads and 4,096 records, each under a pair of locks of its own, with eight more locks that each
/// thread holds in read mode and one that is its own: many thousand locksets.
fn locksets(trace: &mut Trace, random: &mut Random) -> Step {
    trace.fork_up_to(16)?;
    for thread in 0..16 {
        (0..8).try_for_each(|lock| trace.read_lock(thread, 4000 + lock))?;
    }
    loop {
        let (thread, record) = (random.below(16), random.below(4096));
        let (row, column, own) = (1000 + record / 64, 2000 + record % 64, 3000 + thread);
        let has_own = random.once_in(2);
        if has_own {
            trace.lock(thread, own)?;
        }
        trace.lock(thread, row)?;
        trace.lock(thread, column)?;
        for field in 0..3 {
            let writes = random.once_in(8);
            trace.access(writes, thread, TABLES + record * 32 + field * 8, 8)?;
        }
        trace.unlock(thread, column)?;
        trace.unlock(thread, row)?;
        if has_own {
            trace.unlock(thread, own)?;
        }
    }
}

/// 20 threads read 8,192 words, in an order of their own for each word: some 100,000 thread sets.
fn thread_sets(trace: &mut Trace, random: &mut Random) -> Step {
    trace.fork_up_to(20)?;
    loop {
        let (thread, lock) = (random.below(20), random.below(16));
        trace.read_lock(thread, lock)?;
        for _ in 0..10 {
            trace.read(thread, TABLES + lock * 4096 + random.below(512) * 4, 4)?;
        }
        trace.unlock(thread, lock)?;
    }
}

/// Thread 1 writes words that thread 0 owned under every set of 18 locks but two, in Gray code: from
/// some 541,000 events on the table of sets is just full (262,144, with the empty set and one thread set).
fn full_sets(trace: &mut Trace, random: &mut Random) -> Step {
    trace.fork(0, 1)?;
    for step in 1..=262_142_u64 {
        let word = TABLES + 4 * (step - 1);
        if step % 16 == 1 {
            trace.write(0, word, 64)?;
        }
        let lock = step.trailing_zeros() as u64;
        if (step ^ (step >> 1)) >> lock & 1 == 1 {
            trace.lock(1, 100 + lock)?;
        } else {
            trace.unlock(1, 100 + lock)?;
        }
        trace.write(1, word, 4)?;
    }
    loop {
        trace.read(0, STACKS + random.below(64) * 4, 4)?;
    }
}

/// 8 threads allocate, fill, use and free 100,000 blocks of 16 to 192 bytes, four events a round.
fn heap(trace: &mut Trace, random: &mut Random) -> Step {
    trace.fork_up_to(8)?;
    loop {
        let (thread, block) = (random.below(8), random.below(100_000));
        let (at, length) = (HEAP + block * 256, 16 * (1 + block % 12));
        trace.three("alloc", thread, at, length)?;
        trace.write(thread, at, length.min(64))?;
        trace.access(
            random.once_in(3),
            thread,
            at + random.below(length / 8) * 8,
            8,
        )?;
        trace.three("free", thread, at, length)?;
    }
}

/// 4 threads allocate blocks of 1 KiB to 1 MiB, mostly not aligned to pages, write to 16 places of each, and free them: one event clears
/// up to 1,025 pages, most of them never touched.
fn large_blocks(trace: &mut Trace, random: &mut Random) -> Step {
    trace.fork_up_to(4)?;
    loop {
        let thread = random.below(4);
        let at = HEAP + thread * APART + 16 * random.below(0x4000);
        let length = 1024 << random.below(11);
        trace.three("alloc", thread, at, length)?;
        for _ in 0..16 {
            trace.write(thread, at + random.below(length / 8) * 8, 8)?;
        }
        trace.three("free", thread, at, length)?;
    }
}

/// 8 threads copy buffers by 64 bytes, one in four not aligned, and one in four to shared memory under
/// a lock: 16 or 17 words an event, and pages that an access straddles.
fn copies(trace: &mut Trace, random: &mut Random) -> Step {
    const LOCK: u64 = 3;
    trace.fork_up_to(8)?;
    loop {
        let (thread, is_shared) = (random.below(8), random.once_in(4));
        let shift = if random.once_in(4) {
            1 + random.below(63)
        } else {
            0
        };
        let from = HEAP + thread * APART + random.below(0x1000) * 64 + shift;
        let to = if is_shared {
            TABLES + random.below(64) * 512
        } else {
            from + 0x10_0000
        };
        if is_shared {
            trace.lock(thread, LOCK)?;
        }
        for part in 0..8 {
            trace.read(thread, from + 64 * part, 64)?;
            trace.write(thread, to + 64 * part, 64)?;
        }
        if is_shared {
            trace.unlock(thread, LOCK)?;
        }
    }
}

/// 4 threads over 256 words under 4 locks: memory is not to grow with the length of the trace.
fn few(trace: &mut Trace, random: &mut Random) -> Step {
    trace.fork_up_to(4)?;
    loop {
        let (thread, lock) = (random.below(4), random.below(4));
        trace.lock(thread, lock)?;
        for _ in 0..8 {
            trace.access(
                random.once_in(2),
                thread,
                TABLES + lock * 256 + random.below(64) * 4,
                4,
            )?;
        }
        trace.unlock(thread, lock)?;
    }
}

/// 4 threads make blocks of 64 bytes, and put them into a queue under one lock; 4 others take them out, read and free them. Each
/// block is handed over by a message: two segments a block, so 9 million events have as many as there may be.
fn queue(trace: &mut Trace, random: &mut Random) -> Step {
    const LOCK: u64 = 1;
    const BLOCKS: u64 = 524_000;
    const MOST_QUEUED: u64 = 64;
    let block = |item: u64| HEAP + item % 4096 * 64;
    let entry = |item: u64| TABLES + item % MOST_QUEUED * 8;
    trace.fork_up_to(8)?;
    let (mut put, mut taken) = (0, 0);
    while taken < BLOCKS {
        let may_put = put < BLOCKS && put - taken < MOST_QUEUED;
        if put == taken || may_put && random.once_in(2) {
            let thread = random.below(4);
            trace.three("alloc", thread, block(put), 64)?;
            (0..4).try_for_each(|part| trace.write(thread, block(put) + 16 * part, 8))?;
            trace.lock(thread, LOCK)?;
            trace.write(thread, entry(put), 8)?;
            trace.send(thread, put)?;
            trace.unlock(thread, LOCK)?;
            put += 1;
        } else {
            let thread = 4 + random.below(4);
            trace.lock(thread, LOCK)?;
            trace.read(thread, entry(taken), 8)?;
            trace.receive(thread, taken)?;
            trace.unlock(thread, LOCK)?;
            (0..4).try_for_each(|part| trace.read(thread, block(taken) + 16 * part, 8))?;
            trace.three("free", thread, block(taken), 64)?;
            taken += 1;
        }
    }
    loop {
        trace.read(0, STACKS + random.below(64) * 4, 4)?;
    }
}

struct Wanted {
    shape: String,
    events: u64,
    seed: u64,
    children: u64,
}

/// The command line, or what is wrong with it.
fn wanted() -> Result<Wanted, String> {
    let mut wanted = Wanted {
        shape: String::new(),
        events: 0,
        seed: 1,
        children: 1023,
    };
    let mut words = std::env::args().skip(1);
    while let Some(name) = words.next() {
        let value = words.next().ok_or_else(|| format!("{name} has no value"))?;
        let number = || {
            value
                .parse()
                .map_err(|_| format!("{name} {value} is no number"))
        };
        match name.as_str() {
            "--shape" => wanted.shape = value,
            "--events" => wanted.events = number()?,
            "--seed" => wanted.seed = number()?,
            "--children" => wanted.children = number()?,
            _ => return Err(format!("{name} is unknown")),
        }
    }
    if !(1..=1023).contains(&wanted.children) {
        return Err("--children is not 1 to 1023".to_string());
    }
    Ok(wanted)
}

fn write_trace(wanted: &Wanted) -> Result<(), String> {
    let mut random = Random(wanted.seed);
    let writer = BufWriter::with_capacity(1 << 20, io::stdout().lock());
    let mut trace = Trace {
        writer,
        left: wanted.events,
    };
    let stop = match wanted.shape.as_str() {
        "private" => private(&mut trace, &mut random),
        "waves" => waves(&mut trace, &mut random, wanted.children),
        "races" => races(&mut trace, &mut random),
        "scatter" => scatter(&mut trace, &mut random),
        "counters" => counters(&mut trace, &mut random),
        "readers" => readers(&mut trace, &mut random),
        "locksets" => locksets(&mut trace, &mut random),
        "thread-sets" => thread_sets(&mut trace, &mut random),
        "full-sets" => full_sets(&mut trace, &mut random),
        "heap" => heap(&mut trace, &mut random),
        "large-blocks" => large_blocks(&mut trace, &mut random),
        "copies" => copies(&mut trace, &mut random),
        "few" => few(&mut trace, &mut random),
        "queue" => queue(&mut trace, &mut random),
        other => return Err(format!("no shape is called {other:?}")),
    };
    match stop {
        Err(Stop::Failed(error)) => Err(error.to_string()),
        _ => trace.writer.flush().map_err(|error| error.to_string()),
    }
}

fn main() -> ExitCode {
    match wanted().and_then(|wanted| write_trace(&wanted)) {
        Ok(()) => ExitCode::SUCCESS,
        Err(why) => {
            eprintln!("generate: {why}");
            ExitCode::FAILURE
        }
    }
}
