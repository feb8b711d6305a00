//! The detector: threads, segments, locks and shadow memory.
//!
//! Segments are ordered by vector clocks: of each thread, the greatest of its segments that reaches
//! the present one. The segments of one thread are ordered, so that is enough.

use std::collections::HashMap;
use std::hash::{BuildHasherDefault, Hasher};

use crate::event::{Events, Refusal};
use crate::sets::{Full, Sets};
use crate::shadow::{Cell, Shadow, State, WORDS_OF_PAGE};

const THREADS: usize = 1024;
const LOCKS: usize = 65_536;
const MOST_HELD: usize = 64;
const MOST_SEGMENTS: usize = 1 << 20;
const MOST_KEPT: usize = 65_536;
const LONGEST_ACCESS: u64 = 64;
const LONGEST_BLOCK: u64 = 1 << 20;
/// Stands in place of a predecessor that a segment does not have.
pub const NONE: u32 = u32::MAX;

#[derive(Default)]
struct Thread {
    is_used: bool,
    is_alive: bool,
    segment: u32,
    /// For each thread its greatest segment that reaches the present one, plus 1; 0 for none.
    clock: Vec<u32>,
    /// The locks held in any mode, and those held in write mode; both rise.
    held: Vec<u16>,
    writing: Vec<u16>,
}

/// A message that was sent.
enum Message {
    /// With the segment that its send ended, and the clock of the sender there.
    Pending {
        segment: u32,
        clock: Box<[u32]>,
    },
    Received,
}

/// Spreads the number of a message over 64 bits.
#[derive(Default)]
struct Spread(u64);

impl Hasher for Spread {
    fn write(&mut self, bytes: &[u8]) {
        for byte in bytes {
            self.write_u32(*byte as u32);
        }
    }

    fn write_u32(&mut self, number: u32) {
        self.0 = (self.0 ^ number as u64).wrapping_mul(0x9E37_79B9_7F4A_7C15);
    }

    fn finish(&self) -> u64 {
        self.0 ^ self.0 >> 32
    }
}

pub struct Report {
    pub event: u64,
    pub word: u64,
    pub threads: u32,
    pub thread: u16,
    pub writes: bool,
}

pub struct Detector {
    pub events: u64,
    threads: Box<[Thread; THREADS]>,
    /// One more than the greatest thread that was forked: no clock has an entry from there on.
    numbers: usize,
    messages: HashMap<u32, Message, BuildHasherDefault<Spread>>,
    /// Of each segment its thread and its predecessors.
    pub thread_of: Vec<u16>,
    pub before: Vec<[u32; 2]>,
    /// Of each lock the thread that holds it in write mode, plus 1, and how many hold it in read mode.
    writer: Vec<u16>,
    readers: Vec<u16>,
    pub sets: Sets,
    shadow: Shadow,
    pub reports: Vec<Report>,
    pub races: u64,
}

fn insert(numbers: &mut Vec<u16>, number: u16) {
    numbers.insert(numbers.partition_point(|it| *it < number), number);
}

impl Detector {
    pub fn new() -> Self {
        let mut threads: Box<[Thread; THREADS]> =
            Box::new(std::array::from_fn(|_| Thread::default()));
        let mut clock = vec![0; THREADS];
        clock[0] = 1;
        threads[0] = Thread {
            is_used: true,
            is_alive: true,
            clock,
            ..Thread::default()
        };
        Detector {
            events: 0,
            threads,
            numbers: 1,
            messages: HashMap::default(),
            thread_of: vec![0],
            before: vec![[NONE, NONE]],
            writer: vec![0; LOCKS],
            readers: vec![0; LOCKS],
            sets: Sets::new(),
            shadow: Shadow::new(),
            reports: Vec::new(),
            races: 0,
        }
    }

    /// The acting thread, where its number is in range and it is alive.
    #[inline(always)]
    fn living(&mut self, thread: u16) -> Result<&mut Thread, Refusal> {
        let thread = self
            .threads
            .get_mut(thread as usize)
            .ok_or(Refusal::BadNumber)?;
        if thread.is_alive {
            Ok(thread)
        } else {
            Err(Refusal::NoThread)
        }
    }

    fn room_for(&self, segments: usize) -> Result<(), Refusal> {
        if self.thread_of.len() + segments > MOST_SEGMENTS {
            return Err(Refusal::FullSegments);
        }
        Ok(())
    }

    /// The thread has behind it what this clock has.
    fn take_over(&mut self, thread: u16, clock: &[u32]) {
        for (own, other) in self.threads[thread as usize].clock.iter_mut().zip(clock) {
            *own = (*own).max(*other);
        }
    }

    fn open_segment(&mut self, thread: u16, before: [u32; 2]) {
        let segment = self.thread_of.len() as u32;
        self.thread_of.push(thread);
        self.before.push(before);
        let opener = &mut self.threads[thread as usize];
        opener.segment = segment;
        opener.clock[thread as usize] = segment + 1;
    }

    /// Accesses the words `first..=last`, which are in one page.
    #[inline(always)]
    fn access_page<const WRITES: bool>(
        &mut self,
        thread: u16,
        first: u64,
        last: u64,
    ) -> Result<(), Full> {
        let owned = Cell::exclusive(self.threads[thread as usize].segment);
        let (low, high) = (
            (first % WORDS_OF_PAGE) as usize,
            (last % WORDS_OF_PAGE) as usize,
        );
        let page: *mut _ = self.shadow.page(first / WORDS_OF_PAGE);
        // SAFETY: nothing below asks the shadow memory for a page, so this is the only reference to
        // it; low and high are below the page's length, and low is not above high.
        let cells: &mut [Cell] = unsafe { (*page).get_unchecked_mut(low..=high) };
        let mut at = 0;
        while at < cells.len() {
            // Neighbours mostly have equal cells, which become equal cells: one step serves them all.
            let old = cells[at];
            let mut end = at + 1;
            while end < cells.len() && cells[end].equals(old) {
                end += 1;
            }
            if !old.equals(owned) {
                let new = self.cell_after::<WRITES>(thread, owned, old)?;
                if !new.equals(old) {
                    cells[at..end].fill(new);
                }
                if new.is_racy() && !old.is_racy() {
                    for word in first + at as u64..first + end as u64 {
                        self.report::<WRITES>(4 * word, thread, new.first());
                    }
                }
            }
            at = end;
        }
        Ok(())
    }

    #[inline(always)]
    fn cell_after<const WRITES: bool>(
        &mut self,
        thread: u16,
        owned: Cell,
        old: Cell,
    ) -> Result<Cell, Full> {
        let Thread {
            clock,
            held,
            writing,
            ..
        } = &self.threads[thread as usize];
        let counted = if WRITES { writing } else { held };
        match old.state() {
            State::New => Ok(owned),
            State::Exclusive => {
                let owner = self.thread_of[old.first() as usize];
                if old.first() < clock[owner as usize] {
                    return Ok(owned);
                }
                let threads = self
                    .sets
                    .number_of(&[owner.min(thread), owner.max(thread)])?;
                let locks = self.sets.number_of(counted)?;
                Ok(Cell::shared(WRITES, threads, locks))
            }
            state => {
                let threads = self.sets.with_member(old.first(), thread)?;
                let locks = self.sets.common(old.second(), counted)?;
                Ok(Cell::shared(
                    WRITES || state == State::SharedModified,
                    threads,
                    locks,
                ))
            }
        }
    }

    #[cold]
    #[inline(never)]
    fn report<const WRITES: bool>(&mut self, word: u64, thread: u16, threads: u32) {
        self.races += 1;
        if self.reports.len() < MOST_KEPT {
            self.reports.push(Report {
                event: self.events,
                word,
                threads,
                thread,
                writes: WRITES,
            });
        }
    }
}

/// The first and the last word that `length` bytes from `at` on overlap.
#[inline(always)]
fn words(at: u64, length: u64, longest: u64) -> Result<(u64, u64), Refusal> {
    if length.wrapping_sub(1) >= longest {
        return Err(Refusal::BadLength);
    }
    let last_byte = at.checked_add(length - 1).ok_or(Refusal::AddressEnd)?;
    Ok((at / 4, last_byte / 4))
}

/// The last word that stands in the page of `word`, or `last` where that comes before it.
#[inline(always)]
fn last_in_page(word: u64, last: u64) -> u64 {
    last.min(word | (WORDS_OF_PAGE - 1))
}

impl Events for Detector {
    fn fork(&mut self, parent: u16, child: u16) -> Result<(), Refusal> {
        if child as usize >= THREADS {
            return Err(Refusal::BadNumber);
        }
        let Thread { segment, clock, .. } = self.living(parent)?;
        let (segment, clock) = (*segment, clock.clone());
        if self.threads[child as usize].is_used {
            return Err(Refusal::ChildUsed);
        }
        self.room_for(2)?;
        self.numbers = self.numbers.max(child as usize + 1);
        self.threads[child as usize] = Thread {
            is_used: true,
            is_alive: true,
            clock,
            ..Thread::default()
        };
        self.open_segment(child, [segment, NONE]);
        self.open_segment(parent, [segment, NONE]);
        self.events += 1;
        Ok(())
    }

    fn join(&mut self, parent: u16, child: u16) -> Result<(), Refusal> {
        if child as usize >= THREADS {
            return Err(Refusal::BadNumber);
        }
        let segment = self.living(parent)?.segment;
        if parent == child {
            return Err(Refusal::SelfJoin);
        }
        let joined = &self.threads[child as usize];
        if !joined.is_alive {
            return Err(Refusal::ChildNotAlive);
        }
        if !joined.held.is_empty() {
            return Err(Refusal::ChildHoldsLocks);
        }
        self.room_for(1)?;
        let joined = &mut self.threads[child as usize];
        joined.is_alive = false;
        let (last, clock) = (joined.segment, std::mem::take(&mut joined.clock));
        self.take_over(parent, &clock);
        self.open_segment(parent, [segment.min(last), segment.max(last)]);
        self.events += 1;
        Ok(())
    }

    #[inline(never)]
    fn lock(&mut self, thread: u16, lock: u16) -> Result<(), Refusal> {
        let is_busy = self.writer[lock as usize] != 0 || self.readers[lock as usize] != 0;
        let holder = self.living(thread)?;
        if is_busy {
            return Err(if holder.held.contains(&lock) {
                Refusal::AlreadyHeld
            } else {
                Refusal::LockBusy
            });
        }
        if holder.held.len() == MOST_HELD {
            return Err(Refusal::FullHeld);
        }
        insert(&mut holder.held, lock);
        insert(&mut holder.writing, lock);
        self.writer[lock as usize] = thread + 1;
        self.events += 1;
        Ok(())
    }

    #[inline(never)]
    fn read_lock(&mut self, thread: u16, lock: u16) -> Result<(), Refusal> {
        let has_writer = self.writer[lock as usize] != 0;
        let holder = self.living(thread)?;
        if holder.held.contains(&lock) {
            return Err(Refusal::AlreadyHeld);
        }
        if has_writer {
            return Err(Refusal::LockBusy);
        }
        if holder.held.len() == MOST_HELD {
            return Err(Refusal::FullHeld);
        }
        insert(&mut holder.held, lock);
        self.readers[lock as usize] += 1;
        self.events += 1;
        Ok(())
    }

    #[inline(never)]
    fn unlock(&mut self, thread: u16, lock: u16) -> Result<(), Refusal> {
        let is_writer = self.writer[lock as usize] == thread.wrapping_add(1);
        let holder = self.living(thread)?;
        let at = holder
            .held
            .iter()
            .position(|it| *it == lock)
            .ok_or(Refusal::NotHeld)?;
        holder.held.remove(at);
        if is_writer {
            holder.writing.retain(|it| *it != lock);
            self.writer[lock as usize] = 0;
        } else {
            self.readers[lock as usize] -= 1;
        }
        self.events += 1;
        Ok(())
    }

    #[inline(always)]
    fn access<const WRITES: bool>(
        &mut self,
        thread: u16,
        at: u64,
        length: u64,
    ) -> Result<(), Refusal> {
        if thread as usize >= THREADS {
            return Err(Refusal::BadNumber);
        }
        let (first, last) = words(at, length, LONGEST_ACCESS)?;
        self.living(thread)?;
        self.events += 1;
        let kept = self.reports.len();
        let split = last_in_page(first, last);
        let mut answer = self.access_page::<WRITES>(thread, first, split);
        if split < last && answer.is_ok() {
            answer = self.access_page::<WRITES>(thread, split + 1, last);
        }
        // A refused access reports nothing. (What it left in the cells is not looked at any more.)
        answer.map_err(|Full| {
            self.reports.truncate(kept);
            Refusal::FullSets
        })
    }

    #[inline(never)]
    fn renew(&mut self, thread: u16, at: u64, length: u64) -> Result<(), Refusal> {
        if thread as usize >= THREADS {
            return Err(Refusal::BadNumber);
        }
        let (first, last) = words(at, length, LONGEST_BLOCK)?;
        self.living(thread)?;
        self.events += 1;
        let mut word = first;
        while word <= last {
            let split = last_in_page(word, last);
            if let Some(page) = self.shadow.touched_page(word / WORDS_OF_PAGE) {
                page[(word % WORDS_OF_PAGE) as usize..=(split % WORDS_OF_PAGE) as usize]
                    .fill(Cell::NEW);
            }
            word = split + 1;
        }
        Ok(())
    }

    #[inline(never)]
    fn send(&mut self, thread: u16, message: u32) -> Result<(), Refusal> {
        let segment = self.living(thread)?.segment;
        if self.messages.contains_key(&message) {
            return Err(Refusal::MessageUsed);
        }
        self.room_for(1)?;
        let clock = self.threads[thread as usize].clock[..self.numbers].into();
        self.messages
            .insert(message, Message::Pending { segment, clock });
        self.open_segment(thread, [segment, NONE]);
        self.events += 1;
        Ok(())
    }

    #[inline(never)]
    fn receive(&mut self, thread: u16, message: u32) -> Result<(), Refusal> {
        let segment = self.living(thread)?.segment;
        match self.messages.get(&message) {
            None => return Err(Refusal::NotSent),
            Some(Message::Received) => return Err(Refusal::MessageTaken),
            Some(Message::Pending { .. }) => self.room_for(1)?,
        }
        let taken = self.messages.insert(message, Message::Received);
        if let Some(Message::Pending {
            segment: sent,
            clock,
        }) = taken
        {
            self.take_over(thread, &clock);
            self.open_segment(thread, [segment.min(sent), segment.max(sent)]);
        }
        self.events += 1;
        Ok(())
    }
}
