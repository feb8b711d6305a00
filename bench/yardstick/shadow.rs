//! Shadow memory: a cell of 12 bytes for each word of 4, in pages of 256 cells that are found by hash.

use std::alloc::{alloc_zeroed, handle_alloc_error, Layout};

/// What is known of a word.
#[derive(Clone, Copy, PartialEq, Eq)]
#[repr(u32)]
pub enum State {
    New = 0,
    Exclusive = 1,
    SharedRead = 2,
    SharedModified = 3,
}

/// A state with its two numbers: the segment and 0 of an exclusive word, the thread set and the
/// lockset of a shared one. The state and the first number stand in one integer, so that two cells
/// are compared in two steps. Zero bytes are the cell of a new word.
#[derive(Clone, Copy)]
#[repr(C, packed(4))]
pub struct Cell {
    state_and_first: u64,
    second: u32,
}

impl Cell {
    pub const NEW: Cell = Cell {
        state_and_first: 0,
        second: 0,
    };

    #[inline(always)]
    fn make(state: State, first: u32, second: u32) -> Self {
        Cell {
            state_and_first: state as u64 | (first as u64) << 32,
            second,
        }
    }

    #[inline(always)]
    pub fn exclusive(segment: u32) -> Self {
        Cell::make(State::Exclusive, segment, 0)
    }

    #[inline(always)]
    pub fn shared(is_modified: bool, threads: u32, locks: u32) -> Self {
        Cell::make(
            if is_modified {
                State::SharedModified
            } else {
                State::SharedRead
            },
            threads,
            locks,
        )
    }

    #[inline(always)]
    pub fn state(self) -> State {
        match self.state_and_first as u32 {
            0 => State::New,
            1 => State::Exclusive,
            2 => State::SharedRead,
            _ => State::SharedModified,
        }
    }

    #[inline(always)]
    pub fn first(self) -> u32 {
        (self.state_and_first >> 32) as u32
    }

    #[inline(always)]
    pub fn second(self) -> u32 {
        self.second
    }

    /// Shared-Modified with no lock in common: the words that are reported.
    #[inline(always)]
    pub fn is_racy(self) -> bool {
        self.state() == State::SharedModified && self.second == 0
    }

    #[inline(always)]
    pub fn equals(self, other: Cell) -> bool {
        self.state_and_first == other.state_and_first && self.second == other.second
    }
}

pub const WORDS_OF_PAGE: u64 = 256;
pub type Page = [Cell; WORDS_OF_PAGE as usize];

/// Pages that are allocated at a time, some 1 MiB.
const PAGES_OF_BLOCK: usize = 340;

#[derive(Clone, Copy)]
struct Entry {
    /// The number of the page plus 1; 0 where the entry is free.
    key: u64,
    page: *mut Page,
}

const FREE: Entry = Entry {
    key: 0,
    page: std::ptr::null_mut(),
};

/// The pages that were touched. They live as long as the process.
pub struct Shadow {
    table: Vec<Entry>,
    /// The bits of a hash that are not used, 64 less those that number the table's entries.
    shift: u32,
    pages: usize,
    /// Pages of the last block that are not in use yet.
    spare: *mut Page,
    spares: usize,
    /// The page that was found last.
    last_number: u64,
    last: *mut Page,
}

impl Shadow {
    pub fn new() -> Self {
        Shadow {
            table: vec![FREE; 1 << 10],
            shift: 64 - 10,
            pages: 0,
            spare: std::ptr::null_mut(),
            spares: 0,
            last_number: u64::MAX,
            last: std::ptr::null_mut(),
        }
    }

    /// The page with this number (address / 1,024), made where it is not there yet.
    #[inline(always)]
    pub fn page(&mut self, number: u64) -> &mut Page {
        if number != self.last_number {
            self.last = match self.find(number) {
                Ok(page) => page,
                Err(slot) => self.add(number, slot),
            };
            self.last_number = number;
        }
        // SAFETY: the page was made by `add`, is never freed, and is borrowed with the map.
        unsafe { &mut *self.last }
    }

    /// The page with this number, where it was touched.
    pub fn touched_page(&mut self, number: u64) -> Option<&mut Page> {
        // SAFETY: as in `page`.
        self.find(number).ok().map(|page| unsafe { &mut *page })
    }

    #[inline(always)]
    fn slot_of(&self, number: u64) -> usize {
        (number.wrapping_mul(0x9E37_79B9_7F4A_7C15) >> self.shift) as usize
    }

    /// The page, or the slot at which its entry belongs.
    #[inline(always)]
    fn find(&self, number: u64) -> Result<*mut Page, usize> {
        let mask = self.table.len() - 1;
        let mut slot = self.slot_of(number);
        loop {
            // SAFETY: the table has 2^(64 - shift) entries, and the mask is one less.
            let entry = unsafe { self.table.get_unchecked(slot) };
            if entry.key == number + 1 {
                return Ok(entry.page);
            }
            if entry.key == 0 {
                return Err(slot);
            }
            slot = (slot + 1) & mask;
        }
    }

    #[inline(never)]
    fn add(&mut self, number: u64, mut slot: usize) -> *mut Page {
        if 2 * (self.pages + 1) > self.table.len() {
            self.grow();
            slot = self.free_slot(number);
        }
        if self.spares == 0 {
            self.spare = new_block();
            self.spares = PAGES_OF_BLOCK;
        }
        let page = self.spare;
        // SAFETY: the block has `spares` pages from here on.
        self.spare = unsafe { self.spare.add(1) };
        self.spares -= 1;
        self.pages += 1;
        self.table[slot] = Entry {
            key: number + 1,
            page,
        };
        page
    }

    fn grow(&mut self) {
        let doubled = vec![FREE; 2 * self.table.len()];
        let entries = std::mem::replace(&mut self.table, doubled);
        self.shift -= 1;
        for entry in entries.into_iter().filter(|it| it.key != 0) {
            let slot = self.free_slot(entry.key - 1);
            self.table[slot] = entry;
        }
    }

    fn free_slot(&self, number: u64) -> usize {
        let mask = self.table.len() - 1;
        let mut slot = self.slot_of(number);
        while self.table[slot].key != 0 {
            slot = (slot + 1) & mask;
        }
        slot
    }
}

fn new_block() -> *mut Page {
    let layout = Layout::array::<Page>(PAGES_OF_BLOCK).unwrap();
    // SAFETY: the layout has a size, and zero bytes are cells of new words.
    let block = unsafe { alloc_zeroed(layout) } as *mut Page;
    if block.is_null() {
        handle_alloc_error(layout);
    }
    block
}
