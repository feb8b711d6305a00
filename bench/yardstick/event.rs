//! One line of the trace text: an event, an empty line, a comment, or none of these.

/// Why an event is refused, with the number that is printed.
#[derive(Clone, Copy)]
#[repr(u8)]
pub enum Refusal {
    BadNumber = 2,
    BadLength = 3,
    AddressEnd = 4,
    NoThread = 5,
    ChildUsed = 6,
    SelfJoin = 7,
    ChildNotAlive = 8,
    ChildHoldsLocks = 9,
    AlreadyHeld = 12,
    LockBusy = 13,
    NotHeld = 14,
    FullHeld = 15,
    FullSegments = 16,
    FullSets = 19,
    MessageUsed = 23,
    NotSent = 24,
    MessageTaken = 25,
}

/// What takes the events of a trace.
pub trait Events {
    fn fork(&mut self, parent: u16, child: u16) -> Result<(), Refusal>;
    fn join(&mut self, parent: u16, child: u16) -> Result<(), Refusal>;
    fn lock(&mut self, thread: u16, lock: u16) -> Result<(), Refusal>;
    fn read_lock(&mut self, thread: u16, lock: u16) -> Result<(), Refusal>;
    fn unlock(&mut self, thread: u16, lock: u16) -> Result<(), Refusal>;
    fn access<const WRITES: bool>(
        &mut self,
        thread: u16,
        at: u64,
        length: u64,
    ) -> Result<(), Refusal>;
    /// An alloc or a free.
    fn renew(&mut self, thread: u16, at: u64, length: u64) -> Result<(), Refusal>;
    fn send(&mut self, thread: u16, message: u32) -> Result<(), Refusal>;
    fn receive(&mut self, thread: u16, message: u32) -> Result<(), Refusal>;
}

/// What came of a line.
pub enum Step {
    /// It was accepted or skipped, and the next line begins there.
    To(*const u8),
    Refused(Refusal),
    Bad,
}

/// The value of each hexadecimal digit of either case, and 0xFF for every other byte.
const DIGITS: [u8; 256] = {
    let mut digits = [0xFF; 256];
    let mut value = 0;
    while value < 16 {
        digits[b"0123456789abcdef"[value] as usize] = value as u8;
        digits[b"0123456789ABCDEF"[value] as usize] = value as u8;
        value += 1;
    }
    digits
};

#[cold]
#[inline(never)]
fn long_decimal(digits: &[u8]) -> Option<u64> {
    if digits.len() > 20 {
        return None;
    }
    let value = digits
        .iter()
        .fold(0, |value, digit| value * 10 + (digit - b'0') as u128);
    u64::try_from(value).ok()
}

/// The number at `at`, and where its spelling ends.
///
/// # Safety
/// As for `read_line`, here and below: the bytes from `at` on end in a line feed at the latest.
#[inline(always)]
unsafe fn number(at: *const u8) -> Option<(u64, *const u8)> {
    let first = (*at).wrapping_sub(b'0');
    if first > 9 {
        return None;
    }
    if first == 0 && *at.add(1) == b'x' {
        return hexadecimal(at.add(2));
    }
    let mut value = first as u64;
    let mut end = at.add(1);
    loop {
        let digit = (*end).wrapping_sub(b'0');
        if digit > 9 {
            break;
        }
        value = value.wrapping_mul(10).wrapping_add(digit as u64);
        end = end.add(1);
    }
    let count = end.offset_from(at) as usize;
    if count > 19 {
        value = long_decimal(std::slice::from_raw_parts(at, count))?;
    }
    Some((value, end))
}

#[inline(always)]
unsafe fn hexadecimal(at: *const u8) -> Option<(u64, *const u8)> {
    let mut value = 0;
    let mut end = at;
    loop {
        let digit = DIGITS[*end as usize];
        if digit == 0xFF {
            break;
        }
        value = value << 4 | digit as u64;
        end = end.add(1);
    }
    let count = end.offset_from(at);
    (1 <= count && count <= 16).then_some((value, end))
}

/// Where the next line begins, if a line ends at `at`.
#[inline(always)]
unsafe fn line_end(at: *const u8) -> Option<*const u8> {
    match *at {
        b'\n' => Some(at.add(1)),
        b'\r' if *at.add(1) == b'\n' => Some(at.add(2)),
        _ => None,
    }
}

/// A number that fits a u16, and the place behind the space that follows it.
#[inline(always)]
unsafe fn number_and_space(at: *const u8) -> Option<(u16, *const u8)> {
    let (value, end) = number(at)?;
    (*end == b' ' && value <= 0xFFFF).then_some((value as u16, end.add(1)))
}

#[inline(always)]
unsafe fn two(at: *const u8) -> Option<(u16, u16, *const u8)> {
    let (thread, at) = number_and_space(at)?;
    let (other, end) = number(at)?;
    if other > 0xFFFF {
        return None;
    }
    Some((thread, other as u16, line_end(end)?))
}

#[inline(always)]
unsafe fn message(at: *const u8) -> Option<(u16, u32, *const u8)> {
    let (thread, at) = number_and_space(at)?;
    let (number, end) = number(at)?;
    let message = u32::try_from(number).ok()?;
    Some((thread, message, line_end(end)?))
}

#[inline(always)]
unsafe fn three(at: *const u8, greatest_length: u64) -> Option<(u16, u64, u64, *const u8)> {
    let (thread, at) = number_and_space(at)?;
    let (address, end) = number(at)?;
    if *end != b' ' {
        return None;
    }
    let (length, end) = number(end.add(1))?;
    if length > greatest_length {
        return None;
    }
    Some((thread, address, length, line_end(end)?))
}

/// The bytes of a verb and its space as they are read into a u64, and which bits of that count.
const fn verb(text: &[u8]) -> (u64, u64) {
    let (mut bits, mut mask, mut at) = (0, 0, 0);
    while at < text.len() {
        bits |= (text[at] as u64) << (8 * at);
        mask |= 0xFF << (8 * at);
        at += 1;
    }
    (bits, mask)
}

/// Hands the event of the line at `at` to `events`. Every well-formed event is far shorter than 256
/// bytes, so the limit on a line's length needs no test.
///
/// # Safety
/// From `at` on a line feed stands in the readable memory, and 8 bytes can be read.
#[inline(always)]
pub unsafe fn read_line<E: Events>(events: &mut E, at: *const u8) -> Step {
    let word = (at as *const u64).read_unaligned().to_le();
    macro_rules! begins_with {
        ($text:literal) => {{
            let (bits, mask) = const { verb($text) };
            word & mask == bits
        }};
    }
    macro_rules! hand_over {
        ($numbers:expr, |$a:ident, $b:ident| $call:expr) => {
            match $numbers {
                Some(($a, $b, next)) => answer($call, next),
                None => Step::Bad,
            }
        };
        ($numbers:expr, |$a:ident, $b:ident, $c:ident| $call:expr) => {
            match $numbers {
                Some(($a, $b, $c, next)) => answer($call, next),
                None => Step::Bad,
            }
        };
    }
    if begins_with!(b"write ") {
        hand_over!(three(at.add(6), 0xFF), |t, a, n| events
            .access::<true>(t, a, n))
    } else if begins_with!(b"read ") {
        hand_over!(three(at.add(5), 0xFF), |t, a, n| events
            .access::<false>(t, a, n))
    } else if begins_with!(b"lock ") {
        hand_over!(two(at.add(5)), |t, l| events.lock(t, l))
    } else if begins_with!(b"unlock ") {
        hand_over!(two(at.add(7)), |t, l| events.unlock(t, l))
    } else if begins_with!(b"rdlock ") {
        hand_over!(two(at.add(7)), |t, l| events.read_lock(t, l))
    } else if begins_with!(b"alloc ") {
        hand_over!(three(at.add(6), 0xFFFF_FFFF), |t, a, n| events.renew(t, a, n))
    } else if begins_with!(b"free ") {
        hand_over!(three(at.add(5), 0xFFFF_FFFF), |t, a, n| events.renew(t, a, n))
    } else if begins_with!(b"fork ") {
        hand_over!(two(at.add(5)), |p, c| events.fork(p, c))
    } else if begins_with!(b"join ") {
        hand_over!(two(at.add(5)), |p, c| events.join(p, c))
    } else if begins_with!(b"send ") {
        hand_over!(message(at.add(5)), |t, k| events.send(t, k))
    } else if begins_with!(b"recv ") {
        hand_over!(message(at.add(5)), |t, k| events.receive(t, k))
    } else {
        skip_line(at)
    }
}

#[inline(always)]
fn answer(answer: Result<(), Refusal>, next: *const u8) -> Step {
    match answer {
        Ok(()) => Step::To(next),
        Err(refusal) => Step::Refused(refusal),
    }
}

/// Skips an empty line or a comment.
#[inline(never)]
unsafe fn skip_line(at: *const u8) -> Step {
    if let Some(next) = line_end(at) {
        return Step::To(next);
    }
    if *at != b'#' {
        return Step::Bad;
    }
    let mut end = at;
    while *end != b'\n' {
        end = end.add(1);
    }
    Step::To(end.add(1))
}
