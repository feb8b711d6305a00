//! Sets of thread and lock numbers, each of which has one number of its own; the empty set has 0.

const MOST_SETS: usize = 262_144;
/// Remembered answers of `with_member`.
const REMEMBERED: usize = 1024;
const GOLDEN: u64 = 0x9E37_79B9_7F4A_7C15;

/// No further set has room.
pub struct Full;

#[derive(Clone, Copy)]
struct Remembered {
    /// The set and the member in one, plus 1; 0 where nothing is remembered.
    key: u64,
    answer: u32,
}

pub struct Sets {
    /// The members of all sets, one set behind the other, and where those of each set stand.
    members: Vec<u16>,
    places: Vec<(u32, u32)>,
    hashes: Vec<u32>,
    /// A table with open addressing: the number of a set plus 1, and 0 where it is free.
    table: Vec<u32>,
    remembered: Vec<Remembered>,
    /// The set that is being looked up.
    sought: Vec<u16>,
}

#[inline(always)]
fn hash(members: &[u16]) -> u32 {
    let mut hash = GOLDEN ^ members.len() as u64;
    for member in members {
        hash = (hash ^ *member as u64).wrapping_mul(0xFF51_AFD7_ED55_8CCD);
        hash ^= hash >> 32;
    }
    hash as u32
}

impl Sets {
    pub fn new() -> Self {
        let mut table = vec![0; 1024];
        let empty = hash(&[]);
        table[empty as usize & 1023] = 1;
        Sets {
            members: Vec::new(),
            places: vec![(0, 0)],
            hashes: vec![empty],
            table,
            remembered: vec![Remembered { key: 0, answer: 0 }; REMEMBERED],
            sought: Vec::new(),
        }
    }

    #[inline(always)]
    pub fn members(&self, set: u32) -> &[u16] {
        let (at, count) = self.places[set as usize];
        &self.members[at as usize..(at + count) as usize]
    }

    /// The number of the set with these members, which rise.
    pub fn number_of(&mut self, members: &[u16]) -> Result<u32, Full> {
        self.sought.clear();
        self.sought.extend_from_slice(members);
        self.number_of_sought()
    }

    fn number_of_sought(&mut self) -> Result<u32, Full> {
        let hash = hash(&self.sought);
        let mask = self.table.len() - 1;
        let mut slot = hash as usize & mask;
        while self.table[slot] != 0 {
            let set = self.table[slot] - 1;
            if self.hashes[set as usize] == hash && self.members(set) == &self.sought[..] {
                return Ok(set);
            }
            slot = (slot + 1) & mask;
        }
        let set = self.places.len();
        if set == MOST_SETS {
            return Err(Full);
        }
        self.places
            .push((self.members.len() as u32, self.sought.len() as u32));
        self.members.extend_from_slice(&self.sought);
        self.hashes.push(hash);
        self.table[slot] = set as u32 + 1;
        if 2 * (set + 1) > self.table.len() {
            self.grow();
        }
        Ok(set as u32)
    }

    fn grow(&mut self) {
        let mask = 2 * self.table.len() - 1;
        let mut table = vec![0; mask + 1];
        for (set, hash) in self.hashes.iter().enumerate() {
            let mut slot = *hash as usize & mask;
            while table[slot] != 0 {
                slot = (slot + 1) & mask;
            }
            table[slot] = set as u32 + 1;
        }
        self.table = table;
    }

    /// The set with one member more.
    #[inline(always)]
    pub fn with_member(&mut self, set: u32, member: u16) -> Result<u32, Full> {
        let key = ((set as u64) << 16 | member as u64) + 1;
        let slot = (key.wrapping_mul(GOLDEN) >> 54) as usize;
        let remembered = self.remembered[slot];
        if remembered.key == key {
            return Ok(remembered.answer);
        }
        let answer = self.look_up_with_member(set, member)?;
        self.remembered[slot] = Remembered { key, answer };
        Ok(answer)
    }

    #[inline(never)]
    fn look_up_with_member(&mut self, set: u32, member: u16) -> Result<u32, Full> {
        let mut sought = std::mem::take(&mut self.sought);
        sought.clear();
        let members = self.members(set);
        let at = members.partition_point(|it| *it < member);
        let has_member = members.get(at) == Some(&member);
        sought.extend_from_slice(&members[..at]);
        sought.push(member);
        sought.extend_from_slice(&members[at..]);
        self.sought = sought;
        if has_member {
            return Ok(set);
        }
        self.number_of_sought()
    }

    /// What the set has in common with `others`, which rise.
    #[inline(always)]
    pub fn common(&mut self, set: u32, others: &[u16]) -> Result<u32, Full> {
        if set == 0 || others.is_empty() {
            return Ok(0);
        }
        if let [member] = self.members(set) {
            return Ok(if others.contains(member) { set } else { 0 });
        }
        self.look_up_common(set, others)
    }

    #[inline(never)]
    fn look_up_common(&mut self, set: u32, others: &[u16]) -> Result<u32, Full> {
        let mut sought = std::mem::take(&mut self.sought);
        sought.clear();
        let members = self.members(set);
        let mut rest = others;
        for member in members {
            while rest.first().is_some_and(|it| it < member) {
                rest = &rest[1..];
            }
            if rest.first() == Some(member) {
                sought.push(*member);
            }
        }
        let is_whole = sought.len() == members.len();
        self.sought = sought;
        if is_whole {
            return Ok(set);
        }
        self.number_of_sought()
    }
}
