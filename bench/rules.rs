//! What the Rust contestants share: the checks of a call, the steps of sets of states, and which letters can be added.

use crate::input::Profile;

/// The numbers of a record, and those of them that have the counts.
pub const RECORD: usize = 10;
pub const COUNTS: usize = 8;

/// The most letters of a log.
const MOST: usize = 4000;

/// Counts as one number of 256 bits, letter i in bits 16 i and up. To add a fixed letter keeps the order of these numbers.
#[derive(Clone, Copy, PartialEq, Eq, PartialOrd, Ord, Hash)]
pub struct Counts {
    high: u128,
    low: u128,
}

/// Four numbers from place `from` on as one.
fn joined(numbers: &[u32; COUNTS], from: usize) -> u128 {
    (0..4).fold(0, |joined, i| joined | u128::from(numbers[from + i]) << (32 * i))
}

impl Counts {
    pub const NONE: Counts = Counts { high: 0, low: 0 };

    /// Not the counts of any prefix: they total at most 4,000.
    pub const NOTHING: Counts = Counts { high: u128::MAX, low: u128::MAX };

    /// As a record has them: letter i in number i div 2, the even letter in the low half.
    pub fn of(numbers: &[u32; COUNTS]) -> Counts {
        Counts { high: joined(numbers, 4), low: joined(numbers, 0) }
    }

    pub fn numbers(self) -> [u32; COUNTS] {
        std::array::from_fn(|i| if i < 4 { (self.low >> (32 * i)) as u32 } else { (self.high >> (32 * (i - 4))) as u32 })
    }

    /// The count of each letter.
    fn each(self) -> [u16; 16] {
        std::array::from_fn(|a| if a < 8 { (self.low >> (16 * a)) as u16 } else { (self.high >> (16 * (a - 8))) as u16 })
    }

    /// One more of letter a.
    pub fn more(self, a: usize) -> Counts {
        let one = 1 << (16 * (a & 7));
        if a < 8 {
            Counts { low: self.low + one, ..self }
        } else {
            Counts { high: self.high + one, ..self }
        }
    }
}

#[derive(Debug, PartialEq)]
pub struct Answer {
    pub verdict: bool,
    pub prefixes: usize,
    pub looks: u64,
}

#[derive(Debug, PartialEq)]
pub struct Refusal {
    pub number: u32,
    pub place: usize,
}

fn refused(number: u32) -> Result<(), Refusal> {
    Err(Refusal { number, place: 0 })
}

/// The refusals 2, 4 and 6 to 9 of documents 01 and 02, the lowest first.
pub fn check(p: &Profile, log: &[u8], order: &[u8]) -> Result<(), Refusal> {
    let (k, s) = (p.k, p.s);
    if !(1..=16).contains(&k) || !(1..=32).contains(&s) || p.start >= s || p.masks.len() != k || p.moves.len() != s * k {
        return refused(2);
    }
    if p.masks.iter().enumerate().any(|(i, &m)| u32::from(m) >> k != 0 || m >> i & 1 == 1) {
        return refused(4);
    }
    if p.moves.iter().chain([&p.finals]).any(|&set| u64::from(set) >> s != 0) {
        return refused(6);
    }
    if log.len() > MOST {
        return refused(7);
    }
    if let Some(place) = log.iter().position(|&a| usize::from(a) >= k) {
        return Err(Refusal { number: 8, place });
    }
    if order.len() < log.len() {
        return refused(9);
    }
    Ok(())
}

/// The moves by letter, so that a step of a set of states reads one row.
pub struct Steps {
    moves: [[u32; 32]; 16],
    s: usize,
}

impl Steps {
    pub fn new(p: &Profile) -> Steps {
        let mut moves = [[0; 32]; 16];
        for (q, row) in p.moves.chunks_exact(p.k).enumerate() {
            for (a, &set) in row.iter().enumerate() {
                moves[a][q] = set;
            }
        }
        Steps { moves, s: p.s }
    }

    /// The states to which letter a leads from a set. A turn for each state without a branch becomes vector code, which the turns for the
    /// states of the set alone do not.
    pub fn forward(&self, set: u32, a: usize) -> u32 {
        let row = &self.moves[a][..self.s];
        row.iter().enumerate().fold(0, |out, (q, &to)| out | if set >> q & 1 == 1 { to } else { 0 })
    }

    /// The states from which letter a leads into a set.
    pub fn backward(&self, set: u32, a: usize) -> u32 {
        let row = &self.moves[a][..self.s];
        row.iter().enumerate().fold(0, |out, (q, &to)| out | u32::from(to & set != 0) << q)
    }
}

/// The places of each letter's events, for what can be added to a prefix without a scan of the log.
pub struct Events {
    pub k: usize,
    pub end: u16,
    /// The places of the events by letter, the log's length behind each letter's.
    places: [u16; MOST + 16],
    starts: [usize; 16],
    /// The letters that each letter may not pass, itself aside.
    pub dependent: [u16; 16],
    /// The letters that each letter may pass; those that it may not pass and that may pass it; those that may not pass it, itself among them.
    pub passed: [u32; 16],
    pub one_way: [u32; 16],
    pub held: [u32; 16],
}

impl Events {
    pub fn new(p: &Profile, log: &[u8]) -> Events {
        let end = log.len() as u16;
        let mut places = [end; MOST + 16];
        let mut starts = [0; 16];
        let mut at = 0;
        for a in 0..p.k {
            starts[a] = at;
            for (i, _) in log.iter().enumerate().filter(|(_, &b)| usize::from(b) == a) {
                places[at] = i as u16;
                at += 1;
            }
            at += 1;
        }
        let all = (1u32 << p.k) - 1;
        let mut dependent = [0; 16];
        let (mut passed, mut one_way, mut held) = ([0; 16], [0; 16], [0; 16]);
        for a in 0..p.k {
            let keeps = |b: &usize| *b != a && p.masks[*b] >> a & 1 == 0;
            dependent[a] = (0..p.k).filter(keeps).fold(0, |set, b| set | 1 << b);
            passed[a] = all & !u32::from(dependent[a]) & !(1 << a);
            one_way[a] = u32::from(dependent[a] & p.masks[a]);
            held[a] = all & !u32::from(p.masks[a]);
        }
        Events { k: p.k, end, places, starts, dependent, passed, one_way, held }
    }

    /// The place of the event of letter a that has so many of them before it.
    pub fn next(&self, a: usize, count: usize) -> u16 {
        self.places[self.starts[a & 15] + count]
    }

    /// The letters of `tested` that can be added to a prefix.
    pub fn addable_of(&self, counts: &[u16; 16], tested: u32) -> u32 {
        let next = |a: usize| self.next(a, usize::from(counts[a & 15]));
        let can = |a: &usize| next(*a) < self.end && letters(self.dependent[*a & 15].into()).all(|b| next(*a) < next(b));
        letters(tested).filter(can).fold(0, |set, a| set | 1 << a)
    }

    /// The letters that can be added to a prefix: each has an event left, and those that it may not pass have theirs later.
    pub fn addable(&self, c: Counts) -> u32 {
        let counts = c.each();
        let mut next = [0; 16];
        for a in 0..self.k {
            next[a] = self.places[self.starts[a] + usize::from(counts[a])];
        }
        (0..self.k).filter(|&a| self.comes_next(&next, a)).fold(0, |set, a| set | 1 << a)
    }

    pub fn comes_next(&self, next: &[u16; 16], a: usize) -> bool {
        let own = next[a];
        own < self.end && letters(self.dependent[a].into()).all(|b| own < next[b])
    }
}

/// The letters of a set, the smallest first.
pub fn letters(set: u32) -> impl Iterator<Item = usize> {
    let mut rest = set;
    std::iter::from_fn(move || {
        let a = rest.trailing_zeros() as usize;
        rest &= rest.wrapping_sub(1);
        (a < 32).then_some(a)
    })
}
