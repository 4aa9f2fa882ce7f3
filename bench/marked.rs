//! The library's algorithm in safe Rust: each total is a merge of the one before, with one cursor for each letter and the removable letters of a record
//! beside its addable ones; one sweep back; the order by searches.

use crate::input::Profile;
use crate::rules::{check, letters, Answer, Events, Refusal, Steps, COUNTS, RECORD};

/// The numbers of the counts, the forward set, and the backward set. Until this is known, the letters that can be added, and 16 bits above them those
/// of which one can be removed.
type Record = [u32; RECORD];

const FORWARD: usize = COUNTS;
const LAST: usize = COUNTS + 1;
const LETTERS: u32 = 0xffff;

/// The counts of a record in words that compare as the counts do, letter 0 first.
type Key = [u64; 4];

fn count(r: &Record, a: usize) -> usize {
    (r[a / 2] >> (16 * (a % 2)) & LETTERS) as usize
}

fn more(r: &Record, a: usize) -> Record {
    let mut next = *r;
    next[a / 2] += 1 << (16 * (a % 2));
    next
}

/// The letters of `tested` that can be added to the counts of a record.
fn addable(events: &Events, r: &Record, tested: u32) -> u32 {
    let next = |a: usize| events.next(a, count(r, a));
    let can = |a: &usize| next(*a) < events.end && letters(events.dependent[*a & 15].into()).all(|b| next(*a) < next(b));
    letters(tested).filter(can).fold(0, |set, a| set | 1 << a)
}

/// The removable letters of a record with one more m: those of the record that m may pass, those that pass m because their last event is later, and m.
fn removable(events: &Events, r: &Record, m: usize) -> u32 {
    let old = r[LAST] >> 16;
    let sure = old & events.passed[m] | 1 << m;
    let rest = old & events.one_way[m];
    if rest == 0 {
        return sure;
    }
    let own = events.next(m, count(r, m));
    let later = |b: &usize| events.next(*b, count(r, *b) - 1) > own;
    letters(rest).filter(later).fold(sure, |set, b| set | 1 << b)
}

/// A cursor for each letter, and the letters whose cursors take part in the search for the least counts, the least last.
struct Cursors {
    at: [usize; 16],
    keys: [Key; 16],
    list: [usize; 16],
    len: usize,
    /// The words of keys that decide: within a total the last letter's count follows from the others.
    words: usize,
    /// The cursor of a takes part where a can be added and none of the later letters that a may pass can be removed.
    part: [u32; 16],
}

impl Cursors {
    fn new(k: usize, events: &Events) -> Cursors {
        let part = std::array::from_fn(|a| 1 << a | (events.passed[a] & !((2u32 << a) - 1)) << 16);
        Cursors { at: [0; 16], keys: [[0; 4]; 16], list: [0; 16], len: 0, words: (k.max(2) - 1).div_ceil(4), part }
    }

    /// Moves the cursor of a to the first record from `from` on to which a can be added; tells whether it takes part there.
    fn seek(&mut self, level: &[Record], from: usize, a: usize) -> bool {
        let mut at = from;
        while at < level.len() && level[at][LAST] >> a & 1 == 0 {
            at += 1;
        }
        self.at[a] = at;
        at < level.len() && level[at][LAST] & self.part[a] == 1 << a
    }

    fn before(&self, a: usize, b: usize) -> bool {
        let mut i = 0;
        while i + 1 < self.words && self.keys[a][i] == self.keys[b][i] {
            i += 1;
        }
        self.keys[a][i] < self.keys[b][i]
    }

    /// Puts the counts that the cursor of a gives, and a into the list at its place.
    fn insert(&mut self, level: &[Record], a: usize) {
        let (record, key) = (&level[self.at[a]], &mut self.keys[a]);
        for (word, pair) in key.iter_mut().zip(record.as_chunks::<2>().0).take(self.words) {
            *word = u64::from(pair[0].rotate_left(16)) << 32 | u64::from(pair[1].rotate_left(16));
        }
        if let Some(word) = key[..self.words].get_mut(a / 4) {
            *word += 1 << (48 - 16 * (a % 4));
        }
        let mut j = self.len;
        while j > 0 && self.before(self.list[j - 1], a) {
            self.list[j] = self.list[j - 1];
            j -= 1;
        }
        self.list[j] = a;
        self.len += 1;
    }
}

/// Puts the records of the total behind a level into `free`; how many, or none where they do not fit.
fn next_total(steps: &Steps, events: &Events, cursors: &mut Cursors, level: &[Record], free: &mut [Record]) -> Option<usize> {
    for a in 0..events.k {
        if cursors.seek(level, 0, a) {
            cursors.insert(level, a);
        }
    }
    let mut put = 0;
    while cursors.len > 0 {
        let slot = free.get_mut(put)?;
        let m = cursors.list[cursors.len - 1] & 15;
        let parent = &level[cursors.at[m]];
        let parents = removable(events, parent, m);
        let mut record = more(parent, m);
        let (mut forward, mut add, mut held, mut parts) = (0, 0, LETTERS, 0);
        for a in letters(parents) {
            let a = a & 15;
            let at = cursors.at[a];
            forward |= steps.forward(level[at][FORWARD], a);
            add |= level[at][LAST] & LETTERS & !(1 << a);
            held &= events.held[a];
            parts |= u32::from(cursors.seek(level, at + 1, a)) << a;
        }
        let tested = held & !add;
        if tested != 0 {
            add |= addable(events, &record, tested);
        }
        record[FORWARD] = forward;
        record[LAST] = add | parents << 16;
        *slot = record;
        put += 1;
        cursors.len -= 1;
        while cursors.len > 0 && parents >> cursors.list[cursors.len - 1] & 1 == 1 {
            cursors.len -= 1;
        }
        for a in letters(parts) {
            cursors.insert(level, a & 15);
        }
    }
    Some(put)
}

/// The number and the bit of letter a's flag: the top four bits of the counts in the last two numbers, which no count needs.
fn flag(a: usize) -> (usize, u32) {
    (6 + a / 8, 1 << (12 + a % 4 + 16 * (a / 4 % 2)))
}

const COUNT_BITS: u32 = 0x0fff_0fff;

/// The backward sets, from the last record to the first; the looks.
fn backward(steps: &Steps, finals: u32, table: &mut [Record]) -> u64 {
    let mut cursors = [table.len(); 16];
    let mut back = finals;
    let mut looks = 0;
    for i in (0..table.len()).rev() {
        let last = table[i][LAST];
        for a in letters(last & LETTERS) {
            let a = a & 15;
            let (number, bit) = flag(a);
            let mut at = cursors[a] - 1;
            while table[at][number] & bit == 0 {
                at -= 1;
            }
            cursors[a] = at;
            back |= steps.backward(table[at][LAST], a);
            looks += 1;
        }
        let r = &mut table[i];
        r[LAST] = back;
        r[6] |= (last >> 16 & 0xf) << 12 | (last >> 20 & 0xf) << 28;
        r[7] |= (last >> 24 & 0xf) << 12 | (last >> 28 & 0xf) << 28;
        back = 0;
    }
    for r in table {
        r[6] &= COUNT_BITS;
        r[7] &= COUNT_BITS;
    }
    looks
}

fn total(r: &Record) -> u32 {
    r[..COUNTS].iter().map(|w| (w & LETTERS) + (w >> 16)).sum()
}

/// Record r stands before the counts of `next`.
fn stands_before(r: &Record, next: &Record, sum: u32) -> bool {
    let own = total(r);
    if own != sum {
        return own < sum;
    }
    let differ = (0..COUNTS).find(|&i| r[i] != next[i]);
    differ.is_some_and(|i| r[i].rotate_left(16) < next[i].rotate_left(16))
}

/// The first record from `low` on and before `high` that does not stand before the counts; looks `near` records behind `low` first.
fn place(table: &[Record], mut low: usize, mut high: usize, mut near: usize, next: &Record) -> usize {
    let sum = total(next);
    while low < high {
        let middle = low + near.min((high - low) / 2);
        if stands_before(&table[middle], next, sum) {
            near = 2 * (middle - low) + 1;
            low = middle + 1;
        } else {
            high = middle;
        }
    }
    low
}

/// The letters of the order, each the smallest whose record is found and whose states meet the record's backward set. The records of larger letters
/// stand before those of smaller ones; where one record stands between, it is the one to look at.
fn earliest(steps: &Steps, k: usize, start: u32, table: &[Record], order: &mut [u8]) {
    let (mut at, mut near, mut states) = (0, 0, start);
    for letter in order {
        let mut end = table.len();
        let mut taken = at;
        for a in 0..k {
            let next = more(&table[at], a);
            let mut here = at + 1;
            if end != at + 2 {
                here = place(table, at + 1, end, near, &next);
                end = here;
            }
            if here == table.len() || table[here][..COUNTS] != next[..COUNTS] {
                continue;
            }
            let reached = steps.forward(states, a);
            if reached & table[here][LAST] != 0 {
                (*letter, states, taken) = (a as u8, reached, here);
                break;
            }
        }
        near = taken - at;
        at = taken;
    }
}

pub fn judge(p: &Profile, log: &[u8], order: &mut [u8], work: &mut [u32]) -> Result<Answer, Refusal> {
    check(p, log, order)?;
    let full = Refusal { number: 10, place: 0 };
    let usable = work.len().min(4_294_967_292);
    let (table, _) = work[..usable].as_chunks_mut::<RECORD>();
    let Some(first) = table.first_mut() else { return Err(full) };
    let (steps, events) = (Steps::new(p), Events::new(p, log));
    let start = 1 << p.start;
    *first = [0; RECORD];
    first[FORWARD] = start;
    first[LAST] = addable(&events, first, (1 << p.k) - 1);
    let mut cursors = Cursors::new(p.k, &events);
    let (mut from, mut end) = (0, 1);
    for _ in log {
        let (before, free) = table.split_at_mut(end);
        let Some(put) = next_total(&steps, &events, &mut cursors, &before[from..], free) else { return Err(full) };
        from = end;
        end += put;
    }
    let table = &mut table[..end];
    let looks = backward(&steps, p.finals, table);
    let verdict = table[0][LAST] & start != 0;
    if verdict {
        earliest(&steps, p.k, start, table, &mut order[..log.len()]);
    }
    Ok(Answer { verdict, prefixes: end, looks })
}
