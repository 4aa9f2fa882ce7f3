//! The same algorithm in safe Rust: each total is a merge of the one before, with one cursor for each letter.

use crate::input::Profile;
use crate::rules::{check, letters, Answer, Counts, Events, Refusal, Steps, COUNTS, RECORD};

/// The numbers of the counts, the forward set, and the backward set; until this is known, the letters that can be added.
type Record = [u32; RECORD];

const FORWARD: usize = COUNTS;
const LAST: usize = COUNTS + 1;

fn counts(r: &Record) -> Counts {
    Counts::of(r.first_chunk().expect("a record has its counts first"))
}

fn record(c: Counts, forward: u32, last: u32) -> Record {
    let [w0, w1, w2, w3, w4, w5, w6, w7] = c.numbers();
    [w0, w1, w2, w3, w4, w5, w6, w7, forward, last]
}

/// A letter's place in a total, and the counts that the record there gives by one more of the letter.
#[derive(Clone, Copy)]
struct Cursor {
    at: usize,
    gives: Counts,
}

/// The first record from `from` on to which letter a can be added.
fn seek(level: &[Record], from: usize, a: usize) -> Cursor {
    let found = level[from..].iter().position(|r| r[LAST] >> a & 1 == 1);
    match found {
        Some(i) => Cursor { at: from + i, gives: counts(&level[from + i]).more(a) },
        None => Cursor { at: level.len(), gives: Counts::NOTHING },
    }
}

struct Merge<'a> {
    steps: Steps,
    events: Events,
    k: usize,
    table: &'a mut [Record],
    /// Where each total begins.
    firsts: Vec<usize>,
}

impl Merge<'_> {
    /// Puts the records of the total after the last one; the looks, or none where they do not fit.
    fn next_total(&mut self, t: usize) -> Option<u64> {
        let (from, first) = (self.firsts[t], self.firsts[t + 1]);
        let (before, free) = self.table.split_at_mut(first);
        let level = &before[from..];
        let mut cursors = [Cursor { at: 0, gives: Counts::NOTHING }; 16];
        let cursors = &mut cursors[..self.k];
        for (a, cursor) in cursors.iter_mut().enumerate() {
            *cursor = seek(level, 0, a);
        }
        let mut looks = 0;
        let mut put = 0;
        loop {
            let least = cursors.iter().map(|c| c.gives).min().unwrap_or(Counts::NOTHING);
            if least == Counts::NOTHING {
                break;
            }
            let slot = free.get_mut(put)?;
            let mut forward = 0;
            for (a, cursor) in cursors.iter_mut().enumerate() {
                if cursor.gives == least {
                    forward |= self.steps.forward(level[cursor.at][FORWARD], a);
                    *cursor = seek(level, cursor.at + 1, a);
                }
            }
            let addable = self.events.addable(least);
            looks += u64::from(addable.count_ones());
            *slot = record(least, forward, addable);
            put += 1;
        }
        self.firsts.push(first + put);
        Some(looks)
    }

    /// Puts the backward sets of a total from those of the next.
    fn backward(&mut self, t: usize) {
        let (from, first, end) = (self.firsts[t], self.firsts[t + 1], self.firsts[t + 2]);
        let (level, next) = self.table[from..end].split_at_mut(first - from);
        let mut cursors = [0; 16];
        for r in level {
            let c = counts(r);
            let mut back = 0;
            for a in letters(r[LAST]) {
                let wanted = c.more(a);
                let at = &mut cursors[a & 15];
                while counts(&next[*at]) != wanted {
                    *at += 1;
                }
                back |= self.steps.backward(next[*at][LAST], a);
            }
            r[LAST] = back;
        }
    }

    /// The smallest letter that leads from the states into the backward set of a record of the next total.
    fn choose(&self, t: usize, c: Counts, states: u32) -> usize {
        let level = &self.table[self.firsts[t + 1]..self.firsts[t + 2]];
        let added = |r: &Record| {
            let own = counts(r);
            (0..self.k).find(|&a| own == c.more(a))
        };
        let taken = |(a, r): &(usize, &Record)| self.steps.forward(states, *a) & r[LAST] != 0;
        let choices = level.iter().filter_map(|r| Some((added(r)?, r)));
        choices.filter(taken).map(|(a, _)| a).min().expect("the backward set of the prefix has a state reached")
    }

    fn earliest(&self, start: u32, order: &mut [u8]) {
        let (mut c, mut states) = (Counts::NONE, start);
        for (t, place) in order.iter_mut().enumerate() {
            let a = self.choose(t, c, states);
            *place = a as u8;
            c = c.more(a);
            states = self.steps.forward(states, a);
        }
    }
}

pub fn judge(p: &Profile, log: &[u8], order: &mut [u8], work: &mut [u32]) -> Result<Answer, Refusal> {
    check(p, log, order)?;
    let full = Refusal { number: 10, place: 0 };
    let usable = work.len().min(4_294_967_292);
    let (table, _) = work[..usable].as_chunks_mut::<RECORD>();
    let events = Events::new(p, log);
    let Some(first) = table.first_mut() else { return Err(full) };
    let start = 1 << p.start;
    let addable = events.addable(Counts::NONE);
    *first = record(Counts::NONE, start, addable);
    let mut looks = u64::from(addable.count_ones());
    let mut merge = Merge { steps: Steps::new(p), events, k: p.k, table, firsts: vec![0, 1] };
    for t in 0..log.len() {
        let Some(more) = merge.next_total(t) else { return Err(full) };
        looks += more;
    }
    let prefixes = merge.firsts[log.len() + 1];
    merge.table[prefixes - 1][LAST] = p.finals;
    for t in (0..log.len()).rev() {
        merge.backward(t);
    }
    let verdict = merge.table[0][LAST] & start != 0;
    if verdict {
        merge.earliest(start, &mut order[..log.len()]);
    }
    Ok(Answer { verdict, prefixes, looks })
}
