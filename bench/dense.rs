//! The same sets in an array with a cell for all counts up to the log's, prefixes or not: a bound rather than a rival, where the array is small enough.

use crate::images::Images;
use crate::input::Profile;
use crate::rules::{check, letters, Answer, Events, Refusal};

/// The most cells.
const MOST: u64 = 1 << 24;

/// A prefix, in the last number of its cell.
const PREFIX: u32 = 1 << 31;

/// The forward set, the backward set, and the letters that can be added.
type Cell = [u32; 3];

/// The array, kept from call to call.
#[derive(Default)]
pub struct Cells(Vec<Cell>);

/// One place for each letter: its events, the cells from one count of it to the next, and its count at the cell at hand.
struct Place {
    events: usize,
    apart: usize,
    count: usize,
}

fn places(p: &Profile, log: &[u8]) -> Option<(Vec<Place>, usize)> {
    let mut size = 1u64;
    let mut places = Vec::new();
    for a in (0..p.k).rev() {
        let events = log.iter().filter(|&&b| usize::from(b) == a).count();
        places.push(Place { events, apart: size as usize, count: 0 });
        size *= events as u64 + 1;
        if size > MOST {
            return None;
        }
    }
    places.reverse();
    Some((places, size as usize))
}

/// On to the counts of the next cell; `next` has the place of each letter's next event.
fn advance(places: &mut [Place], events: &Events, next: &mut [u16; 16]) {
    for (a, place) in places.iter_mut().enumerate().rev() {
        let room = place.count < place.events;
        place.count = if room { place.count + 1 } else { 0 };
        next[a & 15] = events.next(a, place.count);
        if room {
            return;
        }
    }
}

impl Cells {
    /// None where the array would be too large.
    pub fn judge(&mut self, p: &Profile, log: &[u8], order: &mut [u8]) -> Option<Result<Answer, Refusal>> {
        if let Err(refusal) = check(p, log, order) {
            return Some(Err(refusal));
        }
        let (mut places, size) = places(p, log)?;
        let (forward, back, events) = (Images::forward(p), Images::backward(p), Events::new(p, log));
        self.0.clear();
        self.0.resize(size, [0; 3]);
        let start = 1 << p.start;
        self.0[0] = [start, 0, PREFIX];
        let (prefixes, looks) = self.fill(&mut places, &events, &forward);
        self.0[size - 1][1] = p.finals;
        for i in (0..size - 1).rev() {
            let added = self.0[i][2] & !PREFIX;
            self.0[i][1] = letters(added).fold(0, |set, a| set | back.step(self.0[i + places[a].apart][1], a));
        }
        let verdict = self.0[0][1] & start != 0;
        if verdict {
            self.earliest(&places, &forward, start, &mut order[..log.len()]);
        }
        Some(Ok(Answer { verdict, prefixes, looks }))
    }

    fn fill(&mut self, places: &mut [Place], events: &Events, forward: &Images) -> (usize, u64) {
        let (mut prefixes, mut looks) = (0, 0);
        let mut next = [0; 16];
        for a in 0..places.len() {
            next[a] = events.next(a, 0);
        }
        for i in 0..self.0.len() {
            let [set, _, known] = self.0[i];
            if known != 0 {
                let added = (0..places.len()).filter(|&a| events.comes_next(&next, a)).fold(0, |added, a| added | 1 << a);
                for a in letters(added) {
                    let to = &mut self.0[i + places[a].apart];
                    to[0] |= forward.step(set, a);
                    to[2] = PREFIX;
                }
                self.0[i][2] = added | PREFIX;
                prefixes += 1;
                looks += u64::from(added.count_ones());
            }
            advance(places, events, &mut next);
        }
        (prefixes, looks)
    }

    fn earliest(&self, places: &[Place], forward: &Images, start: u32, order: &mut [u8]) {
        let (mut at, mut states) = (0, start);
        for letter in order {
            let taken = |a: &usize| forward.step(states, *a) & self.0[at + places[*a].apart][1] != 0;
            let a = letters(self.0[at][2] & !PREFIX).find(taken).expect("the backward set of the prefix has a state reached");
            *letter = a as u8;
            states = forward.step(states, a);
            at += places[a].apart;
        }
    }
}
