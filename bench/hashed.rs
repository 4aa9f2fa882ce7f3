//! The same sets by a hash map for each total, from counts to sets.

use crate::input::Profile;
use crate::rules::{check, letters, Answer, Counts, Events, Refusal, Steps};
use std::collections::HashMap;
use std::hash::{BuildHasherDefault, Hasher};

/// Multiplies the halves of each number of the counts, mixed with a constant and with what came before, and folds the product.
#[derive(Default)]
struct Folded(u64);

impl Hasher for Folded {
    fn write(&mut self, _: &[u8]) {
        unreachable!("counts are hashed as two numbers")
    }

    fn write_u128(&mut self, c: u128) {
        let low = self.0 ^ c as u64 ^ 0x9e37_79b9_7f4a_7c15;
        let high = (c >> 64) as u64 ^ 0xd6e8_feb8_6659_fd93;
        let product = u128::from(low) * u128::from(high);
        self.0 = product as u64 ^ (product >> 64) as u64;
    }

    fn finish(&self) -> u64 {
        self.0
    }
}

#[derive(Default)]
struct Sets {
    forward: u32,
    backward: u32,
    addable: u32,
}

type Level = HashMap<Counts, Sets, BuildHasherDefault<Folded>>;

/// The next total, as a rule somewhat larger; the allowance spares most rehashing.
fn next_total(level: &mut Level, steps: &Steps, events: &Events) -> Level {
    let mut next = Level::with_capacity_and_hasher(level.len() + level.len() / 4 + 16, Default::default());
    for (&c, sets) in level {
        sets.addable = events.addable(c);
        for a in letters(sets.addable) {
            next.entry(c.more(a)).or_default().forward |= steps.forward(sets.forward, a);
        }
    }
    next
}

fn backward(level: &mut Level, next: &Level, steps: &Steps) {
    for (&c, sets) in level {
        for a in letters(sets.addable) {
            sets.backward |= steps.backward(next[&c.more(a)].backward, a);
        }
    }
}

fn choose(next: &Level, k: usize, c: Counts, states: u32, steps: &Steps) -> usize {
    let taken = |a: &usize| next.get(&c.more(*a)).is_some_and(|sets| steps.forward(states, *a) & sets.backward != 0);
    (0..k).find(taken).expect("the backward set of the prefix has a state reached")
}

pub fn judge(p: &Profile, log: &[u8], order: &mut [u8]) -> Result<Answer, Refusal> {
    check(p, log, order)?;
    let (steps, events) = (Steps::new(p), Events::new(p, log));
    let start = 1 << p.start;
    let mut levels = vec![Level::default()];
    levels[0].insert(Counts::NONE, Sets { forward: start, ..Sets::default() });
    for t in 0..log.len() {
        let next = next_total(&mut levels[t], &steps, &events);
        levels.push(next);
    }
    for sets in levels[log.len()].values_mut() {
        sets.backward = p.finals;
    }
    for t in (0..log.len()).rev() {
        let (before, next) = levels.split_at_mut(t + 1);
        backward(&mut before[t], &next[0], &steps);
    }
    let verdict = levels[0][&Counts::NONE].backward & start != 0;
    if verdict {
        let (mut c, mut states) = (Counts::NONE, start);
        for (t, place) in order[..log.len()].iter_mut().enumerate() {
            let a = choose(&levels[t + 1], p.k, c, states, &steps);
            *place = a as u8;
            c = c.more(a);
            states = steps.forward(states, a);
        }
    }
    let prefixes = levels.iter().map(Level::len).sum();
    let looks = levels.iter().flat_map(Level::values).map(|sets| u64::from(sets.addable.count_ones())).sum();
    Ok(Answer { verdict, prefixes, looks })
}
