//! The same sets by a hash map that is given all it may have: a prefix is one number, its counts as digits; open addressing, at most half full; each
//! prefix keeps where those with one letter more are, so that neither the way back nor the order looks anything up; the letters that can be added
//! come from those of the parent; all memory is kept from call to call. It leaves no table in order.

use crate::images::Images;
use crate::input::Profile;
use crate::rules::{check, letters, Answer, Events, Refusal};

/// Counts as one number: of 64 bits where it fits, else of 128.
trait Rank: Copy + Default + Eq {
    fn narrowed(rank: u128) -> Self;
    fn plus(self, more: Self) -> Self;
    fn spread(self) -> usize;
}

fn mixed(x: u64) -> usize {
    let x = x.wrapping_mul(0x9e37_79b9_7f4a_7c15);
    (x ^ x >> 32) as usize
}

impl Rank for u64 {
    fn narrowed(rank: u128) -> u64 {
        rank as u64
    }

    fn plus(self, more: u64) -> u64 {
        self + more
    }

    fn spread(self) -> usize {
        mixed(self)
    }
}

impl Rank for u128 {
    fn narrowed(rank: u128) -> u128 {
        rank
    }

    fn plus(self, more: u128) -> u128 {
        self + more
    }

    fn spread(self) -> usize {
        let high = (self >> 64) as u64 ^ 0xd6e8_feb8_6659_fd93;
        mixed((self as u64 ^ 0x9e37_79b9_7f4a_7c15).wrapping_mul(high | 1))
    }
}

#[derive(Clone, Copy, Default)]
struct Slot<R> {
    rank: R,
    /// The total whose prefix is here, in all calls so far; others are as if empty.
    epoch: u32,
    prefix: u32,
}

/// The slots of one total.
#[derive(Default)]
struct Slots<R> {
    slots: Vec<Slot<R>>,
    /// One less than the part in use, a power of two.
    mask: usize,
    used: usize,
    epoch: u32,
}

const FEWEST: usize = 64;

impl<R: Rank> Slots<R> {
    /// Empties the slots for a total of about so many prefixes.
    fn begin(&mut self, expected: usize) {
        if self.slots.is_empty() {
            self.slots = vec![Slot::default(); FEWEST];
        }
        self.epoch += 1;
        self.used = 0;
        let wanted = (4 * expected).next_power_of_two().max(FEWEST);
        self.mask = wanted.min(self.slots.len()) - 1;
    }

    /// The prefix of a rank; the new one where there was none.
    fn entry(&mut self, rank: R, new: u32) -> u32 {
        let mut i = rank.spread() & self.mask;
        loop {
            let slot = &mut self.slots[i];
            if slot.epoch != self.epoch {
                *slot = Slot { rank, epoch: self.epoch, prefix: new };
                self.used += 1;
                return new;
            }
            if slot.rank == rank {
                return slot.prefix;
            }
            i = (i + 1) & self.mask;
        }
    }

    /// Makes room for a prefix's letters: at most half of the slots are used.
    fn reserve(&mut self) {
        if 2 * (self.used + 16) <= self.mask {
            return;
        }
        let size = self.mask + 1;
        let old: Vec<_> = self.slots[..size].iter().filter(|s| s.epoch == self.epoch).copied().collect();
        self.slots[..size].iter_mut().for_each(|s| s.epoch = 0);
        if self.slots.len() < 2 * size {
            self.slots.resize(2 * size, Slot::default());
        }
        self.mask = 2 * size - 1;
        self.used = 0;
        for slot in old {
            self.entry(slot.rank, slot.prefix);
        }
    }

    /// Asks for the slot of a rank ahead of its use, where the slots are more than the nearest memory holds.
    fn fetch(&self, rank: R) {
        if self.mask > 1 << 14 {
            let slot: *const Slot<R> = &self.slots[rank.spread() & self.mask];
            // Sound: the instruction only hints, at an address inside the slice.
            unsafe { std::arch::x86_64::_mm_prefetch::<{ std::arch::x86_64::_MM_HINT_T0 }>(slot.cast()) };
        }
    }
}

#[derive(Clone, Copy, Default)]
struct Prefix<R> {
    rank: R,
    forward: u32,
    backward: u32,
    addable: u32,
    /// Where its part of the links begins: the prefixes with one more of each letter that can be added.
    links: u32,
}

#[derive(Default)]
struct Memory<R> {
    slots: Slots<R>,
    prefixes: Vec<Prefix<R>>,
    counts: Vec<[u16; 16]>,
    links: Vec<u32>,
}

impl<R: Rank> Memory<R> {
    fn judge(&mut self, p: &Profile, log: &[u8], order: &mut [u8], weights: &[u128; 16]) -> Answer {
        let weights = weights.map(R::narrowed);
        let (forward, back, events) = (Images::forward(p), Images::backward(p), Events::new(p, log));
        let start = 1 << p.start;
        self.prefixes.clear();
        self.counts.clear();
        self.links.clear();
        let addable = events.addable_of(&[0; 16], (1 << p.k) - 1);
        self.prefixes.push(Prefix { forward: start, addable, ..Prefix::default() });
        self.counts.push([0; 16]);
        let (mut from, mut end) = (0, 1);
        for _ in log {
            self.slots.begin(end - from);
            for i in from..end {
                self.extend(i, end, &weights, &forward, &events);
            }
            from = end;
            end = self.prefixes.len();
        }
        self.backward(&back, p.finals);
        let verdict = self.prefixes[0].backward & start != 0;
        if verdict {
            self.earliest(&forward, start, &mut order[..log.len()]);
        }
        Answer { verdict, prefixes: self.prefixes.len(), looks: self.links.len() as u64 }
    }

    /// The prefixes with one letter more than prefix i, of a total that ends at `end`.
    fn extend(&mut self, i: usize, end: usize, weights: &[R; 16], forward: &Images, events: &Events) {
        let own = self.prefixes[i];
        self.prefixes[i].links = self.links.len() as u32;
        self.slots.reserve();
        if i + 3 < end {
            let ahead = self.prefixes[i + 3];
            letters(ahead.addable).for_each(|a| self.slots.fetch(ahead.rank.plus(weights[a & 15])));
        }
        for a in letters(own.addable) {
            let a = a & 15;
            let rank = own.rank.plus(weights[a]);
            let reached = forward.step(own.forward, a);
            let new = self.prefixes.len() as u32;
            let at = self.slots.entry(rank, new);
            self.links.push(at);
            if at == new {
                let mut counts = self.counts[i];
                counts[a] += 1;
                let kept = own.addable & !(1 << a);
                let addable = kept | events.addable_of(&counts, events.held[a] & !kept);
                self.prefixes.push(Prefix { rank, forward: reached, addable, ..Prefix::default() });
                self.counts.push(counts);
            } else {
                self.prefixes[at as usize].forward |= reached;
            }
        }
    }

    fn backward(&mut self, back: &Images, finals: u32) {
        let last = self.prefixes.len() - 1;
        self.prefixes[last].backward = finals;
        for i in (0..last).rev() {
            let own = self.prefixes[i];
            let links = &self.links[own.links as usize..];
            let sets = letters(own.addable).zip(links).map(|(a, &at)| back.step(self.prefixes[at as usize].backward, a));
            self.prefixes[i].backward = sets.fold(0, |set, more| set | more);
        }
    }

    fn earliest(&self, forward: &Images, start: u32, order: &mut [u8]) {
        let (mut at, mut states) = (0, start);
        for letter in order {
            let own = &self.prefixes[at];
            let mut choices = letters(own.addable).zip(&self.links[own.links as usize..]);
            let taken = |&(a, &to): &(usize, &u32)| forward.step(states, a) & self.prefixes[to as usize].backward != 0;
            let (a, &to) = choices.find(taken).expect("the backward set of the prefix has a state reached");
            *letter = a as u8;
            states = forward.step(states, a);
            at = to as usize;
        }
    }
}

/// The memory of both kinds of number, kept from call to call.
#[derive(Default)]
pub struct Ranked {
    narrow: Memory<u64>,
    wide: Memory<u128>,
}

impl Ranked {
    pub fn judge(&mut self, p: &Profile, log: &[u8], order: &mut [u8]) -> Result<Answer, Refusal> {
        check(p, log, order)?;
        let mut weights = [0; 16];
        let mut size = 1u128;
        for a in (0..p.k).rev() {
            weights[a] = size;
            size *= 1 + log.iter().filter(|&&b| usize::from(b) == a).count() as u128;
        }
        Ok(if size <= u128::from(u64::MAX) {
            self.narrow.judge(p, log, order, &weights)
        } else {
            self.wide.judge(p, log, order, &weights)
        })
    }
}
