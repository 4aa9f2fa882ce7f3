//! Random calls of a teacher's view: Paper 12, from its words.
//!
//! The second implementation follows hidden letters from a set until nothing new appears, before and behind every visible letter, and no closure of moves
//! is made. Short visible parts are also judged by their list of reachable ones. Each call that passes 7 and 8 is made again with another log of the same
//! visible part: all that is told and left must be equal. With all letters visible it is compared with the judge.

use crate::reference::{self, refuse, Counts, Profile, Records, Refused, Sets, RECORD};
use crate::{agree, agree_refused, agree_table, as_numbers, buffer_len, call, fumarehi, lend, lent_bytes, lent_numbers, numbers};
use crate::{Checked, Lent, Random, Seen, FUNCTIONS, UNTOLD};

/// Verdicts, answered views with hidden letters, those of more than 255 letters, pairs with one visible part, those of them refused, and views of all
/// letters.
#[derive(Default)]
pub struct Met {
    verdicts: [u64; 2],
    hiding: u64,
    long: u64,
    pairs: [u64; 2],
    all: u64,
}

impl Met {
    pub fn print(&self) {
        let ([no, yes], [pairs, refused]) = (self.verdicts, self.pairs);
        println!(
            "views: verdict 1: {yes}, verdict 0: {no}; answered with hidden letters: {}, of more than 255: {}; pairs of one visible part: {pairs}, refused: {refused}; views of all letters: {}",
            self.hiding, self.long, self.all
        );
    }

    pub fn missing(&self) -> Option<String> {
        let [no, yes] = self.verdicts;
        let rare = no.min(yes) * 5 < no.max(yes).max(1) || self.hiding * 4 < no + yes || self.pairs[1] * 20 < self.pairs[0] || self.all * 20 < no + yes;
        (rare || self.long == 0).then(|| "a verdict of a view, hidden letters, a long log, a refused pair or a view of all letters is rare".into())
    }
}

fn has(set: u32, at: usize) -> bool {
    at < 32 && set >> at & 1 == 1
}

fn visible_part(visible: u32, log: &[u8]) -> Vec<u8> {
    log.iter().copied().filter(|&a| has(visible, a.into())).collect()
}

/// The visible part of a log, and for each of its events how many of each letter must be marked before it.
struct Part<'a> {
    p: &'a Profile,
    visible: u32,
    letters: Vec<u8>,
    places: Vec<Vec<usize>>,
    needs: Vec<Counts>,
}

impl Part<'_> {
    fn new<'a>(p: &'a Profile, visible: u32, log: &[u8]) -> Part<'a> {
        let letters = visible_part(visible, log);
        let mut places = vec![vec![]; p.k];
        let mut needs = vec![];
        for (at, &a) in letters.iter().enumerate() {
            let held = |b: usize| b == a as usize || !reference::independent(&p.masks, b as u8, a);
            needs.push((0..p.k).map(|b| if held(b) { places[b].len() as u16 } else { 0 }).collect());
            places[a as usize].push(at);
        }
        Part { p, visible, letters, places, needs }
    }

    fn step(&self, set: u32, a: usize) -> u32 {
        (0..self.p.s).filter(|&q| has(set, q)).fold(0, |to, q| to | self.p.moves[q * self.p.k + a])
    }

    /// The states that hidden letters lead to from the set.
    fn spread(&self, mut set: u32) -> u32 {
        loop {
            let wider = (0..self.p.k).filter(|&a| !has(self.visible, a)).fold(set, |to, a| to | self.step(set, a));
            if wider == set {
                return set;
            }
            set = wider;
        }
    }

    fn added(&self, counts: &Counts, a: usize) -> Option<Counts> {
        let at = *self.places[a].get(counts[a] as usize)?;
        let allowed = counts.iter().zip(&self.needs[at]).all(|(count, need)| count >= need);
        allowed.then(|| counts.iter().enumerate().map(|(b, &count)| count + (a == b) as u16).collect())
    }

    fn all_added(&self, counts: &Counts) -> Vec<(usize, Counts)> {
        (0..self.p.k).filter_map(|a| self.added(counts, a).map(|more| (a, more))).collect()
    }

    /// The prefixes by total, and their forward sets.
    fn forward(&self) -> Vec<Records> {
        let first = Sets { forward: self.spread(1 << self.p.start), backward: 0 };
        let mut totals = vec![Records::from([(vec![0; self.p.k], first)])];
        for total in 0..self.letters.len() {
            let mut next = Records::new();
            for (counts, sets) in &totals[total] {
                for (a, more) in self.all_added(counts) {
                    next.entry(more).or_insert(Sets { forward: 0, backward: 0 }).forward |= self.spread(self.step(sets.forward, a));
                }
            }
            totals.push(next);
        }
        totals
    }

    /// From each state alone: hidden letters, then a letter into the backward set behind it, or hidden letters alone into the final states.
    fn backward(&self, counts: &Counts, behind: Option<&Records>) -> u32 {
        let leads = |q: usize| {
            let from = self.spread(1 << q);
            match behind {
                None => from & self.p.finals != 0,
                Some(behind) => self.all_added(counts).iter().any(|(a, more)| self.step(from, *a) & behind[more].backward != 0),
            }
        };
        (0..self.p.s).filter(|&q| leads(q)).fold(0, |set, q| set | 1 << q)
    }

    fn records(&self) -> Vec<Records> {
        let mut totals = self.forward();
        for total in (0..totals.len()).rev() {
            let (front, back) = totals.split_at_mut(total + 1);
            for (counts, sets) in front[total].iter_mut() {
                sets.backward = self.backward(counts, back.first());
            }
        }
        totals
    }

    /// The smallest letter at each place with which a final state stays in reach.
    fn order(&self, totals: &[Records]) -> Option<Vec<u8>> {
        let mut counts = vec![0; self.p.k];
        if !has(totals[0][&counts].backward, self.p.start) {
            return None;
        }
        let (mut set, mut order) = (1 << self.p.start, vec![]);
        for behind in &totals[1..] {
            let choices = self.all_added(&counts);
            let (a, more) = choices.into_iter().find(|(a, more)| self.step(self.spread(set), *a) & behind[more].backward != 0).expect("a next letter");
            set = self.step(self.spread(set), a);
            order.push(a as u8);
            counts = more;
        }
        Some(order)
    }

    /// The earliest reachable visible part that is accepted, from the list of all.
    fn order_by_listing(&self) -> Option<Vec<u8>> {
        let accepted = |letters: &Vec<u8>| {
            let first = self.spread(1 << self.p.start);
            letters.iter().fold(first, |set, &a| self.spread(self.step(set, a.into()))) & self.p.finals != 0
        };
        reference::reachable(&self.p.masks, &self.letters).into_iter().find(accepted)
    }
}

struct Told {
    records: Records,
    looks: usize,
    order: Option<Vec<u8>>,
}

fn solve(p: &Profile, visible: u32, log: &[u8]) -> Told {
    let part = Part::new(p, visible, log);
    let totals = part.records();
    let order = part.order(&totals);
    if part.letters.len() <= reference::LISTED {
        assert_eq!(part.order_by_listing(), order, "the reference disagrees with itself: {p:?} {visible:#x} {log:?}");
    }
    let records: Records = totals.into_iter().flatten().collect();
    let looks = records.keys().map(|counts| part.all_added(counts).len()).sum();
    Told { records, looks, order }
}

/// Refusals 2, 4, 6, 20, 7 and 8.
fn entry(p: &Profile, visible: u32, log: &[u8]) -> Result<(), Refused> {
    reference::profile(p)?;
    if visible >> p.k != 0 { refuse(20) } else { reference::letters(p.k, log) }
}

/// Refusals 9 and 10.
fn buffers(told: &Told, needed: usize, order: usize, table: usize) -> Result<(), Refused> {
    reference::room(order, needed)?;
    if table.min(4_294_967_292) / RECORD < told.records.len() { refuse(10) } else { Ok(()) }
}

type Buffers = (Lent<u8>, Lent<u32>);

fn view(p: &Profile, visible: u32, log: &[u8], (order, work): &mut Buffers) -> (u32, [u64; 4]) {
    let mut told = [UNTOLD; 4];
    let number = numbers::view(&lend(p), visible, log, order.lend(), work.lend(), &mut told);
    (number, told)
}

/// After 10 the usable numbers are 0, and a rest stays; after other refusals all stays.
fn agree_refused_buffers(refused: &Refused, (order, work): &Buffers) -> Checked {
    let usable = if refused.number == 10 { work.len() / RECORD * RECORD } else { 0 };
    order.stays("order buffer")?;
    work.begins("table after a refusal", &vec![0; usable])
}

fn agree_told(p: &Profile, told: &Told, answer: (u32, [u64; 4]), (order, work): &Buffers) -> Checked {
    let expected = (0, [0, told.order.is_some() as u64, told.records.len() as u64, told.looks as u64]);
    agree("answer; place, verdict, P, looks", answer, expected)?;
    order.begins("order buffer", told.order.as_deref().unwrap_or_default())?;
    agree_table(p, work, &told.records)
}

fn agree_buffers(what: &str, one: &Buffers, other: &Buffers) -> Checked {
    agree(&format!("{what}: the order buffer"), one.0.now(), other.0.now())?;
    agree(&format!("{what}: the table"), one.1.now(), other.1.now())?;
    other.0.guards_stay("order buffer").and(other.1.guards_stay("table"))
}

/// A log with the same visible part, and hidden letters anywhere.
fn with_other_hidden(random: &mut Random, p: &Profile, visible: u32, log: &[u8]) -> Vec<u8> {
    let hidden: Vec<u8> = (0..p.k).filter(|&a| !has(visible, a)).map(|a| a as u8).collect();
    let mut other = visible_part(visible, log);
    let more = random.pick(&[0, 1, 2, 5, 20]);
    for _ in 0..if hidden.is_empty() { 0 } else { more } {
        if other.len() < reference::MOST {
            let at = random.below(other.len() + 1);
            other.insert(at, random.pick(&hidden));
        }
    }
    other
}

fn mask(random: &mut Random, k: usize) -> u32 {
    let all = ((1u64 << k.min(32)) - 1) as u32;
    let some = random.next() as u32 & all;
    match random.below(12) {
        0 => 0,
        1 | 2 => all,
        3 => some | 1 << random.pick(&[k.min(31), k.min(31), 16, 31]),
        _ => some,
    }
}

/// 4,000 letters, nearly all hidden.
fn hidden_behind(random: &mut Random, p: &Profile, visible: u32, log: &mut Vec<u8>) {
    if let Some(hidden) = (0..p.k.min(16)).find(|&a| !has(visible, a)) {
        let at = random.below(log.len() + 1);
        let many = random.pick(&[reference::MOST, reference::MOST, reference::MOST + 1, 300]).saturating_sub(log.len());
        log.splice(at..at, std::iter::repeat(hidden as u8).take(many));
    }
}

fn table_len(random: &mut Random, needed: usize) -> usize {
    match random.below(8) {
        0 => needed - 1,
        1 => random.below(needed),
        2 => needed,
        _ => needed + random.below(3 * RECORD),
    }
}

struct Asked<'a> {
    p: &'a Profile,
    visible: u32,
    log: &'a [u8],
    lent: Buffers,
}

/// A log with the same visible part, and the judge where all letters are visible.
fn check_others(random: &mut Random, seen: &mut Seen, asked: &Asked, answer: (u32, [u64; 4]), left: &Buffers) -> Checked {
    let Asked { p, visible, log, lent } = asked;
    let other = with_other_hidden(random, p, *visible, log);
    let mut again = lent.clone();
    agree("another log with this visible part", view(p, *visible, &other, &mut again), answer)?;
    agree_buffers("another log with this visible part", &again, left)?;
    seen.views.pairs[0] += 1;
    seen.views.pairs[1] += (answer.0 != 0) as u64;
    if (0..p.k).all(|a| has(*visible, a)) {
        let (mut judged, mut told) = (lent.clone(), [UNTOLD; 4]);
        let number = numbers::judge(&lend(p), log, judged.0.lend(), judged.1.lend(), &mut told);
        agree("the judge", (number, told), answer)?;
        seen.views.all += 1;
        if number != 10 {
            agree_buffers("the judge", &judged, left)?;
        }
    }
    Ok(())
}

fn check_asked(random: &mut Random, seen: &mut Seen, asked: &Asked, passed: Result<(), Refused>, told: Option<&Told>) -> Checked {
    let Asked { p, visible, log, lent } = asked;
    let needed = visible_part(*visible, log).len();
    let expected = passed.and_then(|()| buffers(told.expect("all there is to say"), needed, lent.0.len(), lent.1.len()));
    seen.answer(FUNCTIONS.iter().position(|(name, _)| *name == "view").expect("a function of the list"), expected.as_ref().err());
    let (mut left, mut wrapped) = (lent.clone(), lent.clone());
    let answer = view(p, *visible, log, &mut left);
    let by_wrapper = fumarehi::view(&lend(p), *visible, log, wrapped.0.lend(), wrapped.1.lend());
    agree("the wrapper", as_numbers(by_wrapper, |v| [0, v.has_order as u64, v.prefixes, v.looks]), answer)?;
    agree_buffers("the wrapper", &wrapped, &left)?;
    match &expected {
        Err(refused) => agree_refused(answer, refused).and(agree_refused_buffers(refused, &left))?,
        Ok(()) => {
            let told = told.expect("all there is to say");
            agree_told(p, told, answer, &left)?;
            seen.views.verdicts[told.order.is_some() as usize] += 1;
            seen.views.hiding += (needed < log.len()) as u64;
            seen.views.long += (log.len() > 255) as u64;
        }
    }
    if passed.is_ok() { check_others(random, seen, asked, answer, &left) } else { Ok(()) }
}

pub fn check(random: &mut Random, seen: &mut Seen) -> Checked {
    let (p, mut log) = call(random);
    let visible = mask(random, p.k);
    if random.one_in(12) {
        hidden_behind(random, &p, visible, &mut log);
    }
    let passed = entry(&p, visible, &log);
    let told = passed.is_ok().then(|| solve(&p, visible, &log));
    let prefixes = told.as_ref().map_or(2, |told| told.records.len());
    let (order, work) = (buffer_len(random, visible_part(visible, &log).len()), table_len(random, RECORD * prefixes));
    let lent = (lent_bytes(random, order), lent_numbers(random, work));
    let asked = Asked { p: &p, visible, log: &log, lent };
    check_asked(random, seen, &asked, passed, told.as_ref())
        .map_err(|what| format!("{what}\n  view {visible:#x}, {p:?}, log {log:?}, {order} bytes, {work} numbers"))
}
