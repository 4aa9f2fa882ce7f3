//! Random calls for the order closest to what was recorded: Paper 10, from its words.
//!
//! The second implementation takes pairs of a prefix and a state as the places of a graph, an event taken as a way that costs one for each earlier event not
//! yet taken, and finds the fewest swaps to each pair by shortest paths; the order in which the pairs are settled is their rank. On short logs all orders are
//! listed too, as lists of events: their swaps are the pairs that stand the other way round, and every order of every prefix is put before the other events.
//! The same for logs with terms.

use crate::reference::{self, refuse, Counts, Profile, Refused, Solved, LISTED};
use crate::terms::{self, Dated};
use crate::{agree, agree_refused, agree_table, as_numbers, buffer_len, call, fumarehi, lend, lent_bytes, lent_numbers, numbers, table_len};
use crate::{Checked, Lent, Random, Seen, FUNCTIONS, UNTOLD};
use std::cmp::Reverse;
use std::collections::{BTreeMap, BinaryHeap};

/// Verdicts; orders with a budget below all pairs, and with one that covers them; closest orders that are not the judge's, and that are not the log; floors
/// above 0 and below the fewest swaps; logs of more than 255 letters; logs with terms, with events in several of them, and with days that fall; the most
/// swaps of an order.
#[derive(Default)]
pub struct Met {
    verdicts: [u64; 2],
    covered: [u64; 2],
    other: u64,
    swapped: u64,
    floors: u64,
    long: u64,
    dated: u64,
    several: u64,
    falls: u64,
    most_swaps: u64,
}

impl Met {
    pub fn print(&self) {
        let ([no, yes], [below, all]) = (self.verdicts, self.covered);
        println!(
            "closest orders: verdict 1: {yes}, verdict 0: {no}; budgets that cover all pairs: {all}, below: {below}, with a floor between 0 and the fewest swaps: {}; not the judge's order: {}, not the log: {}; logs of more than 255 letters: {}; with terms {}, in several of them {}, with days that fall {}; at most {} swaps",
            self.floors, self.other, self.swapped, self.long, self.dated, self.several, self.falls, self.most_swaps
        );
    }

    pub fn missing(&self) -> Option<String> {
        let rare = |pair: [u64; 2], part: u64| pair[0].min(pair[1]) * part < pair[0].max(pair[1]).max(1);
        let few = self.other * 20 < self.covered[1] || self.swapped * 20 < self.covered[1] || self.floors * 100 < self.covered[0];
        let terms = self.several.min(self.falls) * 10 < self.verdicts[0] + self.verdicts[1];
        let none = self.long == 0 || self.most_swaps < 50;
        (rare(self.verdicts, 5) || rare(self.covered, 5) || few || terms || none)
            .then(|| "a verdict, a budget, a floor, a long log, terms or an order other than the judge's and the log are rare among closest orders".into())
    }
}

/// A step to a longer prefix: the letter, the prefix by its place, and what the event costs.
type Step = (u8, usize, u64);

/// The prefixes in their order, and the steps from each.
struct Graph<'a> {
    p: &'a Profile,
    steps: Vec<Vec<Step>>,
}

/// For each letter the places of its events.
fn places(k: usize, log: &[u8]) -> Vec<Vec<usize>> {
    (0..k).map(|a| (0..log.len()).filter(|&at| log[at] as usize == a).collect()).collect()
}

/// "an event taken costs one for each earlier event not yet taken".
fn cost(places: &[Vec<usize>], counts: &Counts, at: usize) -> u64 {
    let left = |b: usize| places[b][counts[b] as usize..].iter().take_while(|&&place| place < at).count() as u64;
    (0..counts.len()).map(left).sum()
}

impl Graph<'_> {
    fn new<'a>(p: &'a Profile, log: &[u8], solved: &Solved) -> Graph<'a> {
        let prefixes: Vec<&Counts> = reference::in_order(&solved.records).into_iter().map(|(counts, _)| counts).collect();
        let index: BTreeMap<&Counts, usize> = prefixes.iter().enumerate().map(|(at, counts)| (*counts, at)).collect();
        let places = places(p.k, log);
        let step = |counts: &Counts, a: usize| {
            let next = *index.get(&reference::one_more(counts, a))?;
            Some((a as u8, next, cost(&places, counts, places[a][counts[a] as usize])))
        };
        let steps = prefixes.iter().map(|counts| (0..p.k).filter_map(|a| step(counts, a)).collect()).collect();
        Graph { p, steps }
    }

    fn states(&self, q: usize, a: u8) -> impl Iterator<Item = usize> {
        let set = self.p.moves[q * self.p.k + a as usize];
        (0..32).filter(move |r| set >> r & 1 == 1)
    }

    /// The fewest swaps of all pairs that the start leads to, in rising order.
    fn ranks(&self) -> Vec<u64> {
        let s = self.p.s;
        let mut settled = vec![false; self.steps.len() * s];
        let mut open = BinaryHeap::from([Reverse((0, self.p.start))]);
        let mut ranks = vec![];
        while let Some(Reverse((swaps, pair))) = open.pop() {
            if std::mem::replace(&mut settled[pair], true) {
                continue;
            }
            ranks.push(swaps);
            for &(a, next, cost) in &self.steps[pair / s] {
                open.extend(self.states(pair % s, a).map(|r| Reverse((swaps + cost, next * s + r))));
            }
        }
        ranks
    }

    /// For each prefix and state the fewest swaps with which the other events lead to a final state.
    fn rests(&self) -> Vec<Vec<Option<u64>>> {
        let mut rests: Vec<Vec<Option<u64>>> = vec![vec![]; self.steps.len()];
        for at in (0..self.steps.len()).rev() {
            let least = |q: usize| {
                let by = |&(a, next, cost): &Step| self.states(q, a).filter_map(|r| rests[next][r]).min().map(|rest| cost + rest);
                self.steps[at].iter().filter_map(by).min()
            };
            let end = |q: usize| (self.p.finals >> q & 1 == 1).then_some(0);
            rests[at] = (0..self.p.s).map(|q| if self.steps[at].is_empty() { end(q) } else { least(q) }).collect();
        }
        rests
    }

    /// The fewest swaps of an accepted order, and the earliest order that has them.
    fn closest(&self) -> Option<(u64, Vec<u8>)> {
        let rests = self.rests();
        let fewest = rests[0][self.p.start]?;
        let (mut at, mut left, mut set, mut order) = (0, fewest, vec![self.p.start], vec![]);
        while !self.steps[at].is_empty() {
            let led = |&(a, next, cost): &Step| {
                let to: Vec<usize> = (0..self.p.s).filter(|&r| set.iter().any(|&q| self.states(q, a).any(|to| to == r))).collect();
                let tight = to.iter().any(|&r| rests[next][r].is_some_and(|rest| cost + rest == left));
                tight.then_some((a, next, cost, to))
            };
            let (a, next, cost, to) = self.steps[at].iter().find_map(led).expect("a next letter");
            order.push(a);
            (at, left, set) = (next, left - cost, to);
        }
        Some((fewest, order))
    }
}

/// The swaps of an order of letters: equal letters keep their order, so the second a of it, say, is the second a of the log.
fn swaps(k: usize, log: &[u8], order: &[u8]) -> u64 {
    let places = places(k, log);
    let mut met = vec![0; k];
    let mut event = |&a: &u8| {
        met[a as usize] += 1;
        places[a as usize][met[a as usize] - 1]
    };
    turned(&order.iter().map(&mut event).collect::<Vec<_>>())
}

fn led(p: &Profile, order: &[u8]) -> u32 {
    let step = |set: u32, &a: &u8| (0..p.s).filter(|q| set >> q & 1 == 1).fold(0, |to, q| to | p.moves[q * p.k + a as usize]);
    order.iter().fold(1 << p.start, step)
}

/// "the pairs of events standing the other way round than recorded", of events by their places.
fn turned(events: &[usize]) -> u64 {
    let before = |at: usize| events[..at].iter().filter(|&&earlier| earlier > events[at]).count() as u64;
    (0..events.len()).map(before).sum()
}

fn letters(log: &[u8], events: &[usize]) -> Vec<u8> {
    events.iter().map(|&i| log[i]).collect()
}

/// The fewest swaps of all pairs from all orders of all prefixes, each put before the other events as recorded.
fn ranks_by_listing(dated: &Dated, solved: &Solved) -> Vec<u64> {
    let mut ranks = vec![];
    for counts in solved.records.keys() {
        let (marked, rest): (Vec<_>, Vec<_>) = (0..dated.log.len()).partition(|&i| dated.marked(counts, i));
        let mut fewest = BTreeMap::new();
        for order in dated.reachable(marked) {
            let many = turned(&[order.as_slice(), &rest].concat());
            let set = led(dated.p, &letters(dated.log, &order));
            for q in (0..dated.p.s).filter(|q| set >> q & 1 == 1) {
                let least: &mut u64 = fewest.entry(q).or_insert(many);
                *least = many.min(*least);
            }
        }
        ranks.extend(fewest.into_values());
    }
    ranks.sort();
    ranks
}

fn closest_by_listing(dated: &Dated) -> Option<(u64, Vec<u8>)> {
    let orders = dated.reachable((0..dated.log.len()).collect()).into_iter();
    let swaps_and_letters = orders.map(|events| (turned(&events), letters(dated.log, &events)));
    swaps_and_letters.filter(|(_, order)| led(dated.p, order) & dated.p.finals != 0).min()
}

/// A call with terms, or without: then its days and terms are of no use.
#[derive(Debug)]
struct Asked {
    call: terms::Call,
    with_terms: bool,
}

impl Asked {
    fn some(random: &mut Random) -> Asked {
        if random.one_in(2) {
            return Asked { call: terms::some_call(random), with_terms: true };
        }
        let (p, log) = call(random);
        Asked { call: terms::Call { p, log, days: vec![], terms: vec![] }, with_terms: false }
    }

    fn function(&self) -> &'static str {
        if self.with_terms { "closest_terms" } else { "closest" }
    }

    fn by_numbers(&self, lent: &mut Buffers, budget: u64) -> Answer {
        let (p, log) = (lend(&self.call.p), &self.call.log);
        let (order, work, costs, mut told) = (lent.order.lend(), lent.work.lend(), lent.costs.lend(), [UNTOLD; 6]);
        let number = if self.with_terms {
            numbers::closest_terms(&p, log, &terms::dates(&self.call), order, work, costs, budget, &mut told)
        } else {
            numbers::closest(&p, log, order, work, costs, budget, &mut told)
        };
        (number, told)
    }

    fn by_wrapper(&self, lent: &mut Buffers, budget: u64) -> Answer {
        let (p, log) = (lend(&self.call.p), &self.call.log);
        let (order, work, costs) = (lent.order.lend(), lent.work.lend(), lent.costs.lend());
        let wrapped = if self.with_terms {
            fumarehi::closest_terms(&p, log, &terms::dates(&self.call), order, work, costs, budget)
        } else {
            fumarehi::closest(&p, log, order, work, costs, budget)
        };
        as_numbers(wrapped, |closest| {
            let (verdict, swaps, floor) = closest.order.map_or((0, 0, 0), |order| (1, order.swaps, order.floor));
            [0, verdict, closest.prefixes, closest.looks, swaps, floor]
        })
    }
}

/// What is to be said of a log whatever the budget: the ranks of all pairs, the swaps of the judge's order, and the closest order with its swaps.
struct Said {
    solved: Solved,
    ranks: Vec<u64>,
    orders: Option<Orders>,
}

struct Orders {
    judged: (u64, Vec<u8>),
    closest: (u64, Vec<u8>),
}

fn say(asked: &Asked) -> Result<Said, Refused> {
    let (p, log) = (&asked.call.p, asked.call.log.as_slice());
    let solved = if asked.with_terms { terms::solve(&asked.call) } else { reference::solve(p, log) }?;
    let graph = Graph::new(p, log, &solved);
    let (ranks, closest) = (graph.ranks(), graph.closest());
    if log.len() <= LISTED {
        let dated = if asked.with_terms { Dated::of(&asked.call) } else { Dated::undated(p, log) };
        assert_eq!(ranks_by_listing(&dated, &solved), ranks, "the reference disagrees with itself: {asked:?}");
        assert_eq!(closest_by_listing(&dated), closest, "the reference disagrees with itself: {asked:?}");
    }
    let pairs: u32 = solved.records.values().map(|sets| sets.forward.count_ones()).sum();
    assert_eq!(ranks.len(), pairs as usize, "every pair has a rank: {asked:?}");
    let judged = solved.order.clone().map(|order| (swaps(p.k, log, &order), order));
    assert_eq!(judged.is_some(), closest.is_some(), "one verdict: {asked:?}");
    let orders = judged.zip(closest).map(|(judged, closest)| Orders { judged, closest });
    Ok(Said { solved, ranks, orders })
}

/// Refusals 9, 10 and 17.
fn rooms<'a>(s: usize, said: &'a Said, lent: &Buffers) -> Result<&'a Said, Refused> {
    said.solved.judge(lent.order.len(), lent.work.len())?;
    if lent.costs.len() < said.solved.records.len() * s { refuse(17) } else { Ok(said) }
}

/// The order, its swaps and the floor.
fn order_for(said: &Said, budget: u64) -> Option<(&Vec<u8>, u64, u64)> {
    let Orders { judged, closest } = said.orders.as_ref()?;
    let fewest = closest.0;
    Some(match said.ranks.get(usize::try_from(budget).unwrap_or(usize::MAX)) {
        None => (&closest.1, fewest, fewest),
        Some(&next) => (&judged.1, judged.0, fewest.min(next)),
    })
}

/// The lent buffers of a call.
#[derive(Clone)]
struct Buffers {
    order: Lent<u8>,
    work: Lent<u32>,
    costs: Lent<u32>,
}

type Answer = (u32, [u64; 6]);

fn agree_refused_call(answer: Answer, refused: &Refused, lent: &Buffers) -> Checked {
    agree_refused(answer, refused)?;
    lent.order.stays("order buffer")?;
    lent.costs.stays("cost table")?;
    if [10, 17].contains(&refused.number) { lent.work.guards_stay("work table") } else { lent.work.stays("work table") }
}

fn agree_answer(p: &Profile, said: &Said, budget: u64, answer: Answer, lent: &Buffers) -> Checked {
    let found = order_for(said, budget);
    let (prefixes, looks) = (said.solved.records.len() as u64, said.solved.looks as u64);
    let told = found.map_or([0, 0, prefixes, looks, 0, 0], |(_, swaps, floor)| [0, 1, prefixes, looks, swaps, floor]);
    agree("answer; place, verdict, P, looks, swaps, floor", answer, (0, told))?;
    lent.order.begins("order buffer", found.map_or(&[], |(order, ..)| order.as_slice()))?;
    agree_table(p, &lent.work, &said.solved.records)?;
    lent.costs.guards_stay("cost table")
}

fn agree_call(p: &Profile, expected: &Result<&Said, Refused>, budget: u64, answer: Answer, lent: &Buffers) -> Checked {
    match expected {
        Err(refused) => agree_refused_call(answer, refused, lent),
        Ok(said) => agree_answer(p, said, budget, answer, lent),
    }
}

fn note(seen: &mut Seen, asked: &Asked, expected: &Result<&Said, Refused>, budget: u64) {
    let function = FUNCTIONS.iter().position(|(function, _)| *function == asked.function()).expect("a function of the list");
    seen.answer(function, expected.as_ref().err());
    let Ok(said) = expected else { return };
    let log = &asked.call.log;
    let met = &mut seen.closest;
    met.verdicts[said.orders.is_some() as usize] += 1;
    met.long += (log.len() > 255) as u64;
    if asked.with_terms {
        met.dated += 1;
        met.several += Dated::of(&asked.call).term.windows(2).any(|pair| pair[0] != pair[1]) as u64;
        met.falls += asked.call.days.windows(2).any(|pair| pair[1] < pair[0]) as u64;
    }
    let (Some((order, swaps, floor)), Some(orders)) = (order_for(said, budget), &said.orders) else { return };
    let covers = budget >= said.ranks.len() as u64;
    met.covered[covers as usize] += 1;
    met.other += (covers && *order != orders.judged.1) as u64;
    met.swapped += (covers && order != log) as u64;
    met.floors += (!covers && floor > 0 && floor < orders.closest.0) as u64;
    met.most_swaps = met.most_swaps.max(swaps);
}

/// Budgets about the number of all pairs, small ones, and some that are small or none in their low 32 bits.
fn some_budget(random: &mut Random, pairs: usize) -> u64 {
    let any = random.below(pairs + 2) as u64;
    let (few, all) = (random.below(4) as u64, pairs as u64);
    random.pick(&[any, any, any, few, all - 1, all, all, all + 1, 1 << 32, (1 << 32) + few, u64::MAX])
}

fn make(seen: &mut Seen, asked: &Asked, said: Result<Said, Refused>, budget: u64, mut lent: Buffers) -> Checked {
    let p = &asked.call.p;
    let mut again = lent.clone();
    let expected = said.as_ref().map_err(|refused| *refused).and_then(|said| rooms(p.s, said, &lent));
    note(seen, asked, &expected, budget);
    let answer = asked.by_numbers(&mut lent, budget);
    agree_call(p, &expected, budget, answer, &lent)?;
    let wrapped = asked.by_wrapper(&mut again, budget);
    agree_call(p, &expected, budget, wrapped, &again)
}

pub fn check(random: &mut Random, seen: &mut Seen) -> Checked {
    let asked = Asked::some(random);
    let said = say(&asked);
    let (pairs, needed) = said.as_ref().map_or((4, 8), |said| (said.ranks.len(), said.solved.records.len() * asked.call.p.s));
    let budget = some_budget(random, pairs);
    let (order, costs) = (buffer_len(random, asked.call.log.len()), buffer_len(random, needed));
    let work = table_len(random, &said.as_ref().map(|said| said.solved.clone()).map_err(|refused| *refused));
    let lent = Buffers { order: lent_bytes(random, order), work: lent_numbers(random, work), costs: lent_numbers(random, costs) };
    make(seen, &asked, said, budget, lent)
        .map_err(|what| format!("{what}\n  {} {:?}, budget {budget}, buffers {order} {work} {costs}", asked.function(), asked.call))
}
