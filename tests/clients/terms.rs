//! Random calls of the judge with terms: Paper 8, from its words.
//!
//! The second implementation has the calendar as a list of all its days, from the first to the last, and terms as parts of that list. Prefixes are found
//! by the marking rule, letter by letter; short logs are also answered by listing every list of events that exchanges reach. Calls are damaged in their
//! days and terms, and in all that the judge checks before them. Where all days are in one term the judge without terms must give the same, and a log
//! that exchanges lead to no more prefixes and no earlier order.

use crate::reference::{self, refuse, Counts, Profile, Refused, Solved, Total, LISTED, RECORD};
use crate::{agree, agree_judge, as_numbers, buffer_len, damage_call, fumarehi, lend, lent_bytes, lent_numbers, numbers, resize, table_len};
use crate::{long_call, medium_call, short_call, Checked, Expected, Random, Seen, FUNCTIONS, UNTOLD};
use std::collections::{BTreeSet, HashMap};
use std::sync::OnceLock;

/// Calls in one term, in several and in twelve; with neighbours in two terms, with days that fall, judged long; verdicts; logs compared that exchanges lead to.
#[derive(Default)]
pub struct Met {
    one: u64,
    several: u64,
    twelve: u64,
    turns: u64,
    falls: u64,
    long: u64,
    verdicts: [u64; 2],
    fewer: u64,
    reached: u64,
}

impl Met {
    pub fn print(&self) {
        let [no, yes] = self.verdicts;
        println!(
            "judged with terms: verdict 1: {yes}, verdict 0: {no}; one term {}, several {}, twelve {}; neighbours in two terms {}, days that fall {}, \
             fewer prefixes than without terms {}, more than 255 letters {}; logs that exchanges lead to {}",
            self.one, self.several, self.twelve, self.turns, self.falls, self.fewer, self.long, self.reached
        );
    }

    pub fn missing(&self) -> Option<String> {
        let [no, yes] = self.verdicts;
        let rare = no.min(yes) * 8 < no.max(yes).max(1);
        let never = [self.one, self.several, self.twelve, self.turns, self.falls, self.long, self.fewer, self.reached].contains(&0);
        (rare || never).then(|| "a verdict with terms is rare, or a kind of log with terms was never judged".into())
    }

    fn note(&mut self, call: &Call, solved: &Solved, plain: usize) {
        let many = call.terms.len() / 2;
        self.one += (many == 1) as u64;
        self.several += (1 < many && many < 12) as u64;
        self.twelve += (many == 12) as u64;
        let places: Vec<_> = call.days.iter().map(|&day| term_of(&call.terms, day)).collect();
        self.turns += places.windows(2).any(|pair| pair[0] != pair[1]) as u64;
        self.falls += call.days.windows(2).any(|pair| pair[1] < pair[0]) as u64;
        self.long += (call.log.len() > 255) as u64;
        self.verdicts[solved.order.is_some() as usize] += 1;
        self.fewer += (solved.records.len() < plain) as u64;
    }
}

// The calendar.

/// The days of each month, from January on.
const MONTHS: [u32; 12] = [31, 28, 31, 30, 31, 30, 31, 31, 30, 31, 30, 31];

fn calendar() -> &'static Vec<u32> {
    static DAYS: OnceLock<Vec<u32>> = OnceLock::new();
    DAYS.get_or_init(|| {
        let mut days = vec![];
        for year in 1900..2200 {
            let leap = year % 4 == 0 && year != 1900 && year != 2100;
            for (month, &length) in (1..).zip(&MONTHS) {
                let length = length + (leap && month == 2) as u32;
                days.extend((1..=length).map(|day| year * 10_000 + month * 100 + day));
            }
        }
        days
    })
}

/// The place of a day in the calendar.
fn place(day: u32) -> Option<usize> {
    static PLACES: OnceLock<HashMap<u32, usize>> = OnceLock::new();
    PLACES.get_or_init(|| calendar().iter().copied().zip(0..).collect()).get(&day).copied()
}

/// The term that has the day: each is a part of the calendar.
fn term_of(terms: &[u32], day: u32) -> Option<usize> {
    let day = place(day)?;
    terms.chunks(2).position(|term| (place(term[0]).unwrap()..=place(term[1]).unwrap()).contains(&day))
}

// Refusals 14, 15 and 16.

fn dated(log: &[u8], days: &[u32]) -> Result<(), Refused> {
    if days.len() == log.len() && days.iter().all(|&day| place(day).is_some()) { Ok(()) } else { refuse(14) }
}

fn good_terms(terms: &[u32]) -> bool {
    let places: Option<Vec<_>> = terms.iter().map(|&day| place(day)).collect();
    let Some(places) = places.filter(|places| places.len() % 2 == 0 && (1..=12).contains(&(places.len() / 2))) else { return false };
    let mut behind = None;
    places.chunks(2).all(|term| {
        let good = term[0] <= term[1] && behind < Some(term[0]);
        behind = Some(term[1]);
        good
    })
}

fn in_terms(days: &[u32], terms: &[u32]) -> Result<(), Refused> {
    if days.iter().all(|&day| term_of(terms, day).is_some()) { Ok(()) } else { refuse(16) }
}

// Logs with terms.

/// What a call hands over.
#[derive(Clone, Debug)]
pub struct Call {
    pub p: Profile,
    pub log: Vec<u8>,
    pub days: Vec<u32>,
    pub terms: Vec<u32>,
}

/// The events of an unrefused call: each has its letter, its term, and how many of its letter stand before it.
pub struct Dated<'a> {
    pub p: &'a Profile,
    pub log: &'a [u8],
    pub term: Vec<usize>,
    nth: Vec<u16>,
}

impl Dated<'_> {
    fn new<'a>(p: &'a Profile, log: &'a [u8], term: Vec<usize>) -> Dated<'a> {
        let mut seen = vec![0; p.k];
        let mut nth = |&a: &u8| {
            seen[a as usize] += 1;
            seen[a as usize] - 1
        };
        Dated { p, log, term, nth: log.iter().map(&mut nth).collect() }
    }

    pub fn of(call: &Call) -> Dated<'_> {
        Dated::new(&call.p, &call.log, call.days.iter().map(|&day| term_of(&call.terms, day).unwrap()).collect())
    }

    /// Without terms all events are in one.
    pub fn undated<'a>(p: &'a Profile, log: &'a [u8]) -> Dated<'a> {
        Dated::new(p, log, vec![0; log.len()])
    }

    /// Event i directly followed by j may become j followed by i.
    fn may_pass(&self, i: usize, j: usize) -> bool {
        self.term[i] == self.term[j] && reference::independent(&self.p.masks, self.log[i], self.log[j])
    }

    pub fn marked(&self, counts: &[u16], i: usize) -> bool {
        self.nth[i] < counts[self.log[i] as usize]
    }

    /// The marking rule: whenever an event is marked, every earlier one that it may not pass is marked too.
    fn is_prefix(&self, counts: &[u16]) -> bool {
        let marks: Vec<_> = (0..self.log.len()).map(|i| self.marked(counts, i)).collect();
        (0..marks.len()).all(|j| !marks[j] || (0..j).all(|i| marks[i] || self.may_pass(i, j)))
    }

    /// One more of the letter is a prefix again: its next event may pass all that is not marked before it.
    fn comes_next(&self, counts: &[u16], at: usize) -> bool {
        (0..at).all(|i| self.marked(counts, i) || self.may_pass(i, at))
    }

    fn totals(&self) -> Vec<Total> {
        let places = |a: usize| (0..self.log.len()).filter(|&i| self.log[i] as usize == a).collect::<Vec<_>>();
        let places: Vec<_> = (0..self.p.k).map(places).collect();
        let mut totals = vec![Total::from([vec![0; self.p.k]])];
        for n in 0..self.log.len() {
            let mut next = Total::new();
            for counts in &totals[n] {
                for a in 0..self.p.k {
                    if places[a].get(counts[a] as usize).is_some_and(|&at| self.comes_next(counts, at)) {
                        next.insert(reference::one_more(counts, a));
                    }
                }
            }
            totals.push(next);
        }
        totals
    }

    /// Every list of events, by their places, that exchanges reach.
    pub fn reachable(&self, events: Vec<usize>) -> BTreeSet<Vec<usize>> {
        let mut found = BTreeSet::from([events.clone()]);
        let mut new = vec![events];
        while let Some(events) = new.pop() {
            for at in 1..events.len() {
                if self.may_pass(events[at - 1], events[at]) {
                    let mut other = events.clone();
                    other.swap(at - 1, at);
                    if found.insert(other.clone()) {
                        new.push(other);
                    }
                }
            }
        }
        found
    }

    fn orders(&self, events: Vec<usize>) -> BTreeSet<Vec<u8>> {
        self.reachable(events).iter().map(|events| events.iter().map(|&i| self.log[i]).collect()).collect()
    }

    fn agrees_with_listing(&self, solved: &Solved) {
        let all: Vec<_> = (0..self.log.len()).collect();
        let order = self.orders(all.clone()).into_iter().find(|order| reference::accepted_from(self.p, self.p.start, order));
        assert_eq!(order, solved.order, "the reference disagrees with itself: {:?} {:?}", self.log, self.term);
        let prefixes = reference::choices(&reference::counts_of(self.p.k, self.log)).into_iter().filter(|counts| self.is_prefix(counts));
        let listed: BTreeSet<Counts> = prefixes.collect();
        assert!(listed.iter().eq(solved.records.keys()), "the reference disagrees with itself: {:?} {:?}", self.log, self.term);
        for (counts, sets) in &solved.records {
            let (before, after): (Vec<_>, Vec<_>) = all.iter().partition(|&&i| self.marked(counts, i));
            let expected = reference::sets_of(self.p, &self.orders(before), &self.orders(after));
            assert_eq!(expected, *sets, "the reference disagrees with itself: {:?} {:?}", self.log, self.term);
        }
    }
}

/// Refusals 2, 4, 6, 7, 8, 14, 15 and 16, or all there is to say.
pub fn solve(call: &Call) -> Result<Solved, Refused> {
    reference::profile(&call.p)?;
    reference::letters(call.p.k, &call.log)?;
    dated(&call.log, &call.days)?;
    if !good_terms(&call.terms) {
        return refuse(15);
    }
    in_terms(&call.days, &call.terms)?;
    let dated = Dated::of(call);
    let solved = reference::solve_totals(&call.p, &dated.totals(), call.log.len());
    if call.log.len() <= LISTED {
        dated.agrees_with_listing(&solved);
    }
    Ok(solved)
}

// Random days and terms.

/// Terms of one to six days, touching or up to four days apart, laid out from an edge of the calendar or from anywhere; the last may end with it.
pub fn some_terms(random: &mut Random) -> Vec<u32> {
    let all = calendar();
    let many = random.pick(&[1, 1, 2, 2, 2, 3, 4, 7, 12, 12]);
    let room = all.len() - 12 * 10;
    let leap_days = [19000226, 20000226, 21000226, 20240226].map(|day| place(day).unwrap());
    let mut at = match random.below(4) {
        0 => random.pick(&leap_days),
        1 => 0,
        2 => room,
        _ => random.below(room),
    };
    let mut terms = vec![];
    for _ in 0..many {
        let first = at + random.pick(&[0, 0, 1, 4]);
        let last = first + random.pick(&[0, 0, 1, 5]);
        terms.extend([all[first], all[last]]);
        at = last + 1;
    }
    if random.one_in(8) {
        *terms.last_mut().unwrap() = all[all.len() - 1];
    }
    terms
}

fn day_of(random: &mut Random, terms: &[u32], term: usize) -> u32 {
    let (first, last) = (place(terms[2 * term]).unwrap(), place(terms[2 * term + 1]).unwrap());
    let any = random.within(first..last + 1);
    calendar()[random.pick(&[first, last, any])]
}

/// All events in one term, or in terms that rise, or in any of a few.
pub fn some_days(random: &mut Random, terms: &[u32], len: usize) -> Vec<u32> {
    let many = terms.len() / 2;
    let few = random.within(1..many.min(4) + 1);
    let kind = random.below(4);
    let one = random.below(many);
    let mut places: Vec<_> = (0..len).map(|_| if kind == 0 { one } else { (one + random.below(few)) % many }).collect();
    if kind == 1 {
        places.sort();
    }
    places.into_iter().map(|term| day_of(random, terms, term)).collect()
}

fn damage_days(random: &mut Random, days: &mut Vec<u32>) {
    if random.one_in(3) || days.is_empty() {
        return resize(random, days);
    }
    let at = random.below(days.len());
    let any = random.next() as u32;
    let day = days[at];
    let near = [day - day % 100, day.wrapping_add(50)];
    let others = [0, any, 18991231, 22000101, 19000229, 20000230, 21000229, 20260431, 20261301, 20260001, u32::MAX];
    days[at] = if random.one_in(4) { random.pick(&near) } else { random.pick(&others) };
}

fn damage_terms(random: &mut Random, terms: &mut Vec<u32>) {
    if random.one_in(4) || terms.is_empty() {
        return match random.below(3) {
            0 => terms.extend([21991231; 2]),
            1 => *terms = (0..26).map(|i| calendar()[1000 + i]).collect(),
            _ => resize(random, terms),
        };
    }
    let (at, other) = (random.below(terms.len()), random.below(terms.len()));
    let day = terms[at];
    match random.below(6) {
        0 => terms.swap(at, other),
        1 => terms[at] = terms[other],
        2 => terms[at] = random.pick(&[0, 18991231, 22000101, 19000229, 21000229, 20260431, u32::MAX]),
        3 => terms[at] = place(day).and_then(|place| calendar().get(place + 1).copied()).unwrap_or(0),
        4 => terms[at] = place(day).and_then(|place| calendar().get(place.wrapping_sub(1)).copied()).unwrap_or(0),
        _ => terms[at] = day.wrapping_add(50),
    }
}

/// Moves a day to the calendar's next or last one, which may be in no term.
fn move_day(random: &mut Random, days: &mut [u32]) {
    if !days.is_empty() {
        let at = random.below(days.len());
        let next = place(days[at]).map_or(0, |place| (place + 1) % calendar().len());
        let any = random.below(calendar().len());
        days[at] = calendar()[random.pick(&[next, next, any])];
    }
}

pub fn some_call(random: &mut Random) -> Call {
    let (mut p, mut log) = match random.below(800) {
        0..=15 => medium_call(random),
        16 => long_call(random),
        _ => short_call(random),
    };
    let right = some_terms(random);
    let mut terms = right.clone();
    let mut days = some_days(random, &right, log.len());
    if random.one_in(3) {
        for _ in 0..random.few() {
            match random.below(7) {
                0 | 1 => damage_days(random, &mut days),
                2 | 3 => damage_terms(random, &mut terms),
                4 | 5 => move_day(random, &mut days),
                _ => {
                    damage_call(random, &mut p, &mut log);
                    if random.one_in(2) {
                        days = some_days(random, &right, log.len());
                    }
                }
            }
        }
    }
    Call { p, log, days, terms }
}

// The comparisons.

pub fn dates(call: &Call) -> fumarehi::Dates<'_> {
    fumarehi::Dates { days: &call.days, terms: &call.terms }
}

/// A log that exchanges within terms lead to, with the days of its events: no more prefixes and no earlier order, and with symmetric masks the same.
fn agree_reached(random: &mut Random, seen: &mut Seen, call: &Call, solved: &Solved) -> Checked {
    let dated = Dated::of(call);
    let mut events: Vec<_> = (0..call.log.len()).collect();
    for _ in 0..if events.len() < 2 { 0 } else { 3 * events.len() } {
        let at = random.within(1..events.len());
        if dated.may_pass(events[at - 1], events[at]) {
            events.swap(at - 1, at);
        }
    }
    let reached = Call {
        log: events.iter().map(|&i| call.log[i]).collect(),
        days: events.iter().map(|&i| call.days[i]).collect(),
        ..call.clone()
    };
    let (mut order, mut work) = (vec![0; call.log.len()], vec![0; RECORD * solved.records.len()]);
    let verdict = fumarehi::judge_terms(&lend(&call.p), &reached.log, &dates(&reached), &mut order, &mut work);
    let verdict = verdict.map_err(|refused| format!("{reached:?} is {refused:?}"))?;
    seen.terms.reached += (reached.log != call.log) as u64;
    let found = verdict.has_order.then_some(order);
    if !reference::one_way(&call.p.masks) {
        let told = (found, verdict.prefixes, verdict.looks);
        return agree("what is told of a log that is the same", told, (solved.order.clone(), solved.records.len() as u64, solved.looks as u64));
    }
    let earlier = found.is_some() && solved.order.as_ref().is_none_or(|own| found.as_ref().unwrap() < own);
    agree("more prefixes or an earlier order", (verdict.prefixes > solved.records.len() as u64, earlier), (false, false))
}

/// The judge without terms: it has at least as many prefixes, and where all days are in one term it gives the same.
fn agree_plain(seen: &mut Seen, call: &Call, solved: &Solved, order: &[u8], work: &[u32]) -> Checked {
    let plain = reference::solve(&call.p, &call.log).map_err(|refused| format!("without terms {refused:?}"))?;
    seen.terms.note(call, solved, plain.records.len());
    let one = call.days.iter().all(|&day| term_of(&call.terms, day) == term_of(&call.terms, call.days[0]));
    if !one {
        return agree("fewer prefixes without terms", plain.records.len() < solved.records.len(), false);
    }
    let (mut other_order, mut other_work) = (order.to_vec(), work.to_vec());
    let judged = fumarehi::judge(&lend(&call.p), &call.log, &mut other_order, &mut other_work);
    let told = judged.map(|v| (v.has_order, v.prefixes, v.looks)).map_err(|refused| format!("without terms {refused:?}"))?;
    agree("what the judge without terms tells", told, (solved.order.is_some(), solved.records.len() as u64, solved.looks as u64))?;
    agree("the order and the table without terms", (&other_order[..], &other_work[..]), (order, work))
}

pub fn check(random: &mut Random, seen: &mut Seen) -> Checked {
    let call = some_call(random);
    let solved = solve(&call);
    let len = buffer_len(random, call.log.len());
    let mut order = lent_bytes(random, len);
    let len = table_len(random, &solved);
    let mut work = lent_numbers(random, len);
    let expected: Expected = solved.as_ref().map_err(|refused| *refused).and_then(|solved| solved.judge(order.len(), work.len()));
    let function = FUNCTIONS.iter().position(|(name, _)| *name == "judge_terms").expect("a function of the list");
    seen.answer(function, expected.as_ref().err());
    let (mut order_again, mut work_again) = (order.clone(), work.clone());
    let mut told = [UNTOLD; 4];
    let number = numbers::judge_terms(&lend(&call.p), &call.log, &dates(&call), order.lend(), work.lend(), &mut told);
    let wrapped = fumarehi::judge_terms(&lend(&call.p), &call.log, &dates(&call), order_again.lend(), work_again.lend());
    let wrapped = as_numbers(wrapped, |v| [0, v.has_order as u64, v.prefixes, v.looks]);
    agree_judge(&call.p, &expected, (number, told), &order, &work)
        .and_then(|()| agree_judge(&call.p, &expected, wrapped, &order_again, &work_again))
        .and_then(|()| expected.map_or(Ok(()), |solved| agree_plain(seen, &call, solved, order.now(), work.now())))
        .and_then(|()| expected.map_or(Ok(()), |solved| agree_reached(random, seen, &call, solved)))
        .map_err(|what| format!("{what}\n  judge_terms {call:?}, buffers {} {}", order.len(), work.len()))
}
