//! Random calls of the judge for grammars: Paper 13, from its words.
//!
//! The second implementation lists all logs that exchanges reach, and tries every derivation of each: every rule and every cut, with no table. The order
//! returned is looked up among the listed logs that can be derived, and is never compared with a certain one.

use crate::reference::{self, refuse, Profile, Refused, COUNTS, RECORD};
use crate::{agree, as_numbers, counts, damage_relation, fumarehi, lent_bytes, lent_masks, lent_numbers, masks, numbers, refusal, some_log};
use crate::{Checked, Lent, Random, Seen, FUNCTIONS, UNTOLD};
use std::collections::{BTreeSet, HashMap};

/// Verdicts 0 and 1, orders other than the log, logs with more than one order, and the most prefixes of a log.
#[derive(Default)]
pub struct Met {
    verdicts: [u64; 2],
    moved: u64,
    several: u64,
    most_prefixes: usize,
}

impl Met {
    pub fn print(&self) {
        let [no, yes] = self.verdicts;
        println!(
            "grammars: verdict 1: {yes}, verdict 0: {no}; orders other than the log: {}, logs with several: {}; at most {} prefixes",
            self.moved, self.several, self.most_prefixes
        );
    }

    pub fn missing(&self) -> Option<String> {
        let [no, yes] = self.verdicts;
        let rare = no.min(yes) * 8 < no.max(yes).max(1) || self.moved * 10 < yes || self.several * 10 < yes || self.most_prefixes < 16;
        rare.then(|| format!("a verdict by a grammar, an order other than the log or a choice among orders is rare: {:?}", self.verdicts))
    }
}

/// What a rule says.
#[derive(Clone, Copy, Debug, PartialEq)]
enum Rule {
    Names(u16, u16, u16),
    Letter(u16, u16),
    Neither,
}

fn read(rule: u16) -> Rule {
    match rule.to_be_bytes() {
        [high, low] if high < 16 => Rule::Letter(high.into(), low.into()),
        [high, low] if high < 32 => Rule::Names(u16::from(high) % 16, u16::from(low) / 16, u16::from(low) % 16),
        _ => Rule::Neither,
    }
}

#[derive(Clone, Debug)]
struct Grammar {
    k: usize,
    masks: Vec<u16>,
    names: usize,
    rules: Vec<u16>,
}

impl Grammar {
    /// Refusal 21.
    fn rules_right(&self) -> Result<(), Refused> {
        let name = |n: u16| usize::from(n) < self.names;
        let right = |&rule: &u16| match read(rule) {
            Rule::Names(n, l, r) => name(n) && name(l) && name(r),
            Rule::Letter(n, a) => name(n) && usize::from(a) < self.k,
            Rule::Neither => false,
        };
        if (1..=16).contains(&self.names) && self.rules.len() <= 64 && self.rules.iter().all(right) { Ok(()) } else { refuse(21) }
    }

    /// Some derivation from the name ends in the log.
    fn derives(&self, name: u16, log: &[u8]) -> bool {
        self.derives_part(name, log, &mut HashMap::new())
    }

    /// The same; a part of the log that was tried with a name is not tried with it again.
    fn derives_part<'a>(&self, name: u16, part: &'a [u8], tried: &mut HashMap<(u16, &'a [u8]), bool>) -> bool {
        if let Some(&found) = tried.get(&(name, part)) {
            return found;
        }
        let mut cut = |l: u16, r: u16| (1..part.len()).any(|at| self.derives_part(l, &part[..at], tried) && self.derives_part(r, &part[at..], tried));
        let found = self.rules.iter().any(|&rule| match read(rule) {
            Rule::Names(n, l, r) => n == name && cut(l, r),
            Rule::Letter(n, a) => n == name && part == [a as u8],
            Rule::Neither => false,
        });
        tried.insert((name, part), found);
        found
    }

    /// The states of a profile play no part in prefixes.
    fn without_states(&self) -> Profile {
        Profile { k: self.k, s: 1, start: 0, finals: 0, masks: self.masks.clone(), moves: vec![0; self.k] }
    }

    fn lend(&self) -> fumarehi::Grammar<'_> {
        fumarehi::Grammar { relation: fumarehi::Relation { k: self.k, masks: &self.masks }, names: self.names, rules: &self.rules }
    }
}

/// What is to be said of a log: the counts of its prefixes in order, looks, and all logs that can be returned.
struct Said {
    prefixes: Vec<reference::Counts>,
    looks: usize,
    orders: BTreeSet<Vec<u8>>,
}

fn say(g: &Grammar, log: &[u8]) -> Result<Said, Refused> {
    reference::relation(g.k, &g.masks)?;
    g.rules_right()?;
    let solved = reference::solve(&g.without_states(), log)?;
    let prefixes = reference::in_order(&solved.records).into_iter().map(|(counts, _)| counts.clone()).collect();
    let orders = reference::reachable(&g.masks, log).into_iter().filter(|order| g.derives(0, order)).collect();
    Ok(Said { prefixes, looks: solved.looks, orders })
}

/// The lent buffers of a call.
#[derive(Clone)]
struct Buffers {
    order: Lent<u8>,
    work: Lent<u32>,
    sets: Lent<u16>,
}

fn buffers(random: &mut Random, log: &[u8], prefixes: usize) -> Buffers {
    let mut len = |needed: usize| match random.below(12) {
        0 => needed.saturating_sub(1),
        1 => random.below(needed + 1),
        2..=6 => needed,
        _ => needed + random.within(1..12),
    };
    let (order, work, sets) = (len(log.len()), len(RECORD * prefixes), len(prefixes * prefixes));
    Buffers { order: lent_bytes(random, order), work: lent_numbers(random, work), sets: lent_masks(random, sets) }
}

fn rooms<'a>(said: &'a Said, log: &[u8], lent: &Buffers) -> Result<&'a Said, Refused> {
    reference::room(lent.order.len(), log.len())?;
    if lent.work.len() / RECORD < said.prefixes.len() {
        return refuse(10);
    }
    if lent.sets.len() < said.prefixes.len() * said.prefixes.len() { refuse(22) } else { Ok(said) }
}

fn agree_refused(answer: (u32, [u64; 4]), refused: &Refused, lent: &Buffers) -> Checked {
    agree("answer and told", answer, refusal(refused))?;
    lent.order.stays("order buffer")?;
    lent.sets.stays("sets")?;
    if [10, 22].contains(&refused.number) { lent.work.guards_stay("work table") } else { lent.work.stays("work table") }
}

fn agree_order(said: &Said, log: &[u8], order: &Lent<u8>) -> Checked {
    if said.orders.is_empty() {
        return order.stays("order buffer");
    }
    order.stays_from("order buffer", log.len())?;
    let found = &order.now()[..log.len()];
    if said.orders.contains(found) { Ok(()) } else { Err(format!("{found:?} is no order, there are {:?}", said.orders)) }
}

fn agree_answer(g: &Grammar, said: &Said, log: &[u8], answer: (u32, [u64; 4]), lent: &Buffers) -> Checked {
    let verdict = !said.orders.is_empty() as u64;
    agree("answer; place, verdict, P, looks", answer, (0, [0, verdict, said.prefixes.len() as u64, said.looks as u64]))?;
    agree_order(said, log, &lent.order)?;
    let len = RECORD * said.prefixes.len();
    for (record, prefix) in lent.work.now()[..len].chunks(RECORD).zip(&said.prefixes) {
        agree("a record's counts", &counts(g.k, record)?, prefix)?;
        agree("a record's sets", &record[COUNTS..], &[0, 0])?;
    }
    lent.work.stays_from("work table", len)?;
    lent.sets.guards_stay("sets")
}

fn agree_call(g: &Grammar, expected: &Result<&Said, Refused>, log: &[u8], answer: (u32, [u64; 4]), lent: &Buffers) -> Checked {
    match expected {
        Err(refused) => agree_refused(answer, refused, lent),
        Ok(said) => agree_answer(g, said, log, answer, lent),
    }
}

fn note(seen: &mut Seen, expected: &Result<&Said, Refused>, log: &[u8], order: &Lent<u8>) {
    let function = FUNCTIONS.iter().position(|(function, _)| *function == "grammar").expect("a function of the list");
    seen.answer(function, expected.as_ref().err());
    if let Ok(said) = expected {
        let met = &mut seen.grammars;
        let verdict = !said.orders.is_empty();
        met.verdicts[verdict as usize] += 1;
        met.moved += (verdict && &order.now()[..log.len()] != log) as u64;
        met.several += (said.orders.len() > 1) as u64;
        met.most_prefixes = met.most_prefixes.max(said.prefixes.len());
    }
}

// Random grammars.

fn some_rule(random: &mut Random, k: usize, names: usize) -> u16 {
    let mut name = || random.below(names) as u16;
    let (n, l, r) = (name(), name(), name());
    if random.one_in(2) { fumarehi::names_rule(n, l, r) } else { fumarehi::letter_rule(n, random.below(k) as u16) }
}

fn some_grammar(random: &mut Random) -> Grammar {
    let k = random.pick(&[1, 2, 2, 2, 3, 3, 4, 16]);
    let names = random.pick(&[1, 2, 2, 3, 3, 4, 5, 16]);
    let many = random.pick(&[0, 1, 3, 4, 5, 6, 7, 8, 10, 12]);
    let mut rules: Vec<u16> = (0..many).map(|_| some_rule(random, k, names)).collect();
    if random.one_in(40) {
        // Equal rules are one rule more, and say nothing new.
        let again = rules.first().copied().unwrap_or(fumarehi::letter_rule(0, 0));
        rules.resize(64, again);
    }
    let free = (0..k).map(|i| (0xffffu32 >> (16 - k)) as u16 & !(1 << i)).collect();
    Grammar { k, masks: if random.one_in(2) { free } else { masks(random, k) }, names, rules }
}

/// One step of any derivation, as long as names are left, from name 0: letters that can be derived, or nothing. Two names are taken first, up to a length.
fn derived_log(random: &mut Random, g: &Grammar) -> Vec<u8> {
    let mut names = vec![0];
    let mut log = vec![];
    let wanted = random.within(1..reference::LISTED + 1);
    while let Some(name) = names.pop() {
        let of_name = |rule: &&u16| matches!(read(**rule), Rule::Names(n, _, _) | Rule::Letter(n, _) if n == name);
        let mut fitting: Vec<u16> = g.rules.iter().filter(of_name).copied().collect();
        let longer = |rule: &u16| matches!(read(*rule), Rule::Names(..)) == (names.len() + log.len() + 1 < wanted);
        if fitting.iter().any(longer) {
            fitting.retain(longer);
        }
        if fitting.is_empty() || names.len() + log.len() > reference::LISTED {
            return vec![];
        }
        match read(random.pick(&fitting)) {
            Rule::Names(_, l, r) => names.extend([r, l]),
            Rule::Letter(_, a) => log.push(a as u8),
            Rule::Neither => {}
        }
    }
    log
}

fn grammar_log(random: &mut Random, g: &Grammar) -> Vec<u8> {
    let len = random.below(reference::LISTED + 1);
    let derived = derived_log(random, g);
    if derived.is_empty() || random.one_in(3) { some_log(random, g.k, len) } else { shuffled_by(random, g, derived) }
}

/// Exchanges the other way round lead from a derived log to one that reaches it.
fn shuffled_by(random: &mut Random, g: &Grammar, mut log: Vec<u8>) -> Vec<u8> {
    for _ in 0..if log.len() < 2 { 0 } else { 2 * log.len() } {
        let at = random.within(1..log.len());
        if reference::independent(&g.masks, log[at], log[at - 1]) {
            log.swap(at - 1, at);
        }
    }
    log
}

fn damage_rules(random: &mut Random, g: &mut Grammar) {
    let any = random.next() as u16;
    match random.below(5) {
        0 => g.names = random.pick(&[0, 17, g.names.wrapping_sub(1), 1 << 32, (1 << 32) + g.names, usize::MAX]),
        1 => g.rules.resize(random.pick(&[64, 65, 66, 300]), 0),
        2 => g.rules.push(fumarehi::letter_rule(0, g.k as u16)),
        3 => g.rules.push(any),
        _ => {
            let n = g.names.min(15) as u16;
            let rule = random.pick(&[fumarehi::names_rule(n, 0, 0), fumarehi::names_rule(0, n, 0), fumarehi::names_rule(0, 0, n), 8192]);
            g.rules.push(rule);
        }
    }
}

fn damage(random: &mut Random, g: &mut Grammar, log: &mut Vec<u8>) {
    for _ in 0..random.few() {
        match random.below(4) {
            0 => damage_relation(random, &mut g.k, &mut g.masks),
            1 => damage_rules(random, g),
            2 if !log.is_empty() => {
                let at = random.below(log.len());
                log[at] = random.pick(&[g.k as u8, 16, 255]);
            }
            _ => log.resize(random.pick(&[0, reference::MOST + 1, reference::MOST + 1]), 0),
        }
    }
}

fn call(seen: &mut Seen, g: &Grammar, log: &[u8], said: Result<Said, Refused>, mut lent: Buffers) -> Checked {
    let mut again = lent.clone();
    let mut told = [UNTOLD; 4];
    let expected = said.as_ref().map_err(Clone::clone).and_then(|said| rooms(said, log, &lent));
    let number = numbers::grammar(&g.lend(), log, lent.order.lend(), lent.work.lend(), lent.sets.lend(), &mut told);
    let wrapped = fumarehi::grammar(&g.lend(), log, again.order.lend(), again.work.lend(), again.sets.lend());
    let wrapped = as_numbers(wrapped, |verdict| [0, verdict.has_order as u64, verdict.prefixes, verdict.looks]);
    note(seen, &expected, log, &lent.order);
    agree_call(g, &expected, log, (number, told), &lent)?;
    agree_call(g, &expected, log, wrapped, &again)
}

pub fn check(random: &mut Random, seen: &mut Seen) -> Checked {
    let mut g = some_grammar(random);
    let mut log = grammar_log(random, &g);
    if random.one_in(4) {
        damage(random, &mut g, &mut log);
    }
    let said = say(&g, &log);
    let prefixes = said.as_ref().map_or(2, |said| said.prefixes.len());
    let lent = buffers(random, &log, prefixes);
    call(seen, &g, &log, said, lent).map_err(|what| format!("{what}\n  grammar {g:?} {log:?}"))
}
