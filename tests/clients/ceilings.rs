//! Random calls for a ceiling: Paper 11, from its words.
//!
//! The second implementation looks at every pair of letters and counts the events of each group over the log. Where a ceiling is told, P of the
//! judge does not exceed it, and with a table of ten numbers for each record of the ceiling the judge is not refused by 10.

use crate::reference::{self, refuse, Refused, MOST, RECORD};
use crate::running::note;
use crate::{agree, as_numbers, damage_log, damage_relation, fumarehi, lend, numbers, refusal, some_log, valid_call};
use crate::{Checked, Random, Seen, UNTOLD};

/// The most groups, and the highest ceiling that is told.
const GROUPS: usize = 16;
const HIGHEST: u64 = 4_294_967_295;

/// Ceilings told, those that P meets and stays below, those with overlapping or empty groups, and the highest.
#[derive(Default)]
pub struct Met {
    told: u64,
    met: u64,
    above: u64,
    overlapping: u64,
    empty: u64,
    highest: u64,
}

impl Met {
    pub fn print(&self) {
        println!(
            "ceilings: {}, met by P: {}, above it: {}; with overlapping groups: {}, with an empty one: {}; the highest: {}",
            self.told, self.met, self.above, self.overlapping, self.empty, self.highest
        );
    }

    pub fn missing(&self) -> Option<String> {
        let rare = [self.met, self.above, self.overlapping, self.empty].into_iter().any(|times| times * 50 < self.told.max(1));
        (rare || self.highest < 1 << 31).then(|| "a kind of ceiling is rare, or none is high".into())
    }
}

fn holds(group: u16, letter: usize) -> bool {
    group >> letter & 1 == 1
}

/// The rules of the groups, letter by letter.
fn good_groups(k: usize, masks: &[u16], groups: &[u16]) -> bool {
    let inside = |group: u16| (k..16).all(|x| !holds(group, x));
    let passes = |x: usize, y: usize| holds(masks[x], y) || holds(masks[y], x);
    let apart = |group: u16| (0..k).all(|x| (0..k).all(|y| !holds(group, x) || !holds(group, y) || !passes(x, y)));
    let together = (0..k).all(|x| groups.iter().any(|&group| holds(group, x)));
    (1..=GROUPS).contains(&groups.len()) && groups.iter().all(|&group| inside(group) && apart(group)) && together
}

fn events_in(log: &[u8], group: u16) -> u128 {
    log.iter().filter(|&&a| holds(group, a.into())).count() as u128
}

/// Refusals 2, 4, 7, 8, 18 and 19, or the ceiling. 16 factors up to 4,001 stay below 2 to the 192, so the product stops where it is too high.
fn ceiling(k: usize, masks: &[u16], log: &[u8], groups: &[u16]) -> Result<u64, Refused> {
    reference::relation(k, masks)?;
    reference::letters(k, log)?;
    if !good_groups(k, masks, groups) {
        return refuse(18);
    }
    let product = groups.iter().fold(1, |product: u128, &group| (product * (1 + events_in(log, group))).min(1 << 100));
    if product > HIGHEST.into() { refuse(19) } else { Ok(product as u64) }
}

/// Groups that keep the rules where the masks do: each letter joins a group that it may not be exchanged with, or begins one.
fn fitting_groups(random: &mut Random, masks: &[u16]) -> Vec<u16> {
    let passes = |x: usize, y: usize| holds(masks[x], y) || holds(masks[y], x);
    let mut groups: Vec<u16> = vec![];
    let times = if random.one_in(3) { 2 } else { 1 };
    for at in 0..times * masks.len() {
        let x = at % masks.len();
        let fits = |group: u16| (0..masks.len()).all(|y| !holds(group, y) || !passes(x, y));
        let free: Vec<usize> = (0..groups.len()).filter(|&i| fits(groups[i])).collect();
        if free.is_empty() || (groups.len() < GROUPS && random.one_in(4)) {
            groups.push(1 << x);
        } else {
            groups[random.pick(&free)] |= 1 << x;
        }
    }
    if random.one_in(4) {
        groups.insert(random.below(groups.len() + 1), 0);
    }
    groups
}

fn damage_groups(random: &mut Random, k: usize, groups: &mut Vec<u16>) {
    let any = random.below(groups.len().max(1));
    match random.below(6) {
        0 => groups.clear(),
        1 => groups.resize(random.pick(&[GROUPS, GROUPS + 1, GROUPS + 1, 40]), 1),
        2 => drop(groups.pop()),
        3 => groups.iter_mut().for_each(|group| *group &= !(1 << random.below(16))),
        4 => groups.iter_mut().skip(any).take(1).for_each(|group| *group |= 1 << random.below(k.clamp(1, 16))),
        _ => groups.iter_mut().skip(any).take(1).for_each(|group| *group |= 1 << random.within(k.min(15)..16)),
    }
}

/// P of the judge beside the ceiling, with a table that has place for as many records.
fn beside(p: &reference::Profile, log: &[u8], ceiling: u64, seen: &mut Seen) -> Checked {
    let (mut order, mut work) = (vec![0; log.len()], vec![0; RECORD * ceiling as usize]);
    let judged = fumarehi::judge(&lend(p), log, &mut order, &mut work).map_err(|refused| format!("judge: {refused:?}"))?;
    seen.ceilings.met += (judged.prefixes == ceiling) as u64;
    seen.ceilings.above += (judged.prefixes < ceiling) as u64;
    agree("P within the ceiling", judged.prefixes <= ceiling, true)
}

/// A call of many events, for the high ceilings.
fn long_log(random: &mut Random, k: usize) -> Vec<u8> {
    let len = random.pick(&[20, 48, 60, 100, 200, 500, MOST]);
    some_log(random, k, len)
}

pub fn check(random: &mut Random, seen: &mut Seen) -> Checked {
    let (p, mut log) = valid_call(random);
    let (mut k, mut masks) = (p.k, p.masks.clone());
    if random.one_in(4) {
        log = long_log(random, k);
    }
    let mut groups = fitting_groups(random, &masks);
    let damaged = random.one_in(3);
    if damaged {
        for _ in 0..random.few() {
            match random.below(5) {
                0 => damage_relation(random, &mut k, &mut masks),
                1 => damage_log(random, k, &mut log),
                _ => damage_groups(random, k, &mut groups),
            }
        }
    }
    let relation = fumarehi::Relation { k, masks: &masks };
    let expected = ceiling(k, &masks, &log, &groups);
    note(seen, "ceiling", expected.as_ref().err());
    let mut told = [UNTOLD; 2];
    let number = numbers::ceiling(&relation, &log, &groups, &mut told);
    let wrapped = as_numbers(fumarehi::ceiling(&relation, &log, &groups), |ceiling| [0, ceiling.into()]);
    let answer = expected.as_ref().map_or_else(refusal, |&ceiling| (0, [0, ceiling]));
    if let Ok(ceiling) = expected {
        seen.ceilings.told += 1;
        seen.ceilings.highest = seen.ceilings.highest.max(ceiling);
        seen.ceilings.overlapping += (0..k).any(|x| groups.iter().filter(|&&group| holds(group, x)).count() > 1) as u64;
        seen.ceilings.empty += groups.contains(&0) as u64;
    }
    agree("answer and told", (number, told), answer)
        .and_then(|()| agree("the wrapper's answer", wrapped, answer))
        .and_then(|()| match expected {
            Ok(ceiling) if ceiling <= 20_000 && masks == p.masks && k == p.k => beside(&p, &log, ceiling, seen),
            _ => Ok(()),
        })
        .map_err(|what| format!("{what}\n  ceiling {k} {masks:?} {log:?} {groups:?}"))
}
