//! Random logs under two lists of pairs, one of which holds every pair of the other: Paper 9, from its words.
//!
//! Both answers are those of the second implementation, whatever buffers each call was lent; and of the two, verdict 1 stays 1, the order is no
//! later in letter order, and P and looks do not shrink. Every record of the first table has one with the same counts in the second. So with
//! the same days and terms.

use crate::reference::{self, Profile, Solved, RECORD};
use crate::terms::{some_days, some_terms};
use crate::{agree, exchanged, fumarehi, lend, lent_bytes, lent_numbers, only_courses, valid_call, Checked, Random, Seen};

/// Pairs of calls, and those in which a verdict 0 became 1, an order became another, P grew, looks grew, nothing changed; and pairs with terms, and
/// those of them in which P grew.
#[derive(Default)]
pub struct Met {
    pairs: u64,
    good: u64,
    earlier: u64,
    prefixes: u64,
    looks: u64,
    unchanged: u64,
    terms: [u64; 2],
}

impl Met {
    pub fn print(&self) {
        println!(
            "judged with more pairs: {}; verdict 0 became 1: {}, another order: {}, more prefixes: {}, more looks: {}, nothing changed: {}; with terms: {}, more prefixes: {}",
            self.pairs, self.good, self.earlier, self.prefixes, self.looks, self.unchanged, self.terms[0], self.terms[1]
        );
    }

    pub fn missing(&self) -> Option<String> {
        let rare = [self.good, self.earlier, self.prefixes, self.looks, self.unchanged, self.terms[1]].into_iter().any(|times| times * 100 < self.pairs.max(1));
        rare.then(|| "more pairs rarely change a verdict, an order, P or looks, or rarely leave all of them".into())
    }
}

/// Masks with every bit of the given ones, and some more.
fn longer(random: &mut Random, masks: &[u16]) -> Vec<u16> {
    let density = random.pick(&[0, 1, 1, 2, 4, 8]);
    let k = masks.len();
    let more = |random: &mut Random, i: usize| (0..k).filter(|&j| j != i && random.below(8) < density).fold(0, |mask, j| mask | 1 << j);
    (0..k).map(|i| masks[i] | more(random, i)).collect()
}

/// The order, if there is one, P and looks.
type Answer = (Option<Vec<u8>>, u64, u64);

/// The answer of a call with a table that is long enough, as the second implementation has it.
fn judged(random: &mut Random, p: &Profile, log: &[u8], solved: &Solved) -> Result<Answer, String> {
    let (room, numbers) = (log.len() + random.below(4), RECORD * (solved.records.len() + random.below(3)));
    let (mut order, mut work) = (lent_bytes(random, room), lent_numbers(random, numbers));
    let told = fumarehi::judge(&lend(p), log, order.lend(), work.lend()).map_err(|refused| format!("judge: {refused:?}"))?;
    let found = told.has_order.then(|| order.now()[..log.len()].to_vec());
    agree("the order", &found, &solved.order)?;
    agree("P and looks", (told.prefixes, told.looks), (solved.records.len() as u64, solved.looks as u64))?;
    Ok((found, told.prefixes, told.looks))
}

fn solve(p: &Profile, log: &[u8]) -> Result<Solved, String> {
    reference::solve(p, log).map_err(|refused| format!("reference: {refused:?}"))
}

fn no_worse(few: &Answer, many: &Answer) -> Checked {
    let order = few.0.as_ref().map_or(true, |order| many.0.as_ref().is_some_and(|earlier| earlier <= order));
    agree("verdict 1 stays 1, and the order is no later", order, true)?;
    agree("P and looks do not shrink", few.1 <= many.1 && few.2 <= many.2, true)
}

/// With terms there are no more prefixes than without, so as long a table is long enough.
fn judged_terms(p: &Profile, log: &[u8], dates: &fumarehi::Dates, prefixes: u64) -> Result<Answer, String> {
    let (mut order, mut work) = (vec![0; log.len()], vec![0; RECORD * prefixes as usize]);
    let told = fumarehi::judge_terms(&lend(p), log, dates, &mut order, &mut work).map_err(|refused| format!("judge_terms: {refused:?}"))?;
    Ok((told.has_order.then_some(order), told.prefixes, told.looks))
}

fn compare_terms(random: &mut Random, seen: &mut Seen, p: &Profile, more: &Profile, log: &[u8], prefixes: [u64; 2]) -> Checked {
    let terms = some_terms(random);
    let days = some_days(random, &terms, log.len());
    let dates = fumarehi::Dates { days: &days, terms: &terms };
    let few = judged_terms(p, log, &dates, prefixes[0])?;
    let many = judged_terms(more, log, &dates, prefixes[1])?;
    seen.nested.terms[0] += 1;
    seen.nested.terms[1] += (few.1 < many.1) as u64;
    no_worse(&few, &many).map_err(|what| format!("{what}, with days {days:?} and terms {terms:?}"))
}

fn compare(random: &mut Random, seen: &mut Seen, p: &Profile, more: &Profile, log: &[u8]) -> Checked {
    let (solved, solved_more) = (solve(p, log)?, solve(more, log)?);
    let few = judged(random, p, log, &solved)?;
    let many = judged(random, more, log, &solved_more)?;
    agree("every record has one with more pairs", solved.records.keys().all(|counts| solved_more.records.contains_key(counts)), true)?;
    let met = &mut seen.nested;
    met.pairs += 1;
    met.good += (few.0.is_none() && many.0.is_some()) as u64;
    met.earlier += (few.0.is_some() && few.0 != many.0) as u64;
    met.prefixes += (few.1 < many.1) as u64;
    met.looks += (few.2 < many.2) as u64;
    met.unchanged += (few == many) as u64;
    no_worse(&few, &many)?;
    compare_terms(random, seen, p, more, log, [few.1, many.1])
}

pub fn check(random: &mut Random, seen: &mut Seen) -> Checked {
    let (mut p, log) = loop {
        let (p, log) = valid_call(random);
        if log.len() <= 12 {
            break (p, log);
        }
    };
    let masks = longer(random, &p.masks);
    if random.one_in(2) && log.len() <= reference::LISTED {
        // Courses that the log reaches with more pairs, and mostly not with the few.
        let courses: Vec<_> = (0..random.within(1..5)).map(|_| exchanged(random, &masks, &log)).collect();
        only_courses(&mut p, &courses);
    }
    let more = Profile { masks, ..p.clone() };
    compare(random, seen, &p, &more, &log).map_err(|what| format!("{what}\n  nested {p:?} {:?} {log:?}", more.masks))
}
