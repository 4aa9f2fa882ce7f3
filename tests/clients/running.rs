//! Random lists of calls of the running judge: Paper 7, from its words.
//!
//! The second implementation keeps prefixes as sets of events, in order of arrival, and no counts. After every call all of the table is compared,
//! the numbers that stay included; after every event taken the answers are also those of the judge for the list of events taken. Between calls record
//! and table are now and then not as left: a call must answer still, and what the paper fixes then is compared.

use crate::reference::{self, refuse, Profile, Refused, COUNTS, MOST, RECORD};
use crate::{agree, as_numbers, damage_relation, damage_states, fitted, fumarehi, lend, lent_numbers, numbers, refusal, some_profile};
use crate::{Checked, Lent, Random, Seen, FUNCTIONS, UNTOLD};
use std::collections::BTreeMap;

/// Runs, events taken, questions answered with verdict 0 and 1, calls on a record or table not as left, and the most prefixes of a run.
#[derive(Default)]
pub struct Met {
    runs: u64,
    taken: u64,
    verdicts: [u64; 2],
    not_as_left: u64,
    most_prefixes: usize,
}

impl Met {
    pub fn print(&self) {
        let [no, yes] = self.verdicts;
        println!(
            "runs: {}, events taken: {}, at most {} prefixes; told verdict 1: {yes}, verdict 0: {no}; calls on a record or table not as left: {}",
            self.runs, self.taken, self.most_prefixes, self.not_as_left
        );
    }

    pub fn missing(&self) -> Option<String> {
        let [no, yes] = self.verdicts;
        let rare = no.min(yes) * 5 < no.max(yes).max(1) || self.not_as_left * 20 < self.taken || self.most_prefixes < 32;
        rare.then(|| "a verdict of the running judge, damage between its calls, or a run of many prefixes is rare".into())
    }
}

pub fn note(seen: &mut Seen, name: &str, refused: Option<&Refused>) {
    let function = FUNCTIONS.iter().position(|(function, _)| *function == name).expect("a function of the list");
    seen.answer(function, refused);
}

/// The events of a set, as bits.
type Events = u32;

/// What is known of the events taken: every prefix in order of arrival.
struct Arrived<'a> {
    p: &'a Profile,
    log: Vec<u8>,
    prefixes: Vec<Events>,
    forward: BTreeMap<Events, u32>,
}

impl Arrived<'_> {
    fn begin(p: &Profile) -> Arrived<'_> {
        Arrived { p, log: vec![], prefixes: vec![0], forward: BTreeMap::from([(0, 1 << p.start)]) }
    }

    /// Whenever an event is in the set, so is every earlier one whose letter may not be moved past by it.
    fn is_prefix(&self, set: Events) -> bool {
        let has = |at: usize| set >> at & 1 == 1;
        let may_pass = |earlier: usize, later: usize| reference::independent(&self.p.masks, self.log[earlier], self.log[later]);
        (0..self.log.len()).all(|later| !has(later) || (0..later).all(|earlier| has(earlier) || may_pass(earlier, later)))
    }

    /// The states that some order of the set leads to: some event of it comes last.
    fn forward(&mut self, set: Events) -> u32 {
        if let Some(&found) = self.forward.get(&set) {
            return found;
        }
        let mut states = 0;
        for last in (0..self.log.len()).filter(|at| set >> at & 1 == 1) {
            let others = set & !(1 << last);
            if self.is_prefix(others) {
                let before = self.forward(others);
                let row = |q: usize| self.p.moves[q * self.p.k + self.log[last] as usize];
                states |= (0..self.p.s).filter(|q| before >> q & 1 == 1).fold(0, |to, q| to | row(q));
            }
        }
        self.forward.insert(set, states);
        states
    }

    /// The prefixes that an event brings, in the order of those that it is added to.
    fn brought(&mut self, letter: u8) -> Vec<Events> {
        self.log.push(letter);
        let new = 1 << (self.log.len() - 1);
        let brought = self.prefixes.iter().map(|set| set | new).filter(|&set| self.is_prefix(set)).collect();
        self.log.pop();
        brought
    }

    fn take(&mut self, letter: u8, brought: Vec<Events>) {
        self.log.push(letter);
        self.prefixes.extend(brought);
    }

    fn verdict(&mut self) -> bool {
        let all = (1 << self.log.len()) - 1;
        self.forward(all) & self.p.finals != 0
    }

    /// The first nine numbers of a record; the backward number stays.
    fn record(&mut self, set: Events) -> [u32; COUNTS + 1] {
        let mut record = [0; COUNTS + 1];
        for (at, &letter) in self.log.iter().enumerate() {
            record[letter as usize / 2] += (set >> at & 1) << (16 * (letter % 2));
        }
        record[COUNTS] = self.forward(set);
        record
    }

    /// A table with the records of all prefixes from a given one on.
    fn written(&mut self, table: &[u32], from: usize) -> Vec<u32> {
        let mut table = table.to_vec();
        for at in from..self.prefixes.len() {
            let record = self.record(self.prefixes[at]);
            table[RECORD * at..][..COUNTS + 1].copy_from_slice(&record);
        }
        table
    }

    fn standing(&mut self) -> [u64; 4] {
        [0, self.verdict() as u64, self.prefixes.len() as u64, self.log.len() as u64]
    }
}

/// 10 where the records do not fit the numbers of a table.
fn fits(prefixes: u64, table: usize) -> Result<(), Refused> {
    if (table / RECORD) as u64 >= prefixes { Ok(()) } else { refuse(10) }
}

/// What the record alone refuses of an event.
fn early(p: &Profile, letter: u8, record: [u64; 2], table: usize) -> Result<(), Refused> {
    reference::profile(p)?;
    let [prefixes, taken] = record;
    if taken >= MOST as u64 {
        return refuse(7);
    }
    if letter as usize >= p.k {
        return Err(Refused { number: 8, place: taken as usize, log: 0 });
    }
    fits(prefixes, table)
}

fn asked_early(p: &Profile, record: [u64; 2], table: usize) -> Result<(), Refused> {
    reference::profile(p)?;
    fits(record[0], table)
}

// Calls, each by numbers and by wrapper: the answer, the record and the table after it.

type After = (u32, Vec<u64>, [u64; 2]);

fn both(numbers: After, wrapped: After, table: &Lent<u32>, again: &Lent<u32>) -> Result<After, String> {
    agree("the wrapper's answer, told and record", &wrapped, &numbers)?;
    agree("the wrapper's table", again.now(), table.now())?;
    table.guards_stay("table").and(again.guards_stay("table")).map(|()| numbers)
}

fn as_running(record: [u64; 2]) -> fumarehi::Running {
    fumarehi::Running { prefixes: record[0], taken: record[1] }
}

fn call_start(p: &Profile, mut record: [u64; 2], table: &mut Lent<u32>) -> Result<After, String> {
    let (mut again, mut told) = (table.clone(), [UNTOLD; 1]);
    let before = record;
    let number = numbers::run_start(&lend(p), &mut record, table.lend(), &mut told);
    let started = fumarehi::run_start(&lend(p), again.lend());
    let left = started.map_or(before, |held| [held.prefixes, held.taken]);
    let (wrapped, wrapped_told) = as_numbers(started, |_| [0]);
    both((number, told.to_vec(), record), (wrapped, wrapped_told.to_vec(), left), table, &again)
}

fn call_event(p: &Profile, letter: u8, mut record: [u64; 2], table: &mut Lent<u32>) -> Result<After, String> {
    let (mut again, mut told, mut held) = (table.clone(), [UNTOLD; 1], as_running(record));
    let number = numbers::run_event(&lend(p), letter, &mut record, table.lend(), &mut told);
    let (wrapped, wrapped_told) = as_numbers(held.event(&lend(p), letter, again.lend()), |()| [0]);
    both((number, told.to_vec(), record), (wrapped, wrapped_told.to_vec(), [held.prefixes, held.taken]), table, &again)
}

fn call_question(p: &Profile, record: [u64; 2], table: &Lent<u32>) -> Result<After, String> {
    let mut told = [UNTOLD; 4];
    let number = numbers::run_question(&lend(p), &record, table.now(), &mut told);
    let asked = as_running(record).question(&lend(p), table.now());
    let (wrapped, wrapped_told) = as_numbers(asked, |tells| [0, tells.has_order as u64, tells.prefixes, tells.taken]);
    both((number, told.to_vec(), record), (wrapped, wrapped_told.to_vec(), record), table, table)
}

/// A refused call: its number and place, and nothing is changed.
fn agree_refused<const N: usize>(after: &After, refused: &Refused, record: [u64; 2], table: &Lent<u32>, before: &[u32]) -> Checked {
    let (number, told) = refusal::<N>(refused);
    agree("answer, told and record", after, &(number, told.to_vec(), record))?;
    agree("the table after a refusal", table.now(), before)
}

/// The judge for the list of events taken.
fn agree_judge(arrived: &mut Arrived) -> Checked {
    let (mut order, mut work) = (vec![0; arrived.log.len()], vec![0; RECORD * arrived.prefixes.len()]);
    let judged = fumarehi::judge(&lend(arrived.p), &arrived.log, &mut order, &mut work).map_err(|refused| format!("judge: {refused:?}"))?;
    let [_, verdict, prefixes, _] = arrived.standing();
    agree("the judge's verdict and P", (judged.has_order as u64, judged.prefixes), (verdict, prefixes))?;
    let solved = reference::solve(arrived.p, &arrived.log).map_err(|refused| format!("reference: {refused:?}"))?;
    agree("the reference's verdict and P", (solved.order.is_some() as u64, solved.records.len() as u64), (verdict, prefixes))
}

fn take_event(seen: &mut Seen, arrived: &mut Arrived, letter: u8, record: &mut [u64; 2], table: &mut Lent<u32>) -> Checked {
    let before = table.now().to_vec();
    let mut expected = early(arrived.p, letter, *record, before.len());
    let brought = if expected.is_ok() { arrived.brought(letter) } else { vec![] };
    if expected.is_ok() {
        expected = fits((arrived.prefixes.len() + brought.len()) as u64, before.len());
    }
    note(seen, "run_event", expected.as_ref().err());
    let after = call_event(arrived.p, letter, *record, table)?;
    if let Err(refused) = expected {
        return agree_refused::<1>(&after, &refused, *record, table, &before);
    }
    let from = arrived.prefixes.len();
    arrived.take(letter, brought);
    *record = [arrived.prefixes.len() as u64, arrived.log.len() as u64];
    seen.running.taken += 1;
    seen.running.most_prefixes = seen.running.most_prefixes.max(arrived.prefixes.len());
    agree("answer, told and record", after, (0, vec![0], *record))?;
    agree("the table after an event", table.now(), &arrived.written(&before, from))?;
    agree_judge(arrived)
}

fn ask(seen: &mut Seen, arrived: &mut Arrived, record: [u64; 2], table: &Lent<u32>) -> Checked {
    let before = table.now().to_vec();
    let after = call_question(arrived.p, record, table)?;
    note(seen, "run_question", None);
    let standing = arrived.standing();
    seen.running.verdicts[standing[1] as usize] += 1;
    agree("answer, told and record", after, (0, standing.to_vec(), record))?;
    agree("the table after a question", table.now(), &before)
}

/// Events and questions with the record and the table as the last call left them.
fn as_left(random: &mut Random, seen: &mut Seen, arrived: &mut Arrived, record: &mut [u64; 2], table: &mut Lent<u32>) -> Checked {
    for _ in 0..random.below(15) {
        if random.one_in(3) {
            ask(seen, arrived, *record, table)?;
        } else {
            let good = random.below(arrived.p.k) as u8;
            let letter = if random.one_in(20) { random.pick(&[arrived.p.k as u8, 16, 17, 254, 255]) } else { good };
            take_event(seen, arrived, letter, record, table)?;
        }
    }
    Ok(())
}

// Records and tables not as left.

fn damage_record(random: &mut Random, record: &mut [u64; 2], table: usize) {
    let [prefixes, taken] = *record;
    let room = (table / RECORD) as u64;
    let any = random.next();
    record[0] = random.pick(&[prefixes, 0, 1, prefixes.wrapping_sub(1), prefixes + 1, room, room + 1, 1 << 32, (1 << 32) + prefixes, any, u64::MAX]);
    if random.one_in(2) {
        record[1] = random.pick(&[taken + 1, taken.wrapping_sub(1), 3999, 4000, 4001, 1 << 32, (1 << 32) + taken, any, u64::MAX]);
    }
}

/// Counts of any size, among them the largest, and sets with bits from s on.
fn damage_table(random: &mut Random, table: &mut [u32]) {
    for _ in 0..random.few() {
        if !table.is_empty() {
            let at = random.below(table.len());
            let any = random.next() as u32;
            table[at] = random.pick(&[0, any, u32::MAX, 0xffff, 0xffff_0000, table[at].wrapping_add(1)]);
        }
    }
}

fn damage_profile(random: &mut Random, p: &mut Profile) {
    match random.below(3) {
        0 => damage_relation(random, &mut p.k, &mut p.masks),
        1 => damage_states(random, p),
        _ => fitted(random, p),
    }
}

/// A call on what may be anything: what the record refuses is fixed, and so is that a refusal changes nothing; else only that it answers.
fn not_as_left(random: &mut Random, seen: &mut Seen, p: &Profile, record: &mut [u64; 2], table: &mut Lent<u32>) -> Checked {
    let before = table.now().to_vec();
    seen.running.not_as_left += 1;
    if random.one_in(3) {
        let expected = asked_early(p, *record, before.len());
        note(seen, "run_question", expected.as_ref().err());
        let after = call_question(p, *record, table)?;
        match expected {
            Err(refused) => agree_refused::<4>(&after, &refused, *record, table, &before),
            Ok(()) => agree("an answer, and the table", (after.0, table.now()), (0, &before[..])),
        }
    } else {
        let letter = random.below(p.k.clamp(1, 16) + 1) as u8;
        let expected = early(p, letter, *record, before.len());
        let after = call_event(p, letter, *record, table)?;
        note(seen, "run_event", expected.as_ref().err());
        match expected {
            Err(refused) => agree_refused::<1>(&after, &refused, *record, table, &before),
            Ok(()) if after.0 == 10 => agree_refused::<1>(&after, &Refused { number: 10, place: 0, log: 0 }, *record, table, &before),
            Ok(()) => {
                *record = after.2;
                agree("answer and told", (after.0, after.1), (0, vec![0]))
            }
        }
    }
}

fn damaged(random: &mut Random, seen: &mut Seen, p: &Profile, record: &mut [u64; 2], table: &mut Lent<u32>) -> Checked {
    for _ in 0..random.within(1..6) {
        match random.below(4) {
            0 => damage_table(random, table.lend()),
            1 | 2 => damage_record(random, record, table.len()),
            _ => {
                damage_table(random, table.lend());
                damage_record(random, record, table.len());
            }
        }
        let mut other = p.clone();
        if random.one_in(6) {
            damage_profile(random, &mut other);
        }
        not_as_left(random, seen, &other, record, table)?;
    }
    Ok(())
}

fn run(random: &mut Random, seen: &mut Seen, p: &Profile, mut table: Lent<u32>) -> Checked {
    let before = table.now().to_vec();
    let mut record = [random.next(), random.next()];
    let expected = reference::profile(p).and_then(|()| fits(1, before.len()));
    note(seen, "run_start", expected.as_ref().err());
    let after = call_start(p, record, &mut table)?;
    if let Err(refused) = expected {
        return agree_refused::<1>(&after, &refused, record, &table, &before);
    }
    let mut arrived = Arrived::begin(p);
    record = [1, 0];
    agree("answer, told and record", after, (0, vec![0], record))?;
    agree("the table after a start", table.now(), &arrived.written(&before, 0))?;
    as_left(random, seen, &mut arrived, &mut record, &mut table)?;
    if random.one_in(3) { damaged(random, seen, p, &mut record, &mut table) } else { Ok(()) }
}

/// A start, then events and questions, then now and then calls on a record or table not as left.
pub fn check(random: &mut Random, seen: &mut Seen) -> Checked {
    seen.running.runs += 1;
    let k = random.pick(&[1, 2, 2, 3, 3, 4, 5, 16]);
    let mut p = some_profile(random, k);
    if random.one_in(10) {
        damage_profile(random, &mut p);
    }
    let len = random.pick(&[0, 9, 10, 19, 20, 39, 40, 95, 200, 333, 640, 1000, 1000, 2000]);
    let table = lent_numbers(random, len);
    run(random, seen, &p, table).map_err(|what| format!("{what}\n  run {p:?}, a table of {len}"))
}
