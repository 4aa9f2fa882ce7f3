//! Measures the judge with terms beside the judge without; `bench/run --terms` builds and runs it.
//!
//! A log's events are cut into so many runs of equal length, one for each term, so that days rise. With one term the work is the same as without terms, and
//! the answer, the order and the table are asserted to be the same. With more terms fewer exchanges are left, and P falls. The last column has the days in
//! turn, one event in each term after the other: no two neighbours may be exchanged then, and P is one more than the events.

mod clock;
#[allow(dead_code)]
mod input;
mod library;
#[allow(dead_code)]
mod rules;

use input::Letters::{self, Dependent, Groups, Independent, Neighbours, Random, Rising};
use input::{make, Profile, Row};
use rules::RECORD;
use std::time::Instant;

/// More records than any row has prefixes.
const RECORDS: usize = 700_000;

/// Rounds of each row, of which the least time is taken.
const ROUNDS: usize = 5;

/// k, letters, s and the lengths of the logs.
const LINES: &[(usize, Letters, usize, &[usize])] = &[
    (2, Independent, 8, &[255, 1000]),
    (3, Independent, 8, &[255]),
    (4, Dependent, 8, &[1000, 4000]),
    (4, Neighbours, 8, &[1000]),
    (8, Neighbours, 8, &[255, 1000]),
    (8, Groups, 8, &[255]),
    (8, Random, 8, &[100]),
    (16, Groups, 8, &[60]),
    (2, Rising, 8, &[255]),
];

/// The terms of a school year, so many of them: a fortnight each.
fn terms(many: usize) -> Vec<u32> {
    (1..=many as u32).flat_map(|month| [20_260_000 + month * 100 + 1, 20_260_000 + month * 100 + 14]).collect()
}

extern "C" {
    fn fumarehi_judge_terms(
        k: usize, s: usize, start: usize, finals: u32,
        masks: *const u16, masks_len: usize, moves: *const u32, moves_len: usize, log: *const u8, log_len: usize,
        days: *const u32, days_len: usize, terms: *const u32, terms_len: usize,
        order: *mut u8, order_len: usize, work: *mut u32, work_len: usize, told: *mut u64,
    ) -> u32;
}

/// Verdict, P and looks.
type Told = (bool, usize, u64);

fn judge_terms(p: &Profile, log: &[u8], days: &[u32], terms: &[u32], order: &mut [u8], work: &mut [u32]) -> Told {
    let mut told = [0; 4];
    // Sound: every pointer and length is that of a live slice or array, the mutable ones apart.
    let refused = unsafe {
        fumarehi_judge_terms(
            p.k, p.s, p.start, p.finals, p.masks.as_ptr(), p.masks.len(), p.moves.as_ptr(), p.moves.len(), log.as_ptr(), log.len(),
            days.as_ptr(), days.len(), terms.as_ptr(), terms.len(),
            order.as_mut_ptr(), order.len(), work.as_mut_ptr(), work.len(), told.as_mut_ptr(),
        )
    };
    assert!(refused == 0, "the log is judged");
    (told[1] == 1, told[2] as usize, told[3])
}

/// Seconds of processor time from 5 ms on, below that of the clock, which is finer.
fn seconds<T>(run: impl FnOnce() -> T) -> (f64, T) {
    let (used, begun) = (clock::now(), Instant::now());
    let result = run();
    let (passed, used) = (begun.elapsed().as_secs_f64(), clock::now() - used);
    (if used < 0.005 { passed } else { used }, result)
}

/// The least time, and P.
fn least(run: &mut dyn FnMut() -> Told) -> (f64, Told) {
    let rounds = (0..ROUNDS).map(|_| seconds(&mut *run));
    rounds.min_by(|a, b| a.0.total_cmp(&b.0)).expect("a round")
}

struct Measured {
    time: f64,
    prefixes: usize,
}

fn measure(p: &Profile, log: &[u8], many: usize, turn: bool, order: &mut [u8], work: &mut [u32]) -> (Measured, Told) {
    let terms = terms(many);
    let term = |i: usize| if turn { i % many } else { i * many / log.len() };
    let days: Vec<u32> = (0..log.len()).map(|i| terms[2 * term(i)]).collect();
    let (time, told) = least(&mut || judge_terms(p, log, &days, &terms, order, work));
    (Measured { time, prefixes: told.1 }, told)
}

fn line(row: Row, ours: &mut [u32], other: &mut [u32]) {
    let (p, log) = make(row);
    let (mut order, mut plain_order) = (vec![0; log.len()], vec![0; log.len()]);
    let mut judge = || library::judge(&p, &log, &mut plain_order, other).map(|a| (a.verdict, a.prefixes, a.looks)).ok().expect("the log is judged");
    let (plain, told) = least(&mut judge);
    let (one, told_one) = measure(&p, &log, 1, false, &mut order, ours);
    assert!(told == told_one && order == plain_order && ours[..RECORD * told.1] == other[..RECORD * told.1], "one term changes nothing");
    let (three, _) = measure(&p, &log, 3, false, &mut order, ours);
    let (twelve, _) = measure(&p, &log, 12, false, &mut order, ours);
    let (turn, _) = measure(&p, &log, 12, true, &mut order, ours);
    let per = |m: &Measured| m.time * 1e9 / (m.prefixes * row.k) as f64;
    println!(
        "| {:2} | {:4} | {:11} | {:2} | {:6} | {:8.3} | {:5.1} | {:8.3} | {:5.1} | {:9.2} | {:6} | {:8.3} | {:5.1} | {:6} | {:8.3} | {:5.1} | {:8.3} |",
        row.k, row.n, row.letters.name(), row.s, told.1, plain * 1e3, plain * 1e9 / (told.1 * row.k) as f64, one.time * 1e3, per(&one), one.time / plain,
        three.prefixes, three.time * 1e3, per(&three), twelve.prefixes, twelve.time * 1e3, per(&twelve), turn.time * 1e3
    );
}

fn main() {
    println!("judge with terms beside the judge without; least of {ROUNDS} rounds; ns are for each prefix and letter");
    println!("|  k |    n | letters     |  s |      P |  none ms |    ns |   one ms |    ns | one/none  |  P, 3  |  3 ms    |    ns |  P, 12 |  12 ms   |    ns | turn ms  |");
    println!("|---:|-----:|-------------|---:|-------:|---------:|------:|---------:|------:|----------:|-------:|---------:|------:|-------:|---------:|------:|---------:|");
    // Not zeros: memory of zeros is handed out untouched.
    let (mut ours, mut other) = (vec![1; RECORD * RECORDS], vec![1; RECORD * RECORDS]);
    for &(k, letters, s, lengths) in LINES {
        for &n in lengths {
            line(Row { k, n, letters, s, verdict: true }, &mut ours, &mut other);
        }
    }
}
