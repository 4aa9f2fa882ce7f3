//! Measures the closest order beside the judge; `bench/run --closest` builds and runs it.
//!
//! With a budget for all pairs the order is the closest, with budget 0 it is the judge's. Answers and tables are asserted to agree with the judge's in each round,
//! the order too with budget 0, and the closest order to have no more swaps than the judge's. The call with terms gets one term that has every day, and is
//! asserted to give the same.

mod clock;
#[allow(dead_code)]
mod input;
mod library;
#[allow(dead_code)]
mod rules;

use input::Letters::{self, Dependent, Falling, Groups, Independent, Neighbours, Random};
use input::{make, Profile, Row};
use rules::RECORD;
use std::time::Instant;

/// More records than any row has prefixes, and more costs than any row has prefixes and states.
const RECORDS: usize = 700_000;
const COSTS: usize = 32 * RECORDS;

/// Rounds of each row, of which the least time is taken.
const ROUNDS: usize = 15;

/// k, letters, s and the lengths of the logs.
const LINES: &[(usize, Letters, usize, &[usize])] = &[
    (2, Independent, 8, &[255, 1000]),
    (3, Independent, 8, &[60, 255]),
    (3, Independent, 32, &[60, 255]),
    (4, Dependent, 8, &[1000, 4000]),
    (8, Neighbours, 8, &[1000]),
    (8, Groups, 8, &[1000]),
    (8, Random, 32, &[100]),
    (2, Falling, 8, &[255]),
];

extern "C" {
    fn fumarehi_closest(
        k: usize, s: usize, start: usize, finals: u32,
        masks: *const u16, masks_len: usize, moves: *const u32, moves_len: usize, log: *const u8, log_len: usize,
        order: *mut u8, order_len: usize, work: *mut u32, work_len: usize, costs: *mut u32, costs_len: usize, budget: u64, told: *mut u64,
    ) -> u32;
    fn fumarehi_closest_terms(
        k: usize, s: usize, start: usize, finals: u32,
        masks: *const u16, masks_len: usize, moves: *const u32, moves_len: usize, log: *const u8, log_len: usize,
        days: *const u32, days_len: usize, terms: *const u32, terms_len: usize,
        order: *mut u8, order_len: usize, work: *mut u32, work_len: usize, costs: *mut u32, costs_len: usize, budget: u64, told: *mut u64,
    ) -> u32;
}

/// Verdict, P and looks; swaps and floor.
type Told = ((bool, usize, u64), u64, u64);

fn closest(p: &Profile, log: &[u8], order: &mut [u8], work: &mut [u32], costs: &mut [u32], budget: u64) -> Told {
    let mut told = [0; 6];
    // Sound: every pointer and length is that of a live slice or array, the mutable ones apart.
    let refused = unsafe {
        fumarehi_closest(
            p.k, p.s, p.start, p.finals, p.masks.as_ptr(), p.masks.len(), p.moves.as_ptr(), p.moves.len(), log.as_ptr(), log.len(),
            order.as_mut_ptr(), order.len(), work.as_mut_ptr(), work.len(), costs.as_mut_ptr(), costs.len(), budget, told.as_mut_ptr(),
        )
    };
    assert!(refused == 0, "the call is answered");
    ((told[1] == 1, told[2] as usize, told[3]), told[4], told[5])
}

/// The day of every event, and one term that has it.
const DAY: u32 = 20_260_914;
const TERM: [u32; 2] = [20_260_901, 20_270_326];

fn closest_terms(p: &Profile, log: &[u8], days: &[u32], order: &mut [u8], work: &mut [u32], costs: &mut [u32], budget: u64) -> Told {
    let mut told = [0; 6];
    // Sound: every pointer and length is that of a live slice or array, the mutable ones apart.
    let refused = unsafe {
        fumarehi_closest_terms(
            p.k, p.s, p.start, p.finals, p.masks.as_ptr(), p.masks.len(), p.moves.as_ptr(), p.moves.len(), log.as_ptr(), log.len(),
            days.as_ptr(), days.len(), TERM.as_ptr(), TERM.len(),
            order.as_mut_ptr(), order.len(), work.as_mut_ptr(), work.len(), costs.as_mut_ptr(), costs.len(), budget, told.as_mut_ptr(),
        )
    };
    assert!(refused == 0, "the call with terms is answered");
    ((told[1] == 1, told[2] as usize, told[3]), told[4], told[5])
}

/// Seconds of processor time from 5 ms on, below that of the clock, which is finer.
fn seconds<T>(run: impl FnOnce() -> T) -> (f64, T) {
    let (used, begun) = (clock::now(), Instant::now());
    let result = run();
    let (passed, used) = (begun.elapsed().as_secs_f64(), clock::now() - used);
    (if used < 0.005 { passed } else { used }, result)
}

struct Buffers {
    ours: Vec<u32>,
    other: Vec<u32>,
    costs: Vec<u32>,
}

/// The least times with all pairs, with none, of the judge, and with all pairs and one term; P and all pairs; the swaps of the closest order and of the judge's.
struct Measured {
    times: [f64; 4],
    prefixes: usize,
    pairs: u32,
    swaps: [u64; 2],
}

fn measure(row: Row, lent: &mut Buffers) -> Measured {
    let (p, log) = make(row);
    let (mut order, mut judged, mut dated) = (vec![0; log.len()], vec![0; log.len()], vec![0; log.len()]);
    let days = vec![DAY; log.len()];
    let mut least = Measured { times: [f64::MAX; 4], prefixes: 0, pairs: 0, swaps: [0; 2] };
    for _ in 0..ROUNDS {
        let (judging, answer) = seconds(|| library::judge(&p, &log, &mut judged, &mut lent.other).ok().expect("the log is judged"));
        let expected = (answer.verdict, answer.prefixes, answer.looks);
        let len = RECORD * answer.prefixes;
        let (none, told) = seconds(|| closest(&p, &log, &mut order, &mut lent.ours, &mut lent.costs, 0));
        assert!(told.0 == expected && told.2 == 0 && order == judged && lent.ours[..len] == lent.other[..len], "with no pair it is the judge");
        let (all, found) = seconds(|| closest(&p, &log, &mut order, &mut lent.ours, &mut lent.costs, u64::MAX));
        assert!(found.0 == expected && found.1 == found.2 && found.1 <= told.1 && lent.ours[..len] == lent.other[..len], "the closest order");
        let (one, same) = seconds(|| closest_terms(&p, &log, &days, &mut dated, &mut lent.ours, &mut lent.costs, u64::MAX));
        assert!(same == found && dated == order && lent.ours[..len] == lent.other[..len], "with one term it is the same");
        let pairs = lent.ours[..len].chunks(RECORD).map(|record| record[RECORD - 2].count_ones()).sum();
        let times = [all, none, judging, one];
        least.times.iter_mut().zip(times).for_each(|(least, time)| *least = least.min(time));
        least = Measured { prefixes: answer.prefixes, pairs, swaps: [found.1, told.1], ..least };
    }
    least
}

fn main() {
    println!("closest order beside the judge; least of {ROUNDS} rounds; ns are for each pair and letter");
    println!("|  k |    n | letters     |  s |      P |    pairs | costs KB | swaps | judge's | all ms   |    ns | none ms  | judge ms | all/judge | one term ms | one/all |");
    println!("|---:|-----:|-------------|---:|-------:|---------:|---------:|------:|--------:|---------:|------:|---------:|---------:|----------:|------------:|--------:|");
    // Not zeros: memory of zeros is handed out untouched.
    let mut lent = Buffers { ours: vec![1; RECORD * RECORDS], other: vec![1; RECORD * RECORDS], costs: vec![1; COSTS] };
    for &(k, letters, s, lengths) in LINES {
        for &n in lengths {
            let m = measure(Row { k, n, letters, s, verdict: true }, &mut lent);
            let [all, none, judging, one] = m.times;
            println!(
                "| {k:2} | {n:4} | {:11} | {s:2} | {:6} | {:8} | {:8.1} | {:5} | {:7} | {:8.3} | {:5.1} | {:8.3} | {:8.3} | {:9.2} | {:11.3} | {:7.2} |",
                letters.name(), m.prefixes, m.pairs, (4 * m.prefixes * s) as f64 / 1024.0, m.swaps[0], m.swaps[1],
                all * 1e3, all * 1e9 / (m.pairs as f64 * k as f64), none * 1e3, judging * 1e3, all / judging, one * 1e3, one / all
            );
        }
    }
}
