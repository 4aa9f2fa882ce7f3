//! Measures a teacher's view with all letters visible beside the judge; `bench/run --view` builds and runs it.
//!
//! Answers, orders and tables are asserted to agree in each round.

mod clock;
#[allow(dead_code)]
mod input;
mod library;
#[allow(dead_code)]
mod rules;

use input::Letters::{self, Dependent, Groups, Independent, Neighbours, Random};
use input::{make, Profile, Row};
use rules::RECORD;
use std::time::Instant;

/// More records than any row has prefixes.
const RECORDS: usize = 700_000;

/// Rounds of each row, of which the least time is taken.
const ROUNDS: usize = 15;

/// k, letters, s and the lengths of the logs.
const LINES: &[(usize, Letters, usize, &[usize])] = &[
    (2, Independent, 8, &[255, 1000]),
    (3, Independent, 8, &[255]),
    (3, Independent, 32, &[255]),
    (4, Dependent, 8, &[1000]),
    (8, Neighbours, 8, &[1000]),
    (8, Groups, 8, &[1000]),
    (8, Random, 32, &[100]),
];

extern "C" {
    fn fumarehi_view(
        k: usize, s: usize, start: usize, finals: u32, visible: u32,
        masks: *const u16, masks_len: usize, moves: *const u32, moves_len: usize, log: *const u8, log_len: usize,
        order: *mut u8, order_len: usize, work: *mut u32, work_len: usize, told: *mut u64,
    ) -> u32;
}

/// Verdict, P and looks, with all letters visible.
fn view(p: &Profile, log: &[u8], order: &mut [u8], work: &mut [u32]) -> (bool, usize, u64) {
    let mut told = [0; 4];
    let (masks, moves) = (&p.masks, &p.moves);
    // Sound: every pointer and length is that of a live slice or array, the mutable ones apart.
    let refused = unsafe {
        fumarehi_view(
            p.k, p.s, p.start, p.finals, (1 << p.k) - 1, masks.as_ptr(), masks.len(), moves.as_ptr(), moves.len(), log.as_ptr(), log.len(),
            order.as_mut_ptr(), order.len(), work.as_mut_ptr(), work.len(), told.as_mut_ptr(),
        )
    };
    assert!(refused == 0, "the view is answered");
    (told[1] == 1, told[2] as usize, told[3])
}

/// Seconds of processor time from 5 ms on, below that of the clock, which is finer.
fn seconds<T>(run: impl FnOnce() -> T) -> (f64, T) {
    let (used, begun) = (clock::now(), Instant::now());
    let result = run();
    let (passed, used) = (begun.elapsed().as_secs_f64(), clock::now() - used);
    (if used < 0.005 { passed } else { used }, result)
}

/// The least times of the view and of the judge, and P.
fn measure(row: Row, ours: &mut [u32], other: &mut [u32]) -> (f64, f64, usize) {
    let (p, log) = make(row);
    let (mut order, mut judged) = (vec![0; log.len()], vec![0; log.len()]);
    let mut least = (f64::MAX, f64::MAX, 0);
    for _ in 0..ROUNDS {
        let (viewing, told) = seconds(|| view(&p, &log, &mut order, ours));
        let (judging, answer) = seconds(|| library::judge(&p, &log, &mut judged, other).ok().expect("the log is judged"));
        let len = RECORD * answer.prefixes;
        assert!(told == (answer.verdict, answer.prefixes, answer.looks) && order == judged && ours[..len] == other[..len], "the view is the judge");
        least = (least.0.min(viewing), least.1.min(judging), answer.prefixes);
    }
    least
}

fn main() {
    println!("a view of all letters beside the judge; least of {ROUNDS} rounds");
    println!("|  k |    n | letters     |  s |      P | view ms | judge ms | view/judge |");
    println!("|---:|-----:|-------------|---:|-------:|--------:|---------:|-----------:|");
    // Not zeros: memory of zeros is handed out untouched.
    let (mut ours, mut other) = (vec![1; RECORD * RECORDS], vec![1; RECORD * RECORDS]);
    for &(k, letters, s, lengths) in LINES {
        for &n in lengths {
            let (viewing, judging, prefixes) = measure(Row { k, n, letters, s, verdict: true }, &mut ours, &mut other);
            println!(
                "| {k:2} | {n:4} | {:11} | {s:2} | {prefixes:6} | {:7.3} | {:8.3} | {:10.2} |",
                letters.name(),
                viewing * 1e3,
                judging * 1e3,
                viewing / judging
            );
        }
    }
}
