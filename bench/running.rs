//! Measures the running judge beside judging anew after each event; `bench/run --running` builds and runs it.
//!
//! A round gives a running judge all events of a log, with a question after each, and then judges every beginning of the log. Verdict and P are asserted
//! to agree after each event. The last event is also timed alone: the record is put back, and the event given again.

mod clock;
#[allow(dead_code)]
mod input;
mod library;
#[allow(dead_code)]
mod rules;

use input::Letters::{self, Dependent, Groups, Independent, Neighbours, Random, Rising};
use input::{make, Profile, Row};
use rules::RECORD;
use std::time::Instant;

/// More records than any row has prefixes.
const RECORDS: usize = 700_000;

/// Rounds of each row, of which the least time is taken; and how often the last event is given.
const ROUNDS: usize = 3;
const LAST: usize = 50;

/// k, letters, s and the lengths of the logs.
const LINES: &[(usize, Letters, usize, &[usize])] = &[
    (2, Independent, 8, &[255, 1000]),
    (3, Independent, 8, &[255]),
    (4, Dependent, 8, &[255, 1000]),
    (4, Neighbours, 8, &[255, 1000]),
    (8, Neighbours, 8, &[255, 1000]),
    (8, Groups, 8, &[255, 1000]),
    (8, Random, 8, &[100]),
    (2, Rising, 8, &[255]),
];

extern "C" {
    fn fumarehi_run_start(
        k: usize, s: usize, start: usize, finals: u32,
        masks: *const u16, masks_len: usize, moves: *const u32, moves_len: usize,
        record: *mut u64, table: *mut u32, table_len: usize, told: *mut u64,
    ) -> u32;
    fn fumarehi_run_event(
        k: usize, s: usize, start: usize, finals: u32,
        masks: *const u16, masks_len: usize, moves: *const u32, moves_len: usize,
        letter: u8, record: *mut u64, table: *mut u32, table_len: usize, told: *mut u64,
    ) -> u32;
    fn fumarehi_run_question(
        k: usize, s: usize, start: usize, finals: u32,
        masks: *const u16, masks_len: usize, moves: *const u32, moves_len: usize,
        record: *const u64, table: *const u32, table_len: usize, told: *mut u64,
    ) -> u32;
}

// Sound, here and below: every pointer and length is that of a live slice or array, the mutable ones apart.
fn start(p: &Profile, record: &mut [u64; 2], table: &mut [u32]) {
    let mut told = [0];
    let (masks, moves) = (&p.masks, &p.moves);
    let refused = unsafe {
        fumarehi_run_start(
            p.k, p.s, p.start, p.finals, masks.as_ptr(), masks.len(), moves.as_ptr(), moves.len(),
            record.as_mut_ptr(), table.as_mut_ptr(), table.len(), told.as_mut_ptr(),
        )
    };
    assert!(refused == 0, "the running judge starts");
}

fn event(p: &Profile, letter: u8, record: &mut [u64; 2], table: &mut [u32]) {
    let mut told = [0];
    let (masks, moves) = (&p.masks, &p.moves);
    let refused = unsafe {
        fumarehi_run_event(
            p.k, p.s, p.start, p.finals, masks.as_ptr(), masks.len(), moves.as_ptr(), moves.len(),
            letter, record.as_mut_ptr(), table.as_mut_ptr(), table.len(), told.as_mut_ptr(),
        )
    };
    assert!(refused == 0, "the event is taken");
}

/// Verdict and P.
fn question(p: &Profile, record: &[u64; 2], table: &[u32]) -> (bool, usize) {
    let mut told = [0; 4];
    let (masks, moves) = (&p.masks, &p.moves);
    let refused = unsafe {
        fumarehi_run_question(
            p.k, p.s, p.start, p.finals, masks.as_ptr(), masks.len(), moves.as_ptr(), moves.len(),
            record.as_ptr(), table.as_ptr(), table.len(), told.as_mut_ptr(),
        )
    };
    assert!(refused == 0, "the question is answered");
    (told[1] == 1, told[2] as usize)
}

/// Seconds of processor time from 5 ms on, below that of the clock, which is finer.
fn seconds<T>(run: impl FnOnce() -> T) -> (f64, T) {
    let (used, begun) = (clock::now(), Instant::now());
    let result = run();
    let (passed, used) = (begun.elapsed().as_secs_f64(), clock::now() - used);
    (if used < 0.005 { passed } else { used }, result)
}

/// Least times, and the prefixes after the last event and all events together.
struct Measured {
    running: f64,
    anew: f64,
    last: f64,
    prefixes: usize,
    all_prefixes: usize,
}

fn run(p: &Profile, log: &[u8], table: &mut [u32]) -> (Vec<(bool, usize)>, [u64; 2]) {
    let mut record = [0; 2];
    start(p, &mut record, table);
    let mut before = record;
    let mut take = |&letter: &u8| {
        before = record;
        event(p, letter, &mut record, table);
        question(p, &record, table)
    };
    let told = log.iter().map(&mut take).collect();
    (told, before)
}

fn judge_anew(p: &Profile, log: &[u8], table: &mut [u32]) -> Vec<(bool, usize)> {
    let mut order = vec![0; log.len()];
    let mut judge = |n: usize| library::judge(p, &log[..n], &mut order, table).map(|answer| (answer.verdict, answer.prefixes));
    (1..=log.len()).map(|n| judge(n).ok().expect("the log is judged")).collect()
}

fn measure(row: Row, ours: &mut [u32], other: &mut [u32]) -> Measured {
    let (p, log) = make(row);
    let mut m = Measured { running: f64::MAX, anew: f64::MAX, last: f64::MAX, prefixes: 0, all_prefixes: 0 };
    for _ in 0..ROUNDS {
        let (running, (told, before)) = seconds(|| run(&p, &log, ours));
        let (anew, judged) = seconds(|| judge_anew(&p, &log, other));
        assert!(told == judged, "the judge tells the same after each event");
        for _ in 0..LAST {
            let mut record = before;
            let (last, ()) = seconds(|| event(&p, log[log.len() - 1], &mut record, ours));
            m.last = m.last.min(last);
        }
        m.running = m.running.min(running);
        m.anew = m.anew.min(anew);
        m.prefixes = told[told.len() - 1].1;
        m.all_prefixes = told.iter().map(|told| told.1).sum();
    }
    m
}

fn main() {
    println!("running judge, a question after each event, beside judging anew after each event; least of {ROUNDS} rounds");
    println!("|  k |    n | letters     |  s |      P | last event us | ns per record | all events ms | ns per record | anew ms | anew/running |");
    println!("|---:|-----:|-------------|---:|-------:|--------------:|--------------:|--------------:|--------------:|--------:|-------------:|");
    // Not zeros: memory of zeros is handed out untouched.
    let (mut ours, mut other) = (vec![1; RECORD * RECORDS], vec![1; RECORD * RECORDS]);
    for &(k, letters, s, lengths) in LINES {
        for &n in lengths {
            let m = measure(Row { k, n, letters, s, verdict: true }, &mut ours, &mut other);
            println!(
                "| {k:2} | {n:4} | {:11} | {s:2} | {:6} | {:13.2} | {:13.1} | {:13.2} | {:13.1} | {:7.1} | {:12.1} |",
                letters.name(),
                m.prefixes,
                m.last * 1e6,
                m.last * 1e9 / m.prefixes as f64,
                m.running * 1e3,
                m.running * 1e9 / m.all_prefixes as f64,
                m.anew * 1e3,
                m.anew / m.running
            );
        }
    }
}
