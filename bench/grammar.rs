//! Measures the judge for grammars beside the same algorithm in Rust; `bench/run --grammar` builds and runs it.
//!
//! A log of nested loans, or of many rules, with P from 10 to 2,000. The Rust twin fills the same table of sets in the same order, from prefixes made by a search
//! of its own; verdict and P are asserted to agree, and the order of the library to be derivable by the twin's table for it alone.

mod clock;

use std::collections::BTreeMap;
use std::time::Instant;

/// Rounds of a row below so many prefixes, of which the least time is taken; from there on there is one.
const ROUNDS: usize = 3;
const LARGE: usize = 900;

/// Numbers of a record.
const RECORD: usize = 10;

extern "C" {
    fn fumarehi_grammar(
        k: usize, masks: *const u16, masks_len: usize, names: usize, rules: *const u16, rules_len: usize,
        log: *const u8, log_len: usize, order: *mut u8, order_len: usize,
        work: *mut u32, work_len: usize, sets: *mut u16, sets_len: usize, told: *mut u64,
    ) -> u32;
}

#[derive(Clone)]
struct Grammar {
    k: usize,
    masks: Vec<u16>,
    names: usize,
    rules: Vec<u16>,
}

/// Verdict and P, and the order where there is one.
type Answer = (bool, usize, Vec<u8>);

fn judge(g: &Grammar, log: &[u8], work: &mut [u32], sets: &mut [u16]) -> Answer {
    let (mut order, mut told) = (vec![0; log.len()], [0u64; 4]);
    // Sound: every pointer and length is that of a live slice or array, the mutable ones apart.
    let refused = unsafe {
        fumarehi_grammar(
            g.k, g.masks.as_ptr(), g.masks.len(), g.names, g.rules.as_ptr(), g.rules.len(),
            log.as_ptr(), log.len(), order.as_mut_ptr(), order.len(),
            work.as_mut_ptr(), work.len(), sets.as_mut_ptr(), sets.len(), told.as_mut_ptr(),
        )
    };
    assert!(refused == 0, "the log is judged");
    (told[1] == 1, told[2] as usize, order)
}

// The twin.

type Counts = [u16; 16];

/// One more of the letter is a prefix: its next event need not wait for an unmarked one.
fn addable(g: &Grammar, log: &[u8], counts: &Counts, letter: usize) -> bool {
    let mut left = *counts;
    for &a in log {
        let a = a as usize;
        if left[a] > 0 {
            left[a] -= 1;
        } else if a == letter {
            return true;
        } else if g.masks[a] >> letter & 1 == 0 {
            return false;
        }
    }
    false
}

/// The prefixes by rising total, within one total by their counts.
fn prefixes(g: &Grammar, log: &[u8]) -> Vec<Counts> {
    let mut all = vec![[0; 16]];
    let mut total: Vec<Counts> = all.clone();
    while !total.is_empty() {
        let mut next = BTreeMap::new();
        for counts in &total {
            for letter in (0..g.k).filter(|&letter| addable(g, log, counts, letter)) {
                let mut more = *counts;
                more[letter] += 1;
                next.insert(more, ());
            }
        }
        total = next.into_keys().collect();
        all.extend(&total);
    }
    all
}

fn lettered(rules: &[u16], letter: usize) -> u16 {
    let fits = |rule: &&u16| **rule >> 12 == 0 && (**rule & 255) as usize == letter;
    rules.iter().filter(fits).fold(0, |set, rule| set | 1 << (rule >> 8 & 15))
}

/// The names of a pair: none, by its one letter, or by the parts that meet between.
fn cell(g: &Grammar, all: &[Counts], sets: &[u16], i: usize, j: usize) -> u16 {
    let (low, high) = (&all[i], &all[j]);
    if low.iter().zip(high).any(|(p, q)| p > q) {
        return 0;
    }
    let events: u32 = low.iter().zip(high).map(|(p, q)| u32::from(q - p)).sum();
    if events == 1 {
        return lettered(&g.rules, low.iter().zip(high).position(|(p, q)| p < q).expect("a letter between"));
    }
    let (row, column) = (&sets[i * all.len()..], &sets[j * all.len()..]);
    let mut behind = [0u16; 16];
    for (&first, &second) in row[i + 1..j].iter().zip(&column[i + 1..j]) {
        let mut rest = first;
        while rest != 0 {
            behind[rest.trailing_zeros() as usize] |= second;
            rest &= rest - 1;
        }
    }
    let fits = |rule: &&u16| **rule >> 12 == 1 && behind[(**rule >> 4 & 15) as usize] >> (**rule & 15) & 1 == 1;
    g.rules.iter().filter(fits).fold(0, |set, rule| set | 1 << (rule >> 8 & 15))
}

fn twin(g: &Grammar, log: &[u8], sets: &mut [u16]) -> (bool, usize) {
    let all = prefixes(g, log);
    let p = all.len();
    for j in 1..p {
        for i in (0..j).rev() {
            let set = cell(g, &all, sets, i, j);
            sets[i * p + j] = set;
            sets[j * p + i] = set;
        }
    }
    (p > 1 && sets[p - 1] & 1 == 1, p)
}

// Rows.

const fn names_rule(n: u16, l: u16, r: u16) -> u16 {
    4096 + 256 * n + 16 * l + r
}

const fn letter_rule(n: u16, a: u16) -> u16 {
    256 * n + a
}

/// Loans in loans, without or with free exchange of the two letters.
fn nested(free: bool) -> Grammar {
    let rules = vec![names_rule(0, 1, 2), names_rule(0, 1, 3), names_rule(0, 0, 0), names_rule(3, 0, 2), letter_rule(1, 0), letter_rule(2, 1)];
    Grammar { k: 2, masks: if free { vec![2, 1] } else { vec![0, 0] }, names: 4, rules }
}

/// 16 names and 64 rules, so that sets are full: name n gives all pairs of a few names, and both letters.
fn crowded(free: bool) -> Grammar {
    let pairs = (0..32).map(|i| names_rule(i % 16, i * 5 % 16, i * 11 % 16));
    let letters = (0..32).map(|i| letter_rule(i % 16, i / 16));
    Grammar { names: 16, rules: pairs.chain(letters).collect(), ..nested(free) }
}

/// n letters, half of them taking back: the one sort behind the other where exchanges are free, else in turn.
fn loans(n: usize, free: bool) -> Vec<u8> {
    (0..n).map(|i| if free { (i < n / 2) as u8 } else { (i % 2) as u8 }).collect()
}

/// The order has the log's letters, and can be derived: by the twin with nothing to exchange. Where nothing can be exchanged it is the log.
fn derivable(g: &Grammar, log: &[u8], order: &[u8]) -> bool {
    if g.masks.iter().all(|&mask| mask == 0) {
        return order == log;
    }
    let alone = Grammar { masks: vec![0; g.k], ..g.clone() };
    let p = order.len() + 1;
    let count = |log: &[u8]| log.iter().filter(|&&a| a == 0).count();
    count(order) == count(log) && twin(&alone, order, &mut vec![1; p * p]).0
}

fn seconds<T>(run: impl FnOnce() -> T) -> (f64, T) {
    let (used, begun) = (clock::now(), Instant::now());
    let result = run();
    let (passed, used) = (begun.elapsed().as_secs_f64(), clock::now() - used);
    (if used < 0.005 { passed } else { used }, result)
}

fn measure(name: &str, g: &Grammar, log: &[u8], free: bool) {
    let p = prefixes(g, log).len();
    // Not zeros: memory of zeros is handed out untouched.
    let (mut work, mut sets, mut other) = (vec![1; RECORD * p], vec![1u16; p * p], vec![1u16; p * p]);
    let (mut ours, mut theirs, mut verdict) = (f64::MAX, f64::MAX, false);
    for _ in 0..if p < LARGE { ROUNDS } else { 1 } {
        let (a, answer) = seconds(|| judge(g, log, &mut work, &mut sets));
        let (b, twin_answer) = seconds(|| twin(g, log, &mut other));
        assert_eq!((answer.0, answer.1), twin_answer, "verdict and P");
        assert!(!answer.0 || derivable(g, log, &answer.2), "the order can be derived");
        (ours, theirs, verdict) = (ours.min(a), theirs.min(b), answer.0);
    }
    let cube = (p as f64).powi(3) / 6.0;
    println!(
        "| {name:8} | {:11} | {:4} | {p:4} | {} | {:9.3} | {:9.3} | {:5.2} | {:12.2} | {:9.1} |",
        if free { "independent" } else { "dependent" }, log.len(), verdict as u8, ours * 1e3, theirs * 1e3, ours / theirs, ours * 1e9 / cube, (2 * p * p) as f64 / 1024.0
    );
}

fn main() {
    println!("judge for grammars beside the same algorithm in Rust; least of {ROUNDS} rounds, one round from P = {LARGE} on");
    println!("| grammar  | letters     |    n |    P | verdict | ours ms | Rust ms | ours/Rust | ns per P^3/6 | sets KB |");
    println!("|----------|-------------|-----:|-----:|--------:|--------:|--------:|----------:|-------------:|--------:|");
    for (name, make) in [("nested", nested as fn(bool) -> Grammar), ("crowded", crowded)] {
        for (free, lengths) in [(false, [9, 50, 200, 500, 1000, 1999]), (true, [4, 12, 26, 42, 60, 86])] {
            for n in lengths {
                measure(name, &make(free), &loans(n, free), free);
            }
        }
    }
}
