//! Every contestant on the same input, in turn, round after round, and all inputs again in several sweeps; of each the least time is taken. Other
//! work on the machine only ever adds to a time, and one that lasts for seconds meets no input in every sweep.

use crate::input::{make, Profile, Row};
use crate::rules::{Answer, Refusal, COUNTS, RECORD};
use crate::{clock, dense, hashed, library, listing, marked, merge, ranked};
use std::time::{Duration, Instant};

/// Reachable logs up to which the listing takes part.
const LOGS: u64 = 200_000;

/// Rounds of an input in a sweep: at least so many, and more until the input has had its time.
const ROUNDS: usize = 2;
const TIME: Duration = Duration::from_millis(400);

/// Seconds below which a run is timed by the time of day, which is exact, and some round of many is not interrupted. Longer runs are
/// interrupted in every round where the machine is shared; they are timed by processor time.
const SHORT: f64 = 0.005;

/// What the contestants work in, allocated and touched before any time is taken; the hash map of ranks and the array keep their memory from call to call.
pub struct Tables {
    ours: Vec<u32>,
    rust: Vec<u32>,
    ranked: ranked::Ranked,
    dense: dense::Cells,
}

impl Tables {
    pub fn new(records: usize) -> Tables {
        // Not zeros: memory of zeros is handed out untouched.
        let table = || vec![1; RECORD * records];
        Tables { ours: table(), rust: table(), ranked: Default::default(), dense: Default::default() }
    }
}

/// The least time of each contestant, in seconds.
pub struct Times {
    pub ours: f64,
    /// The library's algorithm in Rust, and the merge without removable letters.
    pub marked: f64,
    pub merge: f64,
    /// The standard hash map, and that of ranks.
    pub hashed: f64,
    pub ranked: f64,
    pub dense: Option<f64>,
    pub listing: Option<f64>,
}

pub struct Measured {
    pub row: Row,
    pub verdict: bool,
    pub prefixes: usize,
    pub looks: u64,
    pub logs: Option<u64>,
    pub times: Times,
}

impl Measured {
    pub fn new(row: Row) -> Measured {
        let most = f64::MAX;
        let times = Times { ours: most, marked: most, merge: most, hashed: most, ranked: most, dense: Some(most), listing: Some(most) };
        Measured { row, verdict: false, prefixes: 0, looks: 0, logs: None, times }
    }

    /// Nanoseconds for each addition: a pair of a prefix and a letter that can be added to it.
    pub fn per_addition(&self) -> f64 {
        self.times.ours * 1e9 / self.looks as f64
    }

    /// The rounds of one sweep. Asserts that all contestants answer the same, and in the first sweep that the tables are the same.
    pub fn sweep(&mut self, tables: &mut Tables) {
        let (p, log) = make(self.row);
        let begun = Instant::now();
        let mut round = 0;
        while round < ROUNDS || begun.elapsed() < TIME {
            let ours = self.round(&p, &log, tables);
            self.verdict = ours.verdict;
            self.prefixes = ours.prefixes;
            self.looks = ours.looks;
            round += 1;
        }
    }

    fn round(&mut self, p: &Profile, log: &[u8], tables: &mut Tables) -> Answer {
        let times = &mut self.times;
        let first = self.prefixes == 0;
        let ours = answered(log, |order| timed(&mut times.ours, || library::judge(p, log, order, &mut tables.ours)));
        let marked = answered(log, |order| timed(&mut times.marked, || marked::judge(p, log, order, &mut tables.rust)));
        assert!(ours == marked, "the same algorithm in Rust answers the same");
        let used = RECORD * ours.0.prefixes;
        assert!(!first || tables.ours[..used] == tables.rust[..used], "the tables are the same");
        let merged = answered(log, |order| timed(&mut times.merge, || merge::judge(p, log, order, &mut tables.rust)));
        assert!(ours == merged, "the plain merge answers the same");
        assert!(!first || sorted(&tables.ours[..used]) == sorted(&tables.rust[..used]), "the tables have the same records");
        let hashed = answered(log, |order| timed(&mut times.hashed, || hashed::judge(p, log, order)));
        assert!(ours == hashed, "the hash map answers the same");
        let ranked = answered(log, |order| timed(&mut times.ranked, || tables.ranked.judge(p, log, order)));
        assert!(ours == ranked, "the hash map of ranks answers the same");
        let (answer, order) = ours;
        self.fill(p, log, &answer, &order, tables);
        self.list(p, log, answer.verdict, &order);
        answer
    }

    /// The array's part of a round; none where it would be too large.
    fn fill(&mut self, p: &Profile, log: &[u8], answer: &Answer, order: &[u8], tables: &mut Tables) {
        let Some(best) = &mut self.times.dense else { return };
        let mut filled_order = vec![0; log.len()];
        match timed(best, || tables.dense.judge(p, log, &mut filled_order)) {
            Some(filled) => assert!((answer, order) == (&filled.expect("the input is admitted"), &filled_order[..]), "the array answers the same"),
            None => self.times.dense = None,
        }
    }

    /// The listing's part of a round; none where there are too many logs.
    fn list(&mut self, p: &Profile, log: &[u8], verdict: bool, order: &[u8]) {
        let Some(best) = &mut self.times.listing else { return };
        let mut listed_order = vec![0; log.len()];
        let listed = timed(best, || listing::judge(p, log, &mut listed_order, LOGS)).expect("the input is admitted");
        match listed {
            Some(listed) => {
                assert!((verdict, order) == (listed.verdict, &listed_order[..]), "the listing answers the same");
                self.logs = Some(listed.logs);
            }
            None => self.times.listing = None,
        }
    }
}

/// Runs it once; the least of `best` and its time is left in `best`.
fn timed<T>(best: &mut f64, run: impl FnOnce() -> T) -> T {
    let used = clock::now();
    let begun = Instant::now();
    let result = run();
    let passed = begun.elapsed().as_secs_f64();
    let used = clock::now() - used;
    *best = best.min(if used < SHORT { passed } else { used });
    result
}

/// The records sorted by total count and numbers: the plain merge has another order within a total. Asserts that the totals rise.
fn sorted(table: &[u32]) -> Vec<[u32; RECORD]> {
    let total = |r: &[u32; RECORD]| r[..COUNTS].iter().map(|w| (w & 0xffff) + (w >> 16)).sum::<u32>();
    let mut records = table.as_chunks::<RECORD>().0.to_vec();
    assert!(records.is_sorted_by_key(total), "totals rise");
    for level in records.chunk_by_mut(|a, b| total(a) == total(b)) {
        level.sort_unstable();
    }
    records
}

/// The answer of a judge with its order: verdict, P and looks, all exact.
fn answered(log: &[u8], judge: impl FnOnce(&mut [u8]) -> Result<Answer, Refusal>) -> (Answer, Vec<u8>) {
    let mut order = vec![0; log.len()];
    let answer = judge(&mut order).expect("the input is admitted and its records fit");
    (answer, order)
}
