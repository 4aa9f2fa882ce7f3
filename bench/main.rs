//! Measures the judge against the same algorithm in Rust, the merge that it grew from, two hash maps, a dense array and a listing; `bench/run` builds and
//! runs it.

mod clock;
mod dense;
mod hashed;
mod images;
mod input;
mod library;
mod listing;
mod marked;
mod measure;
mod merge;
mod picture;
mod ranked;
mod report;
mod rules;

use input::Letters::{Dependent, Directed, Falling, Groups, Independent, Neighbours, Random, Rising};
use input::{Letters, Row};
use measure::{Measured, Tables};

/// More records than any row has prefixes.
const RECORDS: usize = 4_500_000;

/// How often all inputs are gone through.
const SWEEPS: usize = 3;

/// Lines of k, letters, s, verdict, and the lengths of the logs: P grows along a line. A log in turns has every letter, since a letter
/// that does not occur costs less. The second half has one-way relations.
const LINES: &[(usize, Letters, usize, bool, &[usize])] = &[
    (2, Independent, 2, true, &[62, 255]),
    (2, Independent, 8, true, &[12, 16, 20, 62, 128, 255, 1000, 4000]),
    (2, Independent, 8, false, &[255]),
    (3, Independent, 8, true, &[9, 12, 30, 66, 141, 255]),
    (3, Independent, 32, true, &[30, 141, 255]),
    (4, Independent, 2, true, &[40, 120]),
    (4, Independent, 8, true, &[8, 10, 20, 40, 68, 120, 176]),
    (4, Independent, 8, false, &[120]),
    (4, Independent, 32, true, &[40, 120]),
    (4, Neighbours, 8, true, &[255, 1000, 4000]),
    (4, Dependent, 8, true, &[255, 1000, 4000]),
    (8, Independent, 8, true, &[8, 12, 20, 28, 40]),
    (8, Independent, 32, true, &[20, 36]),
    (8, Neighbours, 8, true, &[90, 255, 1000, 4000]),
    (8, Random, 8, true, &[60, 120]),
    (8, Random, 8, false, &[120]),
    (8, Groups, 8, true, &[120, 255, 1000, 2500]),
    (16, Independent, 8, true, &[16, 20]),
    (16, Neighbours, 8, true, &[40, 60]),
    (16, Groups, 8, true, &[48, 100]),
    (16, Random, 2, true, &[60]),
    (16, Random, 8, true, &[60, 255, 1000]),
    (16, Random, 32, true, &[60, 255]),
    (16, Dependent, 32, true, &[4000]),
    (2, Rising, 32, true, &[255]),
    (2, Rising, 8, true, &[20, 128, 255, 1000, 2500]),
    (2, Falling, 32, true, &[20, 128, 255, 1000]),
    (2, Falling, 8, false, &[255]),
    (3, Rising, 8, true, &[30, 141, 255]),
    (3, Rising, 32, true, &[255]),
    (3, Falling, 8, true, &[30, 141, 255]),
    (3, Falling, 8, false, &[255]),
    (4, Rising, 2, true, &[120]),
    (4, Rising, 8, true, &[40, 120, 255]),
    (4, Falling, 8, true, &[40, 120, 255]),
    (4, Falling, 8, false, &[120]),
    (4, Falling, 32, true, &[120]),
    (4, Directed, 8, true, &[60, 120]),
    (8, Rising, 8, true, &[40, 80]),
    (8, Falling, 8, true, &[60, 100]),
    (8, Directed, 8, true, &[60, 80]),
    (8, Directed, 8, false, &[80]),
    (8, Directed, 32, true, &[60]),
    (16, Rising, 8, true, &[32, 40]),
    (16, Falling, 8, true, &[48, 64]),
    (16, Directed, 2, true, &[60]),
    (16, Directed, 32, true, &[60]),
];

fn rows() -> impl Iterator<Item = Row> {
    LINES.iter().flat_map(|&(k, letters, s, verdict, lengths)| lengths.iter().map(move |&n| Row { k, n, letters, s, verdict }))
}

fn machine() -> String {
    let info = std::fs::read_to_string("/proc/cpuinfo").unwrap_or_default();
    let model = info.lines().find(|l| l.starts_with("model name")).and_then(|l| l.split_once(": "));
    model.map_or("unknown", |(_, name)| name).to_string()
}

fn main() {
    let picture = std::env::args().nth(1).expect("the path of the picture");
    println!("machine: {}", machine());
    println!("contestants built with: {}", env!("BENCH_BUILD"));
    println!("least time of rounds in turn, in {SWEEPS} sweeps over the inputs (from 5 ms on processor time); work tables touched before");
    println!("E is the number of additions, pairs of a prefix and a letter that can be added to it; verdicts, P, E, orders and tables are asserted to agree");
    println!("Rust: the same algorithm in safe Rust; merge: without removable letters; hash: the standard hash map, with its allocation and release; ranks: a hash map");
    println!("of counts as one number, its memory kept, its records in no order; dense: an array of all counts, its memory kept, where it has at most 2^24 cells");
    let mut tables = Tables::new(RECORDS);
    let mut all: Vec<_> = rows().map(Measured::new).collect();
    for _ in 0..SWEEPS {
        all.iter_mut().for_each(|m| m.sweep(&mut tables));
    }
    println!("\n{}", report::HEAD);
    for (number, m) in (1..).zip(&all) {
        println!("{}", report::line(number, m));
    }
    println!("\n{}", report::targets(&all));
    std::fs::write(&picture, picture::svg(&all)).expect("the picture can be written");
    println!("picture: {picture}");
}
