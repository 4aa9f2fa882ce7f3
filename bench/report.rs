//! The printed table, and the targets with the rows that miss them.

use crate::measure::Measured;

/// Rows with fewer prefixes are printed, and no target is about them.
const FEWEST: usize = 1000;
/// From so many prefixes on the standard hash map has to be left behind by more.
const MANY: usize = 100_000;

pub const HEAD: &str = "\
|  # |  k |    n | letters     |  s | verdict |       P |  E/P |  ours ms | ns per addition | ours/Rust | merge/ours | hash/ours | ranks/ours | ours/dense | listing/ours (logs) |
|---:|---:|-----:|-------------|---:|--------:|--------:|-----:|---------:|----------------:|----------:|-----------:|----------:|-----------:|-----------:|--------------------:|";

fn to_rust(m: &Measured) -> f64 {
    m.times.ours / m.times.marked
}

fn to_merge(m: &Measured) -> f64 {
    m.times.merge / m.times.ours
}

fn to_hash(m: &Measured) -> f64 {
    m.times.hashed / m.times.ours
}

fn to_ranks(m: &Measured) -> f64 {
    m.times.ranked / m.times.ours
}

fn to_dense(m: &Measured) -> Option<f64> {
    m.times.dense.map(|time| m.times.ours / time)
}

fn listing(m: &Measured) -> String {
    match (m.times.listing, m.logs) {
        (Some(time), Some(logs)) => format!("{:.1} ({logs})", time / m.times.ours),
        _ => String::from("-"),
    }
}

pub fn line(number: usize, m: &Measured) -> String {
    let row = &m.row;
    let dense = to_dense(m).map_or(String::from("-"), |ratio| format!("{ratio:.2}"));
    format!(
        "| {number:2} | {:2} | {:4} | {:11} | {:2} | {:7} | {:7} | {:4.2} | {:8.3} | {:15.2} | {:9.2} | {:10.2} | {:9.2} | {:10.2} | {dense:>10} | {:>19} |",
        row.k,
        row.n,
        row.letters.name(),
        row.s,
        u8::from(m.verdict),
        m.prefixes,
        m.looks as f64 / m.prefixes as f64,
        m.times.ours * 1e3,
        m.per_addition(),
        to_rust(m),
        to_merge(m),
        to_hash(m),
        to_ranks(m),
        listing(m)
    )
}

/// A target's line: met, or missed with what misses it; and how many rows or groups it is about.
fn target(words: &str, about: usize, unit: &str, misses: Vec<String>) -> String {
    if misses.is_empty() {
        format!("{words}: met by all {about} {unit}")
    } else {
        format!("{words}: missed by {} of {about} {unit}: {}", misses.len(), misses.join("; "))
    }
}

/// A target about a ratio in some rows: it is met where `meets` holds of it.
fn ratios(words: &str, all: &[Measured], ratio: impl Fn(&Measured) -> Option<f64>, meets: impl Fn(&Measured, f64) -> bool) -> String {
    let about = (1..).zip(all).filter(|(_, m)| m.prefixes >= FEWEST).filter_map(|(i, m)| Some((i, m, ratio(m)?)));
    let about: Vec<(usize, &Measured, f64)> = about.collect();
    let misses = about.iter().filter(|(_, m, r)| !meets(m, *r)).map(|(i, _, r)| format!("{i} ({r:.2})")).collect();
    target(words, about.len(), "rows", misses)
}

/// What is fixed while P grows.
fn same_group(a: &Measured, b: &Measured) -> bool {
    let key = |m: &Measured| (m.row.k, m.row.letters, m.row.s, m.row.verdict);
    key(a) == key(b)
}

fn flat(words: &str, all: &[Measured]) -> String {
    let large: Vec<_> = all.iter().filter(|m| m.prefixes >= FEWEST).collect();
    let groups: Vec<_> = large.chunk_by(|a, b| same_group(a, b)).filter(|group| group.len() > 1).collect();
    let mut misses = Vec::new();
    for group in &groups {
        let least = group.iter().map(|m| m.per_addition()).fold(f64::MAX, f64::min);
        let most = group.iter().map(|m| m.per_addition()).fold(0.0, f64::max);
        if most > 1.5 * least {
            let row = &group[0].row;
            misses.push(format!("k {}, {}, s {}: {least:.1} to {most:.1}", row.k, row.letters.name(), row.s));
        }
    }
    target(words, groups.len(), "groups", misses)
}

/// The least, the middle and the most of a ratio, over the rows that targets are about.
fn spread(words: &str, all: &[Measured], ratio: impl Fn(&Measured) -> Option<f64>) -> String {
    let mut known: Vec<f64> = all.iter().filter(|m| m.prefixes >= FEWEST).filter_map(ratio).collect();
    known.sort_by(f64::total_cmp);
    match (known.first(), known.last()) {
        (Some(least), Some(most)) => format!("{words}: {least:.2} to {most:.2}, median {:.2}", known[known.len() / 2]),
        _ => format!("{words}: no row"),
    }
}

pub fn targets(all: &[Measured]) -> String {
    [
        ratios("1. at most 1.2 x the time of the same algorithm in Rust", all, |m| Some(to_rust(m)), |_, r| r <= 1.2),
        ratios("2. at least 1.5 x faster than the merge without removable letters, 2 x for 16 letters", all, |m| Some(to_merge(m)), |m, r| {
            r >= if m.row.k == 16 { 2.0 } else { 1.5 }
        }),
        ratios("3. ahead of the standard hash map, at least 2 x for P >= 10^5", all, |m| Some(to_hash(m)), |m, r| {
            r > 1.0 && (m.prefixes < MANY || r >= 2.0)
        }),
        ratios("4. at most 2 x the time of a dense array", all, to_dense, |_, r| r <= 2.0),
        flat("5. ns per addition within 1.5 x over P, for fixed k, letters, s and verdict", all),
        String::from("all targets are about rows with P >= 10^3; the stack is measured by tests/clients/run"),
        spread("ours/Rust", all, |m| Some(to_rust(m))),
        spread("merge/ours", all, |m| Some(to_merge(m))),
        spread("hash/ours", all, |m| Some(to_hash(m))),
        spread("ranks/ours", all, |m| Some(to_ranks(m))),
        spread("ours/dense", all, to_dense),
    ]
    .join("\n")
}
