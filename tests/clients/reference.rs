//! A second implementation of documents 01 and 02, from their words and without regard for time.
//!
//! Short logs are answered by listing: all logs that exchanges reach, and every choice of counts put to the marking rule. Longer logs are
//! answered by recursion over prefixes; `solve` and the others take both ways for every short log, and stop if they differ.

use std::collections::{BTreeMap, BTreeSet};

/// Logs up to this length are listed.
pub const LISTED: usize = 6;

/// The most letters of a log.
pub const MOST: usize = 4000;

/// The numbers of a record, and those of them that have the counts; then come the forward and the backward set.
pub const RECORD: usize = 10;
pub const COUNTS: usize = 8;

#[derive(Clone, Copy, Debug, PartialEq, Eq)]
pub struct Refused {
    pub number: u32,
    pub place: usize,
    /// The log that `same` names, or 0.
    pub log: usize,
}

/// A profile as a call hands it over: nothing is checked yet.
#[derive(Clone, Debug, PartialEq, Eq)]
pub struct Profile {
    pub k: usize,
    pub s: usize,
    pub start: usize,
    pub finals: u32,
    pub masks: Vec<u16>,
    pub moves: Vec<u32>,
}

/// A count for each letter.
pub type Counts = Vec<u16>;

#[derive(Clone, Copy, Debug, PartialEq, Eq)]
pub struct Sets {
    pub forward: u32,
    pub backward: u32,
}

/// The sets of every prefix of a log.
pub type Records = BTreeMap<Counts, Sets>;

pub fn refuse<T>(number: u32) -> Result<T, Refused> {
    Err(Refused { number, place: 0, log: 0 })
}

fn bit(number: u32, at: usize) -> bool {
    number >> at & 1 == 1
}

/// i directly followed by j may become j followed by i.
pub fn independent(masks: &[u16], i: u8, j: u8) -> bool {
    bit(masks[i as usize].into(), j.into())
}

// Refusals, in their order.

fn letters_in_range(k: usize, masks: &[u16]) -> Result<(), Refused> {
    if (1..=16).contains(&k) && masks.len() == k { Ok(()) } else { refuse(2) }
}

fn states_in_range(p: &Profile) -> Result<(), Refused> {
    if (1..=32).contains(&p.s) && p.start < p.s && p.moves.len() == p.s * p.k { Ok(()) } else { refuse(2) }
}

fn mask_bits(masks: &[u16]) -> Result<(), Refused> {
    let k = masks.len();
    let wrong = |i: usize, j: usize| bit(masks[i].into(), j) && (j >= k || j == i);
    if (0..k).any(|i| (0..16).any(|j| wrong(i, j))) { refuse(4) } else { Ok(()) }
}

fn state_bits(p: &Profile) -> Result<(), Refused> {
    let wrong = |set: u32| (p.s..32).any(|r| bit(set, r));
    if p.moves.iter().any(|&set| wrong(set)) || wrong(p.finals) { refuse(6) } else { Ok(()) }
}

pub fn relation(k: usize, masks: &[u16]) -> Result<(), Refused> {
    letters_in_range(k, masks)?;
    mask_bits(masks)
}

pub fn profile(p: &Profile) -> Result<(), Refused> {
    letters_in_range(p.k, &p.masks)?;
    states_in_range(p)?;
    mask_bits(&p.masks)?;
    state_bits(p)
}

pub fn letters(k: usize, log: &[u8]) -> Result<(), Refused> {
    if log.len() > MOST {
        return refuse(7);
    }
    match log.iter().position(|&a| a as usize >= k) {
        Some(place) => Err(Refused { number: 8, place, log: 0 }),
        None => Ok(()),
    }
}

pub fn room(len: usize, needed: usize) -> Result<(), Refused> {
    if len < needed { refuse(9) } else { Ok(()) }
}

// Reachable logs and the automaton.

/// All logs that exchanges reach, in letter order.
pub fn reachable(masks: &[u16], log: &[u8]) -> BTreeSet<Vec<u8>> {
    let mut found = BTreeSet::from([log.to_vec()]);
    let mut new = vec![log.to_vec()];
    while let Some(log) = new.pop() {
        for at in 1..log.len() {
            if independent(masks, log[at - 1], log[at]) {
                let mut other = log.clone();
                other.swap(at - 1, at);
                if found.insert(other.clone()) {
                    new.push(other);
                }
            }
        }
    }
    found
}

fn states(set: u32) -> impl Iterator<Item = usize> {
    (0..32).filter(move |&q| bit(set, q))
}

fn row(p: &Profile, q: usize, a: u8) -> u32 {
    p.moves[q * p.k + a as usize]
}

fn step(p: &Profile, set: u32, a: u8) -> u32 {
    states(set).fold(0, |to, q| to | row(p, q, a))
}

/// The states to which paths from the set lead that spell the log.
fn spelled(p: &Profile, set: u32, log: &[u8]) -> u32 {
    log.iter().fold(set, |set, &a| step(p, set, a))
}

pub fn accepted_from(p: &Profile, q: usize, log: &[u8]) -> bool {
    spelled(p, 1 << q, log) & p.finals != 0
}

// Prefixes.

/// The first so-many occurrences of each letter.
fn marked(log: &[u8], counts: &[u16]) -> Vec<bool> {
    let mut left = counts.to_vec();
    let mut mark = |&a: &u8| {
        let taken = left[a as usize] > 0;
        left[a as usize] -= taken as u16;
        taken
    };
    log.iter().map(&mut mark).collect()
}

fn events(log: &[u8], marks: &[bool], which: bool) -> Vec<u8> {
    log.iter().zip(marks).filter(|(_, &mark)| mark == which).map(|(&a, _)| a).collect()
}

pub fn counts_of(k: usize, log: &[u8]) -> Counts {
    let mut counts = vec![0; k];
    log.iter().for_each(|&a| counts[a as usize] += 1);
    counts
}

/// The marking rule as document 02 says it.
fn is_prefix(masks: &[u16], log: &[u8], counts: &[u16]) -> bool {
    let marks = marked(log, counts);
    let holds_back = |earlier: usize, later: usize| log[earlier] == log[later] || !independent(masks, log[earlier], log[later]);
    (0..log.len()).all(|later| !marks[later] || (0..later).all(|earlier| marks[earlier] || !holds_back(earlier, later)))
}

/// The marking rule in one pass: every marked event is of a letter that may pass all unmarked ones before it.
fn is_prefix_at_once(masks: &[u16], log: &[u8], counts: &[u16]) -> bool {
    let mut passing = u16::MAX;
    for (&a, mark) in log.iter().zip(marked(log, counts)) {
        if !mark {
            passing &= masks[a as usize];
        } else if !bit(passing.into(), a.into()) {
            return false;
        }
    }
    true
}

/// Every choice of counts up to the given ones.
pub fn choices(most: &[u16]) -> Vec<Counts> {
    most.iter().fold(vec![vec![]], |chosen, &most| {
        chosen.iter().flat_map(|counts: &Counts| (0..=most).map(move |n| [counts.as_slice(), &[n]].concat())).collect()
    })
}

/// The sets of a prefix, by the orders of its events and of the others.
pub fn sets_of(p: &Profile, before: &BTreeSet<Vec<u8>>, after: &BTreeSet<Vec<u8>>) -> Sets {
    let leads = |q: &usize| after.iter().any(|order| accepted_from(p, *q, order));
    Sets {
        forward: before.iter().fold(0, |set, order| set | spelled(p, 1 << p.start, order)),
        backward: (0..p.s).filter(leads).fold(0, |set, q| set | 1 << q),
    }
}

fn sets_by_listing(p: &Profile, log: &[u8], counts: &[u16]) -> Sets {
    let marks = marked(log, counts);
    sets_of(p, &reachable(&p.masks, &events(log, &marks, true)), &reachable(&p.masks, &events(log, &marks, false)))
}

fn records_by_listing(p: &Profile, log: &[u8]) -> Records {
    let prefixes = choices(&counts_of(p.k, log)).into_iter().filter(|counts| is_prefix(&p.masks, log, counts));
    prefixes.map(|counts| (counts.clone(), sets_by_listing(p, log, &counts))).collect()
}

fn order_by_listing(p: &Profile, log: &[u8]) -> Option<Vec<u8>> {
    reachable(&p.masks, log).into_iter().find(|order| accepted_from(p, p.start, order))
}

// Recursion over prefixes, by totals.

pub type Total = BTreeSet<Counts>;

pub fn one_more(counts: &[u16], a: usize) -> Counts {
    let mut more = counts.to_vec();
    more[a] += 1;
    more
}

fn totals(masks: &[u16], log: &[u8]) -> Vec<Total> {
    let k = masks.len();
    let most = counts_of(k, log);
    let mut totals = vec![Total::from([vec![0; k]])];
    for n in 0..log.len() {
        let letters = |counts: &Counts| (0..k).filter(|&a| counts[a] < most[a]).map(|a| one_more(counts, a)).collect::<Vec<_>>();
        let next = totals[n].iter().flat_map(letters).filter(|counts| is_prefix_at_once(masks, log, counts)).collect();
        totals.push(next);
    }
    totals
}

/// The prefixes with one letter more, with that letter.
fn longer<'a>(next: &'a Total, counts: &'a [u16]) -> impl Iterator<Item = (u8, Counts)> + 'a {
    let more = (0..counts.len()).map(|a| (a as u8, one_more(counts, a)));
    more.filter(|(_, counts)| next.contains(counts))
}

fn step_back(p: &Profile, set: u32, a: u8) -> u32 {
    (0..p.s).filter(|&q| row(p, q, a) & set != 0).fold(0, |from, q| from | 1 << q)
}

fn records_by_recursion(p: &Profile, totals: &[Total]) -> Records {
    let none = Sets { forward: 0, backward: 0 };
    let mut records: Records = totals.iter().flatten().map(|counts| (counts.clone(), none)).collect();
    records.get_mut(&vec![0; p.k]).unwrap().forward = 1 << p.start;
    for pair in totals.windows(2) {
        for counts in &pair[0] {
            let from = records[counts].forward;
            for (a, more) in longer(&pair[1], counts) {
                records.get_mut(&more).unwrap().forward |= step(p, from, a);
            }
        }
    }
    let last = totals.last().unwrap().first().unwrap();
    records.get_mut(last).unwrap().backward = p.finals;
    for pair in totals.windows(2).rev() {
        for counts in &pair[0] {
            let sets = longer(&pair[1], counts).map(|(a, more)| step_back(p, records[&more].backward, a));
            let backward = sets.fold(0, |x, y| x | y);
            records.get_mut(counts).unwrap().backward = backward;
        }
    }
    records
}

/// For a prefix, the earliest order of the rest that is accepted from each state.
type Rests = BTreeMap<Counts, Vec<Option<Vec<u8>>>>;

fn earliest_rest(p: &Profile, q: usize, longer: &[(u8, Counts)], rests: &Rests) -> Option<Vec<u8>> {
    longer.iter().find_map(|(a, more)| {
        let rest = states(row(p, q, *a)).filter_map(|r| rests[more][r].as_ref()).min()?;
        Some([&[*a], rest.as_slice()].concat())
    })
}

fn order_by_recursion(p: &Profile, totals: &[Total]) -> Option<Vec<u8>> {
    let end = (0..p.s).map(|q| bit(p.finals, q).then(Vec::new)).collect();
    let mut rests = Rests::from([(totals.last().unwrap().first().unwrap().clone(), end)]);
    for pair in totals.windows(2).rev() {
        let of = |counts: &Counts| {
            let longer: Vec<_> = longer(&pair[1], counts).collect();
            (counts.clone(), (0..p.s).map(|q| earliest_rest(p, q, &longer, &rests)).collect())
        };
        rests = pair[0].iter().map(of).collect();
    }
    rests[&vec![0; p.k]][p.start].clone()
}

// Table and judge.

/// The pairs of a prefix and a letter such that adding one of that letter gives a prefix again.
fn looks(k: usize, records: &Records) -> usize {
    let again = |counts: &Counts, a: usize| records.contains_key(&one_more(counts, a));
    records.keys().map(|counts| (0..k).filter(|&a| again(counts, a)).count()).sum()
}

/// What is to be said of a log when its call is admitted.
#[derive(Clone, Debug)]
pub struct Solved {
    pub records: Records,
    pub looks: usize,
    pub order: Option<Vec<u8>>,
    log_len: usize,
}

/// What there is to say of a log, by its prefixes of each total.
pub fn solve_totals(p: &Profile, totals: &[Total], log_len: usize) -> Solved {
    let records = records_by_recursion(p, totals);
    Solved { looks: looks(p.k, &records), order: order_by_recursion(p, totals), records, log_len }
}

/// Refusals 2, 4 and 6 to 8, or all there is to say.
pub fn solve(p: &Profile, log: &[u8]) -> Result<Solved, Refused> {
    profile(p)?;
    letters(p.k, log)?;
    let solved = solve_totals(p, &totals(&p.masks, log), log.len());
    if log.len() <= LISTED {
        assert_eq!(records_by_listing(p, log), solved.records, "the reference disagrees with itself: {p:?} {log:?}");
        assert_eq!(order_by_listing(p, log), solved.order, "the reference disagrees with itself: {p:?} {log:?}");
    }
    Ok(solved)
}

impl Solved {
    /// Refusal 10.
    pub fn table(&self, table_len: usize) -> Result<&Solved, Refused> {
        if table_len.min(4_294_967_292) / RECORD < self.records.len() { refuse(10) } else { Ok(self) }
    }

    /// Refusals 9 and 10.
    pub fn judge(&self, order_len: usize, work_len: usize) -> Result<&Solved, Refused> {
        room(order_len, self.log_len)?;
        self.table(work_len)
    }
}

// The order of records, and the search.

fn total(counts: &[u16]) -> usize {
    counts.iter().map(|&count| usize::from(count)).sum()
}

/// The records by rising total, within one total by their counts, letter 0 first.
pub fn in_order(records: &Records) -> Vec<(&Counts, &Sets)> {
    let mut ordered: Vec<_> = records.iter().collect();
    ordered.sort_by_key(|(counts, _)| (total(counts), *counts));
    ordered
}

/// The counts of a record: letter i in number i div 2, the even letter in the low half.
pub fn counts_in(numbers: &[u32]) -> Counts {
    numbers[..COUNTS].iter().flat_map(|&number| [number as u16, (number >> 16) as u16]).collect()
}

/// Total and counts of a record.
pub fn ranked(numbers: &[u32]) -> (usize, Counts) {
    let counts = counts_in(numbers);
    (total(&counts), counts)
}

/// Refusal 2; or whether a record has the counts, and which; or how many stand before.
pub fn find(table: &[u32], counts: &[u32]) -> Result<(bool, usize), Refused> {
    if counts.len() != COUNTS {
        return refuse(2);
    }
    let records: Vec<_> = table.chunks_exact(RECORD).map(ranked).collect();
    let wanted = ranked(counts);
    let before = records.iter().filter(|record| **record < wanted).count();
    Ok(records.iter().position(|record| *record == wanted).map_or((false, before), |at| (true, at)))
}

// Comparison and first order.

/// The smallest letter whose next event nothing left holds back, until none is left.
fn smallest_first(masks: &[u16], log: &[u8]) -> Vec<u8> {
    let mut left = log.to_vec();
    let mut order = vec![];
    while !left.is_empty() {
        let free = |&at: &usize| left[..at].iter().all(|&b| independent(masks, b, left[at]));
        let at = (0..left.len()).filter(free).min_by_key(|&at| left[at]).unwrap();
        order.push(left.remove(at));
    }
    order
}

fn earliest(masks: &[u16], log: &[u8]) -> Vec<u8> {
    let order = smallest_first(masks, log);
    if log.len() <= LISTED {
        assert_eq!(reachable(masks, log).first(), Some(&order), "the reference disagrees with itself: {masks:?} {log:?}");
    }
    order
}

pub fn first_order(k: usize, masks: &[u16], log: &[u8], order_len: usize) -> Result<Vec<u8>, Refused> {
    relation(k, masks)?;
    letters(k, log)?;
    room(order_len, log.len())?;
    Ok(earliest(masks, log))
}

/// The letters of the second log, taken in turn, each pass all that is left before them in the first, and nothing is left.
fn leads_to(masks: &[u16], first: &[u8], second: &[u8]) -> bool {
    let mut left = first.to_vec();
    let takes = |&a: &u8| {
        let passes = |at: usize| left[..at].iter().all(|&b| independent(masks, b, a));
        let place = left.iter().position(|&b| b == a).filter(|&at| passes(at));
        place.map(|at| left.remove(at)).is_some()
    };
    second.iter().all(takes) && first.len() == second.len()
}

/// Some pair may be exchanged one way and not the other.
pub fn one_way(masks: &[u16]) -> bool {
    let k = masks.len() as u8;
    (0..k).any(|i| (0..k).any(|j| independent(masks, i, j) && !independent(masks, j, i)))
}

pub fn same(k: usize, masks: &[u16], first: &[u8], second: &[u8]) -> Result<bool, Refused> {
    relation(k, masks)?;
    letters(k, first).map_err(|refused| Refused { log: 1, ..refused })?;
    letters(k, second).map_err(|refused| Refused { log: 2, ..refused })?;
    let same = leads_to(masks, first, second) && leads_to(masks, second, first);
    if same || !one_way(masks) {
        let equal = earliest(masks, first) == earliest(masks, second);
        assert_eq!(equal, same, "the reference disagrees with itself: {masks:?} {first:?} {second:?}");
    }
    if first.len() <= LISTED && second.len() <= LISTED {
        let both = reachable(masks, first).contains(second) && reachable(masks, second).contains(first);
        assert_eq!(both, same, "the reference disagrees with itself: {masks:?} {first:?} {second:?}");
    }
    Ok(same)
}

// Log files.

#[derive(Clone, Debug, PartialEq, Eq)]
pub struct File {
    pub profile: Profile,
    pub offset: usize,
    pub log: Vec<u8>,
}

/// A number, low byte first.
fn number(bytes: &[u8]) -> u32 {
    bytes.iter().rev().fold(0, |number, &byte| number << 8 | u32::from(byte))
}

/// Where a section begins, or refusal 3.
fn section(distance: &[u8], size: usize, trailer: usize) -> Result<usize, Refused> {
    let distance = number(distance) as usize;
    if size <= distance && distance <= trailer { Ok(trailer - distance) } else { refuse(3) }
}

/// Refusals 1 to 8, or what the file holds.
pub fn read(file: &[u8]) -> Result<File, Refused> {
    if file.len() < 16 {
        return refuse(1);
    }
    let at = file.len() - 16;
    let trailer = &file[at..];
    let [k, s, start, low, high] = [0, 1, 2, 3, 10].map(|byte| trailer[byte] as usize);
    let n = low + 256 * high;
    if !(1..=16).contains(&k) || !(1..=32).contains(&s) || start >= s || trailer[11] != 0 {
        return refuse(2);
    }
    let masks_at = section(&trailer[4..6], 2 * k, at)?;
    let moves_at = section(&trailer[6..8], 4 * s * k, at)?;
    let offset = section(&trailer[8..10], n, at)?;
    let masks = file[masks_at..][..2 * k].chunks(2).map(|bytes| number(bytes) as u16).collect();
    let moves = file[moves_at..][..4 * s * k].chunks(4).map(number).collect();
    let p = Profile { k, s, start, finals: number(&trailer[12..16]), masks, moves };
    let log = file[offset..][..n].to_vec();
    profile(&p)?;
    letters(k, &log)?;
    Ok(File { profile: p, offset, log })
}

/// Refusals 1 to 9, or what the file holds.
pub fn read_into(file: &[u8], masks_len: usize, moves_len: usize) -> Result<File, Refused> {
    let content = read(file)?;
    room(masks_len, content.profile.masks.len())?;
    room(moves_len, content.profile.moves.len())?;
    Ok(content)
}

/// Masks, moves, log and trailer, without gaps; nothing is checked.
pub fn file_of(p: &Profile, log: &[u8]) -> Vec<u8> {
    let masks: Vec<u8> = p.masks.iter().flat_map(|mask| mask.to_le_bytes()).collect();
    let moves: Vec<u8> = p.moves.iter().flat_map(|set| set.to_le_bytes()).collect();
    let distances = [masks.len() + moves.len() + log.len(), moves.len() + log.len(), log.len()];
    let mut trailer = vec![p.k as u8, p.s as u8, p.start as u8, log.len() as u8];
    distances.iter().for_each(|&distance| trailer.extend((distance as u16).to_le_bytes()));
    trailer.extend([(log.len() >> 8) as u8, 0]);
    trailer.extend(p.finals.to_le_bytes());
    [masks, moves, log.to_vec(), trailer].concat()
}

pub fn write(p: &Profile, log: &[u8], file_len: usize) -> Result<Vec<u8>, Refused> {
    profile(p)?;
    letters(p.k, log)?;
    let file = file_of(p, log);
    room(file_len, file.len())?;
    Ok(file)
}
