//! Compares the static library with the reference on random calls: fuzz [SEED [COUNT]].
//!
//! Valid calls of small size, calls with damage, files laid out freely and damaged, texts right and wrong. Every call is made twice, by the
//! header's numbers and by the safe wrapper, on buffers with random content and random guards around; every buffer is compared whole afterwards,
//! only what the header calls free is left out. Logs are judged by the courses that right texts type. All short texts are tried too. Lists of calls
//! of the running judge are in `running.rs`, logs with terms in `terms.rs`, views in `views.rs`, grammars in `grammars.rs`, calls for a ceiling in
//! `ceilings.rs`, logs judged twice, with few pairs and with more, in `nested.rs`, closest orders in `closest.rs`. A refusal that a function can give
//! and never gave is a failure.

extern crate fumarehi; // so that the modules below find it as crate::fumarehi

mod ceilings;
mod closest;
mod courses;
mod grammars;
mod nested;
mod reference;
mod running;
mod terms;
mod texts;
mod views;

use fumarehi::numbers;
use reference::{Counts, Profile, Records, Refused, Solved, COUNTS, MOST, RECORD};
use std::collections::BTreeSet;
use std::fmt::Debug;
use std::ops::Range;
use std::process::ExitCode;

const SEED: u64 = 20261116;
const CALLS: u64 = 300_000;
/// Failures after which the test stops.
const ENOUGH: u64 = 5;
/// What every element of `told` holds before a call.
const UNTOLD: u64 = 0xdead_beef_dead_beef;
/// The last number of a refusal.
const REFUSALS: usize = 22;
/// All texts up to this length are tried.
const LISTED_TEXT: usize = 5;

type Checked = Result<(), String>;

fn agree<T: PartialEq + Debug>(what: &str, found: T, expected: T) -> Checked {
    if found == expected { Ok(()) } else { Err(format!("{what} is {found:?}, expected {expected:?}")) }
}

// Random numbers (splitmix64).

struct Random(u64);

impl Random {
    fn next(&mut self) -> u64 {
        self.0 = self.0.wrapping_add(0x9e37_79b9_7f4a_7c15);
        let mixed = (self.0 ^ self.0 >> 30).wrapping_mul(0xbf58_476d_1ce4_e5b9);
        let mixed = (mixed ^ mixed >> 27).wrapping_mul(0x94d0_49bb_1331_11eb);
        mixed ^ mixed >> 31
    }

    fn below(&mut self, end: usize) -> usize {
        (self.next() % end as u64) as usize
    }

    fn within(&mut self, range: Range<usize>) -> usize {
        range.start + self.below(range.end - range.start)
    }

    fn one_in(&mut self, n: usize) -> bool {
        self.below(n) == 0
    }

    fn pick<T: Copy>(&mut self, from: &[T]) -> T {
        from[self.below(from.len())]
    }

    fn bytes(&mut self, len: usize) -> Vec<u8> {
        (0..len).map(|_| self.next() as u8).collect()
    }

    /// Mostly one, sometimes several.
    fn few(&mut self) -> usize {
        self.pick(&[1, 1, 1, 1, 2, 2, 3])
    }
}

// Lent buffers.

/// A buffer between guards.
#[derive(Clone)]
struct Lent<T> {
    whole: Vec<T>,
    before: Vec<T>,
    part: Range<usize>,
}

impl<T: Copy + PartialEq> Lent<T> {
    fn new(random: &mut Random, len: usize, element: impl Fn(u64) -> T) -> Lent<T> {
        let first = random.within(1..9);
        let whole: Vec<T> = (0..first + len + random.within(1..9)).map(|_| element(random.next())).collect();
        Lent { before: whole.clone(), whole, part: first..first + len }
    }

    fn len(&self) -> usize {
        self.part.len()
    }

    fn lend(&mut self) -> &mut [T] {
        &mut self.whole[self.part.clone()]
    }

    fn now(&self) -> &[T] {
        &self.whole[self.part.clone()]
    }

    /// All elements stay but the first ones of the part, which are the given ones.
    fn begins(&self, what: &str, first: &[T]) -> Checked {
        let begun = &self.now()[..first.len()] == first;
        if !begun { Err(format!("{what} does not begin as expected")) } else { self.stays_from(what, first.len()) }
    }

    /// All elements stay but the given number of them at the start of the part.
    fn stays_from(&self, what: &str, len: usize) -> Checked {
        let written = self.part.start..self.part.start + len;
        let stays = |at: &usize| written.contains(at) || self.whole[*at] == self.before[*at];
        match (0..self.whole.len()).find(|at| !stays(at)) {
            Some(at) => Err(format!("{what} is changed at {}, of {} elements", at as i64 - self.part.start as i64, self.len())),
            None => Ok(()),
        }
    }

    fn stays(&self, what: &str) -> Checked {
        self.stays_from(what, 0)
    }

    fn guards_stay(&self, what: &str) -> Checked {
        self.stays_from(what, self.len())
    }
}

fn lent_bytes(random: &mut Random, len: usize) -> Lent<u8> {
    Lent::new(random, len, |n| n as u8)
}

fn lent_masks(random: &mut Random, len: usize) -> Lent<u16> {
    Lent::new(random, len, |n| n as u16)
}

fn lent_numbers(random: &mut Random, len: usize) -> Lent<u32> {
    Lent::new(random, len, |n| n as u32)
}

/// A length for a buffer that must receive `needed` elements.
fn buffer_len(random: &mut Random, needed: usize) -> usize {
    match random.below(8) {
        0 => needed.saturating_sub(1),
        1 => random.below(needed + 1),
        2..=4 => needed,
        _ => needed + random.within(1..12),
    }
}

/// A length for a table: about the records of all prefixes where the call gets so far.
fn table_len(random: &mut Random, solved: &Result<Solved, Refused>) -> usize {
    let needed = solved.as_ref().map_or(2 * RECORD, |solved| RECORD * solved.records.len());
    match random.below(10) {
        0 => needed - 1,
        1 => random.below(needed),
        2..=4 => needed,
        5 => needed + random.within(1..RECORD),
        _ => needed + random.within(RECORD..10 * RECORD),
    }
}

// Valid calls.

fn letter_count(random: &mut Random) -> usize {
    match random.below(10) {
        0..=5 => random.within(2..4),
        6..=7 => random.within(1..6),
        8 => 16,
        _ => random.within(1..17),
    }
}

fn state_count(random: &mut Random) -> usize {
    match random.below(10) {
        0..=5 => random.within(1..5),
        6..=7 => random.within(1..9),
        8 => 32,
        _ => random.within(1..33),
    }
}

/// Symmetric masks one time in four; else each direction of a pair is drawn by itself, and one pair goes one way only.
fn masks(random: &mut Random, k: usize) -> Vec<u16> {
    let density = random.pick(&[0, 1, 2, 2, 3, 4]);
    let symmetric = random.one_in(4);
    let mut masks = vec![0u16; k];
    for i in 0..k {
        for j in 0..i {
            let (back, forth) = (random.below(4) < density, random.below(4) < density);
            masks[i] |= (back as u16) << j;
            masks[j] |= (if symmetric { back } else { forth } as u16) << i;
        }
    }
    if !symmetric && k > 1 {
        let (i, j) = (random.below(k), random.within(1..k));
        let j = (i + j) % k;
        masks[i] |= 1 << j;
        masks[j] &= !(1 << i);
    }
    masks
}

/// The pairs that go both ways.
fn both_ways(masks: &[u16]) -> Vec<u16> {
    let back = |i: usize| (0..masks.len()).filter(|&j| masks[j] >> i & 1 == 1).fold(0, |mask, j| mask | 1 << j);
    (0..masks.len()).map(|i| masks[i] & back(i)).collect()
}

fn set(random: &mut Random, s: usize, density: usize) -> u32 {
    (0..s).filter(|_| random.below(8) < density).fold(0, |set, r| set | 1 << r)
}

fn some_profile(random: &mut Random, k: usize) -> Profile {
    let s = state_count(random);
    let density = random.pick(&[0, 1, 2, 4]);
    let moves = (0..s * k).map(|_| if density == 0 { 1 << random.below(s) } else { set(random, s, density) }).collect();
    let finals = random.pick(&[1, 3, 6]);
    Profile { k, s, start: random.below(s), finals: set(random, s, finals), masks: masks(random, k), moves }
}

fn some_log(random: &mut Random, k: usize, len: usize) -> Vec<u8> {
    (0..len).map(|_| random.below(k) as u8).collect()
}

/// A log that exchanges lead to.
fn exchanged(random: &mut Random, masks: &[u16], log: &[u8]) -> Vec<u8> {
    let mut log = log.to_vec();
    for _ in 0..if log.len() < 2 { 0 } else { 3 * log.len() } {
        let at = random.within(1..log.len());
        if reference::independent(masks, log[at - 1], log[at]) {
            log.swap(at - 1, at);
        }
    }
    log
}

fn shuffled(random: &mut Random, log: &[u8]) -> Vec<u8> {
    let mut log = log.to_vec();
    (1..log.len()).for_each(|at| log.swap(at, random.below(at + 1)));
    log
}

/// Makes the courses the only ones, up to a state for each event of each.
fn only_courses(p: &mut Profile, courses: &[Vec<u8>]) {
    p.s = 1 + courses.iter().map(Vec::len).sum::<usize>();
    p.start = 0;
    p.finals = 0;
    p.moves = vec![0; p.s * p.k];
    let mut new = 1;
    for course in courses {
        let mut at = 0;
        for &a in course {
            p.moves[at * p.k + a as usize] |= 1 << new;
            at = new;
            new += 1;
        }
        p.finals |= 1 << at;
    }
}

fn short_call(random: &mut Random) -> (Profile, Vec<u8>) {
    let k = letter_count(random);
    let mut p = some_profile(random, k);
    let len = random.below(reference::LISTED + 1).max(random.below(reference::LISTED + 1));
    let log = some_log(random, k, len);
    if random.one_in(3) {
        let courses: Vec<_> = (0..random.within(1..5))
            .map(|_| if random.one_in(3) { shuffled(random, &log) } else { exchanged(random, &p.masks, &log) })
            .collect();
        only_courses(&mut p, &courses);
    }
    (p, log)
}

fn medium_call(random: &mut Random) -> (Profile, Vec<u8>) {
    let k = random.within(2..5);
    let p = some_profile(random, k);
    let len = random.within(7..22);
    let log = some_log(random, k, len);
    (p, log)
}

/// Up to 4,000 letters, of which only a few, near one another, can be exchanged.
fn long_call(random: &mut Random) -> (Profile, Vec<u8>) {
    let mut p = some_profile(random, 3);
    p.masks = random.pick(&[[2, 1, 0], [2, 0, 0], [0, 1, 0]]).to_vec();
    let len = random.pick(&[100, 254, 255, 255, 256, 256, 257, 300, 300, 511, 1000, MOST]);
    let log = (0..len).map(|_| random.pick(&[0, 1, 1, 2])).collect();
    (p, log)
}

fn valid_call(random: &mut Random) -> (Profile, Vec<u8>) {
    match random.below(300) {
        0..=5 => medium_call(random),
        6 => long_call(random),
        _ => short_call(random),
    }
}

// Damage to calls.

/// Numbers about the edges of a range; the large ones are right in their low 32 bits.
fn edge(random: &mut Random, right: usize, most: usize) -> usize {
    random.pick(&[0, right.wrapping_sub(1), right + 1, most, most + 1, 1 << 32, (1 << 32) + right, usize::MAX, usize::MAX - right])
}

/// Another length, with further elements of 0.
fn resize<T: Clone + Default>(random: &mut Random, elements: &mut Vec<T>) {
    let len = elements.len();
    let other = random.pick(&[0, len.saturating_sub(1), len + 1, len + 1, len + 7, 2 * len]);
    elements.resize(other, T::default());
}

/// Numbers out of range with slices that have their lengths, where memory allows.
fn fitted(random: &mut Random, p: &mut Profile) {
    (p.k, p.s) = random.pick(&[(0, p.s), (17, p.s), (p.k, 0), (p.k, 33), (0, 0), (17, 33), (1 << 32, 1 << 32), (p.k, 1 << 63)]);
    p.start = p.start.min(p.s.saturating_sub(1));
    p.masks.resize(p.k.min(20), 0);
    p.moves.resize(p.k.wrapping_mul(p.s).min(2000), 0);
}

fn damage_relation(random: &mut Random, k: &mut usize, masks: &mut Vec<u16>) {
    let len = masks.len().clamp(1, 16);
    let (i, j) = (random.below(len), random.below(len));
    let mut flip = |i: usize, j: usize| {
        if let Some(mask) = masks.get_mut(i) {
            *mask ^= 1 << j;
        }
    };
    match random.below(6) {
        0 => *k = edge(random, *k, 16),
        1 => resize(random, masks),
        2 => flip(i, i),
        3 | 4 => flip(i, j),
        _ => flip(i, random.within(len.min(15)..16)),
    }
}

fn damage_states(random: &mut Random, p: &mut Profile) {
    let out = random.within(p.s.min(31)..32);
    match random.below(6) {
        0 => p.s = edge(random, p.s, 32),
        1 => p.start = random.pick(&[p.s, p.s.wrapping_add(1), 32, (1 << 32) + p.start, usize::MAX]),
        2 => resize(random, &mut p.moves),
        3 => p.finals |= 1 << out,
        _ if p.moves.is_empty() => {}
        _ => {
            let at = random.below(p.moves.len());
            p.moves[at] |= 1 << out;
        }
    }
}

fn damage_log(random: &mut Random, k: usize, log: &mut Vec<u8>) {
    if random.one_in(4) {
        let len = random.pick(&[MOST + 1, MOST + 1, MOST + 2, 4096, 4097, 5000, 8192]);
        *log = some_log(random, k.clamp(1, 16), len);
    }
    if random.one_in(3) || log.len() <= MOST {
        if log.is_empty() {
            log.push(0);
        }
        let at = random.below(log.len());
        let low = k.min(255);
        let any = random.within(low..256);
        log[at] = random.pick(&[low, low, low + 1, 16, 17, 255, any]).min(255) as u8;
    }
}

fn damage_call(random: &mut Random, p: &mut Profile, log: &mut Vec<u8>) {
    match random.below(10) {
        0..=2 => damage_relation(random, &mut p.k, &mut p.masks),
        3..=5 => damage_states(random, p),
        6 => fitted(random, p),
        _ => damage_log(random, p.k, log),
    }
}

fn call(random: &mut Random) -> (Profile, Vec<u8>) {
    let (mut p, mut log) = valid_call(random);
    if random.one_in(4) {
        for _ in 0..random.few() {
            damage_call(random, &mut p, &mut log);
        }
    }
    (p, log)
}

// Files.

/// Puts the sections anywhere, in gaps or on one another; what is put later stands.
fn laid_out(random: &mut Random, p: &Profile, log: &[u8]) -> Vec<u8> {
    let straight = reference::file_of(p, log);
    let (masks, rest) = straight.split_at(2 * p.k);
    let (moves, rest) = rest.split_at(4 * p.s * p.k);
    let (log, trailer) = rest.split_at(log.len());
    let sections = [masks, moves, log];
    let most = sections.iter().map(|section| section.len()).max().unwrap();
    let len = random.pick(&[most, most + 9, straight.len() + 7, 3 * straight.len()]);
    let len = if random.one_in(200) { random.pick(&[65_535, 65_536, 70_000]) } else { len };
    let mut file = if random.one_in(2) { vec![0; len] } else { random.bytes(len) };
    let mut trailer = trailer.to_vec();
    for which in shuffled(random, &[0, 1, 2]) {
        let section = sections[which as usize];
        let far = len.min(65_535);
        let any = random.within(section.len()..far + 1);
        let distance = random.pick(&[section.len(), far, any]);
        file[len - distance..][..section.len()].copy_from_slice(section);
        put_distance(&mut trailer, which.into(), distance);
    }
    [file, trailer].concat()
}

/// The distance of a section: masks 0, moves 1, log 2.
fn put_distance(trailer: &mut [u8], which: usize, distance: usize) {
    trailer[4 + 2 * which..][..2].copy_from_slice(&(distance as u16).to_le_bytes());
}

/// Size and distance of a section, as the trailer has them.
fn section(trailer: &[u8], which: usize) -> (usize, usize) {
    let [k, s, low, high] = [0, 1, 3, 10].map(|byte| trailer[byte] as usize);
    let n = low + 256 * high;
    let distance = u16::from_le_bytes([trailer[4 + 2 * which], trailer[5 + 2 * which]]);
    ([2 * k, 4 * s * k, n][which], distance.into())
}

fn change_distance(random: &mut Random, file: &mut [u8]) {
    let offset = file.len() - 16;
    let which = random.below(3);
    let (size, _) = section(&file[offset..], which);
    let any = random.below(65_536);
    let distance = random.pick(&[size.wrapping_sub(1), size, offset, offset + 1, 0, 65_535, any]);
    put_distance(&mut file[offset..], which, distance);
}

fn flip_bit(random: &mut Random, byte: u8) -> u8 {
    byte ^ 1 << random.below(8)
}

/// Changes a byte of a section.
fn change_section(random: &mut Random, file: &mut [u8]) {
    let offset = file.len() - 16;
    let which = random.below(3);
    let (size, distance) = section(&file[offset..], which);
    if (size.max(1)..=offset).contains(&distance) {
        let at = offset - distance + random.below(size.max(1));
        let (any, small) = (random.next() as u8, random.below(20) as u8);
        let flipped = flip_bit(random, file[at]);
        file[at] = random.pick(&[flipped, any, small]);
    }
}

fn change_trailer(random: &mut Random, file: &mut [u8]) {
    let at = file.len() - 16 + random.pick(&[0, 1, 2, 3, 10, 11, 12, 13, 14, 15]);
    let flipped = flip_bit(random, file[at]);
    file[at] = random.pick(&[0, 1, 2, 16, 17, 31, 32, 33, 255, flipped]);
}

fn cut(random: &mut Random, file: &mut Vec<u8>) {
    let part = random.below(file.len() + 1);
    match random.below(5) {
        0 => file.truncate(part),
        1 => drop(file.drain(..part)),
        2 => file.truncate(random.within(10..18)),
        3 => file.truncate(file.len().saturating_sub(1)),
        _ => file.extend(random.bytes(1)),
    }
}

fn damage_file(random: &mut Random, file: &mut Vec<u8>) {
    if file.len() < 16 {
        return;
    }
    match random.below(7) {
        0 => cut(random, file),
        1 => change_trailer(random, file),
        2 => change_distance(random, file),
        3 => {
            let at = random.below(file.len());
            file[at] = random.next() as u8;
        }
        _ => change_section(random, file),
    }
}

fn file(random: &mut Random) -> Vec<u8> {
    let (p, mut log) = valid_call(random);
    if random.one_in(20) {
        let len = random.pick(&[255, 256, 257, 1000, MOST, MOST + 1, MOST + 1, 5000]);
        log = some_log(random, p.k, len);
    }
    let mut file = if random.one_in(3) { laid_out(random, &p, &log) } else { reference::file_of(&p, &log) };
    if random.one_in(2) {
        for _ in 0..random.few() {
            damage_file(random, &mut file);
        }
    }
    file
}

// What was met.

const FUNCTIONS: &[(&str, &[usize])] = &[
    ("judge", &[2, 4, 6, 7, 8, 9, 10]),
    ("table", &[2, 4, 6, 7, 8, 10]),
    ("same", &[2, 4, 7, 8]),
    ("first_order", &[2, 4, 7, 8, 9]),
    ("read_file", &[1, 2, 3, 4, 6, 7, 8, 9]),
    ("log_part", &[1, 2, 3, 4, 6, 7, 8]),
    ("write_file", &[2, 4, 6, 7, 8, 9]),
    ("next_event", &[]),
    ("expression", &[2, 9, 11, 12, 13]),
    ("find", &[2]),
    ("run_start", &[2, 4, 6, 10]),
    ("run_event", &[2, 4, 6, 7, 8, 10]),
    ("run_question", &[2, 4, 6, 10]),
    ("judge_terms", &[2, 4, 6, 7, 8, 9, 10, 14, 15, 16]),
    ("view", &[2, 4, 6, 20, 7, 8, 9, 10]),
    ("grammar", &[2, 4, 7, 8, 9, 10, 21, 22]),
    ("ceiling", &[2, 4, 7, 8, 18, 19]),
    ("closest", &[2, 4, 6, 7, 8, 9, 10, 17]),
    ("closest_terms", &[2, 4, 6, 7, 8, 9, 10, 14, 15, 16, 17]),
];

#[derive(Default)]
struct Seen {
    answers: [[u64; REFUSALS + 1]; FUNCTIONS.len()],
    /// Searches that found nothing, that found a record, and those of records in another order.
    finds: [u64; 3],
    verdicts: [u64; 2],
    /// Orders that are not the log, and of these those that are not its first order.
    orders: [u64; 2],
    sames: [u64; 2],
    /// Judged logs with symmetric masks, and with one-way ones.
    one_way: [u64; 2],
    /// Judged logs of more than 255 letters, and those of 4,000.
    long: [u64; 2],
    refused_log: [u64; 3],
    records: u64,
    most_prefixes: usize,
    events: u64,
    /// Verdicts for typed courses, without and with independent letters.
    typed: [[u64; 2]; 2],
    /// Answered texts of 31 letters, and with brackets 16 deep.
    most_typed: [u64; 2],
    /// Texts up to `LISTED_TEXT` bytes, wrong and right.
    listed: [u64; 2],
    running: running::Met,
    terms: terms::Met,
    views: views::Met,
    grammars: grammars::Met,
    nested: nested::Met,
    ceilings: ceilings::Met,
    closest: closest::Met,
}

impl Seen {
    fn answer(&mut self, function: usize, expected: Option<&Refused>) {
        self.answers[function][expected.map_or(0, |refused| refused.number as usize)] += 1;
    }

    fn calls(&self) -> u64 {
        self.answers.iter().flatten().sum()
    }

    fn prefixes(&mut self, prefixes: usize) {
        self.records += prefixes as u64;
        self.most_prefixes = self.most_prefixes.max(prefixes);
    }

    fn print(&self) {
        print!("{:<14}{:>9}", "function", "answered");
        let given = |number: &usize| FUNCTIONS.iter().any(|(_, possible)| possible.contains(number));
        (1..=REFUSALS).filter(given).for_each(|number| print!("{number:>7}"));
        println!("{:>9}", "calls");
        for ((name, possible), answers) in FUNCTIONS.iter().zip(&self.answers) {
            print!("{name:<14}{:>9}", answers[0]);
            for number in (1..=REFUSALS).filter(given) {
                if possible.contains(&number) { print!("{:>7}", answers[number]) } else { print!("{:>7}", "-") }
            }
            println!("{:>9}", answers.iter().sum::<u64>());
        }
        let ([no, yes], [moved, chosen]) = (self.verdicts, self.orders);
        println!("verdict 1: {yes}, verdict 0: {no}; orders other than the log: {moved}, and than its first order: {chosen}");
        let ([differ, same], [_, first, second]) = (self.sames, self.refused_log);
        println!("same: {same}, not same: {differ}; refused for the first log: {first}, for the second: {second}");
        let [absent, found, other] = self.finds;
        println!("searches that found a record: {found}, and none: {absent}; of records in another order: {other}");
        println!("judged with one-way masks: {}, with symmetric ones: {}", self.one_way[1], self.one_way[0]);
        println!("judged logs of more than 255 letters: {}, of {MOST}: {}", self.long[0], self.long[1]);
        println!("prefixes compared: {}, at most {} of a log; events read: {}", self.records, self.most_prefixes, self.events);
        let [[no, yes], [no_reached, yes_reached]] = self.typed;
        println!("typed courses: logs described {yes}, not {no}; with independent letters a described log reached {yes_reached}, none {no_reached}");
        let ([letters, brackets], [wrong, right]) = (self.most_typed, self.listed);
        println!("texts answered with 31 letters: {letters}, 16 deep: {brackets}; all texts up to {LISTED_TEXT} bytes: right {right}, wrong {wrong}");
        self.running.print();
        self.terms.print();
        self.views.print();
        self.grammars.print();
        self.nested.print();
        self.ceilings.print();
        self.closest.print();
    }

    /// What a test of full size has met.
    fn missing(&self) -> Vec<String> {
        let mut missing = vec![];
        for ((name, possible), answers) in FUNCTIONS.iter().zip(&self.answers) {
            let never = |number: &&usize| answers[**number] == 0;
            missing.extend(possible.iter().filter(never).map(|number| format!("{name} never gave refusal {number}")));
            if answers[0] == 0 {
                missing.push(format!("{name} never answered"));
            }
        }
        let rare = |pair: [u64; 2]| pair[0].min(pair[1]) * 5 < pair[0].max(pair[1]).max(1);
        if rare(self.verdicts) {
            missing.push(format!("a verdict is rare: {:?}", self.verdicts));
        }
        if self.typed.into_iter().any(rare) {
            missing.push(format!("a verdict for typed courses is rare: {:?}", self.typed));
        }
        if self.most_typed.contains(&0) {
            missing.push(format!("no text at a limit was answered: {:?}", self.most_typed));
        }
        if rare(self.sames) {
            missing.push(format!("an answer of same is rare: {:?}", self.sames));
        }
        if self.one_way[1] < self.one_way[0] {
            missing.push(format!("one-way masks are rare: {:?}", self.one_way));
        }
        if self.long.contains(&0) {
            missing.push(format!("no long log was judged: {:?}", self.long));
        }
        if rare([self.finds[0], self.finds[1]]) || self.finds[2] == 0 {
            missing.push(format!("an answer of find is rare: {:?}", self.finds));
        }
        if self.orders[1] == 0 || self.refused_log[1..].contains(&0) {
            missing.push("no order other than log and first order, or a log that same never named".into());
        }
        missing.extend(self.running.missing());
        missing.extend(self.terms.missing());
        missing.extend(self.views.missing());
        missing.extend(self.grammars.missing());
        missing.extend(self.nested.missing());
        missing.extend(self.ceilings.missing());
        missing.extend(self.closest.missing());
        missing
    }
}

// The comparisons.

fn lend(p: &Profile) -> fumarehi::Profile<'_> {
    fumarehi::Profile { k: p.k, s: p.s, start: p.start, finals: p.finals, masks: &p.masks, moves: &p.moves }
}

/// A refusal as the header's number and `told`; only `same` tells a log.
fn refusal<const N: usize>(refused: &Refused) -> (u32, [u64; N]) {
    let mut told = [0; N];
    told[0] = refused.place as u64;
    if refused.log > 0 {
        told[1] = refused.log as u64;
    }
    (refused.number, told)
}

/// A wrapper's answer as the header's number and `told`.
fn as_numbers<T, const N: usize>(answer: Result<T, fumarehi::Refused>, told: impl FnOnce(T) -> [u64; N]) -> (u32, [u64; N]) {
    match answer {
        Ok(value) => (0, told(value)),
        Err(refused) => refusal(&Refused { number: refused.refusal.number(), place: refused.place, log: refused.log }),
    }
}

fn agree_refused<const N: usize>(answer: (u32, [u64; N]), refused: &Refused) -> Checked {
    agree("answer and told", answer, refusal(refused))
}

fn counts(k: usize, record: &[u32]) -> Result<Counts, String> {
    let counts = reference::counts_in(record);
    if counts[k..].iter().all(|&count| count == 0) { Ok(counts[..k].to_vec()) } else { Err(format!("counts from k on: {record:?}")) }
}

/// Every prefix in its place, with its sets; all else stays.
fn agree_table(p: &Profile, table: &Lent<u32>, records: &Records) -> Checked {
    let len = RECORD * records.len();
    let expected = reference::in_order(records);
    for (at, (record, (prefix, sets))) in table.now()[..len].chunks(RECORD).zip(expected).enumerate() {
        agree("a record's place and counts", (at, &counts(p.k, record)?), (at, prefix))?;
        agree("a record's sets", &reference::Sets { forward: record[COUNTS], backward: record[COUNTS + 1] }, sets)?;
    }
    table.stays_from("table", len)
}

fn agree_refused_table(table: &Lent<u32>, refused: &Refused) -> Checked {
    if refused.number == 10 { table.guards_stay("table") } else { table.stays("table") }
}

type Expected<'a> = Result<&'a Solved, Refused>;

fn agree_judge(p: &Profile, expected: &Expected, answer: (u32, [u64; 4]), order: &Lent<u8>, work: &Lent<u32>) -> Checked {
    match expected {
        Err(refused) => {
            agree_refused(answer, refused)?;
            order.stays("order buffer")?;
            agree_refused_table(work, refused)
        }
        Ok(solved) => {
            let expected = (0, [0, solved.order.is_some() as u64, solved.records.len() as u64, solved.looks as u64]);
            agree("answer; place, verdict, P, looks", answer, expected)?;
            order.begins("order buffer", solved.order.as_deref().unwrap_or_default())?;
            agree_table(p, work, &solved.records)
        }
    }
}

fn note_order(seen: &mut Seen, p: &Profile, log: &[u8], solved: &Solved) {
    seen.verdicts[solved.order.is_some() as usize] += 1;
    seen.one_way[reference::one_way(&p.masks) as usize] += 1;
    seen.long[0] += (log.len() > 255) as u64;
    seen.long[1] += (log.len() == MOST) as u64;
    seen.prefixes(solved.records.len());
    if let Some(order) = &solved.order {
        let first = reference::first_order(p.k, &p.masks, log, log.len());
        seen.orders[0] += (order != log) as u64;
        seen.orders[1] += (order != log && first.as_ref() != Ok(order)) as u64;
    }
}

/// A log that exchanges lead to has no more prefixes, so that they fit the same table, and no earlier order.
fn agree_reached(random: &mut Random, p: &Profile, log: &[u8], solved: &Solved) -> Checked {
    let reached = exchanged(random, &p.masks, log);
    let (mut order, mut work) = (vec![0; log.len()], vec![0; RECORD * solved.records.len()]);
    let verdict = fumarehi::judge(&lend(p), &reached, &mut order, &mut work).map_err(|refused| format!("{reached:?} is {refused:?}"))?;
    let earlier = verdict.has_order && solved.order.as_ref().is_none_or(|own| order < *own);
    agree("more prefixes or an earlier order", (verdict.prefixes > solved.records.len() as u64, earlier), (false, false))
}

fn check_judge(random: &mut Random, seen: &mut Seen) -> Checked {
    let (p, log) = call(random);
    let solved = reference::solve(&p, &log);
    let len = buffer_len(random, log.len());
    let mut order = lent_bytes(random, len);
    let len = table_len(random, &solved);
    let mut work = lent_numbers(random, len);
    let expected = solved.as_ref().map_err(|refused| *refused).and_then(|solved| solved.judge(order.len(), work.len()));
    seen.answer(0, expected.as_ref().err());
    if let Ok(solved) = expected {
        note_order(seen, &p, &log, solved);
    }
    let (mut order_again, mut work_again) = (order.clone(), work.clone());
    let mut told = [UNTOLD; 4];
    let number = numbers::judge(&lend(&p), &log, order.lend(), work.lend(), &mut told);
    let wrapped = fumarehi::judge(&lend(&p), &log, order_again.lend(), work_again.lend());
    let wrapped = as_numbers(wrapped, |v| [0, v.has_order as u64, v.prefixes, v.looks]);
    agree_judge(&p, &expected, (number, told), &order, &work)
        .and_then(|()| agree_judge(&p, &expected, wrapped, &order_again, &work_again))
        .and_then(|()| expected.map_or(Ok(()), |solved| agree_reached(random, &p, &log, solved)))
        .map_err(|what| format!("{what}\n  judge {p:?} {log:?}, buffers {} {}", order.len(), work.len()))
}

fn agree_built(p: &Profile, expected: &Expected, answer: (u32, [u64; 3]), table: &Lent<u32>) -> Checked {
    match expected {
        Err(refused) => {
            agree_refused(answer, refused)?;
            agree_refused_table(table, refused)
        }
        Ok(solved) => {
            agree("answer; place, P, looks", answer, (0, [0, solved.records.len() as u64, solved.looks as u64]))?;
            agree_table(p, table, &solved.records)
        }
    }
}

fn check_table(random: &mut Random, seen: &mut Seen) -> Checked {
    let (p, log) = call(random);
    let solved = reference::solve(&p, &log);
    let len = table_len(random, &solved);
    let mut table = lent_numbers(random, len);
    let expected = solved.as_ref().map_err(|refused| *refused).and_then(|solved| solved.table(table.len()));
    seen.answer(1, expected.as_ref().err());
    seen.prefixes(expected.map_or(0, |solved| solved.records.len()));
    let mut again = table.clone();
    let mut told = [UNTOLD; 3];
    let number = numbers::table(&lend(&p), &log, table.lend(), &mut told);
    let wrapped = as_numbers(fumarehi::table(&lend(&p), &log, again.lend()), |t| [0, t.prefixes, t.looks]);
    agree_built(&p, &expected, (number, told), &table)
        .and_then(|()| agree_built(&p, &expected, wrapped, &again))
        .map_err(|what| format!("{what}\n  table {p:?} {log:?}, buffer {}", table.len()))
}

/// The first records of a table, or those of one total.
fn records_part(random: &mut Random, table: Vec<u32>) -> Vec<u32> {
    let total = |record: &[u32]| reference::ranked(record).0;
    match random.below(3) {
        0 => table,
        1 => table[..random.below(table.len() + 1)].to_vec(),
        _ => {
            let wanted = total(&table[RECORD * random.below(table.len() / RECORD)..]);
            table.chunks(RECORD).filter(|record| total(record) == wanted).flatten().copied().collect()
        }
    }
}

/// The counts of a record, or others, mostly near them.
fn wanted(random: &mut Random, table: &[u32]) -> Vec<u32> {
    let mut counts = table[RECORD * random.below(table.len() / RECORD)..][..COUNTS].to_vec();
    let at = random.below(COUNTS);
    let one = 1 << (16 * random.below(2));
    match random.below(10) {
        0..=4 => {}
        5 | 6 => counts[at] = counts[at].wrapping_add(one),
        7 => counts[at] = counts[at].wrapping_sub(one),
        8 => counts[at] = random.next() as u32,
        _ => resize(random, &mut counts),
    }
    counts
}

/// A search by numbers and by wrapper.
fn found(table: &[u32], counts: &[u32]) -> [(u32, [u64; 2]); 2] {
    let mut told = [UNTOLD; 2];
    let number = numbers::find(table, counts, &mut told);
    let wrapped = as_numbers(fumarehi::find(table, counts), |found| match found {
        fumarehi::Found::At(at) => [1, at as u64],
        fumarehi::Found::Absent(before) => [0, before as u64],
    });
    [(number, told), wrapped]
}

/// Searches a built table, a part of it, and sometimes records in another order, for which any answer will do.
fn check_find(random: &mut Random, seen: &mut Seen) -> Checked {
    let (p, log) = short_call(random);
    let mut table = vec![0; RECORD * 64];
    let built = fumarehi::table(&lend(&p), &log, &mut table).map_err(|refused| format!("table of a valid call: {refused:?}"))?;
    table.truncate(RECORD * built.prefixes as usize);
    let counts = wanted(random, &table);
    let mut part = records_part(random, table);
    let other = random.one_in(8);
    if other {
        part.reverse();
    }
    let expected = reference::find(&part, &counts);
    let [answer, wrapped] = found(&part, &counts);
    seen.answer(9, expected.as_ref().err());
    match (&expected, other) {
        (Ok(_), true) => {
            seen.finds[2] += 1;
            agree("answer, and found is 0 or 1", (answer.0, answer.1[0] < 2, wrapped), (0, true, answer))
        }
        (Ok((present, at)), false) => {
            seen.finds[*present as usize] += 1;
            let told = (0, [*present as u64, *at as u64]);
            agree("answer and told", answer, told).and_then(|()| agree("the wrapper's answer", wrapped, told))
        }
        (Err(refused), _) => agree_refused(answer, refused).and_then(|()| agree_refused(wrapped, refused)),
    }
    .map_err(|what| format!("{what}\n  find {counts:?} in {part:?}"))
}

/// A log to compare with the given one: the same, or reachable from it, or nearly.
fn near(random: &mut Random, masks: &[u16], log: &[u8]) -> Vec<u8> {
    let mut other = exchanged(random, &both_ways(masks), log);
    match random.below(8) {
        0 | 1 => {}
        2 | 3 => other = exchanged(random, masks, &other),
        4 => other = shuffled(random, &other),
        5 => drop(other.pop()),
        6 => other.extend(log.last()),
        _ if other.len() > 1 => {
            let at = random.within(1..other.len());
            other.swap(at - 1, at);
        }
        _ => {}
    }
    other
}

fn check_same(random: &mut Random, seen: &mut Seen) -> Checked {
    let (p, mut first) = valid_call(random);
    let (mut k, mut masks) = (p.k, p.masks);
    let mut second = near(random, &masks, &first);
    if random.one_in(3) {
        for _ in 0..random.few() {
            match random.below(4) {
                0 | 1 => damage_relation(random, &mut k, &mut masks),
                2 => damage_log(random, k, &mut first),
                _ => damage_log(random, k, &mut second),
            }
        }
    }
    let relation = fumarehi::Relation { k, masks: &masks };
    let expected = reference::same(k, &masks, &first, &second);
    seen.answer(2, expected.as_ref().err());
    match &expected {
        Ok(same) => seen.sames[*same as usize] += 1,
        Err(refused) => seen.refused_log[refused.log] += 1,
    }
    let mut told = [UNTOLD; 3];
    let number = numbers::same(&relation, &first, &second, &mut told);
    let wrapped = as_numbers(fumarehi::same(&relation, &first, &second), |same| [0, 0, same as u64]);
    let answer = expected.map_or_else(|refused| refusal(&refused), |same| (0, [0, 0, same as u64]));
    agree("answer and told", (number, told), answer)
        .and_then(|()| agree("the wrapper's answer", wrapped, answer))
        .map_err(|what| format!("{what}\n  same {k} {masks:?} {first:?} {second:?}"))
}

fn check_first_order(random: &mut Random, seen: &mut Seen) -> Checked {
    let (p, mut log) = valid_call(random);
    let (mut k, mut masks) = (p.k, p.masks);
    if random.one_in(3) {
        for _ in 0..random.few() {
            if random.one_in(3) { damage_log(random, k, &mut log) } else { damage_relation(random, &mut k, &mut masks) }
        }
    }
    let relation = fumarehi::Relation { k, masks: &masks };
    let len = buffer_len(random, log.len());
    let mut order = lent_bytes(random, len);
    let expected = reference::first_order(k, &masks, &log, order.len());
    seen.answer(3, expected.as_ref().err());
    let mut again = order.clone();
    let mut told = [UNTOLD; 1];
    let number = numbers::first_order(&relation, &log, order.lend(), &mut told);
    let wrapped = as_numbers(fumarehi::first_order(&relation, &log, again.lend()), |()| [0]);
    let answer = expected.as_ref().map_or_else(refusal, |_| (0, [0]));
    let written = expected.unwrap_or_default();
    agree("answer and told", (number, told), answer)
        .and_then(|()| agree("the wrapper's answer", wrapped, answer))
        .and_then(|()| order.begins("order buffer", &written))
        .and_then(|()| again.begins("order buffer", &written))
        .map_err(|what| format!("{what}\n  first_order {k} {masks:?} {log:?}, buffer {}", order.len()))
}

fn agree_read(expected: &Result<reference::File, Refused>, answer: (u32, [u64; 6]), masks: &Lent<u16>, moves: &Lent<u32>) -> Checked {
    match expected {
        Err(refused) => {
            agree_refused(answer, refused)?;
            masks.stays("mask buffer")?;
            moves.stays("move buffer")
        }
        Ok(reference::File { profile: p, log, .. }) => {
            let told = [0, p.k as u64, p.s as u64, p.start as u64, p.finals.into(), log.len() as u64];
            agree("answer and told", answer, (0, told))?;
            masks.begins("mask buffer", &p.masks)?;
            moves.begins("move buffer", &p.moves)
        }
    }
}

fn check_read_file(random: &mut Random, seen: &mut Seen) -> Checked {
    let file = file(random);
    let (k, s) = if file.len() < 16 { (2, 2) } else { (file[file.len() - 16] as usize % 20, file[file.len() - 15] as usize % 40) };
    let (masks_len, moves_len) = (buffer_len(random, k), buffer_len(random, s * k));
    let (mut masks, mut moves) = (lent_masks(random, masks_len), lent_numbers(random, moves_len));
    let expected = reference::read_into(&file, masks.len(), moves.len());
    seen.answer(4, expected.as_ref().err());
    let (mut masks_again, mut moves_again) = (masks.clone(), moves.clone());
    let mut told = [UNTOLD; 6];
    let number = numbers::read_file(&file, masks.lend(), moves.lend(), &mut told);
    let wrapped = fumarehi::read_file(&file, masks_again.lend(), moves_again.lend());
    let wrapped = as_numbers(wrapped, |h| [0, h.k as u64, h.s as u64, h.start as u64, h.finals.into(), h.log_len as u64]);
    agree_read(&expected, (number, told), &masks, &moves)
        .and_then(|()| agree_read(&expected, wrapped, &masks_again, &moves_again))
        .map_err(|what| format!("{what}\n  read_file {file:?}, buffers {} {}", masks.len(), moves.len()))
}

fn check_log_part(random: &mut Random, seen: &mut Seen) -> Checked {
    let file = file(random);
    let expected = reference::read(&file);
    seen.answer(5, expected.as_ref().err());
    let mut told = [UNTOLD; 3];
    let number = numbers::log_part(&file, &mut told);
    // The part is told by where it lies in the file: it is no copy.
    let offset = |part: &[u8]| part.as_ptr() as u64 - file.as_ptr() as u64;
    let wrapped = as_numbers(fumarehi::log_part(&file), |part| [0, offset(part), part.len() as u64]);
    let answer = expected.as_ref().map_or_else(refusal, |content| (0, [0, content.offset as u64, content.log.len() as u64]));
    agree("answer and told", (number, told), answer)
        .and_then(|()| agree("the wrapper's answer", wrapped, answer))
        .map_err(|what| format!("{what}\n  log_part {file:?}"))
}

/// What was written reads back.
fn reads_back(p: &Profile, log: &[u8], file: &[u8]) -> Checked {
    let (mut masks, mut moves) = ([0; 16], [0; 512]);
    let header = fumarehi::read_file(file, &mut masks, &mut moves).map_err(|refused| format!("written, then {refused:?}"))?;
    let back = header.profile(&masks, &moves);
    agree("the profile read back", (back.k, back.s, back.start, back.finals), (p.k, p.s, p.start, p.finals))?;
    agree("the masks and moves read back", (back.masks, back.moves), (&p.masks[..], &p.moves[..]))?;
    agree("the log read back", fumarehi::log_part(file), Ok(log))
}

fn check_write_file(random: &mut Random, seen: &mut Seen) -> Checked {
    let (p, log) = call(random);
    let len = buffer_len(random, 2 * p.masks.len() + 4 * p.moves.len() + log.len() + 16);
    let mut file = lent_bytes(random, len);
    let expected = reference::write(&p, &log, file.len());
    seen.answer(6, expected.as_ref().err());
    let mut again = file.clone();
    let mut told = [UNTOLD; 2];
    let number = numbers::write_file(&lend(&p), &log, file.lend(), &mut told);
    let wrapped = as_numbers(fumarehi::write_file(&lend(&p), &log, again.lend()), |len| [0, len as u64]);
    let answer = expected.as_ref().map_or_else(refusal, |bytes| (0, [0, bytes.len() as u64]));
    let readable = expected.is_ok();
    let written = expected.unwrap_or_default();
    agree("answer and told", (number, told), answer)
        .and_then(|()| agree("the wrapper's answer", wrapped, answer))
        .and_then(|()| file.begins("file buffer", &written))
        .and_then(|()| again.begins("file buffer", &written))
        .and_then(|()| if readable { reads_back(&p, &log, &file.now()[..written.len()]) } else { Ok(()) })
        .map_err(|what| format!("{what}\n  write_file {p:?} {log:?}, buffer {}", file.len()))
}

/// One step from any place, then the whole log from its start: bytes of all kinds, for a log reader checks nothing.
fn check_next_event(random: &mut Random, seen: &mut Seen) -> Checked {
    let len = random.pick(&[0, 1, 2, 5, 255, 256, 1000, MOST, 5000]);
    let log = random.bytes(len);
    let from = random.pick(&[0, len / 2, len.saturating_sub(1), len, len + 1, 1 << 32, usize::MAX]);
    let mut at = from;
    let event = numbers::next_event(&log, &mut at);
    let expected = log.get(from).map_or((fumarehi::END, from), |&letter| (letter.into(), from + 1));
    seen.answer(7, None);
    seen.events += len as u64 + 1;
    let read: Vec<u8> = fumarehi::events(&log).take(len + 2).collect();
    agree("event and place", (event, at), expected)
        .and_then(|()| agree("the events of the log", &read, &log))
        .map_err(|what| format!("{what}\n  next_event {log:?} from {from}"))
}

type Expressed = Result<(courses::Typed, Profile), Refused>;

fn agree_expression(expected: &Expressed, answer: (u32, [u64; 4]), moves: &Lent<u32>) -> Checked {
    match expected {
        Err(refused) => {
            agree_refused(answer, refused)?;
            moves.stays("move buffer")
        }
        Ok((_, p)) => {
            agree("answer and told", answer, (0, [0, p.s as u64, p.start as u64, p.finals.into()]))?;
            moves.begins("move buffer", &p.moves)
        }
    }
}

fn call_expression(k: usize, text: &[u8], mut moves: Lent<u32>, expected: &Expressed) -> Checked {
    let len = moves.len();
    let mut again = moves.clone();
    let mut told = [UNTOLD; 4];
    let number = numbers::expression(k, text, moves.lend(), &mut told);
    let wrapped = fumarehi::expression(k, text, again.lend());
    let wrapped = as_numbers(wrapped, |made| [0, made.s as u64, made.start as u64, made.finals.into()]);
    agree_expression(expected, (number, told), &moves)
        .and_then(|()| agree_expression(expected, wrapped, &again))
        .map_err(|what| format!("{what}\n  expression {k} {:?}, buffer {len}", String::from_utf8_lossy(text)))
}

/// The judge accepts with the profile made exactly the logs from which a described one can be reached, and gives the earliest.
fn judges_typed(random: &mut Random, seen: &mut Seen, tree: &courses::Tree, made: &Profile) -> Checked {
    let independent = random.one_in(2);
    let masks = if independent { masks(random, made.k) } else { vec![0; made.k] };
    let mut log = texts::described_log(random, tree);
    log.truncate(if independent { 7 } else { 30 });
    match random.below(5) {
        0 => log = shuffled(random, &log),
        1 => log = near(random, &masks, &log),
        2 => log = some_log(random, made.k, log.len()),
        3 if !log.is_empty() => {
            let at = random.below(log.len());
            log[at] = random.below(made.k) as u8;
        }
        _ => log = exchanged(random, &masks, &log),
    }
    let order = reference::reachable(&masks, &log).into_iter().find(|order| courses::described(tree, order));
    seen.typed[independent as usize][order.is_some() as usize] += 1;
    let p = Profile { masks, ..made.clone() };
    let mut found = vec![0; log.len()];
    let verdict = fumarehi::judge(&lend(&p), &log, &mut found, &mut [0; RECORD * 256]).map_err(|refused| format!("judge: {refused:?}"))?;
    agree("the order of a log", (verdict.has_order.then_some(found), &p.masks, &log), (order, &p.masks, &log))
}

fn check_expression(random: &mut Random, seen: &mut Seen) -> Checked {
    let (k, text) = texts::some_text(random);
    let letters = text.iter().filter(|byte| byte.is_ascii_lowercase()).count().min(40);
    let len = buffer_len(random, (letters + 1) * k.min(20));
    let moves = lent_numbers(random, len);
    let expected = courses::expression(k, &text, len);
    seen.answer(8, expected.as_ref().err());
    call_expression(k, &text, moves, &expected)?;
    match &expected {
        Ok((typed, made)) => {
            seen.most_typed[0] += (typed.letters == 31) as u64;
            seen.most_typed[1] += (typed.deepest == 16) as u64;
            judges_typed(random, seen, &typed.tree, made).map_err(|what| format!("{what}\n  courses {:?}", String::from_utf8_lossy(&text)))
        }
        Err(_) => Ok(()),
    }
}

/// Every text of few bytes, where a is the only letter: 11 with the place that the list of all right texts gives, or none. A beginning of a right
/// text needs at most a letter and a bracket for each byte to be one.
fn check_listed(random: &mut Random, seen: &mut Seen) -> Checked {
    let right: BTreeSet<Vec<u8>> = courses::right_texts(2 * LISTED_TEXT + 1).into_iter().collect();
    let beginnings: BTreeSet<&[u8]> = right.iter().flat_map(|text| (0..=text.len().min(LISTED_TEXT)).map(|len| &text[..len])).collect();
    for text in texts::all_texts(LISTED_TEXT) {
        let place = (0..text.len()).find(|&at| !beginnings.contains(&text[..=at])).unwrap_or(text.len());
        let moves = lent_numbers(random, 32);
        let expected = courses::expression(1, &text, moves.len());
        let refused = expected.as_ref().err().map(|refused| (refused.number, refused.place));
        seen.listed[right.contains(&text) as usize] += 1;
        agree("the reference's place", refused, if right.contains(&text) { None } else { Some((11, place)) })
            .map_err(|what| format!("{what}\n  {:?}", String::from_utf8_lossy(&text)))?;
        call_expression(1, &text, moves, &expected)?;
    }
    Ok(())
}

fn check(random: &mut Random, seen: &mut Seen) -> Checked {
    match random.below(192) {
        0..=29 => check_judge(random, seen),
        30..=46 => check_table(random, seen),
        47..=58 => check_same(random, seen),
        59..=68 => check_first_order(random, seen),
        69..=81 => check_read_file(random, seen),
        82..=89 => check_log_part(random, seen),
        90..=97 => check_write_file(random, seen),
        98..=99 => check_next_event(random, seen),
        100..=109 => check_expression(random, seen),
        110..=113 => check_find(random, seen),
        114..=117 => running::check(random, seen),
        118..=133 => terms::check(random, seen),
        134..=149 => views::check(random, seen),
        150..=155 => grammars::check(random, seen),
        156..=161 => nested::check(random, seen),
        162..=169 => ceilings::check(random, seen),
        _ => closest::check(random, seen),
    }
}

fn main() -> ExitCode {
    let mut arguments = std::env::args().skip(1).map(|argument| argument.parse().expect("fuzz [SEED [COUNT]], numbers"));
    let seed = arguments.next().unwrap_or(SEED);
    let calls = arguments.next().unwrap_or(CALLS);
    let mut seen = Seen::default();
    let mut failures = 0;
    if let Err(what) = check_listed(&mut Random(seed), &mut seen) {
        println!("FAILED, texts: {what}");
        failures += 1;
    }
    for call in 0..calls {
        // A call depends on seed and number only, so one call can be made again alone.
        let mut random = Random(Random(seed).next().wrapping_add(call.wrapping_mul(0x2545_f491_4f6c_dd1d)));
        if let Err(what) = check(&mut random, &mut seen) {
            println!("FAILED, seed {seed} call {call}: {what}");
            failures += 1;
            if failures == ENOUGH {
                println!("FAILED: further calls are left out");
                break;
            }
        }
    }
    seen.print();
    let missing = if failures < ENOUGH { seen.missing() } else { vec![] };
    missing.iter().for_each(|what| println!("FAILED: {what}"));
    println!("fuzz: seed {seed}, {calls} cases, {} calls, each by numbers and by wrapper: {failures} failed", seen.calls());
    if failures == 0 && missing.is_empty() { ExitCode::SUCCESS } else { ExitCode::FAILURE }
}
