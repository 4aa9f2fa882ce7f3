//! Draws the prefixes of a small log as an SVG: picture FILE, a log file; the picture goes to standard output.
//!
//! A box is a prefix: its events in log order, and its forward and backward sets. Boxes of one column have one number of events, in the order of their
//! records. A line adds one event, whose letter it has; thick lines are the judge's order. A box is filled where some accepted order goes through it, which is
//! where its two sets have a state in common. Exit status 0 with a picture, 1 where the file is refused or too large to draw, 2 where it cannot be read.

use fumarehi::{Profile, LONGEST, MOST_LETTERS, MOST_MOVES, RECORD_NUMBERS};
use std::process::ExitCode;

/// The most prefixes that are drawn.
const MOST_DRAWN: usize = 64;
const BOX_WIDTH: usize = 128;
const BOX_HEIGHT: usize = 62;
const COLUMN: usize = 172;
const ROW: usize = 92;
const EDGE: usize = 14;

/// A record of the table, and where its box stands.
struct Prefix {
    counts: Vec<usize>,
    forward: u32,
    backward: u32,
    x: usize,
    y: usize,
}

struct Judged {
    prefixes: Vec<Prefix>,
    order: Option<Vec<u8>>,
}

fn letter(a: u8) -> char {
    (b'a' + a) as char
}

fn letters(log: &[u8]) -> String {
    log.iter().map(|&a| letter(a)).collect()
}

fn count_of(record: &[u32], a: usize) -> usize {
    (record[a / 2] >> (16 * (a % 2)) & 0xffff) as usize
}

/// The columns and the rows of the records; a column is as high as its prefixes are many, and all are centred on one line.
fn place(records: &[u32], k: usize) -> Vec<Prefix> {
    let counts: Vec<Vec<usize>> = records.chunks(RECORD_NUMBERS).map(|record| (0..k).map(|a| count_of(record, a)).collect()).collect();
    let total = |counts: &[usize]| counts.iter().sum::<usize>();
    let height = |events: usize| counts.iter().filter(|counts| total(counts) == events).count();
    let highest = (0..=total(counts.last().map_or(&[], Vec::as_slice))).map(height).max().unwrap_or(1);
    let mut placed: Vec<Prefix> = Vec::new();
    for (counts, record) in counts.iter().zip(records.chunks(RECORD_NUMBERS)) {
        let events = total(counts);
        let row = placed.iter().filter(|prefix| total(&prefix.counts) == events).count();
        let y = EDGE + ROW * row + ROW * (highest - height(events)) / 2;
        placed.push(Prefix { counts: counts.clone(), forward: record[8], backward: record[9], x: EDGE + COLUMN * events, y });
    }
    placed
}

fn judge(p: &Profile, log: &[u8]) -> Result<Judged, fumarehi::Refused> {
    let (mut order, mut work) = ([0; LONGEST], [0; MOST_DRAWN * RECORD_NUMBERS]);
    let verdict = fumarehi::judge(p, log, &mut order, &mut work)?;
    let prefixes = place(&work[..RECORD_NUMBERS * verdict.prefixes as usize], p.k);
    Ok(Judged { prefixes, order: verdict.has_order.then(|| order[..log.len()].to_vec()) })
}

/// The events of a prefix in log order; of many, those at both ends.
fn marked(log: &[u8], counts: &[usize]) -> String {
    let mut left = counts.to_vec();
    let events: Vec<u8> = log.iter().copied().filter(|&a| left[a as usize].checked_sub(1).inspect(|&less| left[a as usize] = less).is_some()).collect();
    match events.len() {
        0 => "empty".to_string(),
        1..=10 => letters(&events),
        len => format!("{}…{}", letters(&events[..4]), letters(&events[len - 4..])),
    }
}

/// The states of a set; of many, their number.
fn states(set: u32) -> String {
    let members: Vec<String> = (0..32).filter(|q| set >> q & 1 == 1).map(|q: u32| q.to_string()).collect();
    match members.len() {
        0 => "none".to_string(),
        1..=3 => members.join(" "),
        len => format!("{len} states"),
    }
}

/// Whether the judge's order goes from one prefix to another.
fn is_taken(order: Option<&[u8]>, from: &Prefix, to: &Prefix) -> bool {
    let count = |events: &[u8]| -> Vec<usize> { (0..from.counts.len()).map(|a| events.iter().filter(|&&b| b as usize == a).count()).collect() };
    let events: usize = from.counts.iter().sum();
    order.is_some_and(|order| events < order.len() && count(&order[..events]) == from.counts && count(&order[..events + 1]) == to.counts)
}

/// The letter by which one prefix becomes another, if one does.
fn added(from: &Prefix, to: &Prefix) -> Option<u8> {
    let differ: Vec<usize> = (0..from.counts.len()).filter(|&a| to.counts[a] != from.counts[a]).collect();
    differ.first().copied().filter(|&a| differ.len() == 1 && to.counts[a] == from.counts[a] + 1).map(|a| a as u8)
}

/// A line between two boxes, and its letter above its middle: to the right of a line that falls, to the left of one that rises.
fn line(from: &Prefix, to: &Prefix, letter: char, width: usize) -> String {
    let (x1, y1, x2, y2) = (from.x + BOX_WIDTH, from.y + BOX_HEIGHT / 2, to.x, to.y + BOX_HEIGHT / 2);
    let beside = 10 * (y2 as isize - y1 as isize).signum();
    let (x, y) = ((x1 + x2) as isize / 2 + beside, (y1 + y2) / 2 - 7);
    format!(
        "<line x1=\"{x1}\" y1=\"{y1}\" x2=\"{x2}\" y2=\"{y2}\" stroke=\"#333\" stroke-width=\"{width}\"/>\n\
         <text x=\"{x}\" y=\"{y}\" font-size=\"16\" font-style=\"italic\">{letter}</text>\n"
    )
}

fn boxed(prefix: &Prefix, log: &[u8]) -> String {
    let (x, y, middle) = (prefix.x, prefix.y, prefix.x + BOX_WIDTH / 2);
    let fill = if prefix.forward & prefix.backward != 0 { "#cfe8cf" } else { "#f2f2f2" };
    let (events, forward, backward) = (marked(log, &prefix.counts), states(prefix.forward), states(prefix.backward));
    format!(
        "<rect x=\"{x}\" y=\"{y}\" width=\"{BOX_WIDTH}\" height=\"{BOX_HEIGHT}\" rx=\"6\" fill=\"{fill}\" stroke=\"#333\"/>\n\
         <text x=\"{middle}\" y=\"{}\" font-size=\"17\" font-weight=\"bold\">{events}</text>\n\
         <text x=\"{middle}\" y=\"{}\" font-size=\"14\">forward {forward}</text>\n\
         <text x=\"{middle}\" y=\"{}\" font-size=\"14\">backward {backward}</text>\n",
        y + 20,
        y + 38,
        y + 55
    )
}

fn draw(log: &[u8], judged: &Judged) -> String {
    let prefixes = &judged.prefixes;
    let right = prefixes.iter().map(|prefix| prefix.x).max().unwrap_or(0) + BOX_WIDTH + EDGE;
    let bottom = prefixes.iter().map(|prefix| prefix.y).max().unwrap_or(0) + BOX_HEIGHT + 3 * EDGE;
    let mut svg = format!(
        "<svg xmlns=\"http://www.w3.org/2000/svg\" viewBox=\"0 0 {right} {bottom}\" width=\"{right}\" height=\"{bottom}\" font-family=\"sans-serif\" text-anchor=\"middle\">\n\
         <rect width=\"100%\" height=\"100%\" fill=\"white\"/>\n"
    );
    let pairs = prefixes.iter().flat_map(|from| prefixes.iter().map(move |to| (from, to)));
    for (from, to, a) in pairs.filter_map(|(from, to)| added(from, to).map(|a| (from, to, a))) {
        svg += &line(from, to, letter(a), if is_taken(judged.order.as_deref(), from, to) { 4 } else { 1 });
    }
    prefixes.iter().for_each(|prefix| svg += &boxed(prefix, log));
    let verdict = judged.order.as_ref().map_or("verdict 0".to_string(), |order| format!("verdict 1, order {}", letters(order)));
    let caption = format!("log {}, {} prefixes, {verdict}", letters(log), prefixes.len());
    let y = bottom - EDGE;
    svg + &format!("<text x=\"{EDGE}\" y=\"{y}\" font-size=\"16\" text-anchor=\"start\">{caption}</text>\n</svg>\n")
}

fn picture(file: &[u8]) -> Result<String, fumarehi::Refused> {
    let (mut masks, mut moves) = ([0; MOST_LETTERS], [0; MOST_MOVES]);
    let header = fumarehi::read_file(file, &mut masks, &mut moves)?;
    let (p, log) = (header.profile(&masks, &moves), fumarehi::log_part(file)?);
    Ok(draw(log, &judge(&p, log)?))
}

fn main() -> ExitCode {
    let paths: Vec<String> = std::env::args().skip(1).collect();
    let [path] = &paths[..] else {
        eprintln!("picture FILE: one log file");
        return ExitCode::from(2);
    };
    match std::fs::read(path).map(|file| picture(&file)) {
        Ok(Ok(svg)) => {
            print!("{svg}");
            ExitCode::SUCCESS
        }
        Ok(Err(refused)) => {
            eprintln!("{path}: {refused}; at most {MOST_DRAWN} prefixes are drawn");
            ExitCode::from(1)
        }
        Err(error) => {
            eprintln!("{path}: {error}");
            ExitCode::from(2)
        }
    }
}
