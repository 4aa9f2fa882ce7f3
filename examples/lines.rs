//! A log file as four lines of text, and back:
//!
//!     lines write TEXT FILE      makes a log file; - is standard input or output
//!     lines read FILE            prints the text of a log file
//!
//! The four lines, in this order; empty lines and lines that begin with # are left out:
//!
//!     letters 4                  the number of letters, which are a, b, c, d then
//!     pairs b=c a>d              bc and cb may become each other; ad may become da, but not da ad
//!     courses (a(bc)*d)*         the permitted courses as an expression
//!     log abbccdad               what was recorded; spaces may part it
//!
//! Where no expression types the states of a file, its courses are read as a list of moves: `courses states 2 start 0 final 0 moves 0a1 1b0`, where 0a1 says
//! that letter a may lead from state 0 to state 1. So every file that is not refused has a text, and the text makes the same profile and log again.
//! Exit status 0 where it is done, 1 where the text has a fault or the file is refused, 2 where a file cannot be read or written.

use fumarehi::{Profile, LONGEST_FILE, MOST_LETTERS, MOST_MOVES, MOST_STATES};
use std::fmt::Write as _;
use std::io::{Read, Write};
use std::process::ExitCode;

const WORDS: [&str; 4] = ["letters", "pairs", "courses", "log"];

/// What is wrong with a text, and where: line and column from 1.
struct Fault {
    line: usize,
    column: usize,
    what: String,
}

/// One of the four lines: its number, its text, and where its content begins.
#[derive(Clone, Copy)]
struct Line<'a> {
    number: usize,
    text: &'a str,
    from: usize,
}

impl<'a> Line<'a> {
    fn content(&self) -> &'a str {
        &self.text[self.from..]
    }

    /// A fault at a place of the content.
    fn fault(&self, at: usize, what: impl Into<String>) -> Fault {
        Fault { line: self.number, column: self.from + at + 1, what: what.into() }
    }

    /// The words of the content, each with its place.
    fn words(&self) -> impl Iterator<Item = (usize, &'a str)> {
        let content = self.content();
        content.split_ascii_whitespace().map(move |word| (word.as_ptr() as usize - content.as_ptr() as usize, word))
    }
}

/// A profile and a log with their own buffers.
struct Typed {
    k: usize,
    masks: [u16; MOST_LETTERS],
    s: usize,
    start: usize,
    finals: u32,
    moves: [u32; MOST_MOVES],
    log: Vec<u8>,
}

impl Typed {
    fn profile(&self) -> Profile<'_> {
        let Typed { k, s, start, finals, .. } = *self;
        Profile { k, s, start, finals, masks: &self.masks[..k], moves: &self.moves[..s * k] }
    }
}

fn letter(a: usize) -> char {
    (b'a' + a as u8) as char
}

// From text to file.

/// The four lines, each found by its word.
fn four(text: &str) -> Result<[Line<'_>; 4], Fault> {
    let mut lines = text.lines().enumerate().filter(|(_, line)| !line.trim().is_empty() && !line.starts_with('#'));
    let mut found = [Line { number: 0, text: "", from: 0 }; 4];
    for (word, place) in WORDS.iter().zip(&mut found) {
        let (at, text) = lines.next().ok_or_else(|| Fault { line: text.lines().count() + 1, column: 1, what: format!("the line '{word} …' is missing") })?;
        let (number, line) = (at + 1, text.trim_end());
        let rest = line.strip_prefix(word).filter(|rest| rest.is_empty() || rest.starts_with([' ', '\t']));
        let rest = rest.ok_or_else(|| Fault { line: number, column: 1, what: format!("'{word} …' must come here") })?;
        *place = Line { number, text: line, from: line.len() - rest.trim_start().len() };
    }
    match lines.next() {
        Some((at, _)) => Err(Fault { line: at + 1, column: 1, what: "nothing may come after the log".into() }),
        None => Ok(found),
    }
}

/// A letter below k.
fn letter_at(line: &Line, at: usize, byte: u8, k: usize) -> Result<usize, Fault> {
    let a = (byte as usize).wrapping_sub(b'a' as usize);
    if a < k { Ok(a) } else { Err(line.fault(at, format!("a letter from a to {} must come here", letter(k - 1)))) }
}

fn read_pairs(line: &Line, k: usize) -> Result<[u16; MOST_LETTERS], Fault> {
    let mut masks = [0; MOST_LETTERS];
    for (at, word) in line.words() {
        let &[first, sign @ (b'=' | b'>'), second] = word.as_bytes() else {
            return Err(line.fault(at, format!("'{word}' is no pair: b=c for both ways, b>c for one")));
        };
        let (i, j) = (letter_at(line, at, first, k)?, letter_at(line, at + 2, second, k)?);
        if i == j {
            return Err(line.fault(at, "a letter is never exchanged with itself"));
        }
        masks[i] |= 1 << j;
        masks[j] |= ((sign == b'=') as u16) << i;
    }
    Ok(masks)
}

/// A number at the beginning of a word that is below a limit, and the rest of the word.
fn number_at<'a>(line: &Line, at: usize, word: &'a str, below: usize) -> Result<(usize, &'a str), Fault> {
    let digits = word.bytes().take_while(u8::is_ascii_digit).count();
    let number = word[..digits].parse().ok().filter(|&number| number < below);
    number.map(|number| (number, &word[digits..])).ok_or_else(|| line.fault(at, format!("a number from 0 to {} must come here", below - 1)))
}

/// A word that has been read up to `rest` must end there.
fn ends(line: &Line, at: usize, word: &str, rest: &str) -> Result<(), Fault> {
    if rest.is_empty() { Ok(()) } else { Err(line.fault(at + word.len() - rest.len(), "nothing more may come in this word")) }
}

/// `0a1`
fn read_move(line: &Line, at: usize, word: &str, typed: &mut Typed) -> Result<(), Fault> {
    let (q, rest) = number_at(line, at, word, typed.s)?;
    let place = at + word.len() - rest.len();
    let a = letter_at(line, place, *rest.as_bytes().first().unwrap_or(&0), typed.k)?;
    let (r, rest) = number_at(line, place + 1, &rest[1..], typed.s)?;
    typed.moves[q * typed.k + a] |= 1 << r;
    ends(line, at, word, rest)
}

/// A word behind `states`, `start`, `final` or `moves`.
fn read_word(line: &Line, part: &str, at: usize, word: &str, typed: &mut Typed) -> Result<(), Fault> {
    let below = if part == "states" { MOST_STATES + 1 } else { typed.s };
    match part {
        "" => return Err(line.fault(at, "states must come first")),
        "moves" => return read_move(line, at, word, typed),
        _ => {}
    }
    let (number, rest) = number_at(line, at, word, below)?;
    match part {
        "states" if number == 0 => return Err(line.fault(at, "at least one state")),
        "states" => typed.s = number,
        "start" => typed.start = number,
        _ => typed.finals |= 1 << number,
    }
    ends(line, at, word, rest)
}

/// `states 2 start 0 final 0 moves 0a1 1b0`
fn read_moves(line: &Line, typed: &mut Typed) -> Result<(), Fault> {
    let (mut part, mut seen, mut count) = ("", 0, 0);
    for (at, word) in line.words() {
        let Some(next) = ["states", "start", "final", "moves"].iter().position(|name| *name == word) else {
            read_word(line, part, at, word, typed)?;
            count += 1;
            continue;
        };
        if next != seen {
            return Err(line.fault(at, "states, start, final and moves come in this order"));
        }
        if seen == 1 && count != 1 || seen == 2 && count != 2 {
            return Err(line.fault(at, format!("one number must come after {part}")));
        }
        (part, seen) = (word, seen + 1);
    }
    if seen == 4 { Ok(()) } else { Err(line.fault(line.content().len(), "states, start, final and moves must be given")) }
}

fn read_courses(line: &Line, typed: &mut Typed) -> Result<(), Fault> {
    if line.content().starts_with("states") {
        return read_moves(line, typed);
    }
    let made = fumarehi::expression(typed.k, line.content().as_bytes(), &mut typed.moves).map_err(|refused| line.fault(refused.place, refused.to_string()))?;
    (typed.s, typed.start, typed.finals) = (made.s, made.start, made.finals);
    Ok(())
}

fn read_text(text: &str) -> Result<Vec<u8>, Fault> {
    let [letters, pairs, courses, log] = four(text)?;
    let k = letters.content().parse().ok().filter(|k| (1..=MOST_LETTERS).contains(k));
    let k = k.ok_or_else(|| letters.fault(0, format!("a number from 1 to {MOST_LETTERS} must come here")))?;
    let mut typed = Typed { k, masks: read_pairs(&pairs, k)?, s: 0, start: 0, finals: 0, moves: [0; MOST_MOVES], log: Vec::new() };
    read_courses(&courses, &mut typed)?;
    for (at, word) in log.words() {
        for (i, byte) in word.bytes().enumerate() {
            typed.log.push(letter_at(&log, at + i, byte, k)? as u8);
        }
    }
    let mut file = vec![0; LONGEST_FILE];
    let len = fumarehi::write_file(&typed.profile(), &typed.log, &mut file).map_err(|refused| log.fault(0, refused.to_string()))?;
    file.truncate(len);
    Ok(file)
}

// From file to text.

/// A part of an expression: its text, whether it is a choice, whether a star or a bracket may not be left out around it, and whether it has the empty log.
struct Part {
    text: String,
    is_choice: bool,
    is_factor: bool,
    has_empty: bool,
}

/// States as an expression: `letters[i]` leads into state i, `follow[i]` are the states behind it. States are numbered as their letters are typed, so each part
/// of an expression is a range of them.
struct States {
    letters: [Option<usize>; MOST_STATES],
}

fn range(from: usize, to: usize) -> u32 {
    (u32::MAX >> (31 - to)) & (u32::MAX << from)
}

fn members(set: u32) -> impl Iterator<Item = usize> {
    (0..MOST_STATES).filter(move |q| set >> q & 1 == 1)
}

impl States {
    /// The expression of the states from..=to, of which `first` may come first and `last` last; none where there is no such expression.
    fn part(&self, from: usize, to: usize, first: u32, last: u32, follow: &[u32; MOST_STATES]) -> Option<Part> {
        if first == 0 || last == 0 {
            return None;
        }
        if members(last).all(|q| follow[q] & first == first) {
            let mut once = *follow;
            members(last).for_each(|q| once[q] &= !first);
            let part = self.part(from, to, first, last, &once)?;
            let text = if part.is_factor { format!("{}*", part.text) } else { format!("({})*", part.text) };
            return Some(Part { text, is_choice: false, is_factor: true, has_empty: true });
        }
        if from == to {
            return Some(Part { text: letter(self.letters[from]?).to_string(), is_choice: false, is_factor: true, has_empty: false });
        }
        (from..to).find_map(|cut| self.cut(from, cut, to, first, last, follow))
    }

    /// The states from..=cut and those behind it as a choice, if no move goes between them, or one after the other.
    fn cut(&self, from: usize, cut: usize, to: usize, first: u32, last: u32, follow: &[u32; MOST_STATES]) -> Option<Part> {
        let (left, right) = (range(from, cut), range(cut + 1, to));
        let sources: u32 = members(left).filter(|&q| follow[q] & right != 0).map(|q| 1 << q).sum();
        let targets = members(left).fold(0, |set, q| set | follow[q] & right);
        if members(right).any(|q| follow[q] & left != 0) {
            return None;
        }
        if sources == 0 {
            let (one, other) = (self.part(from, cut, first & left, last & left, follow)?, self.part(cut + 1, to, first & right, last & right, follow)?);
            let text = format!("{}|{}", one.text, other.text);
            return Some(Part { text, is_choice: true, is_factor: false, has_empty: one.has_empty || other.has_empty });
        }
        let skips = |set: u32, all: u32| [0, all].contains(&set).then_some(set != 0);
        let (skips_left, skips_right) = (skips(first & right, targets)?, skips(last & left, sources)?);
        if members(sources).any(|q| follow[q] & right != targets) {
            return None;
        }
        let (one, other) = (self.part(from, cut, first & left, sources, follow)?, self.part(cut + 1, to, targets, last & right, follow)?);
        let bracket = |part: &Part| if part.is_choice { format!("({})", part.text) } else { part.text.clone() };
        let agree = one.has_empty == skips_left && other.has_empty == skips_right;
        agree.then(|| Part { text: bracket(&one) + &bracket(&other), is_choice: false, is_factor: false, has_empty: skips_left && skips_right })
    }
}

/// The expression that types the states of a profile, number for number: the library makes the same profile of it.
fn expression(p: &Profile) -> Option<String> {
    let (mut states, mut follow) = (States { letters: [None; MOST_STATES] }, [0; MOST_STATES]);
    for (at, &set) in p.moves.iter().enumerate() {
        follow[at / p.k] |= set;
        members(set).for_each(|r| states.letters[r] = Some(at % p.k));
    }
    if p.s < 2 {
        return None;
    }
    let text = states.part(1, p.s - 1, follow[0], p.finals & !1, &follow)?.text;
    let mut moves = [0; MOST_MOVES];
    let made = fumarehi::expression(p.k, text.as_bytes(), &mut moves).ok()?;
    let same = (made.s, made.start, made.finals, &moves[..made.s * p.k]) == (p.s, p.start, p.finals, p.moves);
    same.then_some(text)
}

fn listed_moves(p: &Profile) -> String {
    let mut text = format!("states {} start {} final", p.s, p.start);
    members(p.finals).for_each(|q| write!(text, " {q}").unwrap());
    text += " moves";
    for (at, &set) in p.moves.iter().enumerate() {
        members(set).for_each(|r| write!(text, " {}{}{r}", at / p.k, letter(at % p.k)).unwrap());
    }
    text
}

fn pairs_text(p: &Profile) -> String {
    let mut text = String::new();
    for i in 0..p.k {
        for j in i + 1..p.k {
            let (a, b) = (letter(i), letter(j));
            match (p.masks[i] >> j & 1, p.masks[j] >> i & 1) {
                (1, 1) => write!(text, " {a}={b}").unwrap(),
                (1, _) => write!(text, " {a}>{b}").unwrap(),
                (_, 1) => write!(text, " {b}>{a}").unwrap(),
                _ => {}
            }
        }
    }
    text
}

fn write_text(file: &[u8]) -> Result<String, fumarehi::Refused> {
    let (mut masks, mut moves) = ([0; MOST_LETTERS], [0; MOST_MOVES]);
    let header = fumarehi::read_file(file, &mut masks, &mut moves)?;
    let p = header.profile(&masks, &moves);
    let log: String = fumarehi::log_part(file)?.iter().map(|&a| letter(a as usize)).collect();
    let courses = expression(&p).unwrap_or_else(|| listed_moves(&p));
    let text = format!("letters {}\npairs{}\ncourses {courses}\nlog {log}\n", p.k, pairs_text(&p));
    Ok(text.replace(" \n", "\n"))
}

// The program.

fn read_from(path: &str) -> std::io::Result<Vec<u8>> {
    let mut bytes = Vec::new();
    match path {
        "-" => std::io::stdin().read_to_end(&mut bytes)?,
        _ => std::fs::File::open(path)?.read_to_end(&mut bytes)?,
    };
    Ok(bytes)
}

fn write_to(path: &str, bytes: &[u8]) -> std::io::Result<()> {
    if path == "-" { std::io::stdout().write_all(bytes) } else { std::fs::write(path, bytes) }
}

/// The fault, its line, and a caret below its place.
fn show(path: &str, text: &str, fault: &Fault) {
    eprintln!("{path}:{}:{}: {}", fault.line, fault.column, fault.what);
    if let Some(line) = text.lines().nth(fault.line - 1) {
        eprintln!("    {line}\n    {:>1$}", "^", fault.column);
    }
}

fn run(arguments: &[&str]) -> std::io::Result<u8> {
    match arguments {
        ["write", text_path, file_path] => {
            let bytes = read_from(text_path)?;
            let text = String::from_utf8_lossy(&bytes);
            match read_text(&text) {
                Ok(file) => write_to(file_path, &file).map(|()| 0),
                Err(fault) => {
                    show(text_path, &text, &fault);
                    Ok(1)
                }
            }
        }
        ["read", file_path] => match write_text(&read_from(file_path)?) {
            Ok(text) => write_to("-", text.as_bytes()).map(|()| 0),
            Err(refused) => {
                eprintln!("{file_path}: {refused}");
                Ok(1)
            }
        },
        _ => {
            eprintln!("lines write TEXT FILE, or lines read FILE");
            Ok(2)
        }
    }
}

fn main() -> ExitCode {
    let arguments: Vec<String> = std::env::args().skip(1).collect();
    let arguments: Vec<&str> = arguments.iter().map(String::as_str).collect();
    let status = run(&arguments).unwrap_or_else(|error| {
        eprintln!("{}: {error}", arguments.get(1).unwrap_or(&"lines"));
        2
    });
    ExitCode::from(status)
}
