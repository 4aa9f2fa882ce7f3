//! Judges many log files on all processors: many FILE ..., or the paths from standard input, one to a line.
//!
//! Prints a line for each file, in the order given: its path, and `verdict 1 prefixes 9`, `refused 8` or why it cannot be read. Each thread has a table
//! of its own; a log with more prefixes than it has place for is refused by 10.
//! Exit status 0 where every file has a verdict, 1 where one has none.

use fumarehi::{Refused, LONGEST, MOST_LETTERS, MOST_MOVES, RECORD_NUMBERS};
use std::io::{BufRead, Write};
use std::process::ExitCode;
use std::sync::atomic::{AtomicUsize, Ordering};

/// The prefixes that a thread's table has place for: 16 MB.
const PREFIXES: usize = 400_000;

fn judge(file: &[u8], work: &mut [u32]) -> Result<String, Refused> {
    let (mut masks, mut moves, mut order) = ([0; MOST_LETTERS], [0; MOST_MOVES], [0; LONGEST]);
    let header = fumarehi::read_file(file, &mut masks, &mut moves)?;
    let verdict = fumarehi::judge(&header.profile(&masks, &moves), fumarehi::log_part(file)?, &mut order, work)?;
    Ok(format!("verdict {} prefixes {}", verdict.has_order as u8, verdict.prefixes))
}

/// What is said of a file, and whether it has a verdict.
fn line(path: &str, work: &mut [u32]) -> (String, bool) {
    match std::fs::read(path).map(|file| judge(&file, work)) {
        Ok(Ok(verdict)) => (verdict, true),
        Ok(Err(refused)) => (format!("refused {}", refused.refusal.number()), false),
        Err(error) => (error.to_string(), false),
    }
}

/// The lines of some of the paths: each thread takes the next one that no other has taken.
fn take(paths: &[String], next: &AtomicUsize) -> Vec<(usize, String, bool)> {
    let mut work = vec![0; PREFIXES * RECORD_NUMBERS];
    let taken = std::iter::repeat_with(|| next.fetch_add(1, Ordering::Relaxed)).take_while(|&at| at < paths.len());
    let said = taken.map(|at| (at, line(&paths[at], &mut work)));
    said.map(|(at, (text, has_verdict))| (at, text, has_verdict)).collect()
}

fn main() -> ExitCode {
    let mut paths: Vec<String> = std::env::args().skip(1).collect();
    if paths.is_empty() {
        paths = std::io::stdin().lock().lines().map_while(Result::ok).collect();
    }
    let (paths, next) = (&paths, &AtomicUsize::new(0));
    let threads = std::thread::available_parallelism().map_or(1, |threads| threads.get());
    let mut said: Vec<(usize, String, bool)> = std::thread::scope(|scope| {
        let running: Vec<_> = (0..threads).map(|_| scope.spawn(move || take(paths, next))).collect();
        running.into_iter().flat_map(|thread| thread.join().expect("a thread that ends")).collect()
    });
    said.sort_unstable();
    let mut out = std::io::BufWriter::new(std::io::stdout().lock());
    for (at, text, _) in &said {
        let _ = writeln!(out, "{} {text}", paths[*at]);
    }
    ExitCode::from(!said.iter().all(|said| said.2) as u8)
}
