//! Judges one log file: judge FILE
//!
//! Prints what the program `judge` prints. Where the records of all prefixes do not fit the table it takes a table twice as long.
//! Exit status 0 with a verdict, 1 where the file is refused, 2 where it cannot be read.

use fumarehi::{Refusal, Refused, LONGEST, MOST_LETTERS, MOST_MOVES, RECORD_NUMBERS};
use std::process::ExitCode;

/// The lines of a verdict.
fn judge(file: &[u8]) -> Result<String, Refused> {
    let (mut masks, mut moves, mut order) = ([0; MOST_LETTERS], [0; MOST_MOVES], [0; LONGEST]);
    let header = fumarehi::read_file(file, &mut masks, &mut moves)?;
    let log = fumarehi::log_part(file)?;
    let profile = header.profile(&masks, &moves);
    let mut work = vec![0; 1000 * RECORD_NUMBERS];
    let verdict = loop {
        match fumarehi::judge(&profile, log, &mut order, &mut work) {
            Err(Refused { refusal: Refusal::FullTable, .. }) => work = vec![0; 2 * work.len()],
            answer => break answer?,
        }
    };
    let mut text = format!("verdict {}\nprefixes {}\n", verdict.has_order as u8, verdict.prefixes);
    if verdict.has_order {
        let letters: String = order[..log.len()].iter().map(|letter| format!(" {letter}")).collect();
        text += &format!("order{letters}\n");
    }
    Ok(text)
}

fn main() -> ExitCode {
    let paths: Vec<String> = std::env::args().skip(1).collect();
    let [path] = &paths[..] else {
        eprintln!("judge FILE: one file");
        return ExitCode::from(2);
    };
    let file = match std::fs::read(path) {
        Ok(file) => file,
        Err(error) => {
            eprintln!("{path}: {error}");
            return ExitCode::from(2);
        }
    };
    match judge(&file) {
        Ok(text) => {
            print!("{text}");
            ExitCode::SUCCESS
        }
        Err(refused) => {
            println!("refused {}", refused.refusal.number());
            eprintln!("{path}: {refused}, place {}", refused.place);
            ExitCode::from(1)
        }
    }
}
