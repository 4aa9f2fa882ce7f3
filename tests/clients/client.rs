//! A Rust client of the static library: client SAMPLE.log ...
//!
//! Judges the samples by the safe wrappers as the program `judge` does and compares with SAMPLE.txt, also event by event, writes and reads back what
//! was read, judges logs by typed courses, and makes refused calls, which must leave their buffers as they were.

use fumarehi::{Found, Profile, Refusal, Refused, Relation};
use std::process::ExitCode;

/// Counts comparisons, and says which fail.
#[derive(Default)]
struct Compared {
    all: u32,
    failed: u32,
}

impl Compared {
    fn expect(&mut self, holds: bool, what: &str) {
        self.all += 1;
        if !holds {
            self.failed += 1;
            println!("FAILED: {what}");
        }
    }
}

/// A file that was read.
struct Read<'a> {
    header: fumarehi::Header,
    masks: [u16; 16],
    moves: [u32; 512],
    log: &'a [u8],
}

fn read(file: &[u8]) -> Result<Read<'_>, Refused> {
    let (mut masks, mut moves) = ([0; 16], [0; 512]);
    let header = fumarehi::read_file(file, &mut masks, &mut moves)?;
    Ok(Read { header, masks, moves, log: fumarehi::log_part(file)? })
}

impl Read<'_> {
    fn profile(&self) -> Profile<'_> {
        self.header.profile(&self.masks, &self.moves)
    }

    fn relation(&self) -> Relation<'_> {
        Relation { k: self.header.k, masks: self.profile().masks }
    }

    /// The other samples have no pair that goes both ways, so that a log is the same as itself alone.
    fn is_symmetric(&self) -> bool {
        let k = self.header.k;
        (0..k).all(|i| (0..k).all(|j| self.masks[i] >> j & 1 == self.masks[j] >> i & 1))
    }
}

/// P, and the order if there is one.
fn judged(read: &Read) -> Result<(u64, Option<Vec<u8>>), Refused> {
    let mut order = vec![0; read.log.len()];
    let verdict = fumarehi::judge(&read.profile(), read.log, &mut order, &mut [0; 16_380])?;
    Ok((verdict.prefixes, verdict.has_order.then_some(order)))
}

fn text(answer: &Result<(u64, Option<Vec<u8>>), Refused>) -> String {
    match answer {
        Err(refused) => format!("refused {}\n", refused.refusal.number()),
        Ok((prefixes, None)) => format!("verdict 0\nprefixes {prefixes}\n"),
        Ok((prefixes, Some(order))) => {
            let letters: String = order.iter().map(|letter| format!(" {letter}")).collect();
            format!("verdict 1\nprefixes {prefixes}\norder{letters}\n")
        }
    }
}

/// What holds of a file that was read, whatever is in it.
fn held(compared: &mut Compared, name: &str, file: &[u8], read: &Read, order: Option<&[u8]>) {
    compared.expect(read.log.len() == read.header.log_len, &format!("{name}: the log's length"));
    compared.expect(file.as_ptr_range().contains(&read.log.as_ptr()), &format!("{name}: the log is no part of the file"));
    compared.expect(fumarehi::events(read.log).eq(read.log.iter().copied()), &format!("{name}: the events"));

    let mut written = [0xa5; 6144];
    let len = fumarehi::write_file(&read.profile(), read.log, &mut written);
    let again = len.and_then(|len| self::read(&written[..len]).map(|again| (again.header, again.masks, again.moves, again.log.to_vec())));
    compared.expect(again == Ok((read.header, read.masks, read.moves, read.log.to_vec())), &format!("{name}: written and read back"));

    let mut first = vec![0; read.log.len()];
    compared.expect(fumarehi::first_order(&read.relation(), read.log, &mut first) == Ok(()), &format!("{name}: first order"));
    for other in [Some(&first[..]), order].into_iter().flatten() {
        let same = read.is_symmetric() || other == read.log;
        compared.expect(fumarehi::same(&read.relation(), read.log, other) == Ok(same), &format!("{name}: an order and the log"));
    }
    compared.expect(order.is_none_or(|order| first[..] <= *order), &format!("{name}: an order before the first order"));
}

fn sample(compared: &mut Compared, path: &str) {
    let file = std::fs::read(path).expect(path);
    let expected = std::fs::read_to_string(path.replace(".log", ".txt")).expect(path);
    let read = read(&file);
    let answer = read.as_ref().map_err(|refused| *refused).and_then(judged);
    let printed = if file.len() > 65_536 { "too long\n".into() } else { text(&answer) };
    compared.expect(printed == expected, &format!("{path} gives {printed}"));
    if let Ok(read) = &read {
        let standing = event_by_event(read);
        let judged = answer.as_ref().map(|(prefixes, order)| (order.is_some(), *prefixes)).map_err(|refused| *refused);
        compared.expect(standing == judged, &format!("{path}: event by event {standing:?}"));
        held(compared, path, &file, read, answer.ok().and_then(|(_, order)| order).as_deref());
    }
}

/// What a running judge tells once it has taken the log: verdict and P, or the refusal of an event that does not fit.
fn event_by_event(read: &Read) -> Result<(bool, u64), Refused> {
    let (p, mut table) = (read.profile(), [0; 16_380]);
    let mut running = fumarehi::run_start(&p, &mut table)?;
    read.log.iter().try_for_each(|&letter| running.event(&p, letter, &mut table))?;
    let standing = running.question(&p, &table)?;
    assert_eq!(standing.taken, read.log.len() as u64);
    Ok((standing.has_order, standing.prefixes))
}

// Refused calls. Alt is the profile of document 01's file.

const ALT: Profile = Profile { k: 2, s: 2, start: 0, finals: 1, masks: &[2, 1], moves: &[2, 0, 0, 1] };
const BA: &[u8] = &[1, 0];

/// Profiles and logs that every call with a profile refuses.
fn refused_inputs() -> Vec<(Refused, Profile<'static>, Vec<u8>)> {
    let refused = |refusal, place| Refused { refusal, place, log: 0 };
    vec![
        (refused(Refusal::OutOfRange, 0), Profile { k: 0, masks: &[], moves: &[], ..ALT }, vec![]),
        (refused(Refusal::OutOfRange, 0), Profile { k: 17, masks: &[0; 17], moves: &[0; 34], ..ALT }, vec![]),
        (refused(Refusal::OutOfRange, 0), Profile { s: 0, moves: &[], ..ALT }, BA.to_vec()),
        (refused(Refusal::OutOfRange, 0), Profile { s: 33, moves: &[0; 66], ..ALT }, BA.to_vec()),
        (refused(Refusal::OutOfRange, 0), Profile { start: 2, ..ALT }, BA.to_vec()),
        (refused(Refusal::OutOfRange, 0), Profile { masks: &[2, 1, 0], ..ALT }, BA.to_vec()),
        (refused(Refusal::OutOfRange, 0), Profile { moves: &[2, 0, 0], ..ALT }, BA.to_vec()),
        (refused(Refusal::MaskBit, 0), Profile { masks: &[3, 1], ..ALT }, BA.to_vec()),
        (refused(Refusal::MaskBit, 0), Profile { masks: &[2, 5], ..ALT }, BA.to_vec()),
        (refused(Refusal::StateBit, 0), Profile { moves: &[2, 0, 0, 5], ..ALT }, BA.to_vec()),
        (refused(Refusal::StateBit, 0), Profile { finals: 1 << 31, ..ALT }, BA.to_vec()),
        (refused(Refusal::LongLog, 0), ALT, vec![0; 4001]),
        (refused(Refusal::BadLetter, 1), ALT, vec![1, 2, 0, 255]),
    ]
}

const ORDER: [u8; 300] = [0xa5; 300];
const TABLE: [u32; 100] = [0xa5a5_a5a5; 100];
const FILE: [u8; 700] = [0xa5; 700];
const MASKS: [u16; 20] = [0xa5a5; 20];

fn refused_profiles(compared: &mut Compared) {
    for (refused, p, log) in refused_inputs() {
        let what = format!("{refused:?} of {p:?} {log:?}");
        let (mut order, mut table, mut file) = (ORDER, TABLE, FILE);
        compared.expect(fumarehi::judge(&p, &log, &mut order, &mut table) == Err(refused), &format!("judge: {what}"));
        compared.expect(fumarehi::table(&p, &log, &mut table) == Err(refused), &format!("table: {what}"));
        compared.expect(fumarehi::write_file(&p, &log, &mut file) == Err(refused), &format!("write_file: {what}"));
        compared.expect((order, table, file) == (ORDER, TABLE, FILE), &format!("buffers: {what}"));
    }
}

fn refused_buffers(compared: &mut Compared) {
    let (mut order, mut table, mut file) = (ORDER, TABLE, FILE);
    let short = Refused { refusal: Refusal::ShortBuffer, place: 0, log: 0 };
    let full = Refused { refusal: Refusal::FullTable, place: 0, log: 0 };
    let alt = Relation { k: 2, masks: &[2, 1] };
    let mut written = FILE;
    let len = fumarehi::write_file(&ALT, BA, &mut written);
    compared.expect(len == Ok(38), "Alt and ba make a file of 38 bytes");

    compared.expect(fumarehi::judge(&ALT, BA, &mut order[..1], &mut table) == Err(short), "judge: a short order buffer");
    compared.expect(fumarehi::first_order(&alt, BA, &mut order[..1]) == Err(short), "first_order: a short order buffer");
    compared.expect(fumarehi::write_file(&ALT, BA, &mut file[..37]) == Err(short), "write_file: a short file buffer");
    compared.expect((order, table, file) == (ORDER, TABLE, FILE), "buffers after a short buffer");
    for (masks_len, moves_len) in [(1, 100), (20, 3), (1, 3), (0, 0)] {
        let (mut masks, mut moves) = (MASKS, TABLE);
        let answer = fumarehi::read_file(&written[..38], &mut masks[..masks_len], &mut moves[..moves_len]);
        compared.expect(answer == Err(short), &format!("read_file: {masks_len} masks, {moves_len} moves"));
        compared.expect((masks, moves) == (MASKS, TABLE), &format!("buffers after {masks_len} masks, {moves_len} moves"));
    }

    compared.expect(fumarehi::judge(&ALT, BA, &mut order, &mut table[..39]) == Err(full), "judge: a table of 39");
    compared.expect(fumarehi::table(&ALT, BA, &mut table[..39]) == Err(full), "table: a table of 39");
    compared.expect(order == ORDER && table[39..] == TABLE[39..], "buffers after a full table");
    compared.expect(fumarehi::table(&ALT, BA, &mut table[..40]).is_ok_and(|table| table.prefixes == 4 && table.looks == 4), "table: a table of 40");
}

/// Each record of a table is found by its counts, other counts have their place, and the search has no more than one refusal.
fn searches(compared: &mut Compared) {
    let mut table = TABLE;
    let prefixes = fumarehi::table(&ALT, &[1, 1, 0, 0], &mut table).map_or(0, |table| table.prefixes as usize);
    let records = &table[..10 * prefixes];
    for (at, record) in records.chunks(10).enumerate() {
        compared.expect(fumarehi::find(records, &record[..8]) == Ok(Found::At(at)), &format!("find: record {at} of M2"));
    }
    let counts: Vec<u32> = records.chunks(10).map(|record| record[0]).collect();
    let of = |a: u32, b: u32| a | b << 16;
    let order = [of(0, 0), of(0, 1), of(1, 0), of(0, 2), of(1, 1), of(2, 0), of(1, 2), of(2, 1), of(2, 2)];
    compared.expect(counts == order, &format!("the order of M2's records: {counts:?}"));
    for (ab, c, at) in [(of(0, 3), 0, 6), (of(3, 0), 0, 8), (0, 1, 1), (of(3, 3), 0, 9), (of(0, 4000), 0, 9)] {
        let found = fumarehi::find(records, &[ab, c, 0, 0, 0, 0, 0, 0]);
        compared.expect(found == Ok(Found::Absent(at)), &format!("find: counts {ab}, {c} of M2"));
    }
    let twos = &records[30..60];
    compared.expect(fumarehi::find(twos, &[of(1, 1), 0, 0, 0, 0, 0, 0, 0]) == Ok(Found::At(1)), "find: ab among the prefixes of two events");
    compared.expect(fumarehi::find(twos, &[of(1, 2), 0, 0, 0, 0, 0, 0, 0]) == Ok(Found::Absent(3)), "find: a larger total");
    compared.expect(fumarehi::find(&[], &[0; 8]) == Ok(Found::Absent(0)), "find: no records");
    let refused = Refused { refusal: Refusal::OutOfRange, place: 0, log: 0 };
    for len in [0, 4, 7, 9] {
        compared.expect(fumarehi::find(records, &[0; 9][..len]) == Err(refused), &format!("find: {len} numbers of counts"));
    }
}

fn refused_same(compared: &mut Compared) {
    let alt = Relation { k: 2, masks: &[2, 1] };
    let (long, bad) = ([0; 4001], [0, 1, 2]);
    let refused = |refusal, place, log| Err(Refused { refusal, place, log });
    compared.expect(fumarehi::same(&alt, &long, &bad) == refused(Refusal::LongLog, 0, 1), "same: a long first log");
    compared.expect(fumarehi::same(&alt, &bad, &long) == refused(Refusal::BadLetter, 2, 1), "same: a bad letter in the first log");
    compared.expect(fumarehi::same(&alt, BA, &long) == refused(Refusal::LongLog, 0, 2), "same: a long second log");
    compared.expect(fumarehi::same(&alt, BA, &bad) == refused(Refusal::BadLetter, 2, 2), "same: a bad letter in the second log");
}

/// Alt on ba with one bit set: b may be moved past, or a may.
fn one_way(compared: &mut Compared) {
    let ab: &[u8] = &[0, 1];
    for (masks, expected) in [(&[0, 1], Some(ab)), (&[2, 0], None)] {
        let (relation, mut order, mut first, mut table) = (Relation { k: 2, masks }, [9; 2], [9; 2], [0; 40]);
        let verdict = fumarehi::judge(&Profile { masks, ..ALT }, BA, &mut order, &mut table);
        let prefixes = if expected.is_some() { 4 } else { 3 };
        compared.expect(verdict.is_ok_and(|v| (v.has_order, v.prefixes) == (expected.is_some(), prefixes)), &format!("{masks:?}: the verdict of ba"));
        compared.expect(order == expected.unwrap_or(&[9, 9]), &format!("{masks:?}: the order of ba"));
        compared.expect(fumarehi::first_order(&relation, BA, &mut first) == Ok(()), &format!("{masks:?}: a first order"));
        compared.expect(first == expected.unwrap_or(BA), &format!("{masks:?}: the first order of ba"));
        for (first, second, same) in [(BA, ab, false), (ab, BA, false), (BA, BA, true)] {
            compared.expect(fumarehi::same(&relation, first, second) == Ok(same), &format!("{masks:?}: {first:?} and {second:?}"));
        }
    }
}

/// A log of 4,000 letters in a file and out of it: both bytes of its length are written and read, and with one more letter it is refused.
fn long_log(compared: &mut Compared) {
    let log = vec![1; 4001];
    let (mut file, mut order, mut table) = (vec![0; 5000], vec![0; 4000], vec![0; 40_010]);
    for len in [255, 256, 257, 4000] {
        let written = fumarehi::write_file(&ALT, &log[..len], &mut file);
        compared.expect(written == Ok(36 + len), &format!("a file of {len} letters: {written:?}"));
        let read = read(&file[..36 + len]);
        let back = read.is_ok_and(|read| read.log == &log[..len] && read.header.log_len == len);
        compared.expect(back, &format!("{len} letters read back"));
        let verdict = fumarehi::judge(&ALT, &log[..len], &mut order, &mut table[..10 * (len + 1)]);
        compared.expect(verdict.is_ok_and(|v| (v.has_order, v.prefixes, v.looks) == (false, len as u64 + 1, len as u64)), &format!("{len} letters judged"));
        compared.expect(table[10 * len] == (len as u32) << 16, &format!("{len} letters counted"));
    }
    // A letter is put before the log; n and the distances are one more.
    let mut longer = file[..36 + 4000].to_vec();
    longer.insert(20, 0);
    let trailer = longer.len() - 16;
    longer[trailer + 3] = 0xa1;
    for (byte, distance) in [(4, 4021u16), (6, 4017), (8, 4001)] {
        longer[trailer + byte..][..2].copy_from_slice(&distance.to_le_bytes());
    }
    let refused = Refused { refusal: Refusal::LongLog, place: 0, log: 0 };
    compared.expect(read(&longer).err() == Some(refused), "a file of 4,001 letters");
    longer[20] = 9;
    compared.expect(fumarehi::log_part(&longer) == Err(refused), "a file of 4,001 letters, one of them bad");
    compared.expect(fumarehi::write_file(&ALT, &log, &mut file) == Err(refused), "4,001 letters to write");
}

/// The file cut short at every length: the trailer is never where it was.
fn cut_files(compared: &mut Compared) {
    let mut written = FILE;
    let len = fumarehi::write_file(&ALT, BA, &mut written).unwrap_or(0);
    for cut in 0..len {
        let (mut masks, mut moves) = (MASKS, TABLE);
        let refused = fumarehi::read_file(&written[..cut], &mut masks, &mut moves).err();
        let expected = if cut < 16 { Refusal::ShortFile } else { Refusal::OutOfRange };
        compared.expect(refused.is_some_and(|refused| refused.refusal == expected), &format!("a file cut at {cut}: {refused:?}"));
        compared.expect(fumarehi::log_part(&written[..cut]).err() == refused, &format!("the log part of a file cut at {cut}"));
        compared.expect((masks, moves) == (MASKS, TABLE), &format!("buffers after a file cut at {cut}"));
    }
}

// Typed courses.

/// The earliest permitted order of a log, as letters, by the courses typed.
fn judged_by(masks: &[u16], text: &str, log: &str) -> Result<Option<String>, Refused> {
    let mut moves = [0; 512];
    let courses = fumarehi::expression(masks.len(), text.as_bytes(), &mut moves)?;
    let log: Vec<u8> = log.bytes().map(|letter| letter - b'a').collect();
    let mut order = vec![0; log.len()];
    let verdict = fumarehi::judge(&courses.profile(masks, &moves), &log, &mut order, &mut [0; 1000])?;
    Ok(verdict.has_order.then(|| order.iter().map(|letter| (b'a' + letter) as char).collect()))
}

fn typed_courses(compared: &mut Compared) {
    let cases: [(&[u16], &str, &str, Option<&str>); 8] = [
        (&[2, 1], "(ab)*", "bbaa", Some("abab")),
        (&[2, 1], "(ab)*", "bab", None),
        (&[2, 1], "(ab)*", "", Some("")),
        (&[0, 0], "(ab)*", "ba", None),
        (&[2, 1], "ba", "ab", Some("ba")),
        (&[2, 1], "ab|ba", "ba", Some("ab")),
        (&[0, 0, 0], "a(b|c)*a", "abcba", Some("abcba")),
        (&[0, 4, 2], "a(bc)*a", "acbbca", Some("abcbca")),
    ];
    for (masks, text, log, order) in cases {
        let found = judged_by(masks, text, log);
        compared.expect(found == Ok(order.map(String::from)), &format!("{text} on {log}: {found:?}"));
    }
    let mut moves = TABLE;
    let made = fumarehi::expression(2, b"(ab)*", &mut moves);
    let expected = fumarehi::Courses { k: 2, s: 3, start: 0, finals: 5 };
    compared.expect(made == Ok(expected), &format!("(ab)* makes {made:?}"));
    compared.expect(moves[..6] == [2, 0, 0, 4, 2, 0] && moves[6..] == TABLE[6..], "the moves of (ab)*");
}

/// Texts about each limit: on the near side they are answered.
fn refused_texts(compared: &mut Compared) {
    let nested = |depth: usize| ["(".repeat(depth), "a".into(), ")".repeat(depth)].concat();
    let refused = |refusal, place| Some(Refused { refusal, place, log: 0 });
    let cases = [
        (0, "a".to_string(), 100, refused(Refusal::OutOfRange, 0)),
        (17, "a".to_string(), 100, refused(Refusal::OutOfRange, 0)),
        (17, "".to_string(), 0, refused(Refusal::OutOfRange, 0)),
        (16, "p".to_string(), 32, None),
        (15, "p".to_string(), 0, refused(Refusal::BadText, 0)),
        (1, "a|".to_string(), 0, refused(Refusal::BadText, 2)),
        (1, nested(16), 2, None),
        (1, nested(17), 1, refused(Refusal::DeepText, 0)),
        (1, nested(17) + ")", 1, refused(Refusal::BadText, 35)),
        (1, nested(17) + &"a".repeat(31), 1, refused(Refusal::DeepText, 0)),
        (2, "a".repeat(31), 64, None),
        (2, "a".repeat(31), 63, refused(Refusal::ShortBuffer, 0)),
        (2, "a".repeat(32), 63, refused(Refusal::LongText, 0)),
        (2, "a".repeat(32) + "c", 63, refused(Refusal::BadText, 32)),
    ];
    for (k, text, len, refused) in cases {
        let mut moves = TABLE;
        let answer = fumarehi::expression(k, text.as_bytes(), &mut moves[..len]);
        let written = answer.map_or(0, |made| made.s * k);
        compared.expect(answer.err() == refused, &format!("{k} letters, {text}: {answer:?}"));
        compared.expect(moves[written..] == TABLE[written..], &format!("buffer after {k} letters, {text}"));
    }
}

fn main() -> ExitCode {
    let mut compared = Compared::default();
    let paths: Vec<String> = std::env::args().skip(1).collect();
    compared.expect(!paths.is_empty(), "no sample was given");
    paths.iter().for_each(|path| sample(&mut compared, path));
    refused_profiles(&mut compared);
    refused_buffers(&mut compared);
    searches(&mut compared);
    refused_same(&mut compared);
    one_way(&mut compared);
    long_log(&mut compared);
    cut_files(&mut compared);
    typed_courses(&mut compared);
    refused_texts(&mut compared);
    println!("client.rs: {} samples; {} comparisons, {} failed", paths.len(), compared.all, compared.failed);
    if compared.failed == 0 { ExitCode::SUCCESS } else { ExitCode::FAILURE }
}
