//! Fumarehi, a proved judge of loan logs: safe calls of the static library, one for each function of include/fumarehi.h, which says what each argument
//! and answer means; docs/RULES.md has the rules. Nothing is allocated: the caller lends every buffer.
//!
//! The header leaves to the caller that pointers are not null, aligned, and valid for the length given, and that nothing else is written or read
//! through a buffer during the call. Rust's slices have all of this, also where they are empty; so every call here is safe for all arguments.

/// The functions as the header declares them.
mod c {
    extern "C" {
        pub fn fumarehi_judge(
            k: usize, s: usize, start: usize, finals: u32,
            masks: *const u16, masks_len: usize,
            moves: *const u32, moves_len: usize,
            log: *const u8, log_len: usize,
            order: *mut u8, order_len: usize,
            work: *mut u32, work_len: usize,
            told: *mut u64,
        ) -> u32;
        pub fn fumarehi_judge_terms(
            k: usize, s: usize, start: usize, finals: u32,
            masks: *const u16, masks_len: usize,
            moves: *const u32, moves_len: usize,
            log: *const u8, log_len: usize,
            days: *const u32, days_len: usize,
            terms: *const u32, terms_len: usize,
            order: *mut u8, order_len: usize,
            work: *mut u32, work_len: usize,
            told: *mut u64,
        ) -> u32;
        pub fn fumarehi_table(
            k: usize, s: usize, start: usize, finals: u32,
            masks: *const u16, masks_len: usize,
            moves: *const u32, moves_len: usize,
            log: *const u8, log_len: usize,
            table: *mut u32, table_len: usize,
            told: *mut u64,
        ) -> u32;
        pub fn fumarehi_find(
            table: *const u32, table_len: usize,
            counts: *const u32, counts_len: usize,
            told: *mut u64,
        ) -> u32;
        pub fn fumarehi_same(
            k: usize,
            masks: *const u16, masks_len: usize,
            first: *const u8, first_len: usize,
            second: *const u8, second_len: usize,
            told: *mut u64,
        ) -> u32;
        pub fn fumarehi_first_order(
            k: usize,
            masks: *const u16, masks_len: usize,
            log: *const u8, log_len: usize,
            order: *mut u8, order_len: usize,
            told: *mut u64,
        ) -> u32;
        pub fn fumarehi_read_file(
            file: *const u8, file_len: usize,
            masks: *mut u16, masks_len: usize,
            moves: *mut u32, moves_len: usize,
            told: *mut u64,
        ) -> u32;
        pub fn fumarehi_log_part(file: *const u8, file_len: usize, told: *mut u64) -> u32;
        pub fn fumarehi_write_file(
            k: usize, s: usize, start: usize, finals: u32,
            masks: *const u16, masks_len: usize,
            moves: *const u32, moves_len: usize,
            log: *const u8, log_len: usize,
            file: *mut u8, file_len: usize,
            told: *mut u64,
        ) -> u32;
        pub fn fumarehi_next_event(log: *const u8, log_len: usize, at: *mut usize) -> u32;
        pub fn fumarehi_expression(
            k: usize,
            text: *const u8, text_len: usize,
            moves: *mut u32, moves_len: usize,
            told: *mut u64,
        ) -> u32;
        pub fn fumarehi_closest(
            k: usize, s: usize, start: usize, finals: u32,
            masks: *const u16, masks_len: usize,
            moves: *const u32, moves_len: usize,
            log: *const u8, log_len: usize,
            order: *mut u8, order_len: usize,
            work: *mut u32, work_len: usize,
            costs: *mut u32, costs_len: usize,
            budget: u64,
            told: *mut u64,
        ) -> u32;
        pub fn fumarehi_closest_terms(
            k: usize, s: usize, start: usize, finals: u32,
            masks: *const u16, masks_len: usize,
            moves: *const u32, moves_len: usize,
            log: *const u8, log_len: usize,
            days: *const u32, days_len: usize,
            terms: *const u32, terms_len: usize,
            order: *mut u8, order_len: usize,
            work: *mut u32, work_len: usize,
            costs: *mut u32, costs_len: usize,
            budget: u64,
            told: *mut u64,
        ) -> u32;
        pub fn fumarehi_run_start(
            k: usize, s: usize, start: usize, finals: u32,
            masks: *const u16, masks_len: usize,
            moves: *const u32, moves_len: usize,
            record: *mut u64,
            table: *mut u32, table_len: usize,
            told: *mut u64,
        ) -> u32;
        pub fn fumarehi_run_event(
            k: usize, s: usize, start: usize, finals: u32,
            masks: *const u16, masks_len: usize,
            moves: *const u32, moves_len: usize,
            letter: u8,
            record: *mut u64,
            table: *mut u32, table_len: usize,
            told: *mut u64,
        ) -> u32;
        pub fn fumarehi_run_question(
            k: usize, s: usize, start: usize, finals: u32,
            masks: *const u16, masks_len: usize,
            moves: *const u32, moves_len: usize,
            record: *const u64,
            table: *const u32, table_len: usize,
            told: *mut u64,
        ) -> u32;
        pub fn fumarehi_view(
            k: usize, s: usize, start: usize, finals: u32, visible: u32,
            masks: *const u16, masks_len: usize,
            moves: *const u32, moves_len: usize,
            log: *const u8, log_len: usize,
            order: *mut u8, order_len: usize,
            work: *mut u32, work_len: usize,
            told: *mut u64,
        ) -> u32;
        pub fn fumarehi_grammar(
            k: usize,
            masks: *const u16, masks_len: usize,
            names: usize,
            rules: *const u16, rules_len: usize,
            log: *const u8, log_len: usize,
            order: *mut u8, order_len: usize,
            work: *mut u32, work_len: usize,
            sets: *mut u16, sets_len: usize,
            told: *mut u64,
        ) -> u32;
        pub fn fumarehi_ceiling(
            k: usize,
            masks: *const u16, masks_len: usize,
            log: *const u8, log_len: usize,
            groups: *const u16, groups_len: usize,
            told: *mut u64,
        ) -> u32;
    }
}

/// What `numbers::next_event` gives at the end of a log.
pub const END: u32 = 256;

/// The limits, by the header's names.
pub const MOST_LETTERS: usize = 16;
pub const MOST_STATES: usize = 32;
pub const MOST_MOVES: usize = MOST_STATES * MOST_LETTERS;
/// The most letters of a log.
pub const LONGEST: usize = 4000;
pub const RECORD_NUMBERS: usize = 10;
pub const COUNT_NUMBERS: usize = 8;
pub const TRAILER_LENGTH: usize = 16;
/// The most bytes that `write_file` writes.
pub const LONGEST_FILE: usize = 2 * MOST_LETTERS + 4 * MOST_MOVES + LONGEST + TRAILER_LENGTH;
pub const DEEPEST_BRACKETS: usize = 16;
pub const MOST_TYPED: usize = 31;
pub const MOST_TERMS: usize = 12;
pub const MOST_GROUPS: usize = 16;
pub const MOST_NAMES: usize = 16;
pub const MOST_RULES: usize = 64;

/// Letters and their exchanges: bit j of mask i is set where i directly followed by j may become j followed by i.
#[derive(Clone, Copy, Debug)]
pub struct Relation<'a> {
    pub k: usize,
    pub masks: &'a [u16],
}

#[derive(Clone, Copy, Debug)]
pub struct Profile<'a> {
    pub k: usize,
    pub s: usize,
    pub start: usize,
    pub finals: u32,
    pub masks: &'a [u16],
    pub moves: &'a [u32],
}

/// The refusals with their numbers, of which 5 is unused.
#[derive(Clone, Copy, Debug, PartialEq, Eq)]
pub enum Refusal {
    ShortFile = 1,
    OutOfRange = 2,
    Distance = 3,
    MaskBit = 4,
    StateBit = 6,
    LongLog = 7,
    BadLetter = 8,
    ShortBuffer = 9,
    FullTable = 10,
    BadText = 11,
    DeepText = 12,
    LongText = 13,
    BadDay = 14,
    BadTerm = 15,
    NoTerm = 16,
    ShortCosts = 17,
    BadGroups = 18,
    HighCeiling = 19,
    ViewBit = 20,
    BadRule = 21,
    ShortSets = 22,
}

impl Refusal {
    const ALL: &'static [Refusal] = &[
        Refusal::ShortFile,
        Refusal::OutOfRange,
        Refusal::Distance,
        Refusal::MaskBit,
        Refusal::StateBit,
        Refusal::LongLog,
        Refusal::BadLetter,
        Refusal::ShortBuffer,
        Refusal::FullTable,
        Refusal::BadText,
        Refusal::DeepText,
        Refusal::LongText,
        Refusal::BadDay,
        Refusal::BadTerm,
        Refusal::NoTerm,
        Refusal::ShortCosts,
        Refusal::BadGroups,
        Refusal::HighCeiling,
        Refusal::ViewBit,
        Refusal::BadRule,
        Refusal::ShortSets,
    ];

    pub fn number(self) -> u32 {
        self as u32
    }

    /// What is wrong, in a few words.
    pub fn reason(self) -> &'static str {
        match self {
            Refusal::ShortFile => "file under 16 bytes",
            Refusal::OutOfRange => "number of letters, number of states or start out of range, or slices of another length",
            Refusal::Distance => "a distance of the file is out of its range",
            Refusal::MaskBit => "a mask has a bit past the letters, or its own",
            Refusal::StateBit => "a move or the final set has a bit past the states",
            Refusal::LongLog => "more than 4,000 letters in the log",
            Refusal::BadLetter => "a letter of the log is out of range",
            Refusal::ShortBuffer => "an output buffer is too short",
            Refusal::FullTable => "the records of all prefixes do not fit the table",
            Refusal::BadText => "the courses break the rules of their text, or use a letter out of range",
            Refusal::DeepText => "brackets go deeper than 16",
            Refusal::LongText => "more than 31 letters typed",
            Refusal::BadDay => "not a day for each event, or no date from 1900 to 2199",
            Refusal::BadTerm => "the terms break their rules",
            Refusal::NoTerm => "an event's day is in no term",
            Refusal::ShortCosts => "the cost table is too short",
            Refusal::BadGroups => "the letter groups break their rules",
            Refusal::HighCeiling => "the ceiling is above 4,294,967,295",
            Refusal::ViewBit => "the mask of visible letters has a bit past the letters",
            Refusal::BadRule => "a rule of the grammar is out of range, or too many names or rules, or no names",
            Refusal::ShortSets => "too few sets of names",
        }
    }

    fn from_number(number: u32) -> Refusal {
        *Self::ALL.iter().find(|refusal| refusal.number() == number).expect("a refusal of the header")
    }
}

#[derive(Clone, Copy, Debug, PartialEq, Eq)]
pub struct Refused {
    pub refusal: Refusal,
    /// The place in the log of the first bad letter at `BadLetter`, the place of the fault in the text at `BadText`, else 0.
    pub place: usize,
    /// The log that `same` refuses at `LongLog` and `BadLetter`, 1 or 2, else 0.
    pub log: usize,
}

impl std::fmt::Display for Refused {
    fn fmt(&self, f: &mut std::fmt::Formatter) -> std::fmt::Result {
        write!(f, "refused {}: {}", self.refusal.number(), self.refusal.reason())
    }
}

impl std::error::Error for Refused {}

/// A day for each event of a log, and the first and the last day of each term in turn; a day is year × 10,000 + month × 100 + day.
#[derive(Clone, Copy, Debug)]
pub struct Dates<'a> {
    pub days: &'a [u32],
    pub terms: &'a [u32],
}

#[derive(Clone, Copy, Debug, PartialEq, Eq)]
pub struct Verdict {
    /// Verdict 1: the order is in the first bytes of the order buffer.
    pub has_order: bool,
    pub prefixes: u64,
    pub looks: u64,
}

/// What `closest` and `closest_terms` tell.
#[derive(Clone, Copy, Debug, PartialEq, Eq)]
pub struct Closest {
    /// The swaps of the order in the buffer and the floor; none where the verdict is 0.
    pub order: Option<Swaps>,
    pub prefixes: u64,
    pub looks: u64,
}

#[derive(Clone, Copy, Debug, PartialEq, Eq)]
pub struct Swaps {
    pub swaps: u64,
    pub floor: u64,
}

#[derive(Clone, Copy, Debug, PartialEq, Eq)]
pub struct Table {
    pub prefixes: u64,
    pub looks: u64,
}

/// The record that has the counts, or how many records stand before their place.
#[derive(Clone, Copy, Debug, PartialEq, Eq)]
pub enum Found {
    At(usize),
    Absent(usize),
}

/// What a log file tells beside its masks and moves.
#[derive(Clone, Copy, Debug, PartialEq, Eq)]
pub struct Header {
    pub k: usize,
    pub s: usize,
    pub start: usize,
    pub finals: u32,
    pub log_len: usize,
}

impl Header {
    /// The profile of the file; the buffers are those that `read_file` filled.
    pub fn profile<'a>(&self, masks: &'a [u16], moves: &'a [u32]) -> Profile<'a> {
        let Header { k, s, start, finals, .. } = *self;
        Profile { k, s, start, finals, masks: &masks[..k], moves: &moves[..s * k] }
    }
}

/// What courses typed as an expression make beside their moves.
#[derive(Clone, Copy, Debug, PartialEq, Eq)]
pub struct Courses {
    pub k: usize,
    pub s: usize,
    pub start: usize,
    pub finals: u32,
}

impl Courses {
    /// The profile of the courses with the caller's masks; the move buffer is the one that `expression` filled.
    pub fn profile<'a>(&self, masks: &'a [u16], moves: &'a [u32]) -> Profile<'a> {
        let Courses { k, s, start, finals } = *self;
        Profile { k, s, start, finals, masks, moves: &moves[..s * k] }
    }
}

/// The calls with the header's numbers: the answer, and what is told.
pub mod numbers {
    use super::{c, Dates, Grammar, Profile, Relation};

    pub fn judge(p: &Profile, log: &[u8], order: &mut [u8], work: &mut [u32], told: &mut [u64; 4]) -> u32 {
        // SAFETY: slices meet what the header asks; so in every call below.
        unsafe {
            c::fumarehi_judge(
                p.k, p.s, p.start, p.finals,
                p.masks.as_ptr(), p.masks.len(),
                p.moves.as_ptr(), p.moves.len(),
                log.as_ptr(), log.len(),
                order.as_mut_ptr(), order.len(),
                work.as_mut_ptr(), work.len(),
                told.as_mut_ptr(),
            )
        }
    }

    pub fn judge_terms(p: &Profile, log: &[u8], dates: &Dates, order: &mut [u8], work: &mut [u32], told: &mut [u64; 4]) -> u32 {
        unsafe {
            c::fumarehi_judge_terms(
                p.k, p.s, p.start, p.finals,
                p.masks.as_ptr(), p.masks.len(),
                p.moves.as_ptr(), p.moves.len(),
                log.as_ptr(), log.len(),
                dates.days.as_ptr(), dates.days.len(),
                dates.terms.as_ptr(), dates.terms.len(),
                order.as_mut_ptr(), order.len(),
                work.as_mut_ptr(), work.len(),
                told.as_mut_ptr(),
            )
        }
    }

    pub fn closest(
        p: &Profile, log: &[u8], order: &mut [u8], work: &mut [u32], costs: &mut [u32], budget: u64, told: &mut [u64; 6],
    ) -> u32 {
        unsafe {
            c::fumarehi_closest(
                p.k, p.s, p.start, p.finals,
                p.masks.as_ptr(), p.masks.len(),
                p.moves.as_ptr(), p.moves.len(),
                log.as_ptr(), log.len(),
                order.as_mut_ptr(), order.len(),
                work.as_mut_ptr(), work.len(),
                costs.as_mut_ptr(), costs.len(),
                budget,
                told.as_mut_ptr(),
            )
        }
    }

    pub fn closest_terms(
        p: &Profile, log: &[u8], dates: &Dates, order: &mut [u8], work: &mut [u32], costs: &mut [u32], budget: u64, told: &mut [u64; 6],
    ) -> u32 {
        unsafe {
            c::fumarehi_closest_terms(
                p.k, p.s, p.start, p.finals,
                p.masks.as_ptr(), p.masks.len(),
                p.moves.as_ptr(), p.moves.len(),
                log.as_ptr(), log.len(),
                dates.days.as_ptr(), dates.days.len(),
                dates.terms.as_ptr(), dates.terms.len(),
                order.as_mut_ptr(), order.len(),
                work.as_mut_ptr(), work.len(),
                costs.as_mut_ptr(), costs.len(),
                budget,
                told.as_mut_ptr(),
            )
        }
    }

    pub fn table(p: &Profile, log: &[u8], table: &mut [u32], told: &mut [u64; 3]) -> u32 {
        unsafe {
            c::fumarehi_table(
                p.k, p.s, p.start, p.finals,
                p.masks.as_ptr(), p.masks.len(),
                p.moves.as_ptr(), p.moves.len(),
                log.as_ptr(), log.len(),
                table.as_mut_ptr(), table.len(),
                told.as_mut_ptr(),
            )
        }
    }

    pub fn find(table: &[u32], counts: &[u32], told: &mut [u64; 2]) -> u32 {
        unsafe { c::fumarehi_find(table.as_ptr(), table.len(), counts.as_ptr(), counts.len(), told.as_mut_ptr()) }
    }

    pub fn same(r: &Relation, first: &[u8], second: &[u8], told: &mut [u64; 3]) -> u32 {
        unsafe {
            c::fumarehi_same(
                r.k,
                r.masks.as_ptr(), r.masks.len(),
                first.as_ptr(), first.len(),
                second.as_ptr(), second.len(),
                told.as_mut_ptr(),
            )
        }
    }

    pub fn first_order(r: &Relation, log: &[u8], order: &mut [u8], told: &mut [u64; 1]) -> u32 {
        unsafe {
            c::fumarehi_first_order(
                r.k,
                r.masks.as_ptr(), r.masks.len(),
                log.as_ptr(), log.len(),
                order.as_mut_ptr(), order.len(),
                told.as_mut_ptr(),
            )
        }
    }

    pub fn read_file(file: &[u8], masks: &mut [u16], moves: &mut [u32], told: &mut [u64; 6]) -> u32 {
        unsafe {
            c::fumarehi_read_file(
                file.as_ptr(), file.len(),
                masks.as_mut_ptr(), masks.len(),
                moves.as_mut_ptr(), moves.len(),
                told.as_mut_ptr(),
            )
        }
    }

    pub fn log_part(file: &[u8], told: &mut [u64; 3]) -> u32 {
        unsafe { c::fumarehi_log_part(file.as_ptr(), file.len(), told.as_mut_ptr()) }
    }

    pub fn write_file(p: &Profile, log: &[u8], file: &mut [u8], told: &mut [u64; 2]) -> u32 {
        unsafe {
            c::fumarehi_write_file(
                p.k, p.s, p.start, p.finals,
                p.masks.as_ptr(), p.masks.len(),
                p.moves.as_ptr(), p.moves.len(),
                log.as_ptr(), log.len(),
                file.as_mut_ptr(), file.len(),
                told.as_mut_ptr(),
            )
        }
    }

    pub fn next_event(log: &[u8], at: &mut usize) -> u32 {
        unsafe { c::fumarehi_next_event(log.as_ptr(), log.len(), at) }
    }

    pub fn ceiling(r: &Relation, log: &[u8], groups: &[u16], told: &mut [u64; 2]) -> u32 {
        unsafe {
            c::fumarehi_ceiling(
                r.k,
                r.masks.as_ptr(), r.masks.len(),
                log.as_ptr(), log.len(),
                groups.as_ptr(), groups.len(),
                told.as_mut_ptr(),
            )
        }
    }

    pub fn expression(k: usize, text: &[u8], moves: &mut [u32], told: &mut [u64; 4]) -> u32 {
        unsafe { c::fumarehi_expression(k, text.as_ptr(), text.len(), moves.as_mut_ptr(), moves.len(), told.as_mut_ptr()) }
    }

    pub fn run_start(p: &Profile, record: &mut [u64; 2], table: &mut [u32], told: &mut [u64; 1]) -> u32 {
        unsafe {
            c::fumarehi_run_start(
                p.k, p.s, p.start, p.finals,
                p.masks.as_ptr(), p.masks.len(),
                p.moves.as_ptr(), p.moves.len(),
                record.as_mut_ptr(),
                table.as_mut_ptr(), table.len(),
                told.as_mut_ptr(),
            )
        }
    }

    pub fn run_event(p: &Profile, letter: u8, record: &mut [u64; 2], table: &mut [u32], told: &mut [u64; 1]) -> u32 {
        unsafe {
            c::fumarehi_run_event(
                p.k, p.s, p.start, p.finals,
                p.masks.as_ptr(), p.masks.len(),
                p.moves.as_ptr(), p.moves.len(),
                letter,
                record.as_mut_ptr(),
                table.as_mut_ptr(), table.len(),
                told.as_mut_ptr(),
            )
        }
    }

    pub fn run_question(p: &Profile, record: &[u64; 2], table: &[u32], told: &mut [u64; 4]) -> u32 {
        unsafe {
            c::fumarehi_run_question(
                p.k, p.s, p.start, p.finals,
                p.masks.as_ptr(), p.masks.len(),
                p.moves.as_ptr(), p.moves.len(),
                record.as_ptr(),
                table.as_ptr(), table.len(),
                told.as_mut_ptr(),
            )
        }
    }

    pub fn view(p: &Profile, visible: u32, log: &[u8], order: &mut [u8], work: &mut [u32], told: &mut [u64; 4]) -> u32 {
        unsafe {
            c::fumarehi_view(
                p.k, p.s, p.start, p.finals, visible,
                p.masks.as_ptr(), p.masks.len(),
                p.moves.as_ptr(), p.moves.len(),
                log.as_ptr(), log.len(),
                order.as_mut_ptr(), order.len(),
                work.as_mut_ptr(), work.len(),
                told.as_mut_ptr(),
            )
        }
    }

    pub fn grammar(g: &Grammar, log: &[u8], order: &mut [u8], work: &mut [u32], sets: &mut [u16], told: &mut [u64; 4]) -> u32 {
        unsafe {
            c::fumarehi_grammar(
                g.relation.k,
                g.relation.masks.as_ptr(), g.relation.masks.len(),
                g.names,
                g.rules.as_ptr(), g.rules.len(),
                log.as_ptr(), log.len(),
                order.as_mut_ptr(), order.len(),
                work.as_mut_ptr(), work.len(),
                sets.as_mut_ptr(), sets.len(),
                told.as_mut_ptr(),
            )
        }
    }
}

fn answer<T>(number: u32, place: u64, log: u64, value: impl FnOnce() -> T) -> Result<T, Refused> {
    match number {
        0 => Ok(value()),
        _ => Err(Refused { refusal: Refusal::from_number(number), place: place as usize, log: log as usize }),
    }
}

/// Judges a log; with an order, its first bytes in `order` are the earliest accepted log that exchanges reach.
pub fn judge(p: &Profile, log: &[u8], order: &mut [u8], work: &mut [u32]) -> Result<Verdict, Refused> {
    let mut told = [0; 4];
    let number = numbers::judge(p, log, order, work, &mut told);
    answer(number, told[0], 0, || Verdict { has_order: told[1] == 1, prefixes: told[2], looks: told[3] })
}

/// Judges a log with a day for each event and with terms: events of different terms keep their order.
pub fn judge_terms(p: &Profile, log: &[u8], dates: &Dates, order: &mut [u8], work: &mut [u32]) -> Result<Verdict, Refused> {
    let mut told = [0; 4];
    let number = numbers::judge_terms(p, log, dates, order, work, &mut told);
    answer(number, told[0], 0, || Verdict { has_order: told[1] == 1, prefixes: told[2], looks: told[3] })
}

/// Judges a log for a teacher who sees the letters of a mask, bit a for letter a, and nothing about the others.
pub fn view(p: &Profile, visible: u32, log: &[u8], order: &mut [u8], work: &mut [u32]) -> Result<Verdict, Refused> {
    let mut told = [0; 4];
    let number = numbers::view(p, visible, log, order, work, &mut told);
    answer(number, told[0], 0, || Verdict { has_order: told[1] == 1, prefixes: told[2], looks: told[3] })
}

fn closest_answer(number: u32, told: [u64; 6]) -> Result<Closest, Refused> {
    let [place, verdict, prefixes, looks, swaps, floor] = told;
    answer(number, place, 0, || Closest { order: (verdict == 1).then_some(Swaps { swaps, floor }), prefixes, looks })
}

/// Finds the order closest to the log, with a budget of pairs of a prefix and a state; its first bytes are in `order`.
pub fn closest(
    p: &Profile, log: &[u8], order: &mut [u8], work: &mut [u32], costs: &mut [u32], budget: u64,
) -> Result<Closest, Refused> {
    let mut told = [0; 6];
    let number = numbers::closest(p, log, order, work, costs, budget, &mut told);
    closest_answer(number, told)
}

/// The same for a log with a day for each event and with terms: events of different terms keep their order.
pub fn closest_terms(
    p: &Profile, log: &[u8], dates: &Dates, order: &mut [u8], work: &mut [u32], costs: &mut [u32], budget: u64,
) -> Result<Closest, Refused> {
    let mut told = [0; 6];
    let number = numbers::closest_terms(p, log, dates, order, work, costs, budget, &mut told);
    closest_answer(number, told)
}

/// Builds the prefix table of a log.
pub fn table(p: &Profile, log: &[u8], table: &mut [u32]) -> Result<Table, Refused> {
    let mut told = [0; 3];
    let number = numbers::table(p, log, table, &mut told);
    answer(number, told[0], 0, || Table { prefixes: told[1], looks: told[2] })
}

/// Searches records in the table's order for the counts of a prefix, the first eight numbers of a record.
pub fn find(table: &[u32], counts: &[u32]) -> Result<Found, Refused> {
    let mut told = [0; 2];
    let number = numbers::find(table, counts, &mut told);
    let [found, at] = told;
    answer(number, 0, 0, || if found == 1 { Found::At(at as usize) } else { Found::Absent(at as usize) })
}

/// Whether exchanges lead from each log to the other.
pub fn same(r: &Relation, first: &[u8], second: &[u8]) -> Result<bool, Refused> {
    let mut told = [0; 3];
    let number = numbers::same(r, first, second, &mut told);
    answer(number, told[0], told[1], || told[2] == 1)
}

/// Writes the earliest log that exchanges reach to the first bytes of `order`.
pub fn first_order(r: &Relation, log: &[u8], order: &mut [u8]) -> Result<(), Refused> {
    let mut told = [0; 1];
    let number = numbers::first_order(r, log, order, &mut told);
    answer(number, told[0], 0, || ())
}

/// Reads a log file; the masks and the moves go to the starts of the two buffers.
pub fn read_file(file: &[u8], masks: &mut [u16], moves: &mut [u32]) -> Result<Header, Refused> {
    let mut told = [0; 6];
    let number = numbers::read_file(file, masks, moves, &mut told);
    let [place, k, s, start, finals, log_len] = told;
    answer(number, place, 0, || Header {
        k: k as usize,
        s: s as usize,
        start: start as usize,
        finals: finals as u32,
        log_len: log_len as usize,
    })
}

/// The log of a log file: a part of the file, uncopied.
pub fn log_part(file: &[u8]) -> Result<&[u8], Refused> {
    let mut told = [0; 3];
    let number = numbers::log_part(file, &mut told);
    answer(number, told[0], 0, || &file[told[1] as usize..][..told[2] as usize])
}

/// Writes a log file to the first bytes of `file`, and gives their number.
pub fn write_file(p: &Profile, log: &[u8], file: &mut [u8]) -> Result<usize, Refused> {
    let mut told = [0; 2];
    let number = numbers::write_file(p, log, file, &mut told);
    answer(number, told[0], 0, || told[1] as usize)
}

/// A ceiling of P for a log, from groups of letters of which no two may be exchanged.
pub fn ceiling(r: &Relation, log: &[u8], groups: &[u16]) -> Result<u32, Refused> {
    let mut told = [0; 2];
    let number = numbers::ceiling(r, log, groups, &mut told);
    answer(number, told[0], 0, || told[1] as u32)
}

/// Makes a profile of courses typed as an expression; its moves go to the start of the buffer.
pub fn expression(k: usize, text: &[u8], moves: &mut [u32]) -> Result<Courses, Refused> {
    let mut told = [0; 4];
    let number = numbers::expression(k, text, moves, &mut told);
    let [place, s, start, finals] = told;
    answer(number, place, 0, || Courses { k, s: s as usize, start: start as usize, finals: finals as u32 })
}

/// A log read event by event.
#[derive(Clone, Debug)]
pub struct Events<'a> {
    log: &'a [u8],
    at: usize,
}

pub fn events(log: &[u8]) -> Events<'_> {
    Events { log, at: 0 }
}

impl Iterator for Events<'_> {
    type Item = u8;

    fn next(&mut self) -> Option<u8> {
        match numbers::next_event(self.log, &mut self.at) {
            END => None,
            letter => Some(letter as u8),
        }
    }
}

/// The record of a running judge: its caller keeps it beside the table, and lends both to the next call as the last one left them.
#[derive(Clone, Copy, Debug, PartialEq, Eq)]
pub struct Running {
    pub prefixes: u64,
    pub taken: u64,
}

/// What a running judge tells of the events taken so far.
#[derive(Clone, Copy, Debug, PartialEq, Eq)]
pub struct Standing {
    /// Verdict 1: some log that exchanges reach is accepted.
    pub has_order: bool,
    pub prefixes: u64,
    pub taken: u64,
}

/// Starts a running judge.
pub fn run_start(p: &Profile, table: &mut [u32]) -> Result<Running, Refused> {
    let (mut record, mut told) = ([0; 2], [0; 1]);
    let number = numbers::run_start(p, &mut record, table, &mut told);
    answer(number, told[0], 0, || Running { prefixes: record[0], taken: record[1] })
}

impl Running {
    /// Takes an event; where it is refused, record and table stay.
    pub fn event(&mut self, p: &Profile, letter: u8, table: &mut [u32]) -> Result<(), Refused> {
        let (mut record, mut told) = ([self.prefixes, self.taken], [0; 1]);
        let number = numbers::run_event(p, letter, &mut record, table, &mut told);
        [self.prefixes, self.taken] = record;
        answer(number, told[0], 0, || ())
    }

    pub fn question(&self, p: &Profile, table: &[u32]) -> Result<Standing, Refused> {
        let mut told = [0; 4];
        let number = numbers::run_question(p, &[self.prefixes, self.taken], table, &mut told);
        let [place, verdict, prefixes, taken] = told;
        answer(number, place, 0, || Standing { has_order: verdict == 1, prefixes, taken })
    }
}

/// A grammar in the place of states and moves: name 0 starts.
#[derive(Clone, Copy, Debug)]
pub struct Grammar<'a> {
    pub relation: Relation<'a>,
    pub names: usize,
    pub rules: &'a [u16],
}

/// The rule that gives name n the names l and r; names are 0 to 15.
pub const fn names_rule(n: u16, l: u16, r: u16) -> u16 {
    4096 + 256 * n + 16 * l + r
}

/// The rule that gives name n the letter a.
pub const fn letter_rule(n: u16, a: u16) -> u16 {
    256 * n + a
}

/// Judges a log by a grammar; with an order, its first bytes in `order` are a log that exchanges reach and that can be derived from name 0.
pub fn grammar(g: &Grammar, log: &[u8], order: &mut [u8], work: &mut [u32], sets: &mut [u16]) -> Result<Verdict, Refused> {
    let mut told = [0; 4];
    let number = numbers::grammar(g, log, order, work, sets, &mut told);
    answer(number, told[0], 0, || Verdict { has_order: told[1] == 1, prefixes: told[2], looks: told[3] })
}
