//! The inputs: a profile and a log for each row, from fixed seeds.

/// A profile of document 01.
pub struct Profile {
    pub k: usize,
    pub s: usize,
    pub start: usize,
    pub finals: u32,
    pub masks: Vec<u16>,
    pub moves: Vec<u32>,
}

/// Which letters may be exchanged.
#[derive(Clone, Copy, PartialEq)]
pub enum Letters {
    Independent,
    /// No two: a log reaches itself alone.
    Dependent,
    /// All but each letter and the next one.
    Neighbours,
    /// All but the letters 4 i to 4 i + 3 with one another.
    Groups,
    /// Three quarters of the pairs.
    Random,
    /// One way: a smaller letter before a larger.
    Rising,
    /// One way: a larger letter before a smaller.
    Falling,
    /// Three quarters of the pairs in each direction, drawn by itself.
    Directed,
}

impl Letters {
    pub fn name(self) -> &'static str {
        match self {
            Letters::Independent => "independent",
            Letters::Dependent => "dependent",
            Letters::Neighbours => "neighbours",
            Letters::Groups => "groups of 4",
            Letters::Random => "random",
            Letters::Rising => "rising",
            Letters::Falling => "falling",
            Letters::Directed => "directed",
        }
    }
}

/// What a row asks for.
#[derive(Clone, Copy)]
pub struct Row {
    pub k: usize,
    pub n: usize,
    pub letters: Letters,
    pub s: usize,
    pub verdict: bool,
}

/// Numbers that look random and are the same in every run (xorshift).
struct Random(u64);

impl Random {
    fn next(&mut self) -> u64 {
        self.0 ^= self.0 << 13;
        self.0 ^= self.0 >> 7;
        self.0 ^= self.0 << 17;
        self.0
    }

    fn below(&mut self, n: usize) -> usize {
        ((self.next() >> 32) as usize * n) >> 32
    }
}

/// Whether the smaller letter j before i may be exchanged, and whether i before j.
fn directions(letters: Letters, i: usize, j: usize, random: &mut Random) -> [bool; 2] {
    match letters {
        Letters::Independent => [true; 2],
        Letters::Dependent => [false; 2],
        Letters::Neighbours => [i - j != 1; 2],
        Letters::Groups => [i / 4 != j / 4; 2],
        Letters::Random => [random.below(4) != 0; 2],
        Letters::Rising => [true, false],
        Letters::Falling => [false, true],
        Letters::Directed => [random.below(4) != 0, random.below(4) != 0],
    }
}

fn masks(k: usize, letters: Letters, random: &mut Random) -> Vec<u16> {
    let mut masks = vec![0; k];
    for i in 0..k {
        for j in 0..i {
            let [rising, falling] = directions(letters, i, j, random);
            masks[j] |= u16::from(rising) << i;
            masks[i] |= u16::from(falling) << j;
        }
    }
    masks
}

/// A state to which a move from q leads. Where the verdict has to be 0, it is one of the half that q is not in, so that a path tells the parity
/// of its length.
fn target(q: usize, row: Row, random: &mut Random) -> usize {
    if row.verdict {
        random.below(row.s)
    } else {
        random.below(row.s / 2) * 2 + (q + 1) % 2
    }
}

/// Each move leads to one to three states, and one in sixteen to none: the sets of states become dense.
fn moves(row: Row, random: &mut Random) -> Vec<u32> {
    let mut moves = vec![0; row.s * row.k];
    for (at, set) in moves.iter_mut().enumerate() {
        if random.below(16) != 0 {
            for _ in 0..1 + random.below(3) {
                *set |= 1 << target(at / row.k, row, random);
            }
        }
    }
    moves
}

/// The last state; or the half that only paths of the other parity reach.
fn finals(row: Row) -> u32 {
    if row.verdict {
        1 << (row.s - 1)
    } else {
        (0..row.s).filter(|q| q % 2 != row.n % 2).fold(0, |set, q| set | 1 << q)
    }
}

/// Letters in turn where all pairs are alike, so that P is the product of k equal numbers, or nearly, or its part that one direction leaves; else at random.
fn log(row: Row, random: &mut Random) -> Vec<u8> {
    let letter = |i: usize| match row.letters {
        Letters::Independent | Letters::Dependent | Letters::Rising | Letters::Falling => i % row.k,
        _ => random.below(row.k),
    };
    (0..row.n).map(letter).map(|a| a as u8).collect()
}

pub fn make(row: Row) -> (Profile, Vec<u8>) {
    let seed = 0x9e37_79b9_7f4a_7c15 ^ (row.k * 1000 + row.s) as u64;
    let mut random = Random(seed);
    let profile = Profile {
        k: row.k,
        s: row.s,
        start: 0,
        finals: finals(row),
        masks: masks(row.k, row.letters, &mut random),
        moves: moves(row, &mut random),
    };
    let log = log(row, &mut random);
    (profile, log)
}
