//! Images of sets of states by tables of four states, in 8 KB for each direction: for the contestants that may have so much.

use crate::input::Profile;

pub struct Images {
    /// By letter, four states, and the set of these.
    images: Vec<[[u32; 16]; 8]>,
}

impl Images {
    fn of(p: &Profile, image: impl Fn(usize, usize) -> u32) -> Images {
        let mut images = vec![[[0; 16]; 8]; 16];
        for (a, tables) in images.iter_mut().enumerate().take(p.k) {
            for (i, table) in tables.iter_mut().enumerate() {
                for set in 1u32..16 {
                    let q = 4 * i + set.trailing_zeros() as usize;
                    table[set as usize] = table[(set & (set - 1)) as usize] | if q < p.s { image(q, a) } else { 0 };
                }
            }
        }
        Images { images }
    }

    /// The states to which a letter leads from a set.
    pub fn forward(p: &Profile) -> Images {
        Images::of(p, |q, a| p.moves[q * p.k + a])
    }

    /// The states from which a letter leads into a set.
    pub fn backward(p: &Profile) -> Images {
        Images::of(p, |q, a| (0..p.s).filter(|r| p.moves[r * p.k + a] >> q & 1 == 1).fold(0, |set, r| set | 1 << r))
    }

    pub fn step(&self, set: u32, a: usize) -> u32 {
        let tables = &self.images[a & 15];
        let mut rest = set;
        let mut out = 0;
        for pair in tables.as_chunks::<2>().0 {
            out |= pair[0][(rest & 15) as usize] | pair[1][(rest >> 4 & 15) as usize];
            rest >>= 8;
            if rest == 0 {
                break;
            }
        }
        out
    }
}
