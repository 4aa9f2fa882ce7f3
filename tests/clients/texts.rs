//! Random texts for the courses typed as an expression: right ones, deep and long ones, damaged ones, and bytes of any kind; and random logs that
//! an expression describes.

use crate::courses::Tree;
use crate::Random;

const SIGNS: &[u8] = b"ab()*|";

/// A right text with as many letters, all below k, and brackets up to a depth. Every right text ends in something that may be repeated.
fn right(random: &mut Random, k: usize, letters: usize, depth: usize) -> Vec<u8> {
    if depth > 0 && random.one_in(3) {
        let held = right(random, k, letters, depth - 1);
        return [b"(", &held[..], b")", stars(random)].concat();
    }
    if letters == 1 {
        return [&[b'a' + random.below(k) as u8], stars(random)].concat();
    }
    let first = random.within(1..letters);
    let sign: &[u8] = random.pick(&[b"", b"", b"|"]);
    [&right(random, k, first, depth)[..], sign, &right(random, k, letters - first, depth)].concat()
}

fn stars(random: &mut Random) -> &'static [u8] {
    random.pick(&[b"", b"", b"", b"*", b"*", b"**"])
}

/// Brackets around a text, each perhaps repeated.
fn nested(random: &mut Random, text: &[u8], depth: usize) -> Vec<u8> {
    (0..depth).fold(text.to_vec(), |text, _| [b"(", &text[..], b")", stars(random)].concat())
}

/// Mostly short; sometimes about the most letters or the most brackets, or with more stars than a small number can count.
fn some_right(random: &mut Random, k: usize) -> Vec<u8> {
    let letters = match random.below(40) {
        0 => random.pick(&[30, 31, 31]),
        1 => random.pick(&[32, 32, 33, 60]),
        2..=6 => random.within(8..20),
        _ => random.within(1..8),
    };
    let depth = random.pick(&[0, 1, 2, 4, 14]);
    let mut text = right(random, k, letters, depth);
    if random.one_in(if letters > 31 { 3 } else { 12 }) {
        let depth = random.pick(&[14, 15, 16, 16, 17, 17, 18, 40]);
        text = nested(random, &text, depth);
    }
    if random.one_in(400) {
        let count = random.pick(&[255, 256, 65_536, 70_000]);
        text.extend(vec![b'*'; count]);
    }
    text
}

fn other_byte(random: &mut Random, k: usize) -> u8 {
    let (sign, any) = (random.pick(SIGNS), random.next() as u8);
    let next_letter = b'a' + k.min(20) as u8;
    random.pick(&[sign, sign, sign, sign, next_letter, any, b'A', b' ', 0, b'`', b'q', b'+'])
}

fn damage(random: &mut Random, k: usize, text: &mut Vec<u8>) {
    let at = random.below(text.len() + 1);
    let byte = other_byte(random, k);
    match random.below(6) {
        0 => text.truncate(at),
        1 => text.insert(at, byte),
        2 if at > 0 => text.swap(at - 1, random.below(at)),
        3 if at > 0 => drop(text.remove(at - 1)),
        4 => drop(text.drain(..at)),
        _ if at > 0 => text[at - 1] = byte,
        _ => text.push(byte),
    }
}

/// A number of letters, mostly in range, and a text, mostly right.
pub fn some_text(random: &mut Random) -> (usize, Vec<u8>) {
    let mut k = random.pick(&[1, 2, 2, 3, 3, 4, 16]);
    if random.one_in(3) {
        k = random.within(1..17);
    }
    let text = match random.below(12) {
        0 => (0..random.below(9)).map(|_| random.pick(SIGNS)).collect(),
        1 => {
            let len = random.pick(&[0, 1, 2, 7, 300]);
            random.bytes(len)
        }
        2..=4 => {
            let mut text = some_right(random, k);
            (0..random.few()).for_each(|_| damage(random, k, &mut text));
            text
        }
        _ => some_right(random, k),
    };
    match random.below(12) {
        0 => (random.below(19), text),
        1 => (random.pick(&[(1 << 32) + k, usize::MAX, usize::MAX - k]), text),
        _ => (k, text),
    }
}

/// All texts of signs and two letters up to a length.
pub fn all_texts(most: usize) -> Vec<Vec<u8>> {
    let mut longest = vec![vec![]];
    let mut all = longest.clone();
    for _ in 0..most {
        longest = longest.iter().flat_map(|text| SIGNS.iter().map(|&sign| [&text[..], &[sign]].concat())).collect();
        all.extend(longest.clone());
    }
    all
}

/// A log that the expression describes; a repeated part comes at most twice.
pub fn described_log(random: &mut Random, tree: &Tree) -> Vec<u8> {
    match tree {
        Tree::Letter { letter, .. } => vec![*letter],
        Tree::Choice(choices) => {
            let chosen = random.below(choices.len());
            described_log(random, &choices[chosen])
        }
        Tree::Sequence(neighbours) => neighbours.iter().flat_map(|tree| described_log(random, tree)).collect(),
        Tree::Repeat(tree) => (0..random.below(3)).flat_map(|_| described_log(random, tree)).collect(),
    }
}
