//! A second implementation of document 02's Paper 1, from its words.
//!
//! What an expression describes is decided in one way only: a list is a path through some states, and each expression is the relation between the
//! states where a part of the path that it describes may begin and end. The places of a log are such states; so are those of the patterns by
//! which "first", "directly after" and "end in" are asked of the letters typed. No set of letters is ever kept for an expression.

use crate::reference::{refuse, room, Profile, Refused};

/// An expression. A letter has its number among the letters typed, from 1 on.
#[derive(Clone, Debug)]
pub enum Tree {
    Letter { letter: u8, number: usize },
    Choice(Vec<Tree>),
    Sequence(Vec<Tree>),
    Repeat(Box<Tree>),
}

// Texts.

struct Parser<'a> {
    k: usize,
    rest: &'a [u8],
    letters: usize,
    depth: usize,
    deepest: usize,
}

impl Parser<'_> {
    fn take(&mut self, byte: u8) -> bool {
        let taken = self.rest.first() == Some(&byte);
        self.rest = &self.rest[taken as usize..];
        taken
    }

    fn expression(&mut self) -> Option<Tree> {
        let mut choices = vec![self.sequence()?];
        while self.take(b'|') {
            choices.push(self.sequence()?);
        }
        Some(Tree::Choice(choices))
    }

    fn sequence(&mut self) -> Option<Tree> {
        let mut neighbours = vec![self.factor()?];
        while self.rest.first().is_some_and(|byte| !b"|)".contains(byte)) {
            neighbours.push(self.factor()?);
        }
        Some(Tree::Sequence(neighbours))
    }

    fn factor(&mut self) -> Option<Tree> {
        let mut tree = if self.take(b'(') { self.bracket()? } else { self.letter()? };
        if self.take(b'*') {
            tree = Tree::Repeat(Box::new(tree));
        }
        while self.take(b'*') {} // repeating what is repeated adds nothing
        Some(tree)
    }

    fn bracket(&mut self) -> Option<Tree> {
        self.depth += 1;
        self.deepest = self.deepest.max(self.depth);
        let held = self.expression()?;
        self.depth -= 1;
        self.take(b')').then_some(held)
    }

    fn letter(&mut self) -> Option<Tree> {
        let letter = (0..self.k as u8).find(|&letter| self.take(b'a' + letter))?;
        self.letters += 1;
        Some(Tree::Letter { letter, number: self.letters })
    }
}

/// A right text: what it types, its letters, and how deep its brackets go.
#[derive(Clone, Debug)]
pub struct Typed {
    pub tree: Tree,
    pub letters: usize,
    pub deepest: usize,
}

fn typed(k: usize, text: &[u8]) -> Option<Typed> {
    let mut parser = Parser { k, rest: text, letters: 0, depth: 0, deepest: 0 };
    let tree = parser.expression()?;
    parser.rest.is_empty().then_some(Typed { tree, letters: parser.letters, deepest: parser.deepest })
}

/// Some right text begins so: with a letter where one is missing, and every bracket closed, it is one.
fn begins_right_text(k: usize, beginning: &[u8]) -> bool {
    let count = |sign| beginning.iter().filter(|&&byte| byte == sign).count();
    let Some(open) = count(b'(').checked_sub(count(b')')) else { return false };
    let end = vec![b')'; open];
    typed(k, &[beginning, &end].concat()).is_some() || typed(k, &[beginning, b"a", &end].concat()).is_some()
}

/// "The first byte that no right text with the same beginning has there, or the text's length if it ends too early."
fn fault(k: usize, text: &[u8]) -> usize {
    let (mut right, mut wrong) = (0, text.len() + 1);
    while right + 1 < wrong {
        let len = (right + wrong) / 2;
        if begins_right_text(k, &text[..len]) { right = len } else { wrong = len }
    }
    right
}

/// Every right text of the only letter a, up to a length.
pub fn right_texts(most: usize) -> Vec<Vec<u8>> {
    let joined = |left: &[Vec<u8>], sign: &[u8], right: &[Vec<u8>]| -> Vec<Vec<u8>> {
        left.iter().flat_map(|left| right.iter().map(move |right| [left, sign, right].concat())).collect()
    };
    let none: Vec<Vec<Vec<u8>>> = vec![vec![]; most + 1];
    let (mut factors, mut sequences, mut expressions) = (none.clone(), none.clone(), none);
    for len in 1..=most {
        factors[len] = if len == 1 { vec![b"a".to_vec()] } else { joined(&factors[len - 1], b"*", &[vec![]]) };
        if len > 2 {
            factors[len].extend(joined(&[b"(".to_vec()], b"", &joined(&expressions[len - 2], b")", &[vec![]])));
        }
        sequences[len] = (1..len).flat_map(|first| joined(&factors[first], b"", &sequences[len - first])).collect();
        sequences[len].extend(factors[len].clone());
        expressions[len] = (1..len.max(2) - 1).flat_map(|first| joined(&sequences[first], b"|", &expressions[len - 1 - first])).collect();
        expressions[len].extend(sequences[len].clone());
    }
    expressions.concat()
}

// What an expression describes.

/// For each state, as a set, the states where a path from it may end.
type Relation = Vec<u32>;

fn step(relation: &Relation, set: u32) -> u32 {
    (0..relation.len()).filter(|&x| set >> x & 1 == 1).fold(0, |to, x| to | relation[x])
}

/// Where paths lead that the expression describes; `leads` says it of one letter typed.
fn paths(tree: &Tree, states: usize, leads: &impl Fn(u8, usize) -> Relation) -> Relation {
    let same: Relation = (0..states).map(|x| 1 << x).collect();
    match tree {
        Tree::Letter { letter, number } => leads(*letter, *number),
        Tree::Choice(choices) => choices.iter().map(|tree| paths(tree, states, leads)).fold(vec![0; states], |all, one| {
            all.iter().zip(one).map(|(x, y)| x | y).collect()
        }),
        Tree::Sequence(neighbours) => neighbours.iter().map(|tree| paths(tree, states, leads)).fold(same, |all, next| {
            all.iter().map(|&set| step(&next, set)).collect()
        }),
        Tree::Repeat(tree) => {
            let once = paths(tree, states, leads);
            // no path has to repeat more often than there are states
            (0..states).fold(same, |all, _| all.iter().map(|&set| set | step(&once, set)).collect())
        }
    }
}

/// The log, of at most 31 letters, is described: its states are its places.
pub fn described(tree: &Tree, log: &[u8]) -> bool {
    let leads = |letter, _| (0..=log.len()).map(|at| if log.get(at) == Some(&letter) { 2 << at } else { 0 }).collect();
    paths(tree, log.len() + 1, &leads)[0] >> log.len() & 1 == 1
}

/// One part of a pattern of numbers of letters typed.
#[derive(Clone, Copy)]
enum Part {
    Is(usize),
    Any,
}

/// Some list of numbers that the tree describes is as the pattern says; `Any` stands for any list, also for none.
fn some_list(tree: &Tree, pattern: &[Part]) -> bool {
    let leads = |_, number| {
        let from = |at: usize| match pattern.get(at) {
            Some(Part::Is(wanted)) => ((*wanted == number) as u32) << (at + 1),
            Some(Part::Any) => 1 << at,
            None => 0,
        };
        (0..=pattern.len()).map(|at| from(skipped(pattern, at)) | from(at)).collect()
    };
    let ends = paths(tree, pattern.len() + 1, &leads)[0];
    (0..=pattern.len()).any(|at| ends >> at & 1 == 1 && skipped(pattern, at) == pattern.len())
}

/// The place behind an `Any` at the given one.
fn skipped(pattern: &[Part], at: usize) -> usize {
    at + matches!(pattern.get(at), Some(Part::Any)) as usize
}

// The profile made.

fn letters_typed(tree: &Tree) -> Vec<u8> {
    match tree {
        Tree::Letter { letter, .. } => vec![*letter],
        Tree::Choice(parts) | Tree::Sequence(parts) => parts.iter().flat_map(letters_typed).collect(),
        Tree::Repeat(tree) => letters_typed(tree),
    }
}

/// "That letter leads from state q to i exactly when it may come directly after the q-th letter typed, or first for q = 0."
fn leads(tree: &Tree, q: usize, i: usize) -> bool {
    match q {
        0 => some_list(tree, &[Part::Is(i), Part::Any]),
        _ => some_list(tree, &[Part::Any, Part::Is(q), Part::Is(i), Part::Any]),
    }
}

/// "Final are the states a described log may end in, 0 for the empty log."
fn is_final(tree: &Tree, q: usize) -> bool {
    if q == 0 { described(tree, &[]) } else { some_list(tree, &[Part::Any, Part::Is(q)]) }
}

/// The profile that a right text makes; it has no masks.
fn profile(k: usize, tree: &Tree) -> Profile {
    let letters = letters_typed(tree);
    let s = letters.len() + 1;
    let mut moves = vec![0; s * k];
    for q in 0..s {
        for i in (1..s).filter(|&i| leads(tree, q, i)) {
            moves[q * k + letters[i - 1] as usize] |= 1 << i;
        }
    }
    let finals = (0..s).filter(|&q| is_final(tree, q)).fold(0, |set, q| set | 1 << q);
    Profile { k, s, start: 0, finals, masks: vec![], moves }
}

/// Refusals 2, 11, 12, 13 and 9, or what is typed and its profile.
pub fn expression(k: usize, text: &[u8], moves_len: usize) -> Result<(Typed, Profile), Refused> {
    if !(1..=16).contains(&k) {
        return refuse(2);
    }
    let Some(typed) = typed(k, text) else {
        return Err(Refused { number: 11, place: fault(k, text), log: 0 });
    };
    if typed.deepest > 16 {
        return refuse(12);
    }
    if typed.letters > 31 {
        return refuse(13);
    }
    room(moves_len, (typed.letters + 1) * k)?;
    let profile = profile(k, &typed.tree);
    Ok((typed, profile))
}
