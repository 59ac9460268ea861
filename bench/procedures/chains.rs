//! Long chains of procedures in a term of low depth. No binder stands in the scope of another with its id.

use crate::sheet::Term;
use crate::terms::{call, parameter, procedure, sequence, skip};

/// The ids of the parameters of a block of the chain, and of a step inside a block.
pub const OUTER: [u8; 4] = [60, 61, 62, 63];
const INNER: [u8; 4] = [64, 65, 66, 67];
/// The first id of the procedures that end a block, and of those inside a block.
const BLOCKS: u8 = 70;
const STEPS: u8 = 100;
/// The first id of the procedures that double, and the one of those around all.
const DOUBLED: u8 = 130;
const POWERS: u8 = 160;
/// How many steps stand in a block.
const LONGEST: usize = 14;

/// How a procedure of a chain uses the one before it.
#[derive(Clone, Copy, PartialEq)]
pub enum Step {
    /// With its own parameters.
    HandsOn,
    /// With a use of it, of its own one parameter.
    Twice,
}

/// A chain of procedures with `parameters` parameters each.
pub struct Chain {
    pub parameters: usize,
    /// The term of the first one, over the parameters `OUTER`.
    pub base: Term,
    pub step: Step,
    pub length: usize,
}

impl Chain {
    /// A use of a procedure with these parameters.
    fn handed_on(&self, id: u8, parameters: &[u8; 4]) -> Term {
        call(id, parameters[..self.parameters].iter().map(|&p| parameter(p)).collect())
    }

    /// The term of a step that uses the procedure before it.
    fn step(&self, before: u8) -> Term {
        match self.step {
            Step::HandsOn => self.handed_on(before, &INNER),
            Step::Twice => call(before, vec![call(before, vec![parameter(INNER[0])])]),
        }
    }

    /// The chain around the term that `last` makes with a use of the last procedure.
    pub fn around(&self, last: impl Fn(u8) -> Term) -> Term {
        let blocks = self.length.div_ceil(LONGEST);
        let mut term = last(BLOCKS + blocks as u8);
        for block in (1..=blocks).rev() {
            let steps = LONGEST.min(self.length - LONGEST * (block - 1));
            let id = BLOCKS + block as u8;
            term = procedure(id, &OUTER[..self.parameters], self.block(id - 1, steps), term);
        }
        procedure(BLOCKS, &OUTER[..self.parameters], self.base.clone(), term)
    }

    /// So many steps, the first of which uses the block before, and then a use of the last one.
    fn block(&self, before: u8, steps: usize) -> Term {
        let mut term = self.handed_on(STEPS + steps as u8 - 1, &OUTER);
        for i in (0..steps).rev() {
            let id = STEPS + i as u8;
            let body = self.step(if i == 0 { before } else { id - 1 });
            term = procedure(id, &INNER[..self.parameters], body, term);
        }
        term
    }
}

/// Procedures without parameters, of which the first is a leaf and each other one is `join` of two uses of the one
/// before; and a use of the last.
pub fn doubled(leaf: Term, times: u8, join: impl Fn(Term, Term) -> Term) -> Term {
    let used = |i: u8| call(DOUBLED + i, vec![]);
    let mut term = used(times);
    for i in (1..=times).rev() {
        term = procedure(DOUBLED + i, &[], join(used(i - 1), used(i - 1)), term);
    }
    procedure(DOUBLED, &[], leaf, term)
}

/// The base put into itself so many times, around skip, by procedures for the powers of 2.
pub fn power(base: Term, times: usize) -> Term {
    let bits = (usize::BITS - times.leading_zeros()) as u8;
    let mut term = skip();
    for i in (0..bits).filter(|i| times >> i & 1 == 1) {
        term = call(POWERS + i, vec![term]);
    }
    for i in (1..bits).rev() {
        let before = POWERS + i - 1;
        let twice = call(before, vec![call(before, vec![parameter(OUTER[0])])]);
        term = procedure(before + 1, &OUTER[..1], twice, term);
    }
    procedure(POWERS, &OUTER[..1], base, term)
}

/// The deepest nest of parts that are open at once when uses are followed: commands before skips, `path` deep, in
/// procedures inside procedures; `spines` says how many stand in a row at each level.
pub fn deepest(spines: &[usize], path: usize) -> Term {
    procedure(STEPS, &[], skip(), spine(31, 1, spines, path))
}

/// With at most that depth, and so many procedures in scope.
fn spine(depth: usize, scope: u8, spines: &[usize], path: usize) -> Term {
    let (count, inner) = spines.split_first().map_or((0, spines), |(count, inner)| (*count, inner));
    let innermost = call(STEPS + scope + count as u8 - 1, vec![]);
    let mut term = (0..path.min(depth - count - 1)).fold(innermost, |term, _| sequence(term, skip()));
    for i in (0..count).rev() {
        let body = spine(depth - i - 1, scope + i as u8, inner, path);
        term = procedure(STEPS + scope + i as u8, &[], body, term);
    }
    term
}
