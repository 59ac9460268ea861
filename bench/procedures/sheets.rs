//! Sheets with procedures that are as hard as they can be, with what is known of each.

use crate::chains::{deepest, doubled, power, Chain, Step, OUTER};
use crate::sheet::{written, Term};
use crate::terms::{call, heading, name, never, parameter, procedure, rounds, sequence, skip, unreadable};

/// The ids of procedures that do not use what they are given.
const IGNORING: [u8; 2] = [200, 201];
/// The first ids of nested procedures and of their parameters.
const NESTED: u8 = 180;
const NESTED_PARAMETERS: u8 = 210;

pub struct Hard {
    pub what: &'static str,
    pub sheet: Vec<u8>,
    /// The reckoned size, or none where it is over the limit.
    pub size: Option<u32>,
    /// How many different parts there are once each use is followed, and how deep they are; 0 where it is refused.
    pub parts: usize,
    pub depth: usize,
}

fn accepted(what: &'static str, term: Term, size: u32, parts: usize, depth: usize) -> Hard {
    Hard { what, sheet: written(&heading(), &term), size: Some(size), parts, depth }
}

fn too_large(what: &'static str, term: Term) -> Hard {
    Hard { what, sheet: written(&heading(), &term), size: None, parts: 0, depth: 0 }
}

fn given() -> Term {
    parameter(OUTER[0])
}

/// Procedures that only hand their arguments on, around a base.
fn wrappers(parameters: usize, base: Term, length: usize, last: impl Fn(u8) -> Term) -> Term {
    Chain { parameters, base, step: Step::HandsOn, length }.around(last)
}

/// Procedures that use the one before twice, around a base.
fn twice(base: Term, length: usize) -> Term {
    Chain { parameters: 1, base, step: Step::Twice, length }.around(|last| call(last, vec![name()]))
}

/// Uses without end that come down to little.
fn chains() -> Vec<Hard> {
    let four = || sequence(sequence(given(), parameter(OUTER[1])), sequence(parameter(OUTER[2]), parameter(OUTER[3])));
    let two = || sequence(given(), parameter(OUTER[1]));
    vec![
        accepted("p(x) = p(p(x)), first x, 180 times", twice(given(), 180), 5, 1, 1),
        accepted(
            "200 wrappers of none, 2,048 uses",
            wrappers(0, skip(), 200, |last| doubled(call(last, vec![]), 11, sequence)),
            2051,
            4095,
            12,
        ),
        accepted(
            "170 wrappers of one, 2,046 uses",
            wrappers(1, sequence(given(), skip()), 170, |last| {
                doubled(skip(), 10, |a, b| sequence(call(last, vec![a]), call(last, vec![b])))
            }),
            3073,
            6139,
            21,
        ),
        accepted(
            "170 wrappers of two, 2,047 uses",
            wrappers(2, two(), 170, |last| doubled(skip(), 11, |a, b| call(last, vec![a, b]))),
            2051,
            4095,
            12,
        ),
        accepted(
            "140 wrappers of four, 512 uses",
            wrappers(4, four(), 140, |last| doubled(call(last, vec![skip(); 4]), 9, sequence)),
            2051,
            4095,
            12,
        ),
    ]
}

/// Little that comes to the most parts or the greatest depth.
fn expansions() -> Vec<Hard> {
    let round = || rounds(unreadable(), given());
    let guard = || rounds(sequence(given(), unreadable()), skip());
    vec![
        accepted("while !diverge do x, 4,092 deep", power(round(), 4092), 4096, 12277, 4094),
        accepted("while !(x; diverge) do skip, 2,046 deep", power(guard(), 2046), 4096, 10231, 6139),
        accepted("c; x, 2,046 deep", power(sequence(name(), given()), 2046), 4096, 4093, 2047),
        accepted("deepest nest of open parts", deepest(&[4, 4, 3], 23), 1536, 3065, 1533),
    ]
}

/// What is not used, however large, and what is too large.
fn heavy() -> Vec<Hard> {
    let huge = || twice(sequence(given(), given()), 120);
    let ignoring = |body: Term| procedure(IGNORING[0], &OUTER[..1], body, call(IGNORING[0], vec![huge()]));
    let through = procedure(IGNORING[1], &OUTER[1..2], skip(), ignoring(call(IGNORING[1], vec![given()])));
    let half = || power(rounds(unreadable(), given()), 4000);
    vec![
        accepted("an argument of 2 to the 120th, not used", ignoring(skip()), 4, 1, 1),
        accepted("the same through two procedures", through, 4, 1, 1),
        accepted("28 nested, only the first parameter used", nested(28), 5, 1, 1),
        too_large("c; x, p(x) = p(p(x)), 150 times", twice(sequence(name(), given()), 150)),
        too_large("two parts of weight 4,001", sequence(half(), half())),
        too_large("while !diverge do x, 4,093 deep", power(rounds(unreadable(), given()), 4093)),
        too_large(
            "140 wrappers of four around a while, 2,048 uses",
            wrappers(4, never(given()), 140, |last| doubled(call(last, vec![skip(); 4]), 11, sequence)),
        ),
    ]
}

/// Procedures inside the terms of procedures; the innermost uses the parameter of the outermost.
fn nested(depth: u8) -> Term {
    let used = |i: u8| parameter(NESTED_PARAMETERS + i);
    (0..depth).rev().fold(used(0), |term, i| {
        let argument = if i == 0 { name() } else { sequence(used(i - 1), used(i - 1)) };
        procedure(NESTED + i, &[NESTED_PARAMETERS + i], term, call(NESTED + i, vec![argument]))
    })
}

pub fn all() -> Vec<Hard> {
    [chains(), expansions(), heavy()].into_iter().flatten().collect()
}
