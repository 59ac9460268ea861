//! Sheets near the size limit: of every type and range of numbers, with few names or many, some of them as deep as a
//! term may be. They are put together from parts that have complete plays, so that most of them have long ones.

use super::pairs::{fitting, long_pair, swapped_at_random, Pair};
use super::plays::play_for;
use super::{near_needed, Case};
use crate::generate::{self, Generator};
use crate::machine::Machine;
use crate::random::Random;
use crate::reader::{read, DEEPEST, LARGEST, MOST_RECORDS};
use crate::services::{space_to_compare, words_to_compare, words_to_follow};
use crate::sheet::{written, Data, Heading, Kind, Term, Type};

/// The least size of a sheet here, but for altered copies.
pub const SMALLEST: u64 = 3000;
/// How often a part is made anew where it has no complete play.
const TRIALS: usize = 20;

pub fn case(random: &mut Random) -> Case {
    match random.below(8) {
        0 => Case::Check { sheet: sheet(random) },
        1..=2 => case_to_follow(random),
        _ => case_to_compare(random),
    }
}

fn heading(random: &mut Random) -> Heading {
    let most = random.choose(&[0, 6, 12, 40, 80]);
    let mut heading = generate::heading(random, most);
    heading.records.truncate(MOST_RECORDS);
    heading.numbers.z = if random.one_in(2) { random.between(1, 7) } else { random.between(8, 31) } as i8;
    heading
}

pub fn sheet(random: &mut Random) -> Vec<u8> {
    let heading = heading(random);
    let wanted = random.choose(&Type::ALL);
    let term = large(random, &heading, wanted);
    written(&heading, &term)
}

/// A term of that type with which a sheet is accepted and near the limit.
fn large(random: &mut Random, heading: &Heading, wanted: Type) -> Term {
    loop {
        let size = if random.one_in(4) { LARGEST } else { random.between(SMALLEST as usize, LARGEST as usize) as u64 };
        let depth = random.choose(&[6, 12, 18]);
        let term = grown(random, heading, wanted, size, depth);
        let term = if random.one_in(3) { deepened(random, term, DEEPEST) } else { term };
        let accepted = read(&written(heading, &term));
        if accepted.is_ok_and(|sheet| sheet.size >= SMALLEST) {
            return term;
        }
    }
}

/// Commands in sequence and at last a part of that type, all of at most that depth, for a sheet of about that size.
fn grown(random: &mut Random, heading: &Heading, wanted: Type, size: u64, depth: usize) -> Term {
    let numbers = heading.numbers;
    let weight = size.saturating_sub(2 + wanted.answers(numbers)) / wanted.questions(numbers);
    let share = random.choose(&[2, 4, 8]);
    let last = lively(random, heading, wanted, weight / share, depth);
    let (mut commands, mut total) = (Vec::new(), last.weight(numbers));
    while total < weight {
        let left = weight - total;
        let command = lively(random, heading, Type::Command, left.min(weight / share + 2), depth);
        if command.weight(numbers) <= left {
            total += command.weight(numbers);
            commands.push(command);
        }
    }
    match in_sequence(&commands) {
        Some(first) => Term::new(Kind::Sequence, vec![first, last]),
        None => last,
    }
}

/// A term that has a complete play, if one is found in a few trials.
fn lively(random: &mut Random, heading: &Heading, wanted: Type, weight: u64, depth: usize) -> Term {
    let mut generator = Generator::new(random, heading);
    for _ in 0..TRIALS {
        let term = generator.term(wanted, weight, depth);
        if has_plays(heading, &term) {
            return term;
        }
    }
    generator.term(wanted, 2, 1)
}

fn has_plays(heading: &Heading, term: &Term) -> bool {
    read(&written(heading, term)).is_ok_and(|sheet| Machine::of(&sheet).start().is_some())
}

/// The commands one after the other, in a term of low depth.
fn in_sequence(commands: &[Term]) -> Option<Term> {
    match commands {
        [] => None,
        [only] => Some(only.clone()),
        _ => {
            let (first, rest) = commands.split_at(commands.len() / 2);
            Some(Term::new(Kind::Sequence, vec![in_sequence(first)?, in_sequence(rest)?]))
        }
    }
}

/// The term inside others that make no difference, so that the whole has the depth.
fn deepened(random: &mut Random, mut term: Term, depth: usize) -> Term {
    let leaf = |kind| Term::new(kind, vec![]);
    for _ in term.depth()..depth {
        let never = leaf(Kind::Diverge(term.gives));
        term = match random.below(4) {
            0 if term.gives == Type::Command => Term::new(Kind::Sequence, vec![term, leaf(Kind::Skip)]),
            1 => Term::new(Kind::If, vec![leaf(Kind::Constant(Data::Truth, 1)), term, never]),
            2 => Term::new(Kind::If, vec![leaf(Kind::Constant(Data::Truth, 0)), never, term]),
            _ => Term::new(Kind::Sequence, vec![leaf(Kind::Skip), term]),
        };
    }
    term
}

fn case_to_follow(random: &mut Random) -> Case {
    let sheet = sheet(random);
    let accepted = read(&sheet).expect("the sheet was read before");
    let play = play_for(random, &Machine::of(&accepted));
    Case::Follow { sheet, play, words: lent(random, words_to_follow(accepted.heading.numbers.z, accepted.size)) }
}

/// A number that is seldom below the one that is needed.
fn lent(random: &mut Random, needed: u64) -> usize {
    if random.one_in(10) {
        near_needed(random, needed)
    } else {
        needed as usize + random.below(60)
    }
}

fn case_to_compare(random: &mut Random) -> Case {
    let (old, new, alike) = if random.one_in(10) { long_pair(random) } else { pair(random) };
    let size = |sheet: &[u8]| read(sheet).map_or(LARGEST, |accepted| accepted.size);
    let (a, b) = (size(&old), size(&new));
    let words = lent(random, words_to_compare(old[0] as i8, a, b));
    let space = lent(random, space_to_compare(a, b));
    Case::Compare { old, new, words, space, alike }
}

/// A large sheet and a tidied or altered copy, or another one.
fn pair(random: &mut Random) -> Pair {
    let heading = heading(random);
    let wanted = random.choose(&Type::ALL);
    let old = large(random, &heading, wanted);
    let (style, steps) = (random.below(10), random.between(1, 12));
    let mut generator = Generator::new(random, &heading);
    let new = match style {
        0..=3 => fitting(&mut generator, &old, |g, t| g.tidied(t, steps)),
        4..=5 => fitting(&mut generator, &old, |g, t| g.altered(t, 1)),
        6..=8 => fitting(&mut generator, &old, |g, t| {
            let altered = g.altered(t, steps);
            g.tidied(&altered, 2)
        }),
        _ => large(random, &heading, wanted),
    };
    swapped_at_random(random, (written(&heading, &old), written(&heading, &new), style <= 3))
}
