//! Copies of a term with the same plays: grouped otherwise, with skips, decided ifs and dead branches, unrolled loops,
//! and private variables that are renamed or not used.

use crate::random::Random;
use crate::reader::read;
use crate::sheet::{written, Data, Heading, Kind, Operator, Term, Type};
use crate::terms::*;

/// The id of private variables that nothing uses.
const UNUSED: u8 = 199;
/// What is added to the id of a private variable to rename it.
const RENAMED: u8 = 50;

/// The most changes that are tried.
const TRIALS: usize = 20_000;

/// A copy with a size of at least `size`, which is accepted.
pub fn tidied(random: &mut Random, heading: &Heading, term: &Term, size: u64) -> Term {
    let mut copy = term.clone();
    let mut trials = 0;
    while copy.size(heading.numbers) < size {
        trials += 1;
        assert!(trials < TRIALS, "no tidied copy is long enough");
        let mut next = copy.clone();
        let place = random.below(next.records());
        change_at(&mut next, place, false, &mut |part, unused| tidy(random, part, unused));
        if read(&written(heading, &renamed(next.clone()))).is_ok() {
            copy = next;
        }
    }
    renamed(copy)
}

/// Changes the record with that number; it is told whether it stands in a block whose variable is not used.
fn change_at(term: &mut Term, place: usize, unused: bool, change: &mut impl FnMut(Term, bool) -> Term) {
    if place == 0 {
        let old = std::mem::replace(term, skip());
        *term = change(old, unused);
        return;
    }
    let unused = unused || matches!(term.kind, Kind::New { id: UNUSED, .. });
    let mut place = place - 1;
    for part in &mut term.parts {
        let records = part.records();
        if place < records {
            return change_at(part, place, unused, change);
        }
        place -= records;
    }
}

fn tidy(random: &mut Random, term: Term, unused: bool) -> Term {
    let parts = &term.parts;
    match (&term.kind, term.gives) {
        (Kind::Sequence, _) if parts[0].kind == Kind::Sequence => {
            let [one, two] = [parts[0].parts[0].clone(), parts[0].parts[1].clone()];
            sequence(one, sequence(two, parts[1].clone()))
        }
        (Kind::While, _) if random.one_in(2) => {
            branch(parts[0].clone(), sequence(parts[1].clone(), term.clone()), skip())
        }
        (Kind::If, _) if random.one_in(2) => {
            let turned = operate(Operator::Alike, parts[0].clone(), truth(false));
            branch(turned, parts[2].clone(), parts[1].clone())
        }
        (_, Type::Command) => tidy_command(random, term, unused),
        (_, Type::Expression(data)) if random.one_in(2) => tidy_expression(random, term, data),
        _ => sequence(skip(), term),
    }
}

fn tidy_command(random: &mut Random, term: Term, unused: bool) -> Term {
    let data = random.choose(&Data::ALL);
    match random.below(6) {
        0..=1 => sequence(term, skip()),
        2 => branch(truth(true), term, Term::new(Kind::Diverge(Type::Command), vec![])),
        3 if term.records() < 8 => branch(truth(false), sequence(term.clone(), term.clone()), term),
        4 if term.records() < 8 && !unused && !holds(&term, UNUSED) => block(UNUSED, data, term),
        _ => sequence(skip(), term),
    }
}

fn tidy_expression(random: &mut Random, term: Term, data: Data) -> Term {
    let (operator, neutral) = match data {
        Data::Number => (random.choose(&[Operator::Plus, Operator::Minus]), number(0)),
        Data::Truth => (random.choose(&[Operator::And, Operator::Alike]), truth(true)),
    };
    operate(operator, term, neutral)
}

/// Whether a block in the term has the id.
fn holds(term: &Term, id: u8) -> bool {
    matches!(term.kind, Kind::New { id: own, .. } if own == id) || term.parts.iter().any(|p| holds(p, id))
}

/// The term with other ids for its private variables.
pub fn renamed(mut term: Term) -> Term {
    if let Kind::Private { id, .. } | Kind::New { id, .. } = &mut term.kind {
        *id += RENAMED;
    }
    term.parts = term.parts.into_iter().map(renamed).collect();
    term
}
