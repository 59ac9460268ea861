//! Sheets at a limit of document 01 or just beyond it: size, length, depth, name records.

use super::damage::damaging_byte;
use super::heading_and_term;
use crate::random::Random;
use crate::reader::{read, Fault, LARGEST, LONGEST};
use crate::sheet::{written, Data, Heading, Kind, Numbers, Record, Term, Type};

/// A sheet that just meets one of the limits, or goes just beyond it.
pub fn sheet_at_a_limit(random: &mut Random) -> Vec<u8> {
    let (mut heading, term) = heading_and_term(random);
    let beyond = random.below(3);
    match random.below(7) {
        0..=1 => {
            let room = (LARGEST + beyond as u64).saturating_sub(1 + term.size(heading.numbers));
            let weight = room / term.gives.questions(heading.numbers);
            written(&heading, &padded(term, &heading, weight))
        }
        2 => {
            let room = (LONGEST + beyond).saturating_sub(1 + written(&heading, &term).len());
            written(&heading, &lengthened(term, room))
        }
        3..=4 => too_deep(random, &heading, term),
        5 => heavy(random),
        _ => {
            let make = random.choose(&[retired as fn(u8) -> Record, freely, once]);
            fill_records(&mut heading, 31 + beyond, make);
            written(&heading, &term)
        }
    }
}

/// A sheet with a depth near the limit; where depth 33 is met, another byte may stand there.
fn too_deep(random: &mut Random, heading: &Heading, term: Term) -> Vec<u8> {
    let depth = random.choose(&[31, 32, 33, 33, 34]);
    let mut bytes = written(heading, &deepened(random, term, depth));
    if let Err(Fault { number: 8, place }) = read(&bytes) {
        if random.one_in(2) {
            bytes[place] = damaging_byte(random, &bytes, place);
        }
    }
    bytes
}

/// Truth variables around a few commands: the weight is a power of 2, up to 2 to the 32nd. Now and then they all have
/// one id.
fn heavy(random: &mut Random) -> Vec<u8> {
    let record = Record::Declare { once: false, id: 1, result: Type::Command, arguments: vec![] };
    let heading = Heading { numbers: Numbers { z: 1, rule: 0 }, records: vec![record] };
    let mut term = Term::new(Kind::Name { id: 1, result: Type::Command, once: false }, vec![]);
    let hides = random.one_in(8);
    for i in 0..random.choose(&[8, 9, 10, 11, 15, 16, 24, 31, 31, 31]) {
        term = if random.one_in(16) {
            Term::new(Kind::Sequence, vec![term.clone(), term])
        } else {
            Term::new(Kind::New { id: if hides { 2 } else { 2 + i }, data: Data::Truth }, vec![term])
        };
    }
    written(&heading, &term)
}

/// The term inside others, so that the whole has the depth.
fn deepened(random: &mut Random, mut term: Term, depth: usize) -> Term {
    let skip = Term::new(Kind::Skip, vec![]);
    while term.depth() < depth {
        let wraps_command = term.gives == Type::Command && random.one_in(2);
        term = if wraps_command && random.one_in(2) {
            let never = Term::new(Kind::Constant(Data::Truth, 0), vec![]);
            Term::new(Kind::While, vec![never, term])
        } else if wraps_command {
            Term::new(Kind::Sequence, vec![term, skip.clone()])
        } else {
            Term::new(Kind::Sequence, vec![skip.clone(), term])
        };
    }
    term
}

/// A record of each kind, of which two declare a command.
pub fn retired(id: u8) -> Record {
    Record::Retire { id }
}

fn freely(id: u8) -> Record {
    Record::Declare { once: false, id, result: Type::Command, arguments: vec![] }
}

fn once(id: u8) -> Record {
    Record::Declare { once: true, id, result: Type::Command, arguments: vec![] }
}

/// Adds records with ids that nothing else has, up to that many records.
pub fn fill_records(heading: &mut Heading, count: usize, make: fn(u8) -> Record) {
    for id in (10..250).rev() {
        if heading.records.len() < count && heading.record(id).is_none() {
            heading.records.push(make(id));
        }
    }
}

/// As many skips in sequence, in a term of low depth.
fn skips(count: usize) -> Term {
    if count <= 1 {
        return Term::new(Kind::Skip, vec![]);
    }
    Term::new(Kind::Sequence, vec![skips(count / 2), skips(count - count / 2)])
}

/// Commands of that weight, which show no move. They are few bytes: a block makes most of the weight.
fn ballast(weight: u64, id: u8, numbers: Numbers) -> Term {
    let count = Data::Number.count(numbers);
    let (inside, rest) = ((weight - 1) / count, (weight - 1) % count + 1);
    if inside == 0 {
        return skips(weight as usize);
    }
    let block = Term::new(Kind::New { id, data: Data::Number }, vec![skips(inside as usize)]);
    Term::new(Kind::Sequence, vec![block, skips(rest as usize)])
}

/// The term after something that shows no move, as heavy as that.
fn padded(term: Term, heading: &Heading, weight: u64) -> Term {
    let free = (0..255).find(|&id| heading.record(id).is_none()).expect("there are few name records");
    match weight {
        0 => term,
        _ => Term::new(Kind::Sequence, vec![ballast(weight, free, heading.numbers), term]),
    }
}

/// The term with `count` more bytes in front of it, which show no move. 1 and 3 are not to be had and give none.
fn lengthened(term: Term, count: usize) -> Term {
    match count {
        0 | 1 | 3 => term,
        _ if count.is_multiple_of(2) => Term::new(Kind::Sequence, vec![skips(count / 2), term]),
        _ => {
            let never = Term::new(Kind::Constant(Data::Truth, 0), vec![]);
            let round = Term::new(Kind::While, vec![never, Term::new(Kind::Skip, vec![])]);
            lengthened(Term::new(Kind::Sequence, vec![round, term]), count - 5)
        }
    }
}
