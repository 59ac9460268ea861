//! Sheets in which binders take ids that enclosing ones hold.

use super::damage::{damaging_byte, record_at};
use crate::random::Random;
use crate::reader::{read, read_under, Fault, Rule};
use crate::sheet::{written, Data, Kind, Procedure, Term, Type};

/// A binder that stands inside others.
#[derive(Clone)]
struct Inner {
    /// The number of its record, counted from the whole term.
    record: usize,
    /// Its number among the parameters; none for the id of a new or of a procedure.
    parameter: Option<usize>,
    /// The ids that enclosing binders hold.
    enclosing: Vec<u8>,
}

/// The sheet with inner binders under the ids of enclosing ones, and sometimes another byte where that is refused; as
/// it was where it is refused for something else.
pub fn hidden(random: &mut Random, bytes: Vec<u8>) -> Vec<u8> {
    let Ok(sheet) = read_under(Rule::Earlier, &bytes) else {
        return bytes;
    };
    let mut term = with_inner_binders(random, sheet.term);
    for _ in 0..random.choose(&[1, 1, 2, 4]) {
        let inner = inner_binders(&term);
        let chosen = random.choose(&inner);
        let id = random.choose(&chosen.enclosing);
        let uses_follow = !random.one_in(4);
        rebind(record_at(&mut term, chosen.record), chosen.parameter, id, uses_follow);
    }
    let mut bytes = written(&sheet.heading, &term);
    if let Err(Fault { number: 16, place }) = read(&bytes) {
        if random.one_in(4) {
            bytes[place] = damaging_byte(random, &bytes, place);
        }
    }
    bytes
}

/// The term, or one made of it in which some binder stands inside another.
fn with_inner_binders(random: &mut Random, mut term: Term) -> Term {
    while inner_binders(&term).is_empty() {
        term = enclosed(random, term);
    }
    term
}

/// The term in a block, or in either part of a procedure, with an id that may be declared.
fn enclosed(random: &mut Random, term: Term) -> Term {
    let (id, result) = (random.byte() % 255, term.gives);
    let parameters = if random.one_in(2) { vec![] } else { vec![(id, random.choose(&Type::ALL))] };
    let unused = Term::new(Kind::Diverge(result), vec![]);
    let procedure = Kind::Procedure(Procedure { id, result, parameters });
    match random.below(3) {
        0 if result == Type::Command => Term::new(Kind::New { id, data: random.choose(&Data::ALL) }, vec![term]),
        1 => Term::new(procedure, vec![term, unused]),
        _ => Term::new(procedure, vec![unused, term]),
    }
}

/// The binders of a term that stand inside others, in the order of their bytes.
fn inner_binders(term: &Term) -> Vec<Inner> {
    let mut found = Vec::new();
    look(term, 0, &mut Vec::new(), &mut found);
    found
}

/// Adds those of a term whose record has that number, inside binders of these ids.
fn look(term: &Term, record: usize, enclosing: &mut Vec<u8>, found: &mut Vec<Inner>) {
    let slots = match &term.kind {
        Kind::New { .. } => vec![None],
        Kind::Procedure(procedure) => std::iter::once(None).chain((0..procedure.parameters.len()).map(Some)).collect(),
        _ => vec![],
    };
    if !enclosing.is_empty() {
        found.extend(slots.into_iter().map(|parameter| Inner { record, parameter, enclosing: enclosing.clone() }));
    }
    let mut next = record + 1;
    for (i, part) in term.parts.iter().enumerate() {
        let outside = enclosing.len();
        enclosing.extend(term.bound_in(i));
        look(part, next, enclosing, found);
        enclosing.truncate(outside);
        next += part.records();
    }
}

/// Gives a binder another id; the uses that mean it follow, or do not.
fn rebind(term: &mut Term, parameter: Option<usize>, id: u8, uses_follow: bool) {
    let (old, part) = match (&mut term.kind, parameter) {
        (Kind::New { id: own, .. }, _) => (std::mem::replace(own, id), 0),
        (Kind::Procedure(procedure), None) => (std::mem::replace(&mut procedure.id, id), 1),
        (Kind::Procedure(procedure), Some(j)) => (std::mem::replace(&mut procedure.parameters[j].0, id), 0),
        _ => return,
    };
    if uses_follow {
        rename_uses(&mut term.parts[part], old, id);
    }
}

/// Gives the uses of an id that are not bound inside the term another one.
fn rename_uses(term: &mut Term, from: u8, to: u8) {
    if let Some(id) = term.kind.used_id().filter(|id| **id == from) {
        *id = to;
    }
    for i in 0..term.parts.len() {
        if !term.bound_in(i).contains(&from) {
            rename_uses(&mut term.parts[i], from, to);
        }
    }
}
