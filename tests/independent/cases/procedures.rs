//! Cases with procedures: random ones, ones that say things many times over, and ones where ids meet.

mod chain;
mod scopes;
mod wires;

use super::damage::{damaged, damaging_byte, random_bytes, record_at};
use super::hiding::hidden;
use super::limits;
use super::pairs::{fitting, swapped_at_random, Pair};
use super::{compare_of, few_or_many, follow_of, whole_type, Case};
use crate::generate::{self, Generator};
use crate::inline::inlined;
use crate::random::Random;
use crate::reader::{read, DEEPEST};
use crate::sheet::{written, Heading, Kind, Procedure, Term, Type};
use chain::Chain;
use scopes::{meeting, nested};
use wires::wired;

/// The most records of a term from which the procedures are taken out.
const MOST_INLINED: usize = 2000;

pub fn case(random: &mut Random) -> Case {
    match random.below(20) {
        0..=7 => Case::Check { sheet: sheet_to_check(random) },
        8..=10 => {
            let sheet = sheet(random);
            follow_of(random, sheet)
        }
        _ => {
            let pair = pair(random);
            compare_of(random, pair)
        }
    }
}

/// The size that a sheet is to have, more or less, if its procedures did not count.
pub fn size(random: &mut Random) -> u64 {
    let size = match random.below(40) {
        0 => random.between(300, 1500),
        1..=8 => random.between(80, 300),
        9..=28 => random.between(30, 80),
        _ => random.between(6, 30),
    };
    size as u64
}

pub fn heading(random: &mut Random) -> Heading {
    let most = few_or_many(random).min(6);
    generate::heading(random, most)
}

fn heading_and_term(random: &mut Random) -> (Heading, Term) {
    match random.below(14) {
        0..=1 => Chain::random(random).heading_and_term(),
        2 => meeting(random),
        3 => nested(random),
        4..=5 => wired(random),
        _ => {
            let heading = heading(random);
            let (wanted, size) = (whole_type(random), size(random));
            let term = Generator::with_procedures(random, &heading).hiding_at_times().whole(wanted, size);
            (heading, term)
        }
    }
}

pub fn sheet(random: &mut Random) -> Vec<u8> {
    let (heading, term) = heading_and_term(random);
    written(&heading, &term)
}

fn sheet_to_check(random: &mut Random) -> Vec<u8> {
    match random.below(20) {
        0..=3 => sheet(random),
        4 => Chain::at_the_limit(random).sheet(),
        5 => at_the_depth(random),
        6 => random_bytes(random),
        7..=9 => misnamed(random),
        10..=13 => {
            let sheet = sheet(random);
            damaged_record(random, sheet)
        }
        14..=17 => {
            let sheet = sheet(random);
            hidden(random, sheet)
        }
        _ => {
            let sheet = sheet(random);
            damaged(random, sheet)
        }
    }
}

/// A sheet in which some record has an id or a type that it may not have, more often than not.
fn misnamed(random: &mut Random) -> Vec<u8> {
    let (mut heading, mut term) = heading_and_term(random);
    let retired = heading.records.len();
    limits::fill_records(&mut heading, retired + 1, limits::retired);
    let id = if random.one_in(4) { random.byte() } else { random.choose(&heading.records).id() };
    for _ in 0..20 {
        let place = random.below(term.records());
        if rename(random, &mut record_at(&mut term, place).kind, id) {
            break;
        }
    }
    written(&heading, &term)
}

/// Gives a binder or a use the id, or a procedure another type; false for records without an id.
fn rename(random: &mut Random, kind: &mut Kind, id: u8) -> bool {
    match kind {
        Kind::Procedure(procedure) => rename_procedure(random, procedure, id),
        Kind::Name { id: old, .. } | Kind::Private { id: old, .. } | Kind::New { id: old, .. } => *old = id,
        Kind::Parameter { id: old, .. } | Kind::Call { id: old, .. } => *old = id,
        _ => return false,
    }
    true
}

fn rename_procedure(random: &mut Random, procedure: &mut Procedure, id: u8) {
    let count = procedure.parameters.len();
    let number = random.below(count.max(1));
    let wanted = random.choose(&Type::ALL);
    match random.below(6) {
        0 => procedure.id = id,
        1 => procedure.result = wanted,
        _ if count == 0 => procedure.parameters.push((procedure.id, wanted)),
        2 => procedure.parameters[number].0 = id,
        3 => procedure.parameters[number].0 = procedure.parameters[0].0,
        4 => procedure.parameters[number].1 = wanted,
        _ => drop(procedure.parameters.pop()),
    }
}

/// The bytes with something changed in the record of a procedure, in its ids more often than not, or cut off there.
fn damaged_record(random: &mut Random, mut bytes: Vec<u8>) -> Vec<u8> {
    let records: Vec<usize> = (0..bytes.len()).filter(|&i| bytes[i] == 28).collect();
    if records.is_empty() {
        return damaged(random, bytes);
    }
    let offset = if random.one_in(2) { random.choose(&[1, 4, 6, 8, 10]) } else { random.below(13) };
    let at = random.choose(&records) + offset;
    if at >= bytes.len() || random.one_in(12) {
        bytes.truncate(at);
        return bytes;
    }
    bytes[at] = match random.below(3) {
        0 => random.choose(&bytes),
        1 => bytes[at - 1 - random.below(offset.max(1))],
        _ => damaging_byte(random, &bytes, at),
    };
    bytes
}

/// A term in as many records as make it as deep as allowed, or a little more or less; some are procedures. Now and then
/// they all have one id.
fn at_the_depth(random: &mut Random) -> Vec<u8> {
    let (heading, mut term) = heading_and_term(random);
    let wanted = random.between(DEEPEST - 1, DEEPEST + 2);
    let free = |term: &Term, id: u8| heading.record(id).is_none() && !term.mentions(id) && !term.binds(id);
    let lowest = |term: &Term| (0..255).find(|&id| free(term, id)).unwrap_or(0);
    let one_id = random.one_in(6).then(|| lowest(&term));
    while term.depth() < wanted {
        let (id, result) = (one_id.unwrap_or_else(|| lowest(&term)), term.gives);
        let procedure = Kind::Procedure(Procedure { id, result, parameters: vec![] });
        let call = Term::new(Kind::Call { id, result }, vec![]);
        term = match random.below(3) {
            0 => Term::new(Kind::Sequence, vec![Term::new(Kind::Skip, vec![]), term]),
            1 => Term::new(procedure, vec![term, call]),
            _ => Term::new(procedure, vec![Term::new(Kind::Diverge(result), vec![]), term]),
        };
    }
    written(&heading, &term)
}

/// Two sheets with the same heading: one without the procedures of the other, tidied, altered or another one.
pub fn pair(random: &mut Random) -> Pair {
    let (heading, old) = heading_and_term(random);
    let (style, steps) = (random.below(12), random.between(1, 4));
    let mut generator = Generator::with_procedures(random, &heading);
    let (new, alike) = match style {
        0..=3 => match inlined(&heading, &old, MOST_INLINED) {
            Some(term) => (term, true),
            None => (fitting(&mut generator, &old, |g, t| g.tidied(t, steps)), true),
        },
        4..=6 => (fitting(&mut generator, &old, |g, t| g.tidied(t, steps)), true),
        7..=9 => (fitting(&mut generator, &old, |g, t| g.altered(t, steps)), false),
        10 => {
            let altered = generator.altered(&old, 1);
            (inlined(&heading, &altered, MOST_INLINED).unwrap_or(altered), false)
        }
        _ => (generator.whole(old.gives, 30), false),
    };
    let mut bytes = (written(&heading, &old), written(&heading, &new));
    if random.one_in(12) {
        bytes.1 = if random.one_in(2) { damaged_record(random, bytes.1) } else { hidden(random, bytes.1) };
        return (bytes.0, bytes.1, false);
    }
    let accepted = read(&bytes.0).is_ok() && read(&bytes.1).is_ok();
    swapped_at_random(random, (bytes.0, bytes.1, alike && accepted))
}
