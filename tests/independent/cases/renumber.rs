//! Sheets to renumber: many in which binders hide others, some with few ids left, and some with too little lent.

use super::damage::{damaged, random_bytes};
use super::hiding::hidden;
use super::{procedures, sheet, Case};
use crate::generate::{self, Generator};
use crate::random::Random;
use crate::reader::LONGEST;
use crate::renumber::LIST;
use crate::sheet::{written, Data, Heading, Kind, Procedure, Term, Type};

pub fn case(random: &mut Random) -> Case {
    let sheet = sheet_to_renumber(random);
    let output = output_for(random, sheet.len());
    let list = list_for(random);
    Case::Renumber { sheet, output, list }
}

/// How many bytes are lent for the output: mostly as many as the sheet has, or more.
fn output_for(random: &mut Random, length: usize) -> usize {
    match random.below(20) {
        0 if random.one_in(2) => length.saturating_sub(1),
        0 => random.below(length + 1),
        1..=5 => length + random.between(1, 40),
        6 => LONGEST,
        _ => length,
    }
}

/// How many bytes are lent for the list.
fn list_for(random: &mut Random) -> usize {
    match random.below(40) {
        0 => LIST - 1,
        1 => random.below(LIST),
        2..=8 => LIST + random.between(1, 40),
        _ => LIST,
    }
}

fn sheet_to_renumber(random: &mut Random) -> Vec<u8> {
    match random.below(20) {
        0 => sheet(random),
        1..=3 => {
            let sheet = sheet(random);
            hidden(random, sheet)
        }
        4..=7 => {
            let sheet = procedures::sheet(random);
            hidden(random, sheet)
        }
        8..=12 => hiding(random),
        13..=14 => with_few_ids_left(random),
        15..=17 => crowded(random),
        18 => random_bytes(random),
        _ => {
            let sheet = hiding(random);
            damaged(random, sheet)
        }
    }
}

/// A sheet whose binders take few ids, whatever is around them.
fn hiding(random: &mut Random) -> Vec<u8> {
    let heading = procedures::heading(random);
    let (wanted, size) = (random.choose(&Type::ALL), 3 * procedures::size(random));
    let term = Generator::with_procedures(random, &heading).hiding().whole(wanted, size);
    written(&heading, &term)
}

/// A sheet in which nearly all ids are declared, retired or bound, and some binders hide others.
fn with_few_ids_left(random: &mut Random) -> Vec<u8> {
    let most = random.choose(&[0, 6, 40]);
    let heading = generate::heading(random, most);
    let mut ids: Vec<u8> = (0..255).filter(|&id| heading.record(id).is_none()).collect();
    for _ in 0..random.below(12) {
        ids.remove(random.below(ids.len()));
    }
    let mut commands = takers(random, ids);
    for _ in 0..random.between(1, 3) {
        let command = hiding_command(random, &heading);
        commands.insert(random.below(commands.len() + 1), command);
    }
    written(&heading, &in_sequence(&commands))
}

/// Commands that have the ids for blocks, procedures and parameters and do nothing.
fn takers(random: &mut Random, mut ids: Vec<u8>) -> Vec<Term> {
    let mut commands = Vec::new();
    while let Some(id) = ids.pop() {
        let skip = || Term::new(Kind::Skip, vec![]);
        commands.push(if random.one_in(3) {
            Term::new(Kind::New { id, data: Data::Truth }, vec![skip()])
        } else {
            let own = ids.split_off(ids.len() - random.below(5).min(ids.len()));
            let parameters = own.into_iter().map(|id| (id, random.choose(&Type::ALL))).collect();
            let procedure = Procedure { id, result: Type::Command, parameters };
            Term::new(Kind::Procedure(procedure), vec![skip(), skip()])
        });
    }
    commands
}

/// A command in which some binders hide others; it may be the term of a procedure that is not used.
fn hiding_command(random: &mut Random, heading: &Heading) -> Term {
    let (size, depth) = (random.between(10, 60) as u64, random.between(4, 20));
    let mut generator = Generator::with_procedures(random, heading).hiding();
    let term = generator.term(Type::Command, size, depth);
    let procedure = Procedure { id: generator.spare, result: Type::Command, parameters: vec![] };
    if generator.random.one_in(2) {
        Term::new(Kind::Procedure(procedure), vec![term, Term::new(Kind::Skip, vec![])])
    } else {
        term
    }
}

/// A sheet with many binders side by side that all hide one around them: about as many as there are ids, or fewer. They
/// stand in the term of a procedure, whose parameters are what they hide; one of these may have its id.
fn crowded(random: &mut Random) -> Vec<u8> {
    let mut heading = generate::heading(random, 6);
    if random.one_in(4) {
        heading.records.clear();
    }
    let mut ids: Vec<u8> = (0..255).filter(|&id| heading.record(id).is_none()).collect();
    let mut take = |random: &mut Random| ids.remove(random.below(ids.len()));
    let outer: Vec<u8> = (0..random.between(1, 4)).map(|_| take(random)).collect();
    let id = if random.one_in(2) { outer[0] } else { take(random) };
    let count = if random.one_in(2) { ids.len() + 4 - random.below(8) } else { random.between(1, ids.len()) };
    let (mut commands, mut left) = (Vec::new(), count);
    while left > 0 {
        let (command, binders) = crowding(random, &outer, left);
        commands.push(command);
        left -= binders;
    }
    let parameters = outer.iter().map(|&id| (id, random.choose(&Type::ALL))).collect();
    let procedure = Kind::Procedure(Procedure { id, result: Type::Command, parameters });
    let term = Term::new(procedure, vec![in_sequence(&commands), Term::new(Kind::Skip, vec![])]);
    written(&heading, &term)
}

/// A block or a procedure with ids of those around it, and how many binders that is: at most so many.
fn crowding(random: &mut Random, outer: &[u8], most: usize) -> (Term, usize) {
    let skip = || Term::new(Kind::Skip, vec![]);
    let (id, result) = (random.choose(outer), Type::Command);
    if random.one_in(2) {
        let variable = Term::new(Kind::Private { id, data: Data::Number }, vec![]);
        let body = Term::new(Kind::Assign, vec![variable, Term::new(Kind::Constant(Data::Number, 0), vec![])]);
        return (Term::new(Kind::New { id, data: Data::Number }, vec![body]), 1);
    }
    let count = random.below(outer.len() + 1).min(most - 1);
    let parameters: Vec<(u8, Type)> = outer[..count].iter().map(|&own| (own, result)).collect();
    let body = parameters.last().map_or(skip(), |&(id, _)| Term::new(Kind::Parameter { id, result }, vec![]));
    let arguments = parameters.iter().map(|_| skip()).collect();
    let call = Term::new(Kind::Call { id, result }, arguments);
    (Term::new(Kind::Procedure(Procedure { id, result, parameters }), vec![body, call]), 1 + count)
}

/// The commands one after the other, in a term of low depth.
pub fn in_sequence(commands: &[Term]) -> Term {
    match commands {
        [] => Term::new(Kind::Skip, vec![]),
        [only] => only.clone(),
        _ => {
            let (first, rest) = commands.split_at(commands.len() / 2);
            Term::new(Kind::Sequence, vec![in_sequence(first), in_sequence(rest)])
        }
    }
}
