//! Cases for the marks: sheets with up to 32 name records, retired ones among them, of which some names are used, in
//! terms that are played and in terms that never are. Binders have ids next to those of the records.

use super::pairs::{swapped_at_random, Pair};
use super::renumber::in_sequence;
use super::{compare_of, follow_of, Case};
use crate::random::Random;
use crate::reader::MOST_RECORDS;
use crate::sheet::{written, Data, Heading, Kind, Numbers, Operator, Procedure, Record, Term, Type};

/// The highest id.
const LAST_ID: u8 = 254;

pub fn case(random: &mut Random) -> Case {
    match random.below(20) {
        0..=8 => Case::Check { sheet: sheet_of_names(random) },
        9..=10 => {
            let sheet = sheet_of_names(random);
            follow_of(random, sheet)
        }
        _ => {
            let pair = pair(random);
            compare_of(random, pair)
        }
    }
}

/// Commands that use some of the names; after them, now and then, a name of any type.
pub fn sheet_of_names(random: &mut Random) -> Vec<u8> {
    let heading = heading(random);
    let mut user = User { random, heading: &heading };
    let mut term = in_sequence(&user.commands());
    let names = user.declared();
    if !names.is_empty() && user.random.one_in(4) {
        let id = user.random.choose(&names);
        term = sequence(term, user.name(id));
    }
    written(&heading, &term)
}

/// Two sheets with one heading. Each uses names of its own; or one is the other with more uses that are never played,
/// so that they have the same plays.
fn pair(random: &mut Random) -> Pair {
    let heading = heading(random);
    let mut user = User { random, heading: &heading };
    let (old, alike) = (user.commands(), user.random.one_in(2));
    let new = if alike { user.with_unplayed(&old) } else { user.commands() };
    swapped_at_random(random, (written(&heading, &in_sequence(&old)), written(&heading, &in_sequence(&new)), alike))
}

/// A heading with about as many records as may be, or few.
fn heading(random: &mut Random) -> Heading {
    let count = if random.one_in(3) { random.below(9) } else { random.between(MOST_RECORDS - 3, MOST_RECORDS) };
    let retires = !random.one_in(3);
    let records = ids(random, count).into_iter().map(|id| record(random, id, retires)).collect();
    let numbers = Numbers { z: random.choose(&[1, 1, 1, 1, 2, 3, 7, 8, 31]), rule: random.choose(&[0, 1, 2]) };
    Heading { numbers, records }
}

/// Ids that are one, two or three apart, in any order, so that a record's number tells nothing of its id.
fn ids(random: &mut Random, count: usize) -> Vec<u8> {
    let step = random.between(1, 3);
    let highest_first = LAST_ID as usize - step * count;
    let first = match random.below(4) {
        0 => 0,
        1 => highest_first + step,
        _ => random.below(highest_first),
    };
    let mut ids: Vec<u8> = (0..count).map(|i| (first + step * i) as u8).collect();
    match random.below(3) {
        0 => {}
        1 => ids.reverse(),
        _ => (1..count).for_each(|i| ids.swap(i, random.below(i + 1))),
    }
    ids
}

/// A name or, where some are to be, a retired id.
fn record(random: &mut Random, id: u8, retires: bool) -> Record {
    if retires && random.one_in(3) {
        return Record::Retire { id };
    }
    let count = random.choose(&[0, 0, 0, 1, 1, 2, 4]);
    let arguments = (0..count).map(|_| random.choose(&Type::ALL)).collect();
    Record::Declare { once: random.one_in(4), id, result: random.choose(&Type::ALL), arguments }
}

fn skip() -> Term {
    Term::new(Kind::Skip, vec![])
}

fn truth(value: i8) -> Term {
    Term::new(Kind::Constant(Data::Truth, value), vec![])
}

fn branch(test: Term, yes: Term, no: Term) -> Term {
    Term::new(Kind::If, vec![test, yes, no])
}

fn sequence(first: Term, second: Term) -> Term {
    Term::new(Kind::Sequence, vec![first, second])
}

/// A block around the command that also writes its variable.
fn block(id: u8, command: Term) -> Term {
    let data = Data::Truth;
    let variable = Term::new(Kind::Private { id, data }, vec![]);
    let written = Term::new(Kind::Assign, vec![variable, truth(1)]);
    Term::new(Kind::New { id, data }, vec![sequence(written, command)])
}

/// A procedure that is a command, with a command as its parameter or with none; its term, and the term after it.
fn procedure(id: u8, parameter: Option<u8>, term: Term, rest: Term) -> Term {
    let parameters = parameter.into_iter().map(|own| (own, Type::Command)).collect();
    Term::new(Kind::Procedure(Procedure { id, result: Type::Command, parameters }), vec![term, rest])
}

fn call(id: u8, arguments: Vec<Term>) -> Term {
    Term::new(Kind::Call { id, result: Type::Command }, arguments)
}

fn parameter(id: u8) -> Term {
    Term::new(Kind::Parameter { id, result: Type::Command }, vec![])
}

/// A command that has the term as a part and plays it.
fn as_command(term: Term) -> Term {
    match term.gives {
        Type::Command => term,
        Type::Expression(Data::Truth) => branch(term, skip(), skip()),
        Type::Expression(Data::Number) => {
            let zero = Term::new(Kind::Constant(Data::Number, 0), vec![]);
            branch(Term::new(Kind::Operate(Operator::Equal), vec![term, zero]), skip(), skip())
        }
        Type::Variable(data) => Term::new(Kind::Assign, vec![term, Term::new(Kind::Constant(data, 0), vec![])]),
    }
}

/// Makes terms that use the names of a heading.
struct User<'a> {
    random: &'a mut Random,
    heading: &'a Heading,
}

impl User<'_> {
    /// The ids of the names.
    fn declared(&self) -> Vec<u8> {
        let declared = self.heading.records.iter().filter(|record| matches!(record, Record::Declare { .. }));
        declared.map(Record::id).collect()
    }

    /// Some of the names: the first, the last, all but one, all, or any.
    fn some_names(&mut self) -> Vec<u8> {
        let mut names = self.declared();
        let count = self.random.below(names.len() + 1);
        match self.random.below(6) {
            0 => names.truncate(count),
            1 => drop(names.drain(..count)),
            2 if count < names.len() => drop(names.remove(count)),
            2..=3 => {}
            _ => names.retain(|_| self.random.one_in(2)),
        }
        names
    }

    /// A command for each of some names, most of them such as are played.
    fn commands(&mut self) -> Vec<Term> {
        let names = self.some_names();
        let commands = names.into_iter().map(|id| {
            let used = as_command(self.name(id));
            if self.random.one_in(3) {
                self.unplayed(used)
            } else {
                self.played(used)
            }
        });
        commands.collect()
    }

    /// The commands, and among them some that use names and never play them.
    fn with_unplayed(&mut self, commands: &[Term]) -> Vec<Term> {
        let mut more = commands.to_vec();
        for id in self.some_names() {
            let used = as_command(self.name(id));
            let unplayed = self.unplayed(used);
            more.insert(self.random.below(more.len() + 1), unplayed);
        }
        more
    }

    /// A use of the name.
    fn name(&mut self, id: u8) -> Term {
        let Some(Record::Declare { once, result, arguments, .. }) = self.heading.record(id) else {
            unreachable!("only declared ids are used");
        };
        let parts = arguments.iter().map(|&wanted| self.argument(wanted)).collect();
        Term::new(Kind::Name { id, result: *result, once: *once }, parts)
    }

    /// A term of the type: a name without arguments, or one that uses none.
    fn argument(&mut self, wanted: Type) -> Term {
        let plain = self.heading.records.iter().filter_map(|record| match record {
            Record::Declare { once, id, result, arguments } if *result == wanted && arguments.is_empty() => {
                Some(Kind::Name { id: *id, result: *result, once: *once })
            }
            _ => None,
        });
        let plain: Vec<Kind> = plain.collect();
        match wanted {
            _ if !plain.is_empty() && self.random.one_in(2) => Term::new(self.random.choose(&plain), vec![]),
            Type::Command => skip(),
            Type::Expression(data) => Term::new(Kind::Constant(data, 0), vec![]),
            Type::Variable(_) => Term::new(Kind::Diverge(wanted), vec![]),
        }
    }

    /// An id for a binder around the term: next to that of a record, where such a one is free.
    fn near(&mut self, inside: &Term) -> u8 {
        let free = |id: &u8| self.heading.record(*id).is_none() && !inside.binds(*id);
        let ids = self.heading.records.iter().map(Record::id);
        let near = ids.flat_map(|id| [id.saturating_sub(1), id.saturating_add(1).min(LAST_ID)]).filter(free);
        let near: Vec<u8> = near.collect();
        if near.is_empty() {
            (0..=LAST_ID).find(free).expect("few ids are taken")
        } else {
            self.random.choose(&near)
        }
    }

    /// The command where it is played: as it is, in a block, in the term of a procedure that is used, or as an argument
    /// that is used.
    fn played(&mut self, command: Term) -> Term {
        let (id, other) = (self.near(&command), self.near(&command));
        match self.random.below(6) {
            0 => block(id, command),
            1 => procedure(id, None, command, call(id, vec![])),
            2 => procedure(id, Some(other), parameter(other), call(id, vec![command])),
            _ => command,
        }
    }

    /// The command where it is never played: in a branch, in a loop, as an argument that is not used, or in the term of
    /// a procedure that is not used. The whole has the plays of skip.
    fn unplayed(&mut self, command: Term) -> Term {
        let (id, other) = (self.near(&command), self.near(&command));
        match self.random.below(6) {
            0 => branch(truth(1), skip(), command),
            1 => {
                let stopped = Term::new(Kind::Diverge(Type::Command), vec![]);
                branch(truth(0), sequence(stopped, command), skip())
            }
            2 => Term::new(Kind::While, vec![truth(0), command]),
            3 => procedure(id, Some(other), skip(), call(id, vec![command])),
            4 => procedure(id, None, command, skip()),
            _ => procedure(id, Some(other), sequence(parameter(other), command), skip()),
        }
    }
}
