//! Short names for the terms that sheets with procedures are made of. All are commands but the guards of loops.

use crate::sheet::{Data, Heading, Kind, Numbers, Procedure, Record, Term, Type};

/// The one declared name, a command.
pub const NAME: u8 = 8;

pub fn heading() -> Heading {
    let record = Record::Declare { once: false, id: NAME, result: Type::Command, arguments: vec![] };
    Heading { numbers: Numbers { z: 1, rule: 0 }, records: vec![record] }
}

pub fn name() -> Term {
    Term::new(Kind::Name { id: NAME, result: Type::Command, once: false }, vec![])
}

pub fn skip() -> Term {
    Term::new(Kind::Skip, vec![])
}

pub fn sequence(first: Term, then: Term) -> Term {
    Term::new(Kind::Sequence, vec![first, then])
}

/// A variable that cannot be read.
pub fn unreadable() -> Term {
    Term::new(Kind::Diverge(Type::Variable(Data::Truth)), vec![])
}

/// `while !guard do round`.
pub fn rounds(guard: Term, round: Term) -> Term {
    Term::new(Kind::While, vec![Term::new(Kind::Fetch, vec![guard]), round])
}

/// `while false do round`.
pub fn never(round: Term) -> Term {
    Term::new(Kind::While, vec![Term::new(Kind::Constant(Data::Truth, 0), vec![]), round])
}

pub fn parameter(id: u8) -> Term {
    Term::new(Kind::Parameter { id, result: Type::Command }, vec![])
}

pub fn call(id: u8, arguments: Vec<Term>) -> Term {
    Term::new(Kind::Call { id, result: Type::Command }, arguments)
}

/// A procedure with these parameters, its term, and the term in which it may be used.
pub fn procedure(id: u8, parameters: &[u8], body: Term, rest: Term) -> Term {
    let parameters = parameters.iter().map(|&id| (id, Type::Command)).collect();
    Term::new(Kind::Procedure(Procedure { id, result: Type::Command, parameters }), vec![body, rest])
}
