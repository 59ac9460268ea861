//! Short names for the terms that sheets are made of.

use crate::sheet::{Data, Kind, Operator, Record, Term, Type};

pub const TRUTH: Type = Type::Expression(Data::Truth);
pub const NUMBER: Type = Type::Expression(Data::Number);
pub const TRUTH_VARIABLE: Type = Type::Variable(Data::Truth);
pub const NUMBER_VARIABLE: Type = Type::Variable(Data::Number);

pub fn declared(id: u8, result: Type, arguments: &[Type]) -> Record {
    Record::Declare { once: false, id, result, arguments: arguments.to_vec() }
}

pub fn skip() -> Term {
    Term::new(Kind::Skip, vec![])
}

pub fn truth(value: bool) -> Term {
    Term::new(Kind::Constant(Data::Truth, value as i8), vec![])
}

pub fn number(value: i8) -> Term {
    Term::new(Kind::Constant(Data::Number, value), vec![])
}

/// A use of a declared name.
pub fn named(id: u8, result: Type, arguments: Vec<Term>) -> Term {
    Term::new(Kind::Name { id, result, once: false }, arguments)
}

/// A private variable.
pub fn private(id: u8, data: Data) -> Term {
    Term::new(Kind::Private { id, data }, vec![])
}

pub fn block(id: u8, data: Data, body: Term) -> Term {
    Term::new(Kind::New { id, data }, vec![body])
}

pub fn fetch(variable: Term) -> Term {
    Term::new(Kind::Fetch, vec![variable])
}

pub fn assign(variable: Term, value: Term) -> Term {
    Term::new(Kind::Assign, vec![variable, value])
}

pub fn operate(operator: Operator, left: Term, right: Term) -> Term {
    Term::new(Kind::Operate(operator), vec![left, right])
}

pub fn sequence(first: Term, then: Term) -> Term {
    Term::new(Kind::Sequence, vec![first, then])
}

pub fn branch(test: Term, yes: Term, no: Term) -> Term {
    Term::new(Kind::If, vec![test, yes, no])
}

pub fn repeat(test: Term, round: Term) -> Term {
    Term::new(Kind::While, vec![test, round])
}

/// The commands one after the other: halved as long as there are more than `group`, then each before the rest.
pub fn in_sequence(commands: &[Term], group: usize) -> Term {
    match commands {
        [] => skip(),
        [only] => only.clone(),
        _ => {
            let (first, rest) = commands.split_at(if commands.len() > group { commands.len() / 2 } else { 1 });
            sequence(in_sequence(first, group), in_sequence(rest, group))
        }
    }
}
