//! Procedures whose scopes meet: private variables side by side with the same id, now and then one inside another, and
//! parameters that are used further inside.

use crate::generate::{self, Generator, Meaning};
use crate::random::Random;
use crate::sheet::{Data, Heading, Kind, Operator, Procedure, Term, Type};

fn sequence(first: Term, then: Term) -> Term {
    Term::new(Kind::Sequence, vec![first, then])
}

fn parameter(id: u8) -> Term {
    Term::new(Kind::Parameter { id, result: Type::Command }, vec![])
}

/// The record of a procedure with one parameter, a command.
fn signature(id: u8, parameter: u8) -> Procedure {
    Procedure { id, result: Type::Command, parameters: vec![(parameter, Type::Command)] }
}

/// Such a procedure, and what it is used in.
fn procedure(id: u8, parameter: u8, body: Term, rest: Term) -> Term {
    Term::new(Kind::Procedure(signature(id, parameter)), vec![body, rest])
}

fn call(id: u8, argument: Term) -> Term {
    Term::new(Kind::Call { id, result: Type::Command }, vec![argument])
}

fn block(id: u8, body: Term) -> Term {
    Term::new(Kind::New { id, data: Data::Number }, vec![body])
}

/// Adds a number to a private variable.
fn step(id: u8, by: Term) -> Term {
    let variable = Term::new(Kind::Private { id, data: Data::Number }, vec![]);
    let fetched = Term::new(Kind::Fetch, vec![variable.clone()]);
    Term::new(Kind::Assign, vec![variable, Term::new(Kind::Operate(Operator::Plus), vec![fetched, by])])
}

/// The ids that no name record has.
fn free(heading: &Heading) -> Vec<u8> {
    (0..255).filter(|&id| heading.record(id).is_none()).collect()
}

/// A caller and a procedure that have private variables, and an argument that uses the caller's. The procedure stands
/// outside the caller's block, and the variables have one id; or inside it and uses the caller's variable too, and now
/// and then its own one hides that.
pub fn meeting(random: &mut Random) -> (Heading, Term) {
    let heading = generate::heading(random, 4);
    let [variable, used, given, other] = [0, 1, 2, 3].map(|i| free(&heading)[i]);
    let (twice, outside) = (random.one_in(2), random.one_in(2));
    let inner = if outside || random.one_in(4) { variable } else { other };
    let mut generator = Generator::with_procedures(random, &heading);
    let [one, two, three] = [0; 3].map(|_| generator.constant(Data::Number));
    let own = sequence(parameter(given), step(inner, one));
    let own = block(inner, if twice { sequence(own, parameter(given)) } else { own });
    generator.scope.push((variable, Meaning::Private(Data::Number)));
    generator.scope.push((used, Meaning::Procedure(signature(used, given), vec![false])));
    let argument = sequence(step(variable, two), generator.term(Type::Command, 12, 5));
    let shown = generator.term(Type::Command, 20, 5);
    let caller = sequence(call(used, argument), shown);
    let term = if outside {
        procedure(used, given, own, block(variable, caller))
    } else {
        block(variable, procedure(used, given, sequence(step(variable, three), own), caller))
    };
    (heading, term)
}

/// Procedures inside the terms of procedures, with the parameters of outer ones used inside.
pub fn nested(random: &mut Random) -> (Heading, Term) {
    let heading = generate::heading(random, 4);
    let depth = random.between(2, 8);
    let (procedures, parameters) = (&free(&heading)[..depth], &free(&heading)[depth..]);
    let mut generator = Generator::with_procedures(random, &heading);
    let mut any = |most: usize| parameter(parameters[generator.random.below(most)]);
    let mut term = sequence(any(depth), any(depth));
    for i in (1..depth).rev() {
        let argument = if i % 2 == 0 { sequence(any(i), parameter(parameters[i - 1])) } else { any(i) };
        term = procedure(procedures[i], parameters[i], term, call(procedures[i], argument));
    }
    generator.scope.push((procedures[0], Meaning::Procedure(signature(procedures[0], parameters[0]), vec![false])));
    let argument = generator.term(Type::Command, 8, 4);
    let whole = procedure(procedures[0], parameters[0], term, call(procedures[0], argument));
    (heading, whole)
}
