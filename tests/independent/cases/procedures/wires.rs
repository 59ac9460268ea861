//! Procedures that do nothing of their own but hand their arguments on, in another order, twice or not at all.

use crate::random::Random;
use crate::sheet::{Heading, Kind, Numbers, Procedure, Record, Term, Type};

/// The declared commands, and the ids of procedures and parameters where they can be had: few, so that many stand side
/// by side with the same.
const NAMES: [u8; 3] = [1, 2, 3];
const IDS: [u8; 6] = [10, 11, 12, 13, 14, 15];

/// Makes such terms.
struct Wires<'a> {
    random: &'a mut Random,
    /// Whether a binder may take an id that an enclosing one holds.
    hides: bool,
    /// The ids at hand, the innermost last, with what a use of each is and how many arguments it has.
    scope: Vec<(u8, Kind, usize)>,
}

/// A sheet of commands: procedures that only hand on, and uses of them with names.
pub fn wired(random: &mut Random) -> (Heading, Term) {
    let declare = |id| Record::Declare { once: false, id, result: Type::Command, arguments: vec![] };
    let heading = Heading { numbers: Numbers { z: 1, rule: 0 }, records: NAMES.map(declare).to_vec() };
    let scope = NAMES.map(|id| (id, Kind::Name { id, result: Type::Command, once: false }, 0)).to_vec();
    let (procedures, hides) = (random.between(1, 8), random.one_in(8));
    let term = Wires { random, hides, scope }.procedures(procedures);
    (heading, term)
}

impl Wires<'_> {
    /// So many procedures, one after the other, and then uses of what is at hand.
    fn procedures(&mut self, count: usize) -> Term {
        match count {
            0 => Term::new(Kind::Sequence, vec![self.term(4), self.term(4)]),
            _ => self.procedure(4, |wires| wires.procedures(count - 1)),
        }
    }

    /// A procedure whose term is at most that deep, and the term that `rest` makes in its scope.
    fn procedure(&mut self, depth: usize, rest: impl FnOnce(&mut Self) -> Term) -> Term {
        let mut procedure = Procedure { id: self.binder_id(), result: Type::Command, parameters: vec![] };
        for _ in 0..self.random.between(1, 4) {
            let id = self.binder_id();
            if procedure.parameter(id).is_none() {
                procedure.parameters.push((id, Type::Command));
            }
        }
        let outside = self.scope.len();
        let parameters = procedure.parameters.iter().map(|p| p.0);
        self.scope.extend(parameters.map(|id| (id, Kind::Parameter { id, result: Type::Command }, 0)));
        let body = self.term(depth);
        self.scope.truncate(outside);
        let call = Kind::Call { id: procedure.id, result: Type::Command };
        self.scope.push((procedure.id, call, procedure.parameters.len()));
        let rest = rest(self);
        self.scope.truncate(outside);
        Term::new(Kind::Procedure(procedure), vec![body, rest])
    }

    /// One of the few ids, or the lowest other one where these are taken.
    fn binder_id(&mut self) -> u8 {
        let taken = |id: u8| !self.hides && self.scope.iter().any(|bound| bound.0 == id);
        let fitting: Vec<u8> = IDS.into_iter().filter(|&id| !taken(id)).collect();
        match (IDS[5] + 1..255).find(|&id| !taken(id)) {
            Some(other) if fitting.is_empty() => other,
            _ => self.random.choose(&fitting),
        }
    }

    /// A use of something at hand, most often of what was bound last, with such uses as its arguments.
    fn term(&mut self, depth: usize) -> Term {
        if depth > 2 && self.random.one_in(6) {
            return self.procedure(depth - 1, |wires| wires.term(depth - 1));
        }
        let visible = self.scope.iter().enumerate();
        let visible = visible.filter(|(i, bound)| self.scope[i + 1..].iter().all(|inner| inner.0 != bound.0));
        let visible: Vec<(Kind, usize)> = visible.map(|(_, bound)| (bound.1.clone(), bound.2)).collect();
        let fitting: Vec<(Kind, usize)> = visible.into_iter().filter(|bound| depth > 1 || bound.1 == 0).collect();
        let last = &fitting[fitting.len().saturating_sub(4)..];
        let (kind, arguments) =
            if self.random.one_in(4) { self.random.choose(&fitting) } else { self.random.choose(last) };
        let parts = (0..arguments).map(|_| self.term(depth - 1)).collect();
        Term::new(kind, parts)
    }
}
