//! Terms that are nothing but a parameter, however many procedures that is said through.
//!
//! With p1(x) = p0(p0(x)), p2(x) = p1(p1(x)) and so on, where p0(x) = x, a use of the n-th is 2 to the n-th uses of p0,
//! and shows no more than its argument. So the machine goes straight to the argument.

use crate::scope::At;
use crate::sheet::{Kind, Procedure, Term};
use std::collections::HashMap;

/// A parameter: how many binders are around the term of its procedure, and its number.
#[derive(Clone, Copy, Debug, PartialEq)]
pub struct Landing {
    pub depth: usize,
    pub number: usize,
}

/// What binds ids around a term.
enum Binder<'a> {
    Block(u8),
    /// A procedure in the scope of its id, and what its term comes down to.
    Procedure(u8, Option<Landing>),
    Parameters(&'a Procedure),
}

impl Binder<'_> {
    fn binds(&self, id: u8) -> bool {
        match self {
            Binder::Block(block) => *block == id,
            Binder::Procedure(procedure, _) => *procedure == id,
            Binder::Parameters(procedure) => procedure.parameter(id).is_some(),
        }
    }
}

/// The terms of a sheet that come down to parameters.
pub struct Landings<'a> {
    found: HashMap<At<'a>, Landing>,
    scope: Vec<Binder<'a>>,
}

impl<'a> Landings<'a> {
    pub fn of(whole: &'a Term) -> Landings<'a> {
        let mut landings = Landings { found: HashMap::new(), scope: Vec::new() };
        landings.look(whole);
        landings
    }

    pub fn get(&self, at: At<'a>) -> Option<Landing> {
        self.found.get(&at).copied()
    }

    /// Notes what a term and all its parts come down to.
    fn look(&mut self, term: &'a Term) -> Option<Landing> {
        let landing = match &term.kind {
            Kind::Parameter { id, .. } => self.parameter(*id),
            Kind::Procedure(procedure) => {
                let landing = self.inside(Binder::Parameters(procedure), &term.parts[0]);
                self.inside(Binder::Procedure(procedure.id, landing), &term.parts[1])
            }
            Kind::New { id, .. } => {
                self.inside(Binder::Block(*id), &term.parts[0]);
                None
            }
            kind => {
                let parts: Vec<Option<Landing>> = term.parts.iter().map(|part| self.look(part)).collect();
                match kind {
                    Kind::Call { id, .. } => self.call(*id, &parts),
                    _ => None,
                }
            }
        };
        if let Some(landing) = landing {
            self.found.insert(At(term), landing);
        }
        landing
    }

    fn inside(&mut self, binder: Binder<'a>, part: &'a Term) -> Option<Landing> {
        self.scope.push(binder);
        let landing = self.look(part);
        self.scope.pop();
        landing
    }

    fn innermost(&self, id: u8) -> Option<usize> {
        self.scope.iter().rposition(|binder| binder.binds(id))
    }

    fn parameter(&self, id: u8) -> Option<Landing> {
        let depth = self.innermost(id)?;
        match &self.scope[depth] {
            Binder::Parameters(procedure) => Some(Landing { depth, number: procedure.parameter(id)? }),
            _ => None,
        }
    }

    /// A use of a procedure whose term comes down to a parameter: one of its own is the argument, another stays.
    fn call(&self, id: u8, arguments: &[Option<Landing>]) -> Option<Landing> {
        let depth = self.innermost(id)?;
        match self.scope[depth] {
            Binder::Procedure(_, Some(landing)) if landing.depth == depth => arguments[landing.number],
            Binder::Procedure(_, landing) => landing,
            _ => None,
        }
    }
}
