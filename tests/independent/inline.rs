//! A term without procedures that has the same plays: each use is replaced by the procedure's term, and each parameter
//! by its argument. Private variables take ids by how many blocks are around them, so that none hides another.

use crate::sheet::{Heading, Kind, Term};
use std::rc::Rc;

/// What an id stands for.
#[derive(Clone)]
enum Meaning<'a> {
    Private(u8),
    /// An argument, with what ids stand for at the use.
    Argument(&'a Term, Scope<'a>),
    /// A procedure's record, with what ids stand for there.
    Procedure(&'a Term, Scope<'a>),
}

type Scope<'a> = Rc<Vec<(u8, Meaning<'a>)>>;

struct Inliner {
    /// The ids that no name record has.
    free: Vec<u8>,
    /// How many more records may be made.
    left: usize,
}

/// The term without procedures, or none where it would have more than `most` records.
pub fn inlined(heading: &Heading, term: &Term, most: usize) -> Option<Term> {
    let free = (0..255).filter(|&id| heading.record(id).is_none()).collect();
    Inliner { free, left: most }.term(term, &Rc::new(Vec::new()), 0)
}

/// The scope with one id more.
fn with<'a>(scope: &Scope<'a>, id: u8, meaning: Meaning<'a>) -> Scope<'a> {
    let mut inside = scope.to_vec();
    inside.push((id, meaning));
    Rc::new(inside)
}

fn meaning<'s, 'a>(scope: &'s Scope<'a>, id: u8) -> Option<&'s Meaning<'a>> {
    scope.iter().rev().find(|bound| bound.0 == id).map(|bound| &bound.1)
}

impl Inliner {
    /// `blocks` is how many blocks are around the term that is made.
    fn term<'a>(&mut self, term: &'a Term, scope: &Scope<'a>, blocks: usize) -> Option<Term> {
        self.left = self.left.checked_sub(1)?;
        match &term.kind {
            Kind::Parameter { id, .. } | Kind::Call { id, .. } => match meaning(scope, *id)? {
                Meaning::Argument(argument, outside) => self.term(argument, outside, blocks),
                Meaning::Procedure(record, outside) => self.body(record, outside, &term.parts, scope, blocks),
                Meaning::Private(_) => None,
            },
            Kind::Procedure(procedure) => {
                let inside = with(scope, procedure.id, Meaning::Procedure(term, scope.clone()));
                self.term(&term.parts[1], &inside, blocks)
            }
            Kind::Private { id, data } => match meaning(scope, *id)? {
                Meaning::Private(id) => Some(Term::new(Kind::Private { id: *id, data: *data }, vec![])),
                _ => None,
            },
            Kind::New { id, data } => {
                let fresh = *self.free.get(blocks)?;
                let inside = with(scope, *id, Meaning::Private(fresh));
                let body = self.term(&term.parts[0], &inside, blocks + 1)?;
                Some(Term::new(Kind::New { id: fresh, data: *data }, vec![body]))
            }
            kind => {
                let parts: Option<Vec<Term>> = term.parts.iter().map(|p| self.term(p, scope, blocks)).collect();
                Some(Term::new(kind.clone(), parts?))
            }
        }
    }

    /// A procedure's term with these arguments, which stand in the scope of the caller.
    fn body<'a>(
        &mut self,
        record: &'a Term,
        outside: &Scope<'a>,
        arguments: &'a [Term],
        caller: &Scope<'a>,
        blocks: usize,
    ) -> Option<Term> {
        let Kind::Procedure(procedure) = &record.kind else {
            return None;
        };
        let bound = procedure.parameters.iter().zip(arguments);
        let bound = bound.map(|(parameter, argument)| (parameter.0, Meaning::Argument(argument, caller.clone())));
        let inside: Vec<(u8, Meaning)> = outside.iter().cloned().chain(bound).collect();
        self.term(&record.parts[0], &Rc::new(inside), blocks)
    }
}
