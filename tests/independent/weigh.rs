//! The weight of a term, by an environment of weights: a parameter weighs what its argument weighs, and a use of a
//! procedure weighs what the procedure's term weighs with its parameters weighing that.
//!
//! Sums and products stay at the highest number rather than wrap. What a procedure's term weighs is kept for each
//! environment in which it was weighed, so that procedures that use others twice do not double the work. Arguments are
//! held at a weight that no accepted sheet has, so that there are not too many environments.

use crate::reader::LARGEST;
use crate::sheet::{Kind, Numbers, Procedure, Term};
use std::collections::HashMap;

const TOO_HEAVY: u64 = LARGEST + 1;

/// What binds an id around a term, the innermost last.
#[derive(Clone, PartialEq, Eq, Hash)]
pub enum Bound<'a> {
    Block(u8),
    /// A procedure in the scope of its id, by its record.
    Procedure(Record<'a>),
    /// The parameters of a procedure inside its term, with what their arguments weigh.
    Parameters(Record<'a>, Vec<u64>),
}

/// A procedure's record, told from others by where it stands in memory.
#[derive(Clone, Copy)]
pub struct Record<'a> {
    procedure: &'a Procedure,
    term: &'a Term,
}

impl PartialEq for Record<'_> {
    fn eq(&self, other: &Self) -> bool {
        std::ptr::eq(self.procedure, other.procedure)
    }
}

impl Eq for Record<'_> {}

impl std::hash::Hash for Record<'_> {
    fn hash<H: std::hash::Hasher>(&self, state: &mut H) {
        std::ptr::hash(self.procedure, state);
    }
}

impl Bound<'_> {
    fn binds(&self, id: u8) -> bool {
        match self {
            Bound::Block(block) => *block == id,
            Bound::Procedure(record) => record.procedure.id == id,
            Bound::Parameters(record, _) => record.procedure.parameter(id).is_some(),
        }
    }
}

pub type Scope<'a> = Vec<Bound<'a>>;

/// Weighs terms of one sheet.
pub struct Weigher<'a> {
    numbers: Numbers,
    /// The weights of procedures' terms by their environment, whose innermost entry tells the procedure.
    known: HashMap<Scope<'a>, u64>,
}

impl<'a> Weigher<'a> {
    pub fn new(numbers: Numbers) -> Weigher<'a> {
        Weigher { numbers, known: HashMap::new() }
    }

    pub fn weight(&mut self, term: &'a Term, scope: &mut Scope<'a>) -> u64 {
        let count = |i: usize| term.parts[i].gives.data().map_or(1, |d| d.count(self.numbers));
        match &term.kind {
            Kind::Skip | Kind::Diverge(_) | Kind::Constant(..) => 1,
            Kind::Private { .. } => 2,
            Kind::Name { once, .. } => self.use_of_name(term, *once, scope),
            Kind::Parameter { id, .. } => parameter(*id, scope),
            Kind::Call { id, .. } => self.call(*id, &term.parts, scope),
            Kind::Operate(_) => self.sum(&[(1, &term.parts[0]), (count(0), &term.parts[1])], scope),
            Kind::Assign => self.sum(&[(count(0), &term.parts[0]), (1, &term.parts[1])], scope),
            Kind::Fetch | Kind::Sequence | Kind::If | Kind::While => {
                let parts: Vec<(u64, &Term)> = term.parts.iter().map(|p| (1, p)).collect();
                self.sum(&parts, scope)
            }
            Kind::New { id, data } => {
                let times = data.count(self.numbers);
                times.saturating_mul(self.inside(Bound::Block(*id), &term.parts[0], scope))
            }
            Kind::Procedure(procedure) => {
                let bound = Bound::Procedure(Record { procedure, term: &term.parts[0] });
                self.inside(bound, &term.parts[1], scope)
            }
        }
    }

    /// The sum of parts, each so many times.
    fn sum(&mut self, parts: &[(u64, &'a Term)], scope: &mut Scope<'a>) -> u64 {
        parts.iter().fold(0, |sum: u64, (times, part)| {
            let weight = self.weight(part, scope);
            sum.saturating_add(times.saturating_mul(weight))
        })
    }

    fn use_of_name(&mut self, term: &'a Term, once: bool, scope: &mut Scope<'a>) -> u64 {
        let asked: Vec<(u64, &Term)> = term.parts.iter().map(|p| (p.gives.questions(self.numbers), p)).collect();
        let answers: u64 = term.parts.iter().map(|p| p.gives.answers(self.numbers)).sum();
        self.sum(&asked, scope).saturating_add(2 + once as u64 + answers)
    }

    /// A part with one entry more in its environment.
    fn inside(&mut self, bound: Bound<'a>, part: &'a Term, scope: &mut Scope<'a>) -> u64 {
        scope.push(bound);
        let weight = self.weight(part, scope);
        scope.pop();
        weight
    }

    /// A use of a procedure: its term in the environment of its record, with its arguments' weights.
    fn call(&mut self, id: u8, arguments: &'a [Term], scope: &mut Scope<'a>) -> u64 {
        let weights = arguments.iter().map(|a| self.weight(a, scope).min(TOO_HEAVY)).collect();
        let at = innermost(id, scope);
        let Bound::Procedure(record) = scope[at] else {
            unreachable!("a call is of a procedure");
        };
        let mut inner = scope[..at].to_vec();
        inner.push(Bound::Parameters(record, weights));
        if let Some(&weight) = self.known.get(&inner) {
            return weight;
        }
        let weight = self.weight(record.term, &mut inner);
        self.known.insert(inner, weight);
        weight
    }
}

/// The entry that binds the id.
fn innermost(id: u8, scope: &Scope) -> usize {
    scope.iter().rposition(|bound| bound.binds(id)).expect("what is used is bound")
}

fn parameter(id: u8, scope: &Scope) -> u64 {
    match &scope[innermost(id, scope)] {
        Bound::Parameters(record, weights) => weights[record.procedure.parameter(id).expect("it binds the id")],
        _ => unreachable!("it is a parameter"),
    }
}
