//! Cases for the profile: sheets, most of them expressions, in which few records or none offend.

use super::damage::damaged;
use super::hiding::hidden;
use super::procedures::{heading, size};
use super::{whole_type, Case};
use crate::generate::Generator;
use crate::random::Random;
use crate::sheet::{written, Data, Kind, Term, Type};

pub fn case(random: &mut Random) -> Case {
    let heading = heading(random);
    let data = random.choose(&Data::ALL);
    let wanted = if random.one_in(4) { whole_type(random) } else { Type::Expression(data) };
    let size = 4 * size(random);
    let made = Generator::with_procedures(random, &heading).whole(wanted, size);
    let kept = random.choose(&[0, 0, 1, 1, 2]);
    let term = Quieter { random, left: offending(&made, false), kept }.quiet(made, false);
    let sheet = written(&heading, &term);
    let sheet = match random.below(20) {
        0 => damaged(random, sheet),
        1 => hidden(random, sheet),
        _ => sheet,
    };
    Case::Check { sheet }
}

fn is_expression(term: &Term) -> bool {
    matches!(term.gives, Type::Expression(_))
}

/// Whether a term may not stand inside an expression as it is.
fn is_loud(term: &Term) -> bool {
    match term.kind {
        Kind::Sequence | Kind::Procedure(_) => true,
        Kind::Name { .. } | Kind::Call { .. } => !term.parts.iter().all(is_expression),
        _ => false,
    }
}

/// How many records of the term offend.
fn offending(term: &Term, inside: bool) -> usize {
    let inside = inside || is_expression(term);
    let own = (inside && is_loud(term)) as usize;
    own + term.parts.iter().map(|part| offending(part, inside)).sum::<usize>()
}

/// Takes out the records that offend, but for a few.
struct Quieter<'a> {
    random: &'a mut Random,
    /// How many records that offend are still to come, and how many of them are to be kept.
    left: usize,
    kept: usize,
}

impl Quieter<'_> {
    /// Whether the next record that offends is kept: each of those to come is as likely to be.
    fn keeps(&mut self) -> bool {
        let kept = self.random.below(self.left.max(1)) < self.kept;
        self.left = self.left.saturating_sub(1);
        self.kept -= kept as usize;
        kept
    }

    fn quiet(&mut self, mut term: Term, inside: bool) -> Term {
        let inside = inside || is_expression(&term);
        if inside && is_loud(&term) && !self.keeps() {
            return match (&term.kind, term.parts.pop()) {
                (Kind::Sequence, Some(second)) => self.quiet(second, inside),
                _ => leaf(term.gives),
            };
        }
        let parts = term.parts.into_iter().map(|part| self.quiet(part, inside)).collect();
        Term { kind: term.kind, gives: term.gives, parts }
    }
}

/// A term of that type in which nothing is used.
fn leaf(wanted: Type) -> Term {
    match wanted {
        Type::Command => Term::new(Kind::Skip, vec![]),
        Type::Expression(data) => Term::new(Kind::Constant(data, 1), vec![]),
        Type::Variable(_) => Term::new(Kind::Diverge(wanted), vec![]),
    }
}
