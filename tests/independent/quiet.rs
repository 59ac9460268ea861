//! Which records offend against the profile of request [13] of document 02: by the extents of the expressions in bytes,
//! and by what is declared of a name or a procedure that is used.

use crate::reader::Sheet;
use crate::sheet::{Heading, Kind, Procedure, Record, Term, Type};

/// The parts of a sheet that are expressions, from their first byte up to the byte after them, and the places of the
/// records that may not stand inside one.
struct Extents<'a> {
    heading: &'a Heading,
    /// The procedures that may be used at the place at hand.
    procedures: Vec<&'a Procedure>,
    expressions: Vec<(usize, usize)>,
    loud: Vec<usize>,
}

fn is_expression(wanted: &Type) -> bool {
    matches!(wanted, Type::Expression(_))
}

impl<'a> Extents<'a> {
    /// Whether a command or a variable is among the arguments that are declared of the name or the procedure.
    fn is_loud(&self, kind: &Kind) -> bool {
        match kind {
            Kind::Sequence | Kind::Procedure(_) => true,
            Kind::Name { id, .. } => match self.heading.record(*id) {
                Some(Record::Declare { arguments, .. }) => !arguments.iter().all(is_expression),
                _ => false,
            },
            Kind::Call { id, .. } => {
                let used = self.procedures.iter().rev().find(|procedure| procedure.id == *id);
                used.is_some_and(|procedure| !procedure.types().iter().all(is_expression))
            }
            _ => false,
        }
    }

    /// Adds the part at a place; the place after it.
    fn add(&mut self, term: &'a Term, at: usize) -> usize {
        if self.is_loud(&term.kind) {
            self.loud.push(at);
        }
        let mut head = Vec::new();
        term.kind.write(&mut head);
        let mut end = at + head.len();
        let around = self.procedures.len();
        for (i, part) in term.parts.iter().enumerate() {
            if let (Kind::Procedure(procedure), 1) = (&term.kind, i) {
                self.procedures.push(procedure);
            }
            end = self.add(part, end);
        }
        self.procedures.truncate(around);
        if is_expression(&term.gives) {
            self.expressions.push((at, end));
        }
        end
    }
}

impl Sheet {
    /// The place of the first record that offends.
    pub fn first_offence(&self) -> Option<usize> {
        let (expressions, loud) = (Vec::new(), Vec::new());
        let mut extents = Extents { heading: &self.heading, procedures: Vec::new(), expressions, loud };
        extents.add(&self.term, self.heading_length);
        let inside = |at: usize| extents.expressions.iter().any(|&(from, end)| from <= at && at < end);
        extents.loud.iter().copied().filter(|&at| inside(at)).min()
    }
}
