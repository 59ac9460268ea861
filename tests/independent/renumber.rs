//! Renumbers a sheet as request [4] of document 02 asks: each binder that hides an enclosing one gets an id of its own.
//!
//! The sheet is written out anew, from left to right. On the way it is known of each binder around the place at hand
//! which id it has in the sheet as read and which one it has now.

use crate::reader::Sheet;
use crate::sheet::{Kind, Procedure, Term, Type};
use std::collections::BTreeSet;

/// The bytes that the list of changes must have.
pub const LIST: usize = 1020;

/// A binder's change of id.
#[derive(Clone, Copy, Debug, PartialEq)]
pub struct Change {
    /// The place of its id byte.
    pub place: usize,
    pub old: u8,
    pub new: u8,
}

impl Change {
    pub fn bytes(&self) -> [u8; 4] {
        [self.place as u8, (self.place >> 8) as u8, self.old, self.new]
    }
}

/// A sheet that is written anew.
struct Copy {
    written: Vec<u8>,
    changes: Vec<Change>,
    /// The ids that nothing has, in the sheet as read or as written so far.
    free: BTreeSet<u8>,
    /// The binders around the place at hand, the innermost last: the id as read, and the one as written.
    scope: Vec<(u8, u8)>,
}

/// The bytes of the sheet renumbered and the changes, or the place of the id byte for which no id is left.
pub fn renumbered(sheet: &Sheet) -> Result<(Vec<u8>, Vec<Change>), usize> {
    let mut written = Vec::new();
    sheet.heading.write(&mut written);
    let mut free: BTreeSet<u8> = (0..255).filter(|&id| sheet.heading.record(id).is_none()).collect();
    take_bound(&sheet.term, &mut free);
    let mut copy = Copy { written, changes: Vec::new(), free, scope: Vec::new() };
    copy.term(&sheet.term)?;
    Ok((copy.written, copy.changes))
}

/// Takes out the ids of all binders of a term.
fn take_bound(term: &Term, free: &mut BTreeSet<u8>) {
    for (i, part) in term.parts.iter().enumerate() {
        let bound = term.bound_in(i);
        free.retain(|id| !bound.contains(id));
        take_bound(part, free);
    }
}

impl Copy {
    fn term(&mut self, term: &Term) -> Result<(), usize> {
        match &term.kind {
            Kind::New { id, data } => {
                let own = self.binder(*id, self.written.len() + 1)?;
                Kind::New { id: own, data: *data }.write(&mut self.written);
                self.part(&term.parts[0], &[(*id, own)])
            }
            Kind::Procedure(procedure) => self.procedure(procedure, &term.parts),
            kind => {
                self.with_current_id(kind).write(&mut self.written);
                term.parts.iter().try_for_each(|part| self.term(part))
            }
        }
    }

    fn procedure(&mut self, procedure: &Procedure, parts: &[Term]) -> Result<(), usize> {
        let record = self.written.len();
        let id = self.binder(procedure.id, record + 1)?;
        let mut parameters: Vec<(u8, Type)> = Vec::new();
        for (j, &(own, wanted)) in procedure.parameters.iter().enumerate() {
            parameters.push((self.binder(own, record + 4 + 2 * j)?, wanted));
        }
        let bound: Vec<(u8, u8)> = procedure.parameters.iter().zip(&parameters).map(|(a, b)| (a.0, b.0)).collect();
        Kind::Procedure(Procedure { id, result: procedure.result, parameters }).write(&mut self.written);
        self.part(&parts[0], &bound)?;
        self.part(&parts[1], &[(procedure.id, id)])
    }

    /// A part in which these are bound too.
    fn part(&mut self, part: &Term, bound: &[(u8, u8)]) -> Result<(), usize> {
        let outside = self.scope.len();
        self.scope.extend(bound);
        self.term(part)?;
        self.scope.truncate(outside);
        Ok(())
    }

    /// The id as it is now of what the innermost binder makes of it.
    fn current(&self, id: u8) -> Option<u8> {
        self.scope.iter().rev().find(|bound| bound.0 == id).map(|bound| bound.1)
    }

    /// The id that a binder shall have whose id byte stands at that place.
    fn binder(&mut self, old: u8, place: usize) -> Result<u8, usize> {
        if self.current(old).is_none() {
            return Ok(old);
        }
        let new = self.free.pop_first().ok_or(place)?;
        self.changes.push(Change { place, old, new });
        Ok(new)
    }

    /// A record that binds nothing: a use follows its binder.
    fn with_current_id(&self, kind: &Kind) -> Kind {
        let mut kind = kind.clone();
        if let Some(id) = kind.used_id() {
            *id = self.current(*id).unwrap_or(*id);
        }
        kind
    }
}
