//! Which declared names a sheet uses, as request [6] of document 02 asks.

use crate::reader::Sheet;
use crate::sheet::{Kind, Record, Term};

/// The number of the first unused record where there is none.
pub const NONE: u32 = 32;

/// What check tells of the names of a sheet.
#[derive(Clone, Copy, Debug, PartialEq)]
pub struct Mark {
    /// A bit for each name record, the first record lowest: whether some use means that name.
    pub bits: u32,
    /// How many bits are set.
    pub used: u32,
    /// The number of the first declared record without a bit, or 32.
    pub unused: u32,
}

/// Whether some use in the term means the declared name with that id.
fn uses_name(term: &Term, id: u8) -> bool {
    matches!(term.kind, Kind::Name { id: used, .. } if used == id) || term.parts.iter().any(|part| uses_name(part, id))
}

impl Sheet {
    pub fn mark(&self) -> Mark {
        let mut mark = Mark { bits: 0, used: 0, unused: NONE };
        for (record, number) in self.heading.records.iter().zip(0..) {
            if uses_name(&self.term, record.id()) {
                mark.bits += 1 << number;
                mark.used += 1;
            } else if is_declared(record) && mark.unused == NONE {
                mark.unused = number;
            }
        }
        mark
    }

    /// How many records declare a name.
    pub fn declared(&self) -> usize {
        self.heading.records.iter().filter(|record| is_declared(record)).count()
    }
}

fn is_declared(record: &Record) -> bool {
    matches!(record, Record::Declare { .. })
}
