//! The parts of a sheet, and each as a sheet of its own, as request [7] of document 02 compares them.

use crate::reader::{read, Sheet};
use crate::sheet::{written, Data, Heading, Kind, Record, Term, Type};

pub struct Part<'a> {
    pub term: &'a Term,
    /// Where its kind byte stands in the sheet.
    pub place: usize,
    /// The private variables whose blocks enclose it, the outermost first.
    pub around: Vec<(u8, Data)>,
}

/// All parts of a sheet but those inside a procedure, kind 28. The whole term is the first.
pub fn parts(sheet: &Sheet) -> Vec<Part<'_>> {
    let mut found = Vec::new();
    Part { term: &sheet.term, place: sheet.heading_length, around: vec![] }.add_to(&mut found);
    found
}

impl<'a> Part<'a> {
    /// Adds the part and those inside it.
    fn add_to(self, found: &mut Vec<Part<'a>>) {
        let (term, mut place, mut around) = (self.term, self.place, self.around.clone());
        found.push(self);
        match term.kind {
            Kind::Procedure(_) => return,
            Kind::New { id, data } => around.push((id, data)),
            _ => {}
        }
        place += length(|out| term.kind.write(out));
        for part in &term.parts {
            Part { term: part, place, around: around.clone() }.add_to(found);
            place += length(|out| part.write(out));
        }
    }

    /// The heading of its own sheet: that of the whole sheet, and a name without arguments for each variable around it.
    pub fn heading(&self, whole: &Heading) -> Heading {
        let mut heading = whole.clone();
        heading.records.extend(self.around.iter().map(|&(id, data)| Record::Declare {
            once: false,
            id,
            result: Type::Variable(data),
            arguments: vec![],
        }));
        heading
    }

    /// The whole sheet with another part in its place.
    pub fn exchanged(&self, whole: &[u8], other: &Term) -> Vec<u8> {
        let behind = self.place + length(|out| self.term.write(out));
        let mut bytes = whole[..self.place].to_vec();
        other.write(&mut bytes);
        bytes.extend(&whole[behind..]);
        bytes
    }
}

/// How many bytes are written.
fn length(write: impl Fn(&mut Vec<u8>)) -> usize {
    let mut out = Vec::new();
    write(&mut out);
    out.len()
}

/// That two sheets, where both are accepted, differ in the part at that place only, and what its own sheets are.
pub fn expect_one_part(old: &[u8], new: &[u8], place: usize, own: [&[u8]; 2]) -> Result<(), String> {
    let (Ok(a), Ok(b)) = (read(old), read(new)) else {
        return Ok(());
    };
    let (Some(one), Some(other)) = (part_at(&a, place), part_at(&b, place)) else {
        return Err(format!("no part stands at {place}"));
    };
    if one.exchanged(old, other.term) != new {
        return Err(format!("the sheets differ beside the part at {place}"));
    }
    let sheets = [(&a, &one), (&b, &other)].map(|(sheet, part)| written(&part.heading(&sheet.heading), part.term));
    if sheets == own {
        Ok(())
    } else {
        Err("these are not the sheets of the parts".to_string())
    }
}

/// The part whose kind byte stands at that place.
pub fn part_at(sheet: &Sheet, place: usize) -> Option<Part<'_>> {
    parts(sheet).into_iter().find(|part| part.place == place)
}
