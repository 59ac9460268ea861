//! Compares two parts as sheets of their own, and the whole sheets. As request [7] of document 02 says, the whole
//! sheets are the same where the parts are.

use super::{run_case, Counts};
use crate::boundary::{APART, SAME};
use crate::cases::parts::OnePart;
use crate::cases::Case;
use crate::library;
use crate::part::part_at;
use crate::reader::{read, Fault};
use crate::services::{space_to_compare, words_to_compare};
use crate::sheet::{Kind, Term};

/// The refusals that the sheet of a part may have where the whole sheet is accepted: its length, its names, its size.
const NO_ROOM: [u32; 3] = [1, 9, 11];

/// What the library says of two sheets.
#[derive(Clone, Copy, PartialEq)]
enum Verdict {
    Same,
    Apart,
    Refused(u32),
}

/// How often each thing happened.
#[derive(Default)]
pub struct PartCounts {
    same: usize,
    /// Pairs that are the same in part and whole.
    both_same: usize,
    apart: usize,
    /// Pairs that are the same though their parts are apart.
    only_whole_same: usize,
    refused: [usize; 18],
    most_around: usize,
    with_procedures: usize,
}

impl PartCounts {
    fn note(&mut self, parts: Verdict, wholes: Verdict) {
        match parts {
            Verdict::Same => {
                self.same += 1;
                self.both_same += (wholes == Verdict::Same) as usize;
            }
            Verdict::Apart => {
                self.apart += 1;
                self.only_whole_same += (wholes == Verdict::Same) as usize;
            }
            Verdict::Refused(number) => self.refused[number as usize] += 1,
        }
    }

    /// Notes what is around the part and in it.
    fn note_part(&mut self, whole: &[u8], place: usize) {
        let Ok(sheet) = read(whole) else {
            return;
        };
        if let Some(part) = part_at(&sheet, place) {
            self.most_around = self.most_around.max(part.around.len());
            self.with_procedures += has_procedures(part.term) as usize;
        }
    }

    pub fn print(&self) {
        println!("parts: {} same, {} of their wholes same", self.same, self.both_same);
        println!("parts: {} apart, {} of their wholes same", self.apart, self.only_whole_same);
        println!("parts: up to {} blocks around one, {} with procedures", self.most_around, self.with_procedures);
        println!("parts: refused, by number: {}", super::by_number(&self.refused));
    }
}

fn has_procedures(term: &Term) -> bool {
    matches!(term.kind, Kind::Procedure(_)) || term.parts.iter().any(has_procedures)
}

/// Two parts that are called the same stand in whole sheets that are called the same, unless these are refused.
pub fn run(case: &OnePart, room: usize, counts: &mut Counts) -> Result<(), String> {
    for (whole, part) in case.wholes.iter().zip(&case.parts) {
        run_case(&Case::Check { sheet: part.clone() }, room, counts)?;
        match (read(whole), read(part)) {
            (Ok(_), Err(Fault { number, .. })) if !NO_ROOM.contains(&number) => {
                return Err(format!("the sheet of a part is refused by {number}"));
            }
            _ => {}
        }
    }
    let parts = verdict(&case.parts, case.alike_alone, room, counts)?;
    let wholes = verdict(&case.wholes, case.alike, room, counts)?;
    counts.parts.note(parts, wholes);
    counts.parts.note_part(&case.wholes[0], case.place);
    match (parts, wholes) {
        (Verdict::Same, Verdict::Apart) => Err("the parts are the same, and the whole sheets are apart".to_string()),
        _ => Ok(()),
    }
}

/// What the library says of two sheets with just enough lent, which is held to the services here.
fn verdict([old, new]: &[Vec<u8>; 2], alike: bool, room: usize, counts: &mut Counts) -> Result<Verdict, String> {
    let (words, space) = match (read(old), read(new)) {
        (Ok(a), Ok(b)) => {
            let words = words_to_compare(a.heading.numbers.z, a.size, b.size);
            (words as usize, space_to_compare(a.size, b.size) as usize)
        }
        _ => (0, 0),
    };
    run_case(&Case::Compare { old: old.clone(), new: new.clone(), words, space, alike }, room, counts)?;
    let told = library::compare(old, new, words, space, room)?.words;
    Ok(match told[0] {
        SAME => Verdict::Same,
        APART => Verdict::Apart,
        _ => Verdict::Refused(told[1]),
    })
}
