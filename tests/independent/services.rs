//! The three services of document 01, and the renumbering, the look, the profile and the card of document 02: their
//! refusals in order, their answers, and how they are printed.

use crate::card::{positions, written};
use crate::compare::{first_difference, Difference};
use crate::look::{walk, Sight};
use crate::machine::{Machine, Move};
use crate::mark::Mark;
use crate::reader::{read, read_under, Fault, Rule, Sheet};
use crate::renumber::{renumbered, Change, LIST};
use crate::vectors::hex;

#[derive(Clone, Copy, Debug, PartialEq)]
pub enum Which {
    Old,
    New,
    Both,
}

impl Which {
    pub fn word(self) -> u32 {
        self as u32
    }

    fn name(self) -> &'static str {
        match self {
            Which::Old => "old",
            Which::New => "new",
            Which::Both => "both",
        }
    }
}

/// The marks of an old and a new sheet.
pub type Marks = [Mark; 2];

#[derive(Clone, Debug, PartialEq)]
pub enum Answer {
    Refused {
        number: u32,
        sheet: Which,
        place: usize,
    },
    Accepted {
        kind: u32,
        size: u64,
        mark: Mark,
    },
    Followed {
        count: usize,
        complete: bool,
    },
    /// Both comparisons have the marks of the old and the new sheet.
    Same {
        marks: Marks,
    },
    Apart {
        sheet: Which,
        play: Vec<Move>,
        marks: Marks,
    },
    /// Of a look: "same", or else "same so far".
    Looked {
        through: u64,
        same: bool,
        marks: Marks,
    },
    Renumbered {
        sheet: Vec<u8>,
        changes: Vec<Change>,
    },
    Carded {
        card: Vec<u8>,
    },
    /// No answer of document 01: the search over pairs was given up.
    Unknown,
}

fn refused(fault: Fault, sheet: Which) -> Answer {
    Answer::Refused { number: fault.number, sheet, place: fault.place }
}

fn refused_both(number: u32) -> Answer {
    Answer::Refused { number, sheet: Which::Both, place: 0 }
}

pub fn check(bytes: &[u8]) -> Answer {
    match read(bytes) {
        Err(fault) => refused(fault, Which::Old),
        Ok(sheet) => Answer::Accepted { kind: sheet.term.gives.byte() as u32, size: sheet.size, mark: sheet.mark() },
    }
}

/// Check, and then the profile of quiet expressions.
pub fn profile(bytes: &[u8]) -> Answer {
    match read(bytes).ok().and_then(|sheet| sheet.first_offence()) {
        Some(place) => Answer::Refused { number: 18, sheet: Which::Old, place },
        None => check(bytes),
    }
}

/// The working words for each position counted, where numbers are -Z to Z.
fn words_each(z: i8) -> u64 {
    if z > 7 { 128 } else { 32 }
}

/// The working words that follow needs.
pub fn words_to_follow(z: i8, size: u64) -> u64 {
    words_each(z) * (size + 1)
}

/// The working words that compare needs.
pub fn words_to_compare(z: i8, old: u64, new: u64) -> u64 {
    words_each(z) * (old + new + 1)
}

/// The bytes of card space that card needs.
pub fn space_for_card(z: i8, size: u64) -> u64 {
    let each = if z > 7 { 512 } else { 128 };
    each * size
}

/// The bytes of play space that compare needs.
pub fn space_to_compare(old: u64, new: u64) -> u64 {
    4 * (old + new - 1)
}

pub fn follow(bytes: &[u8], play: &[u8], words: usize) -> Answer {
    let sheet = match read(bytes) {
        Err(fault) => return refused(fault, Which::Old),
        Ok(sheet) => sheet,
    };
    if (words as u64) < words_to_follow(sheet.heading.numbers.z, sheet.size) {
        return refused_both(13);
    }
    match read_play(play) {
        Err(place) => Answer::Refused { number: 15, sheet: Which::Old, place },
        Ok(moves) => {
            let (count, complete) = Machine::of(&sheet).follow(&moves);
            Answer::Followed { count, complete }
        }
    }
}

/// `words` and `space` are the working words and the bytes of card space lent.
pub fn card(bytes: &[u8], words: usize, space: usize) -> Answer {
    let sheet = match read(bytes) {
        Err(fault) => return refused(fault, Which::Old),
        Ok(sheet) => sheet,
    };
    let z = sheet.heading.numbers.z;
    if (words as u64) < words_to_follow(z, sheet.size) {
        return refused_both(13);
    }
    if (space as u64) < space_for_card(z, sheet.size) {
        return refused_both(14);
    }
    Answer::Carded { card: card_of(bytes, &sheet) }
}

/// The card of an accepted sheet with these bytes: the heading, the type and the table.
pub fn card_of(bytes: &[u8], sheet: &Sheet) -> Vec<u8> {
    let mut card = bytes[..sheet.heading_length].to_vec();
    card.push(sheet.term.gives.byte());
    card.extend(written(&positions(&Machine::of(sheet))));
    card
}

/// The moves of a play, or the place of its first bad record.
pub fn read_play(bytes: &[u8]) -> Result<Vec<Move>, usize> {
    let mut moves = Vec::new();
    let mut at = 0;
    while at < bytes.len() {
        let record = Move::length(bytes[at]).and_then(|length| bytes.get(at..at + length));
        let record = record.ok_or(at)?;
        let value = record.get(3).map_or(0, |&b| b as i8);
        moves.push(Move { kind: record[0], id: record[1], argument: record[2], value });
        at += record.len();
    }
    Ok(moves)
}

/// The first moves of a play, or none where the bytes do not begin with as many records.
pub fn first_moves(bytes: &[u8], count: usize) -> Option<Vec<Move>> {
    let mut length = 0;
    for _ in 0..count {
        length += Move::length(*bytes.get(length)?)?;
    }
    read_play(bytes.get(..length)?).ok()
}

pub fn compare(old: &[u8], new: &[u8], words: usize, space: usize, most_pairs: usize) -> Answer {
    match read_both(old, new, words, space) {
        Err(answer) => answer,
        Ok((a, b)) => compare_machines(&Machine::of(&a), &Machine::of(&b), marks_of(&a, &b), most_pairs),
    }
}

/// Both sheets, or what compare refuses them with.
pub fn read_both(old: &[u8], new: &[u8], words: usize, space: usize) -> Result<(Sheet, Sheet), Answer> {
    let a = read(old).map_err(|fault| refused(fault, Which::Old))?;
    let b = read(new).map_err(|fault| refused(fault, Which::New))?;
    if old[..a.heading_length] != new[..b.heading_length] || a.term.gives != b.term.gives {
        return Err(refused_both(12));
    }
    if (words as u64) < words_to_compare(a.heading.numbers.z, a.size, b.size) {
        return Err(refused_both(13));
    }
    if (space as u64) < space_to_compare(a.size, b.size) {
        return Err(refused_both(14));
    }
    Ok((a, b))
}

pub fn marks_of(old: &Sheet, new: &Sheet) -> Marks {
    [old.mark(), new.mark()]
}

pub fn compare_machines(old: &Machine, new: &Machine, marks: Marks, most_pairs: usize) -> Answer {
    match first_difference(old, new, most_pairs) {
        Difference::Same => Answer::Same { marks },
        Difference::TooMany => Answer::Unknown,
        Difference::Apart { in_old, play } => {
            Answer::Apart { sheet: if in_old { Which::Old } else { Which::New }, play, marks }
        }
    }
}

/// A look through plays of at most `limit` moves, of two sheets that compare accepts. Beyond S + T - 1 there is nothing
/// to be seen, so it looks no further.
pub fn look_machines(old: &Machine, new: &Machine, whole: u64, limit: u64, marks: Marks, most_steps: usize) -> Answer {
    match walk(old, new, limit.min(whole) as usize, most_steps) {
        Sight::Nothing => Answer::Looked { through: limit.min(whole), same: limit >= whole, marks },
        Sight::TooMany => Answer::Unknown,
        Sight::Apart { in_old, play } => {
            Answer::Apart { sheet: if in_old { Which::Old } else { Which::New }, play, marks }
        }
    }
}

/// A look through plays of at most `limit` moves.
pub fn look(old: &[u8], new: &[u8], limit: u64, words: usize, space: usize) -> Answer {
    match read_both(old, new, words, space) {
        Err(answer) => answer,
        Ok((a, b)) => {
            let (old, new) = (Machine::of(&a), Machine::of(&b));
            look_machines(&old, &new, a.size + b.size - 1, limit, marks_of(&a, &b), usize::MAX)
        }
    }
}

/// The lines that show a look: the sizes, the moves looked through, the answer.
pub fn look_text(old: &[u8], new: &[u8], limit: u64, words: usize, space: usize) -> String {
    match read_both(old, new, words, space) {
        Err(answer) => text(&answer),
        Ok((a, b)) => {
            let answer = look(old, new, limit, words, space);
            let through = match &answer {
                Answer::Looked { through, .. } => *through,
                Answer::Apart { play, .. } => play.len() as u64,
                other => unreachable!("{other:?} is no answer of look"),
            };
            format!("old {} new {}\nlooked {through}\n{}", a.size, b.size, text(&answer))
        }
    }
}

/// `output` and `list` are the bytes lent for the sheet and for the list of changes.
pub fn renumber(bytes: &[u8], output: usize, list: usize) -> Answer {
    let sheet = match read_under(Rule::Earlier, bytes) {
        Err(fault) => return refused(fault, Which::Old),
        Ok(sheet) => sheet,
    };
    if output < bytes.len() || list < LIST {
        return refused_both(14);
    }
    match renumbered(&sheet) {
        Err(place) => Answer::Refused { number: 17, sheet: Which::Old, place },
        Ok((sheet, changes)) => Answer::Renumbered { sheet, changes },
    }
}

/// The bytes of a list of changes.
pub fn listed(changes: &[Change]) -> Vec<u8> {
    changes.iter().flat_map(Change::bytes).collect()
}

/// The records of a play.
pub fn records(play: &[Move]) -> Vec<u8> {
    let mut bytes = Vec::new();
    play.iter().for_each(|m| m.write(&mut bytes));
    bytes
}

/// The lines that show an answer. Those of a comparison come after the lines with the sizes and the names used.
pub fn text(answer: &Answer) -> String {
    match answer {
        Answer::Refused { number, sheet, place } => format!("refused {number} {} {place}\n", sheet.name()),
        Answer::Accepted { kind, size, mark: Mark { bits, used, unused } } => {
            format!("accepted type {kind} size {size} mark {bits} used {used} unused {unused}\n")
        }
        Answer::Followed { count, complete } => {
            format!("follows {count} complete {}\n", if *complete { "yes" } else { "no" })
        }
        Answer::Same { .. } | Answer::Looked { same: true, .. } => "same\n".to_string(),
        Answer::Looked { .. } => "same so far\n".to_string(),
        Answer::Apart { sheet, play, .. } => {
            let head = format!("apart in {} {}\n", sheet.name(), play.len());
            play.iter().fold(head, |lines, m| lines + &move_text(m))
        }
        Answer::Renumbered { sheet, changes } => {
            format!("renumbered {}\nsheet {}\nlist {}\n", changes.len(), hex(sheet), hex(&listed(changes)))
        }
        Answer::Carded { card } => format!("card {}\n{}\n", card.len(), hex(card)),
        Answer::Unknown => "unknown\n".to_string(),
    }
}

fn move_text(m: &Move) -> String {
    if m.kind < 5 {
        format!("{} {} {}\n", m.kind, m.id, m.argument)
    } else {
        format!("{} {} {} {}\n", m.kind, m.id, m.argument, m.value)
    }
}

/// What the program of document 01 prints for two sheets.
pub fn compare_text(old: &[u8], new: &[u8], words: usize, space: usize) -> String {
    match read_both(old, new, words, space) {
        Err(answer) => text(&answer),
        Ok((a, b)) => {
            let answer = compare(old, new, words, space, usize::MAX);
            format!("old {} new {}\n{}{}", a.size, b.size, uses_text(&a, &b), text(&answer))
        }
    }
}

/// What compare says of two parts as sheets of their own and of the whole sheets, with room enough.
pub fn parts_text(old: &[u8], new: &[u8], part_old: &[u8], part_new: &[u8]) -> String {
    format!("parts {} whole {}\n", verdict(part_old, part_new), verdict(old, new))
}

fn verdict(old: &[u8], new: &[u8]) -> String {
    match compare(old, new, usize::MAX, usize::MAX, usize::MAX) {
        Answer::Refused { number, .. } => format!("refused {number}"),
        Answer::Same { .. } => "same".to_string(),
        _ => "apart".to_string(),
    }
}

/// The line that says how many of the declared names each sheet uses.
fn uses_text(old: &Sheet, new: &Sheet) -> String {
    let [a, b] = [old, new].map(|sheet| format!("{} of {}", sheet.mark().used, sheet.declared()));
    format!("uses {a} and {b}\n")
}
