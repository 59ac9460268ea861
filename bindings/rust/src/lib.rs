//! Negyvosal: routines of a small block language, written as sheets, compared by their complete plays.
//!
//! Each service takes sheets as bytes, lends the proved library what it asks for, and returns its answer. A refusal is
//! an `Err`; no bytes make a service panic.
//!
//! ```
//! use negyvosal::{compare, Compared, Which};
//! let (skip, hang) = ([1, 0, 16], [1, 0, 17, 0]);
//! let Ok(Compared::Apart { sheet, moves, .. }) = compare(&skip, &hang) else { panic!() };
//! assert_eq!((sheet, moves), (Which::Old, 2));
//! ```

pub mod boundary;

use boundary::*;

/// Which of two sheets. A service on one sheet calls it old.
#[derive(Clone, Copy, Debug, PartialEq, Eq)]
pub enum Which {
    Old,
    New,
    Both,
}

/// The types of terms.
#[derive(Clone, Copy, Debug, PartialEq, Eq)]
pub enum Type {
    Command,
    Truth,
    Number,
    TruthVariable,
    NumberVariable,
}

/// A sheet or a call that is refused: the cause, 1 to 18, the sheet and the byte.
#[derive(Clone, Copy, Debug, PartialEq, Eq)]
pub struct Refused {
    pub number: u32,
    pub sheet: Which,
    pub place: u64,
}

/// Which declared names a sheet uses: a bit for each name record, how many are set, and the first declared record whose
/// bit is not.
#[derive(Clone, Copy, Debug, PartialEq, Eq)]
pub struct Uses {
    pub mark: u32,
    pub used: u32,
    pub unused: Option<u32>,
}

/// A sheet that is in order.
#[derive(Clone, Copy, Debug, PartialEq, Eq)]
pub struct Accepted {
    pub kind: Type,
    pub size: usize,
    pub uses: Uses,
}

/// How many moves at the start of a play begin some complete play of a sheet, and whether the whole play is one.
#[derive(Clone, Copy, Debug, PartialEq, Eq)]
pub struct Followed {
    pub count: u64,
    pub complete: bool,
}

/// Two sheets with the same complete plays; or the first play that only one of them has, as the records of its moves.
#[derive(Clone, Debug, PartialEq, Eq)]
pub enum Compared {
    Same { old: Uses, new: Uses },
    Apart { sheet: Which, moves: usize, play: Vec<u8>, old: Uses, new: Uses },
}

/// The same by plays of at most so many moves, and how many were looked through.
#[derive(Clone, Debug, PartialEq, Eq)]
pub enum Looked {
    Same { looked: u64, old: Uses, new: Uses },
    SoFar { looked: u64, old: Uses, new: Uses },
    Apart { sheet: Which, moves: usize, play: Vec<u8>, old: Uses, new: Uses },
}

/// One id that renumber changed.
#[derive(Clone, Copy, Debug, PartialEq, Eq)]
pub struct Change {
    pub place: u16,
    pub old: u8,
    pub new: u8,
}

/// A sheet in which nothing hides another, with the plays of the one given, and what was changed in it.
#[derive(Clone, Debug, PartialEq, Eq)]
pub struct Renumbered {
    pub sheet: Vec<u8>,
    pub changes: Vec<Change>,
}

/// The words of an answer.
type Words = [u32; WORDS];

/// What a call returns: 1, for there is room for the answer.
const TOLD: u32 = 1;

/// What `unused` is where every declared name is used.
const NO_RECORD: u32 = 32;

/// A number from its low and its high half.
fn whole(low: u32, high: u32) -> u64 {
    u64::from(high) << 32 | u64::from(low)
}

fn which(word: u32) -> Which {
    match word {
        0 => Which::Old,
        1 => Which::New,
        _ => Which::Both,
    }
}

fn refused(out: &Words) -> Refused {
    Refused { number: out[1], sheet: which(out[2]), place: whole(out[3], out[4]) }
}

fn uses(out: &Words, at: usize) -> Uses {
    Uses { mark: out[at], used: out[at + 1], unused: Some(out[at + 2]).filter(|&record| record != NO_RECORD) }
}

/// The words of an answer that is no refusal.
fn answer(call: impl FnOnce(*mut u32, usize) -> u32) -> Result<Words, Refused> {
    let mut out = [0; WORDS];
    let told = call(out.as_mut_ptr(), out.len());
    debug_assert_eq!(told, TOLD);
    if out[0] == REFUSED {
        Err(refused(&out))
    } else {
        Ok(out)
    }
}

fn accepted(out: Words) -> Accepted {
    let kind = match out[1] {
        0 => Type::Command,
        1 => Type::Truth,
        2 => Type::Number,
        3 => Type::TruthVariable,
        _ => Type::NumberVariable,
    };
    Accepted { kind, size: out[2] as usize, uses: uses(&out, OLD_MARK) }
}

/// Whether a sheet is in order: its type and size, and which names it uses.
pub fn check(sheet: &[u8]) -> Result<Accepted, Refused> {
    // SAFETY: every pointer here and below comes with the length of its slice, and the slices do not overlap.
    answer(|out, room| unsafe { negyvosal_check(sheet.as_ptr(), sheet.len(), out, room) }).map(accepted)
}

/// The same of a sheet whose expressions have no side effects; else it is refused by 18.
pub fn profile(sheet: &[u8]) -> Result<Accepted, Refused> {
    // SAFETY: as in `check`.
    answer(|out, room| unsafe { negyvosal_profile(sheet.as_ptr(), sheet.len(), out, room) }).map(accepted)
}

/// How far a play, as the records of its moves, is one of the sheet's.
pub fn follow(sheet: &[u8], play: &[u8]) -> Result<Followed, Refused> {
    let size = check(sheet)?.size;
    let mut words = vec![0; state_words(sheet[0]) * (size + 1)];
    let out = answer(|out, room| unsafe {
        // SAFETY: as in `check`.
        negyvosal_follow(
            sheet.as_ptr(),
            sheet.len(),
            play.as_ptr(),
            play.len(),
            words.as_mut_ptr(),
            words.len(),
            out,
            room,
        )
    })?;
    Ok(Followed { count: whole(out[2], out[3]), complete: out[1] == 1 })
}

/// The working words and the play space that two sheets ask for; none where one of them is refused.
fn asked(old: &[u8], new: &[u8]) -> (Vec<u32>, Vec<u8>) {
    match (check(old), check(new)) {
        (Ok(first), Ok(second)) => {
            let sizes = first.size + second.size;
            (vec![0; state_words(old[0]) * (sizes + 1)], vec![0; 4 * (sizes - 1)])
        }
        _ => (Vec::new(), Vec::new()),
    }
}

/// The records of so many moves at the start of play space.
fn records(mut space: Vec<u8>, moves: usize) -> Vec<u8> {
    let end = (0..moves).fold(0, |at, _| at + if space[at] < 5 { 3 } else { 4 });
    space.truncate(end);
    space
}

/// Whether two sheets have the same complete plays; else the first play that only one of them has.
pub fn compare(old: &[u8], new: &[u8]) -> Result<Compared, Refused> {
    let (mut words, mut space) = asked(old, new);
    let out = answer(|out, room| unsafe {
        // SAFETY: as in `check`.
        negyvosal_compare(
            old.as_ptr(),
            old.len(),
            new.as_ptr(),
            new.len(),
            words.as_mut_ptr(),
            words.len(),
            space.as_mut_ptr(),
            space.len(),
            out,
            room,
        )
    })?;
    let (first, second) = (uses(&out, OLD_MARK), uses(&out, NEW_MARK));
    let moves = whole(out[2], out[3]) as usize;
    Ok(match out[0] {
        APART => Compared::Apart { sheet: which(out[1]), moves, play: records(space, moves), old: first, new: second },
        _ => Compared::Same { old: first, new: second },
    })
}

/// The same by plays of at most `limit` moves.
pub fn look(old: &[u8], new: &[u8], limit: u64) -> Result<Looked, Refused> {
    let (mut words, mut space) = asked(old, new);
    let out = answer(|out, room| unsafe {
        // SAFETY: as in `check`.
        negyvosal_look(
            old.as_ptr(),
            old.len(),
            new.as_ptr(),
            new.len(),
            limit,
            words.as_mut_ptr(),
            words.len(),
            space.as_mut_ptr(),
            space.len(),
            out,
            room,
        )
    })?;
    let (first, second) = (uses(&out, OLD_MARK), uses(&out, NEW_MARK));
    let looked = whole(out[2], out[3]);
    Ok(match out[0] {
        APART => {
            let moves = looked as usize;
            Looked::Apart { sheet: which(out[1]), moves, play: records(space, moves), old: first, new: second }
        }
        SO_FAR => Looked::SoFar { looked, old: first, new: second },
        _ => Looked::Same { looked, old: first, new: second },
    })
}

/// The card of a sheet: equal, byte for byte, for sheets that compare calls the same, and for no others.
pub fn card(sheet: &[u8]) -> Result<Vec<u8>, Refused> {
    let size = check(sheet)?.size;
    let mut words = vec![0; state_words(sheet[0]) * (size + 1)];
    let mut space = vec![0; card_space(sheet[0], size)];
    let out = answer(|out, room| unsafe {
        // SAFETY: as in `check`.
        negyvosal_card(
            sheet.as_ptr(),
            sheet.len(),
            words.as_mut_ptr(),
            words.len(),
            space.as_mut_ptr(),
            space.len(),
            out,
            room,
        )
    })?;
    space.truncate(whole(out[2], out[3]) as usize);
    Ok(space)
}

/// A sheet of the earlier rule with ids of their own for what hid another.
pub fn renumber(sheet: &[u8]) -> Result<Renumbered, Refused> {
    let (mut output, mut list) = (vec![0; sheet.len()], [0; LIST]);
    let out = answer(|out, room| unsafe {
        // SAFETY: as in `check`.
        negyvosal_renumber(
            sheet.as_ptr(),
            sheet.len(),
            output.as_mut_ptr(),
            output.len(),
            list.as_mut_ptr(),
            list.len(),
            out,
            room,
        )
    })?;
    let changes = list.chunks_exact(CHANGE).take(out[1] as usize);
    let changes = changes.map(|c| Change { place: u16::from_le_bytes([c[0], c[1]]), old: c[2], new: c[3] }).collect();
    Ok(Renumbered { sheet: output, changes })
}

#[cfg(test)]
mod tests {
    use super::*;

    const SKIP: [u8; 3] = [1, 0, 16];
    const HANG: [u8; 4] = [1, 0, 17, 0];
    const NONE: Uses = Uses { mark: 0, used: 0, unused: None };

    #[test]
    fn one_sheet() {
        assert_eq!(check(&SKIP), Ok(Accepted { kind: Type::Command, size: 4, uses: NONE }));
        assert_eq!(profile(&SKIP), check(&SKIP));
        assert_eq!(check(&[]), Err(Refused { number: 2, sheet: Which::Old, place: 0 }));
        assert_eq!(follow(&SKIP, &[0, 255, 0]), Ok(Followed { count: 1, complete: false }));
        assert_eq!(follow(&SKIP, &[7]), Err(Refused { number: 15, sheet: Which::Old, place: 0 }));
        assert_eq!(card(&HANG), Ok(vec![1, 0, 0]));
        assert_eq!(renumber(&SKIP), Ok(Renumbered { sheet: SKIP.to_vec(), changes: vec![] }));
        assert_eq!(renumber(&[]).map_err(|refused| refused.number), Err(2));
    }

    #[test]
    fn two_sheets() {
        let play = vec![0, 255, 0, 1, 255, 0];
        assert_eq!(compare(&SKIP, &SKIP), Ok(Compared::Same { old: NONE, new: NONE }));
        let apart = Compared::Apart { sheet: Which::New, moves: 2, play: play.clone(), old: NONE, new: NONE };
        assert_eq!(compare(&HANG, &SKIP), Ok(apart));
        assert_eq!(look(&SKIP, &SKIP, 3), Ok(Looked::SoFar { looked: 3, old: NONE, new: NONE }));
        assert_eq!(look(&SKIP, &SKIP, u64::MAX), Ok(Looked::Same { looked: 7, old: NONE, new: NONE }));
        assert_eq!(look(&SKIP, &HANG, 1), Ok(Looked::SoFar { looked: 1, old: NONE, new: NONE }));
        let apart = Looked::Apart { sheet: Which::Old, moves: 2, play, old: NONE, new: NONE };
        assert_eq!(look(&SKIP, &HANG, 2), Ok(apart));
        assert_eq!(compare(&SKIP, &[]), Err(Refused { number: 2, sheet: Which::New, place: 0 }));
        assert_eq!(compare(&SKIP, &[2, 0, 16]), Err(Refused { number: 12, sheet: Which::Both, place: 0 }));
    }
}
