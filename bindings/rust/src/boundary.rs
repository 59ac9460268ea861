//! The boundary of the library, as `negyvosal.h` has it for C: the words of an answer and the services. The tests and
//! benches here, which lend what they please, take it in as a module of their own.

/// How many words an answer has: word 0 is its kind, the next four are its values, and the rest tell which names its
/// sheets use.
pub const WORDS: usize = 11;

/// The words that tell of the names of the sheet that check accepts, or of the old one of two that are compared or
/// looked through: its mark, how many names it uses, and the first declared record that it does not use, or 32. The
/// same of the new one.
/// Where there are none, as in a refusal, they are 0.
pub const OLD_MARK: usize = 5;
pub const OLD_USED: usize = 6;
pub const OLD_UNUSED: usize = 7;
pub const NEW_MARK: usize = 8;
pub const NEW_USED: usize = 9;
pub const NEW_UNUSED: usize = 10;

/// The kinds of answers.
pub const REFUSED: u32 = 0;
pub const ACCEPTED: u32 = 1;
pub const FOLLOWS: u32 = 2;
pub const SAME: u32 = 3;
pub const APART: u32 = 4;
pub const RENUMBERED: u32 = 5;
/// The same so far: of a look only.
pub const SO_FAR: u32 = 6;
pub const CARD: u32 = 7;

/// The working words for each position counted, where Z, the first byte of a sheet, is `z`. Follow and card need them
/// for its size and one position more, compare and look for both sizes and one more.
pub const fn state_words(z: u8) -> usize {
    if z > 7 {
        128
    } else {
        32
    }
}

/// The bytes of card space that card needs for a sheet of that size, where its Z is `z`.
pub const fn card_space(z: u8, size: usize) -> usize {
    let each = if z > 7 { 512 } else { 128 };
    each * size
}

/// The kinds of records in a card: a position; a move of it, and one with a value.
pub const POSITION: u8 = 40;
pub const MOVE: u8 = 41;
pub const VALUED_MOVE: u8 = 42;

/// The bytes of the list that renumber needs, and how many of them a change has.
pub const LIST: usize = 1020;
pub const CHANGE: usize = 4;

extern "C" {
    pub fn negyvosal_check(sheet: *const u8, sheet_length: usize, out: *mut u32, out_length: usize) -> u32;

    pub fn negyvosal_profile(sheet: *const u8, sheet_length: usize, out: *mut u32, out_length: usize) -> u32;

    pub fn negyvosal_follow(
        sheet: *const u8,
        sheet_length: usize,
        play: *const u8,
        play_length: usize,
        words: *mut u32,
        words_length: usize,
        out: *mut u32,
        out_length: usize,
    ) -> u32;

    pub fn negyvosal_compare(
        old: *const u8,
        old_length: usize,
        new: *const u8,
        new_length: usize,
        words: *mut u32,
        words_length: usize,
        space: *mut u8,
        space_length: usize,
        out: *mut u32,
        out_length: usize,
    ) -> u32;

    /// `limit` is the number of moves that are looked through at most.
    pub fn negyvosal_look(
        old: *const u8,
        old_length: usize,
        new: *const u8,
        new_length: usize,
        limit: u64,
        words: *mut u32,
        words_length: usize,
        space: *mut u8,
        space_length: usize,
        out: *mut u32,
        out_length: usize,
    ) -> u32;

    pub fn negyvosal_renumber(
        sheet: *const u8,
        sheet_length: usize,
        output: *mut u8,
        output_length: usize,
        list: *mut u8,
        list_length: usize,
        out: *mut u32,
        out_length: usize,
    ) -> u32;

    /// The card stands at the start of `space`.
    pub fn negyvosal_card(
        sheet: *const u8,
        sheet_length: usize,
        words: *mut u32,
        words_length: usize,
        space: *mut u8,
        space_length: usize,
        out: *mut u32,
        out_length: usize,
    ) -> u32;
}
