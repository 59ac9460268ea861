//! The proved library through its C boundary. Every call tests that the library changes nothing but what it may.

pub use crate::boundary::WORDS;
use crate::boundary::{negyvosal_card, negyvosal_check, negyvosal_compare, negyvosal_follow, negyvosal_look};
use crate::boundary::{negyvosal_profile, negyvosal_renumber};
use crate::boundary::{ACCEPTED, APART, CARD, FOLLOWS, REFUSED, RENUMBERED, SAME, SO_FAR};
use crate::boundary::{NEW_MARK, NEW_UNUSED, NEW_USED, OLD_MARK, OLD_UNUSED, OLD_USED};
use crate::mark::Mark;
use crate::services::{listed, records, Answer};

pub type Words = [u32; WORDS];

const GUARD: usize = 16;

/// Elements lent to a call, with guards of a known pattern before and after them.
struct Lent<T> {
    name: &'static str,
    before: Vec<T>,
    memory: Vec<T>,
}

impl<T: Copy + PartialEq + std::fmt::Debug> Lent<T> {
    fn new(name: &'static str, values: &[T], pattern: impl Fn(usize) -> T) -> Lent<T> {
        let mut before: Vec<T> = (0..GUARD).map(&pattern).collect();
        before.extend_from_slice(values);
        before.extend((GUARD..2 * GUARD).map(&pattern));
        Lent { name, memory: before.clone(), before }
    }

    fn length(&self) -> usize {
        self.before.len() - 2 * GUARD
    }

    fn start(&self) -> *const T {
        self.memory[GUARD..].as_ptr()
    }

    fn start_mut(&mut self) -> *mut T {
        self.memory[GUARD..].as_mut_ptr()
    }

    fn now(&self) -> &[T] {
        &self.memory[GUARD..GUARD + self.length()]
    }

    /// The first elements are the given ones, and all else is as it was.
    fn expect(&self, first: &[T]) -> Result<(), String> {
        let wanted = self.before[..GUARD].iter().chain(first).chain(&self.before[GUARD + first.len()..]);
        match self.memory.iter().zip(wanted).position(|(is, should)| is != should) {
            None => Ok(()),
            Some(i) => {
                let place = i as isize - GUARD as isize;
                Err(format!("{}[{place}] is {:?} after the call", self.name, self.memory[i]))
            }
        }
    }
}

fn pattern(i: usize) -> u32 {
    (i as u32).wrapping_add(3).wrapping_mul(0x85EBCA77)
}

fn lent_bytes(name: &'static str, bytes: &[u8]) -> Lent<u8> {
    Lent::new(name, bytes, |i| pattern(i) as u8)
}

fn lent_words(name: &'static str, length: usize) -> Lent<u32> {
    let values: Vec<u32> = (0..length).map(pattern).collect();
    Lent::new(name, &values, |i| !pattern(i))
}

/// Bytes for the library to write to.
fn lent_space(name: &'static str, length: usize) -> Lent<u8> {
    let filling: Vec<u8> = (0..length).map(|i| !pattern(i) as u8).collect();
    lent_bytes(name, &filling)
}

/// The words of an answer, once it is sure that the call returned 1 and wrote no others.
fn answer(told: u32, out: &Lent<u32>) -> Result<Words, String> {
    if told != 1 {
        return Err(format!("it returns {told}"));
    }
    let words = std::array::from_fn(|i| out.now()[i]);
    out.expect(&words)?;
    Ok(words)
}

/// Working words are all 0 after an accepted call, and untouched after a refusal.
fn expect_words(words: &Lent<u32>, accepted: bool) -> Result<(), String> {
    words.expect(&vec![0; if accepted { words.length() } else { 0 }])
}

/// What the library answers; `room` is how many words are lent for the answer, at least `WORDS`.
pub fn check(sheet: &[u8], room: usize) -> Result<Words, String> {
    let sheet = lent_bytes("sheet", sheet);
    let mut out = lent_words("out", room);
    // SAFETY: every pointer is to as many elements as its length says, and none overlap.
    let told = unsafe { negyvosal_check(sheet.start(), sheet.length(), out.start_mut(), out.length()) };
    sheet.expect(&[])?;
    answer(told, &out)
}

pub fn profile(sheet: &[u8], room: usize) -> Result<Words, String> {
    let sheet = lent_bytes("sheet", sheet);
    let mut out = lent_words("out", room);
    // SAFETY: every pointer is to as many elements as its length says, and none overlap.
    let told = unsafe { negyvosal_profile(sheet.start(), sheet.length(), out.start_mut(), out.length()) };
    sheet.expect(&[])?;
    answer(told, &out)
}

pub fn follow(sheet: &[u8], play: &[u8], words: usize, room: usize) -> Result<Words, String> {
    let sheet = lent_bytes("sheet", sheet);
    let play = lent_bytes("play", play);
    let mut words = lent_words("words", words);
    let mut out = lent_words("out", room);
    // SAFETY: every pointer is to as many elements as its length says, and none overlap.
    let told = unsafe {
        negyvosal_follow(
            sheet.start(),
            sheet.length(),
            play.start(),
            play.length(),
            words.start_mut(),
            words.length(),
            out.start_mut(),
            out.length(),
        )
    };
    sheet.expect(&[])?;
    play.expect(&[])?;
    let got = answer(told, &out)?;
    expect_words(&words, got[0] != REFUSED)?;
    Ok(got)
}

/// What compare, look and card give: the words of the answer, and play space or card space.
pub struct Compared {
    pub words: Words,
    space: Lent<u8>,
}

impl Compared {
    /// The space starts with these bytes, and the rest of it is untouched.
    pub fn expect_space(&self, first: &[u8]) -> Result<(), String> {
        self.space.expect(first)
    }

    /// The space as it is now.
    pub fn space(&self) -> &[u8] {
        self.space.now()
    }
}

/// What is lent to compare and to look.
struct Pair {
    old: Lent<u8>,
    new: Lent<u8>,
    words: Lent<u32>,
    space: Lent<u8>,
    out: Lent<u32>,
}

impl Pair {
    fn lend(old: &[u8], new: &[u8], words: usize, space: usize, room: usize) -> Pair {
        Pair {
            old: lent_bytes("old", old),
            new: lent_bytes("new", new),
            words: lent_words("words", words),
            space: lent_space("space", space),
            out: lent_words("out", room),
        }
    }

    fn told(self, told: u32) -> Result<Compared, String> {
        self.old.expect(&[])?;
        self.new.expect(&[])?;
        let got = answer(told, &self.out)?;
        expect_words(&self.words, got[0] != REFUSED)?;
        Ok(Compared { words: got, space: self.space })
    }
}

pub fn compare(old: &[u8], new: &[u8], words: usize, space: usize, room: usize) -> Result<Compared, String> {
    let mut lent = Pair::lend(old, new, words, space, room);
    let Pair { old, new, words, space, out } = &mut lent;
    // SAFETY: every pointer is to as many elements as its length says, and none overlap.
    let told = unsafe {
        negyvosal_compare(
            old.start(),
            old.length(),
            new.start(),
            new.length(),
            words.start_mut(),
            words.length(),
            space.start_mut(),
            space.length(),
            out.start_mut(),
            out.length(),
        )
    };
    lent.told(told)
}

pub fn look(old: &[u8], new: &[u8], limit: u64, words: usize, space: usize, room: usize) -> Result<Compared, String> {
    let mut lent = Pair::lend(old, new, words, space, room);
    let Pair { old, new, words, space, out } = &mut lent;
    // SAFETY: as in compare.
    let told = unsafe {
        negyvosal_look(
            old.start(),
            old.length(),
            new.start(),
            new.length(),
            limit,
            words.start_mut(),
            words.length(),
            space.start_mut(),
            space.length(),
            out.start_mut(),
            out.length(),
        )
    };
    lent.told(told)
}

pub fn card(sheet: &[u8], words: usize, space: usize, room: usize) -> Result<Compared, String> {
    let sheet = lent_bytes("sheet", sheet);
    let mut words = lent_words("words", words);
    let mut space = lent_space("space", space);
    let mut out = lent_words("out", room);
    // SAFETY: every pointer is to as many elements as its length says, and none overlap.
    let told = unsafe {
        negyvosal_card(
            sheet.start(),
            sheet.length(),
            words.start_mut(),
            words.length(),
            space.start_mut(),
            space.length(),
            out.start_mut(),
            out.length(),
        )
    };
    sheet.expect(&[])?;
    let got = answer(told, &out)?;
    expect_words(&words, got[0] != REFUSED)?;
    Ok(Compared { words: got, space })
}

/// What renumber gives: the words of its answer, the output and the list.
pub struct Renumbered {
    pub words: Words,
    output: Lent<u8>,
    list: Lent<u8>,
}

impl Renumbered {
    /// Both start with what the answer says, and all else is untouched.
    pub fn expect(&self, answer: &Answer) -> Result<(), String> {
        match answer {
            Answer::Renumbered { sheet, changes } => {
                self.output.expect(sheet)?;
                self.list.expect(&listed(changes))
            }
            _ => {
                self.output.expect(&[])?;
                self.list.expect(&[])
            }
        }
    }
}

pub fn renumber(sheet: &[u8], output: usize, list: usize, room: usize) -> Result<Renumbered, String> {
    let sheet = lent_bytes("sheet", sheet);
    let mut output = lent_space("output", output);
    let mut list = lent_space("list", list);
    let mut out = lent_words("out", room);
    // SAFETY: every pointer is to as many elements as its length says, and none overlap.
    let told = unsafe {
        negyvosal_renumber(
            sheet.start(),
            sheet.length(),
            output.start_mut(),
            output.length(),
            list.start_mut(),
            list.length(),
            out.start_mut(),
            out.length(),
        )
    };
    sheet.expect(&[])?;
    Ok(Renumbered { words: answer(told, &out)?, output, list })
}

/// The low and the high half of a number.
fn halves(number: usize) -> [u32; 2] {
    [number as u32, (number as u64 >> 32) as u32]
}

/// The words that an answer should have: its kind and values, and then the marks of the sheets that it speaks of.
pub fn words_of(answer: &Answer) -> Words {
    match answer {
        Answer::Refused { number, sheet, place } => {
            let [low, high] = halves(*place);
            words([REFUSED, *number, sheet.word(), low, high], &[])
        }
        Answer::Accepted { kind, size, mark } => words([ACCEPTED, *kind, *size as u32, 0, 0], &[*mark]),
        Answer::Followed { count, complete } => {
            let [low, high] = halves(*count);
            words([FOLLOWS, *complete as u32, low, high, 0], &[])
        }
        Answer::Same { marks } => words([SAME, 0, 0, 0, 0], marks),
        Answer::Apart { sheet, play, marks } => {
            let [low, high] = halves(play.len());
            words([APART, sheet.word(), low, high, 0], marks)
        }
        Answer::Looked { through, same, marks } => {
            let [low, high] = halves(*through as usize);
            words([if *same { SAME } else { SO_FAR }, 0, low, high, 0], marks)
        }
        Answer::Renumbered { changes, .. } => words([RENUMBERED, changes.len() as u32, 0, 0, 0], &[]),
        Answer::Carded { card } => {
            let [low, high] = halves(card.len());
            words([CARD, 0, low, high, 0], &[])
        }
        Answer::Unknown => [u32::MAX; WORDS],
    }
}

/// Where the words of a mark stand, of the old sheet and of the new one.
const MARKS: [[usize; 3]; 2] = [[OLD_MARK, OLD_USED, OLD_UNUSED], [NEW_MARK, NEW_USED, NEW_UNUSED]];

/// The first words of an answer, and those of the marks; the others are 0.
fn words(first: [u32; OLD_MARK], marks: &[Mark]) -> Words {
    let mut words = [0; WORDS];
    words[..OLD_MARK].copy_from_slice(&first);
    for (mark, [bits, used, unused]) in marks.iter().zip(MARKS) {
        words[bits] = mark.bits;
        words[used] = mark.used;
        words[unused] = mark.unused;
    }
    words
}

/// The bytes that an answer should write into play space or card space.
pub fn bytes_of(answer: &Answer) -> Vec<u8> {
    match answer {
        Answer::Apart { play, .. } => records(play),
        Answer::Carded { card } => card.clone(),
        _ => vec![],
    }
}
