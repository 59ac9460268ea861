//! Random cases of the services.

pub mod cards;
mod counter;
mod damage;
pub mod deep;
mod hiding;
mod limits;
mod long;
pub mod names;
pub mod near;
mod pairs;
pub mod parts;
pub mod plays;
pub mod procedures;
pub mod quiet;
pub mod renumber;

use crate::generate::{self, Generator};
use crate::machine::Machine;
use crate::random::Random;
use crate::reader::read;
use crate::services::{space_to_compare, words_to_compare, words_to_follow};
use crate::sheet::{written, Data, Heading, Term, Type};
use damage::{damaged, misnamed, random_bytes, redeclared};
use hiding::hidden;
use limits::sheet_at_a_limit;
use long::Long;
use names::sheet_of_names;
use parts::OnePart;
use plays::{play_for, random_play};

pub enum Case {
    Check {
        sheet: Vec<u8>,
    },
    Follow {
        sheet: Vec<u8>,
        play: Vec<u8>,
        words: usize,
    },
    /// `alike` says that the new sheet is a tidied copy of the old one, or the same.
    Compare {
        old: Vec<u8>,
        new: Vec<u8>,
        words: usize,
        space: usize,
        alike: bool,
    },
    /// `output` and `list` are the bytes lent for the sheet and for the list of changes.
    Renumber {
        sheet: Vec<u8>,
        output: usize,
        list: usize,
    },
    Parts(OnePart),
    /// `words` and `space` are the working words and the bytes of card space lent.
    Card {
        sheet: Vec<u8>,
        words: usize,
        space: usize,
    },
}

pub fn case(random: &mut Random) -> Case {
    match random.below(20) {
        0..=4 => Case::Check { sheet: sheet_to_check(random) },
        5..=9 => case_to_follow(random),
        _ => case_to_compare(random),
    }
}

/// The size that a sheet is to have, more or less: most are short.
fn size(random: &mut Random) -> u64 {
    let size = match random.below(100) {
        0..=1 => random.between(2500, 4096),
        2..=10 => random.between(150, 1000),
        11..=60 => random.between(30, 150),
        _ => random.between(4, 40),
    };
    size as u64
}

fn whole_type(random: &mut Random) -> Type {
    match random.below(4) {
        0..=1 => Type::Command,
        2 => Type::Expression(Data::Number),
        _ => random.choose(&Type::ALL),
    }
}

fn few_or_many(random: &mut Random) -> usize {
    if random.one_in(30) {
        40
    } else {
        random.choose(&[0, 2, 4, 6, 8])
    }
}

fn heading(random: &mut Random) -> Heading {
    let most = few_or_many(random);
    generate::heading(random, most)
}

/// A heading and a term; the sheet may still be refused for its size or its length.
fn heading_and_term(random: &mut Random) -> (Heading, Term) {
    let heading = heading(random);
    let (wanted, size) = (whole_type(random), size(random));
    let term = Generator::new(random, &heading).hiding_at_times().whole(wanted, size);
    (heading, term)
}

fn sheet(random: &mut Random) -> Vec<u8> {
    if random.one_in(200) {
        return Long::random(random).sheet();
    }
    let (heading, term) = heading_and_term(random);
    written(&heading, &term)
}

/// A short sheet of operators.
fn arithmetic_sheet(random: &mut Random) -> Vec<u8> {
    let heading = generate::heading(random, 0);
    let data = random.choose(&Data::ALL);
    let term = Generator::new(random, &heading).arithmetic(data, 3);
    written(&heading, &term)
}

fn sheet_to_check(random: &mut Random) -> Vec<u8> {
    match random.below(13) {
        0..=1 => sheet(random),
        2..=4 => sheet_at_a_limit(random),
        5 => random_bytes(random),
        6 => misnamed(random),
        7..=8 => {
            let sheet = sheet(random);
            hidden(random, sheet)
        }
        9 => sheet_of_names(random),
        _ => {
            let sheet = sheet(random);
            damaged(random, sheet)
        }
    }
}

/// A number near the one that is needed.
fn near_needed(random: &mut Random, needed: u64) -> usize {
    let needed = needed as usize;
    match random.below(40) {
        0 => needed - 1,
        1 => random.below(needed),
        2 => random.below(200),
        3..=4 => 16_384,
        5..=14 => needed + random.between(1, 60),
        _ => needed,
    }
}

fn case_to_follow(random: &mut Random) -> Case {
    let mut sheet = if random.one_in(6) { arithmetic_sheet(random) } else { sheet(random) };
    match random.below(40) {
        0..=1 => sheet = damaged(random, sheet),
        2 => sheet = hidden(random, sheet),
        _ => {}
    }
    follow_of(random, sheet)
}

/// A play to follow through the sheet.
fn follow_of(random: &mut Random, sheet: Vec<u8>) -> Case {
    let (play, words) = match read(&sheet) {
        Ok(accepted) => {
            let machine = Machine::of(&accepted);
            let needed = words_to_follow(accepted.heading.numbers.z, accepted.size);
            (play_for(random, &machine), near_needed(random, needed))
        }
        Err(_) => (random_play(random), random.below(300)),
    };
    Case::Follow { sheet, play, words }
}

fn case_to_compare(random: &mut Random) -> Case {
    let (mut old, mut new, mut alike) = match random.below(120) {
        0..=9 => pairs::counters(random),
        10 => pairs::long_pair(random),
        11..=22 => pairs::arithmetic_pair(random),
        _ => pairs::pair(random),
    };
    let spoilt = random.below(40);
    match spoilt {
        0 => old = damaged(random, old),
        1 => new = damaged(random, new),
        2 => {
            old = damaged(random, old);
            new = damaged(random, new);
        }
        3 => new = sheet(random),
        4 => new[random.below(2)] ^= 1,
        5 => old = hidden(random, old),
        6 => new = hidden(random, new),
        7 => new = redeclared(random, new),
        _ => {}
    }
    alike &= spoilt > 7;
    compare_of(random, (old, new, alike))
}

/// The comparison of two sheets, with about as much lent as is needed.
fn compare_of(random: &mut Random, (old, new, alike): pairs::Pair) -> Case {
    let (words, space) = match (read(&old), read(&new)) {
        (Ok(a), Ok(b)) => {
            let words = near_needed(random, words_to_compare(a.heading.numbers.z, a.size, b.size));
            let space = near_needed(random, space_to_compare(a.size, b.size));
            (words, space)
        }
        _ => (random.below(300), random.below(300)),
    };
    Case::Compare { old, new, words, space, alike }
}
