//! Cases for cards: sheets of all sizes, the smallest too, for which card space is only just enough; sheets with
//! procedures; and pairs that may have one card.

use super::damage::damaged;
use super::hiding::hidden;
use super::{compare_of, near, near_needed, pairs, procedures, sheet, Case};
use crate::generate::{self, Generator};
use crate::random::Random;
use crate::reader::read;
use crate::services::{space_for_card, words_to_follow};
use crate::sheet::{written, Type};

pub fn case(random: &mut Random) -> Case {
    match random.below(20) {
        0..=11 => case_of_one(random),
        12 => {
            let pair = pairs::counters(random);
            compare_of(random, pair)
        }
        13..=14 => {
            let pair = procedures::pair(random);
            compare_of(random, pair)
        }
        _ => {
            let pair = pairs::pair(random);
            compare_of(random, pair)
        }
    }
}

fn case_of_one(random: &mut Random) -> Case {
    let sheet = match random.below(40) {
        0 => near::sheet(random),
        1..=12 => smallest(random),
        13..=20 => procedures::sheet(random),
        _ => sheet(random),
    };
    let sheet = match random.below(20) {
        0 => damaged(random, sheet),
        1 => hidden(random, sheet),
        _ => sheet,
    };
    let (words, space) = match read(&sheet) {
        Ok(accepted) => {
            let (z, size) = (accepted.heading.numbers.z, accepted.size);
            (near_needed(random, words_to_follow(z, size)), near_needed(random, space_for_card(z, size)))
        }
        Err(_) => (random.below(300), random.below(300)),
    };
    Case::Card { sheet, words, space }
}

/// A sheet with many names, so that its heading is long, and a term of few records.
fn smallest(random: &mut Random) -> Vec<u8> {
    let most = random.choose(&[0, 6, 40]);
    let heading = generate::heading(random, most);
    let (wanted, size) = (random.choose(&Type::ALL), random.between(4, 12) as u64);
    let term = Generator::new(random, &heading).whole(wanted, size);
    written(&heading, &term)
}
