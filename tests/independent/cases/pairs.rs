//! Pairs of sheets with the same heading, most of them related. Each comes with whether the two surely have the same
//! plays.

use super::counter::Counter;
use super::long::Long;
use super::{heading, size, whole_type};
use crate::generate::{self, Generator};
use crate::random::Random;
use crate::reader::read;
use crate::sheet::{written, Data, Term};

pub type Pair = (Vec<u8>, Vec<u8>, bool);

/// A random sheet and a tidied or altered copy, or another sheet.
pub fn pair(random: &mut Random) -> Pair {
    let heading = heading(random);
    let (wanted, size) = (whole_type(random), size(random));
    let style = random.below(20);
    let steps = random.between(1, 4);
    let mut generator = Generator::new(random, &heading).hiding_at_times();
    let old = generator.whole(wanted, size);
    let new = match style {
        0 => old.clone(),
        1..=5 => fitting(&mut generator, &old, |g, t| g.tidied(t, steps)),
        6..=13 => fitting(&mut generator, &old, |g, t| g.altered(t, steps)),
        14..=16 => fitting(&mut generator, &old, |g, t| {
            let altered = g.altered(t, 1);
            g.tidied(&altered, steps)
        }),
        17 => {
            let other = whole_type(generator.random);
            generator.whole(other, size)
        }
        _ => generator.whole(wanted, size),
    };
    swapped_at_random(random, (written(&heading, &old), written(&heading, &new), style <= 5))
}

/// The pair, or the same with the sheets in each other's place.
pub fn swapped_at_random(random: &mut Random, (old, new, alike): Pair) -> Pair {
    if random.one_in(2) {
        (new, old, alike)
    } else {
        (old, new, alike)
    }
}

/// Two short sheets of operators that differ a little.
pub fn arithmetic_pair(random: &mut Random) -> Pair {
    let heading = generate::heading(random, 0);
    let data = random.choose(&Data::ALL);
    let mut generator = Generator::new(random, &heading);
    let old = generator.arithmetic(data, 3);
    let new = generator.altered(&old, 1);
    (written(&heading, &old), written(&heading, &new), false)
}

/// Two sheets over counters, which only long plays tell apart.
pub fn counters(random: &mut Random) -> Pair {
    let counter = Counter::random(random);
    let mut other = counter.clone();
    let alike = random.one_in(3);
    if !alike {
        other.change(random);
    }
    if random.one_in(2) {
        other.down = !other.down;
    }
    let (old, new) = if random.one_in(2) { (&counter, &other) } else { (&other, &counter) };
    (old.sheet(), new.sheet(), alike)
}

/// Two long sheets, the same but for one use or wholly.
pub fn long_pair(random: &mut Random) -> Pair {
    let long = Long::random(random);
    let mut other = long.clone();
    let alike = random.one_in(3);
    if !alike {
        other.change(random);
    }
    let (sheet, other) = (long.sheet(), other.other_sheet(random));
    if random.one_in(2) {
        (sheet, other, alike)
    } else {
        (other, sheet, alike)
    }
}

/// A changed copy that is accepted, if one is found in a few trials.
pub fn fitting(generator: &mut Generator, term: &Term, change: impl Fn(&mut Generator, &Term) -> Term) -> Term {
    for _ in 0..5 {
        let changed = change(generator, term);
        if read(&written(generator.heading, &changed)).is_ok() {
            return changed;
        }
    }
    change(generator, term)
}
