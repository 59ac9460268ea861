//! The fifty pairs.

use crate::counters::Counter;
use crate::exploding::{self, dead_privates, endless};
use crate::names::{self, User};
use crate::random::Random;
use crate::routine::{self, asked_truth, command, taken, Author};
use crate::sheet::{Data, Heading, Numbers, Operator, Term, Type};
use crate::terms::*;
use crate::tidy::tidied;

const SEED: u64 = 14;
/// What the statements of a routine weigh, and the least size of its tidied copy.
const ROUTINE: u64 = 3460;
const COPY: u64 = 3860;
/// The most that one statement weighs: with blocks at any Z, with some of them, or so that there are many statements.
const HEAVY: u64 = ROUTINE / 2;
const MIDDLE: u64 = ROUTINE / 8;
const LIGHT: u64 = 100;
/// The most that a sheet of one block or of loops may weigh.
const FULL: u64 = 4075;

#[derive(Clone, Copy)]
pub enum Class {
    Loops,
    Tidied,
    Early,
    Late,
    News,
    Names,
    DeadPrivates,
    Endless,
}

impl Class {
    pub fn name(self) -> &'static str {
        match self {
            Class::Loops => "loops",
            Class::Tidied => "tidied",
            Class::Early => "apart-early",
            Class::Late => "apart-late",
            Class::News => "deep-news",
            Class::Names => "many-names",
            Class::DeadPrivates => "dead-privates",
            Class::Endless => "endless",
        }
    }
}

pub struct Pair {
    pub class: Class,
    pub what: String,
    pub heading: Heading,
    pub old: Term,
    pub new: Term,
}

/// All pairs, class by class.
pub fn fifty() -> Vec<Pair> {
    let mut pairs = loops();
    pairs.extend(tidied_routines());
    pairs.extend(apart_early());
    pairs.extend(apart_late());
    pairs.extend(deep_news());
    pairs.extend(many_names());
    pairs.extend(with_dead_privates());
    pairs.extend(endless_loops());
    pairs
}

/// `while e = e do c` again and again: the sheets with the most moves for their size.
fn loops() -> Vec<Pair> {
    let one = |z: i8| {
        let records = vec![declared(8, Type::Command, &[]), declared(9, NUMBER, &[])];
        let e = named(9, NUMBER, vec![]);
        let statement = repeat(operate(Operator::Equal, e.clone(), e), named(8, Type::Command, vec![]));
        let statements = vec![statement.clone(); (FULL / statement.weight(Numbers { z, rule: 0 })) as usize];
        Pair {
            class: Class::Loops,
            what: format!("{} times 'while e = e do c', in groups of 1 and of 5", statements.len()),
            heading: Heading { numbers: Numbers { z, rule: (z % 2 == 0) as u8 }, records },
            old: in_sequence(&statements, 1),
            new: in_sequence(&statements, 5),
        }
    };
    (1..=7).map(one).collect()
}

/// The random numbers of a pair.
fn random(class: Class, number: u64) -> Random {
    Random::new(SEED + class as u64, number)
}

fn tidied_routines() -> Vec<Pair> {
    let one = |number: u64| {
        let mut random = random(Class::Tidied, number);
        let (z, wraps) = (1 + number as i8 / 2, number % 2 == 1);
        let heading = routine::heading(z, wraps);
        let heaviest = if wraps { HEAVY } else { MIDDLE };
        let statements = Author { random: &mut random, z, heaviest }.statements(ROUTINE);
        let new = tidied(&mut random, &heading, &in_sequence(&statements, 5), COPY);
        let what = format!("a routine of {} statements and a tidied copy", statements.len());
        Pair { class: Class::Tidied, what, heading, old: in_sequence(&statements, 1), new }
    };
    (0..14).map(one).collect()
}

/// A routine that is played only where `b` is false; where it is true, something short, which differs.
fn apart_early() -> Vec<Pair> {
    let leads = [
        (1, command(0), command(1), "another command"),
        (2, skip(), command(0), "a command more"),
        (3, sequence(command(0), command(1)), sequence(command(1), command(0)), "two commands the other way round"),
        (5, taken(command(0)), taken(command(2)), "another argument"),
        (7, command(3), skip(), "a command less"),
    ];
    let one = |(number, (z, old, new, how)): (usize, (i8, Term, Term, &str))| {
        let mut random = random(Class::Early, number as u64);
        let heading = routine::heading(z, number % 2 == 1);
        let statements = Author { random: &mut random, z, heaviest: MIDDLE }.statements(ROUTINE);
        let rest = tidied(&mut random, &heading, &in_sequence(&statements, 5), COPY);
        Pair {
            class: Class::Early,
            what: format!("'if b' before a routine of {} statements and its tidied copy: {how}", statements.len()),
            heading,
            old: branch(asked_truth(), old, in_sequence(&statements, 1)),
            new: branch(asked_truth(), new, rest),
        }
    };
    leads.into_iter().enumerate().map(one).collect()
}

/// A routine and a tidied copy that ends with another command.
fn apart_late() -> Vec<Pair> {
    let one = |z: i8| {
        let mut random = random(Class::Late, z as u64);
        let heading = routine::heading(z, z % 2 == 0);
        let mut statements = Author { random: &mut random, z, heaviest: LIGHT }.statements(ROUTINE);
        statements.push(command(0));
        let old = in_sequence(&statements, 1);
        statements.pop();
        statements.push(command(if z % 3 == 0 { 2 } else { 1 }));
        let new = tidied(&mut random, &heading, &in_sequence(&statements, 5), COPY);
        let what = format!("a routine of {} statements and a tidied copy with another last one", statements.len());
        Pair { class: Class::Late, what, heading, old, new }
    };
    (1..=7).map(one).collect()
}

/// Counters of several private variables; a name moves them on and looks at them.
fn deep_news() -> Vec<Pair> {
    use Data::{Number, Truth};
    let counter = |z: i8, wraps: bool, digits: &[Data], mark: &[i8]| {
        let (digits, mark) = (digits.to_vec(), mark.to_vec());
        Counter { z, wraps, digits, mark, down: false, following: 0, group: 1 }
    };
    let both = [
        (counter(1, false, &[Number, Number, Number], &[1, 1, 1]), vec![1, 1, 1], "counting up and down"),
        (counter(2, true, &[Number, Number], &[2, -1]), vec![2, -1], "counting up and down"),
        (counter(1, true, &[Truth; 5], &[0, 1, 1, 1, 1]), vec![1, 1, 1, 1, 1], "marks at 30 and 31"),
        (counter(3, false, &[Number, Truth, Truth], &[-1, 1, 1]), vec![-2, 1, 1], "marks that differ"),
        (counter(5, true, &[Number, Truth], &[-1, 1]), vec![-2, 1], "marks that differ"),
        (counter(7, false, &[Number, Truth], &[-1, 1]), vec![-2, 1], "marks that differ"),
    ];
    let one = |(mut old, mark, how): (Counter, Vec<i8>, &str)| {
        fill(&mut old);
        let new = Counter { mark, down: true, group: 5, ..old.clone() };
        let what = format!("{} blocks inside each other: {how}; {} commands follow", old.digits.len(), old.following);
        Pair { class: Class::News, what, heading: old.heading(), old: old.term(), new: new.term() }
    };
    both.into_iter().map(one).collect()
}

/// Lets as many commands follow as the size and the length of a sheet allow.
fn fill(counter: &mut Counter) {
    while counter.following < 1200 && counter.term().size(counter.heading().numbers) + 2 <= FULL {
        counter.following += 1;
    }
}

/// Uses of 32 names with up to four arguments, with results of each type.
fn many_names() -> Vec<Pair> {
    let pairs = [(0, 1), (1, 2), (2, 3), (3, 4), (4, 5), (2, 7)];
    let one = |(number, (result, z)): (usize, (u8, i8))| {
        let mut random = random(Class::Names, number as u64);
        let heading = names::heading(&mut random, z, number % 2 == 0);
        let wanted = Type::from_byte(result).expect("a type");
        let old = User { random: &mut random, heading: &heading }.whole(wanted, ROUTINE);
        let apart = number % 3 == 2;
        let changed = if apart { sequence(named(0, Type::Command, vec![]), old.clone()) } else { old.clone() };
        let new = tidied(&mut random, &heading, &changed, COPY);
        let how = if apart { "with a command more" } else { "" };
        let what = format!("a term of {} parts over 32 names and a tidied copy {how}", old.records());
        Pair { class: Class::Names, what: what.trim_end().to_string(), heading, old, new }
    };
    pairs.into_iter().enumerate().map(one).collect()
}

fn with_dead_privates() -> Vec<Pair> {
    use Data::{Number, Truth};
    let all: [(i8, &[Data]); 3] = [(1, &[Truth; 5]), (1, &[Number; 3]), (3, &[Truth, Truth, Number])];
    let one = |(z, variables): (i8, &[Data])| {
        let mut count = 1;
        while dead_privates(variables, count + 1, true).size(Numbers { z, rule: 0 }) <= FULL {
            count += 1;
        }
        Pair {
            class: Class::DeadPrivates,
            what: format!("{} private variables that keep values asked for, and are not read", variables.len()),
            heading: exploding::heading(z, z > 1),
            old: dead_privates(variables, count, true),
            new: dead_privates(variables, count, false),
        }
    };
    all.into_iter().map(one).collect()
}

fn endless_loops() -> Vec<Pair> {
    use Data::{Number, Truth};
    let all: [(&[Data], usize, &[Data], usize); 2] =
        [(&[Number], 610, &[Truth, Truth], 449), (&[Truth, Number], 281, &[Truth, Truth, Truth], 205)];
    let one = |(old, many, new, more): (&[Data], usize, &[Data], usize)| Pair {
        class: Class::Endless,
        what: format!("rounds of {many} and of {more} commands without end, counted by private variables"),
        heading: exploding::heading(1, true),
        old: endless(old, many),
        new: endless(new, more),
    };
    all.into_iter().map(one).collect()
}
