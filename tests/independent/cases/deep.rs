//! Sheets without procedures that are as deep or as large as may be, one for each kind of record that has parts.

use crate::reader::{DEEPEST, LARGEST, LONGEST};
use crate::sheet::{written, Data, Heading, Kind, Numbers, Operator, Record, Term, Type};

const TRUTH: Type = Type::Expression(Data::Truth);
const NUMBER: Type = Type::Expression(Data::Number);
const VARIABLE: Type = Type::Variable(Data::Number);

/// The declared names: one of each type that is needed, one that takes a command and one that takes four; and one that
/// takes a command and asks once.
const NAMES: [(u8, Type, &[Type]); 7] = [
    (1, Type::Command, &[]),
    (2, TRUTH, &[]),
    (3, NUMBER, &[]),
    (4, VARIABLE, &[]),
    (5, Type::Command, &[Type::Command]),
    (6, Type::Command, &[Type::Command, TRUTH, VARIABLE, Type::Command]),
    (ONCE, Type::Command, &[Type::Command]),
];
const ONCE: u8 = 7;
/// The first id of private variables.
const PRIVATE: u8 = 10;

fn heading(z: i8) -> Heading {
    let declare = |&(id, result, arguments): &(u8, Type, &[Type])| Record::Declare {
        once: id == ONCE,
        id,
        result,
        arguments: arguments.to_vec(),
    };
    Heading { numbers: Numbers { z, rule: 0 }, records: NAMES.iter().map(declare).collect() }
}

/// A use of the first name with that result, which has no arguments.
fn plain(wanted: Type) -> Term {
    let name = NAMES.iter().find(|name| name.1 == wanted).expect("there is a name of that type");
    Term::new(Kind::Name { id: name.0, result: wanted, once: false }, vec![])
}

fn leaf(kind: Kind) -> Term {
    Term::new(kind, vec![])
}

/// A term put into `around` until the whole is as deep as may be; `around` makes it `step` deeper.
fn deepest(term: Term, step: usize, around: impl Fn(Term) -> Term) -> Term {
    (0..(DEEPEST - term.depth()) / step).fold(term, |term, _| around(term))
}

fn sequence(first: Term, then: Term) -> Term {
    Term::new(Kind::Sequence, vec![first, then])
}

/// Uses, and commands that have commands inside.
fn commands() -> Vec<(&'static str, Term)> {
    let command = || plain(Type::Command);
    let used = |id: u8, parts| Term::new(Kind::Name { id, result: Type::Command, once: id == ONCE }, parts);
    let four = |term| used(6, vec![command(), plain(TRUTH), plain(VARIABLE), term]);
    let branch = |term| Term::new(Kind::If, vec![plain(TRUTH), leaf(Kind::Skip), term]);
    let round = |term| Term::new(Kind::While, vec![plain(TRUTH), term]);
    let value = |term| Term::new(Kind::Assign, vec![plain(VARIABLE), sequence(term, plain(NUMBER))]);
    vec![
        ("second parts of sequences", deepest(command(), 1, |term| sequence(command(), term))),
        ("first parts of sequences", deepest(command(), 1, |term| sequence(term, command()))),
        ("arguments", deepest(command(), 1, |term| used(5, vec![term]))),
        ("arguments of names that ask once", deepest(command(), 1, |term| used(ONCE, vec![term]))),
        ("last of four arguments", deepest(command(), 1, four)),
        ("branches", deepest(command(), 1, branch)),
        ("rounds of loops", deepest(command(), 1, round)),
        ("values assigned", deepest(sequence(command(), command()), 2, value)),
        ("blocks", blocks(leaf(Kind::Skip), 11)),
    ]
}

/// Expressions and variables.
fn expressions() -> Vec<(&'static str, Term)> {
    let sum = |term| Term::new(Kind::Operate(Operator::Plus), vec![term, plain(NUMBER)]);
    let test = |term| Term::new(Kind::If, vec![term, plain(TRUTH), plain(TRUTH)]);
    let variables = deepest(plain(VARIABLE), 1, |term| sequence(plain(Type::Command), term));
    vec![
        ("left operands", deepest(plain(NUMBER), 1, sum)),
        ("tests", deepest(plain(TRUTH), 1, test)),
        ("variables fetched", Term::new(Kind::Fetch, vec![variables.parts[1].clone()])),
        ("variables", variables),
    ]
}

/// The term in so many blocks with truth variables of their own.
fn blocks(term: Term, count: u8) -> Term {
    (0..count).fold(term, |body, i| Term::new(Kind::New { id: PRIVATE + i, data: Data::Truth }, vec![body]))
}

/// So many terms in sequence, in a term of low depth.
fn in_sequence(term: &Term, count: usize) -> Term {
    match count {
        0 | 1 => term.clone(),
        _ => sequence(in_sequence(term, count / 2), in_sequence(term, count - count / 2)),
    }
}

/// As many bytes as may be, and as great a size.
fn largest() -> Vec<(&'static str, Term)> {
    let room = LONGEST - written(&heading(1), &leaf(Kind::Skip)).len();
    let weight = LARGEST as usize - 3;
    let quarter = in_sequence(&leaf(Kind::Skip), weight / 4);
    vec![
        ("as many bytes", in_sequence(&leaf(Kind::Skip), room / 2 + 1)),
        ("as great a size", sequence(blocks(quarter, 2), leaf(Kind::Skip))),
        ("as many uses", in_sequence(&plain(Type::Command), room / 3)),
    ]
}

/// The sheets, with what they are.
pub fn sheets() -> Vec<(String, Vec<u8>)> {
    let terms: Vec<(&str, Term)> = [commands(), expressions(), largest()].into_iter().flatten().collect();
    let ranges = [1, 7].into_iter();
    let all = ranges.flat_map(|z| terms.iter().map(move |(what, term)| (format!("{what}, Z {z}"), z, term)));
    all.map(|(what, z, term)| (what, written(&heading(z), term))).collect()
}
