//! Pairs of sheets that differ in one part only, and the two parts as sheets of their own. Parts are of every form and
//! type; many stand in blocks, and some have procedures in them. Of some sheets the heading, the length or the size
//! leaves no room for the sheet of a part.

use super::limits::{fill_records, retired};
use super::renumber::in_sequence;
use super::{heading, procedures, sheet, Case};
use crate::generate::{Generator, Meaning};
use crate::part::{parts, Part};
use crate::random::Random;
use crate::reader::{read, Sheet, LONGEST, MOST_RECORDS};
use crate::sheet::{written, Data, Heading, Kind, Operator, Procedure, Record, Term, Type};

/// How often a part is changed anew where the whole sheet is refused.
const TRIALS: usize = 5;

/// An old and a new sheet that differ in one part only, and the parts as sheets of their own.
pub struct OnePart {
    pub wholes: [Vec<u8>; 2],
    /// Where the part stands in both.
    pub place: usize,
    pub parts: [Vec<u8>; 2],
    /// Whether the whole sheets surely have the same plays, where they are accepted.
    pub alike: bool,
    /// Whether the parts surely have.
    pub alike_alone: bool,
}

pub fn case(random: &mut Random) -> Case {
    let old = accepted_sheet(random);
    let whole = read(&old).expect("the sheet was read before");
    let part = any_part(random, &whole);
    let own = part.heading(&whole.heading);
    let changed = fitting(random, &whole.heading, &own, &part, &old);
    let mut parts = [part.term, &changed.term].map(|term| written(&own, term));
    let new = part.exchanged(&old, &changed.term);
    let (place, mut wholes) = (part.place, [old.clone(), new]);
    if random.one_in(2) {
        parts.reverse();
        wholes.reverse();
    }
    Case::Parts(OnePart { wholes, place, parts, alike: changed.alike, alike_alone: changed.alike_alone })
}

fn accepted_sheet(random: &mut Random) -> Vec<u8> {
    loop {
        let sheet = match random.below(20) {
            0..=4 => sheet(random),
            5..=7 => procedures::sheet(random),
            8..=15 => in_blocks(random),
            16..=17 => long(random),
            _ => of_a_variable(random),
        };
        if read(&sheet).is_ok() {
            return sheet;
        }
    }
}

/// Commands in some blocks, whose variables they use, over few numbers. Now and then there are about as many name
/// records as may be.
fn in_blocks(random: &mut Random) -> Vec<u8> {
    let mut heading = heading(random);
    heading.numbers.z = random.choose(&[1, 1, 1, 2, 3]);
    let bell = (0..255).find(|&id| heading.record(id).is_none()).expect("there are few name records");
    heading.records.push(Record::Declare { once: false, id: bell, result: Type::Command, arguments: vec![] });
    if random.one_in(6) {
        fill_records(&mut heading, random.between(MOST_RECORDS - 3, MOST_RECORDS), retired);
    }
    let mut generator = generator(random, &heading);
    for _ in 0..generator.random.between(1, 4) {
        let (id, data) = (generator.binder_id(&[]), generator.random.choose(&Data::ALL));
        generator.scope.push((id, Meaning::Private(data)));
    }
    let mut commands: Vec<Term> = Vec::new();
    for _ in 0..generator.random.between(1, 4) {
        commands.push(command(&mut generator));
    }
    commands.extend(Data::ALL.into_iter().filter_map(|data| told(&mut generator, data, bell)));
    written(&heading, &blocks(&generator.scope, in_sequence(&commands)))
}

/// A command that writes a private variable, or any.
fn command(generator: &mut Generator) -> Term {
    let data = generator.random.choose(&Data::ALL);
    match generator.private(data).filter(|_| !generator.random.one_in(3)) {
        Some(variable) => {
            let plain = generator.random.one_in(2);
            let value = if plain { generator.constant(data) } else { generator.term(Type::Expression(data), 4, 4) };
            Term::new(Kind::Assign, vec![variable, value])
        }
        None => {
            let weight = generator.random.between(4, 40) as u64;
            generator.term(Type::Command, weight, 12)
        }
    }
}

/// A command that runs the bell where a private variable with such data, if there is one, holds some value.
fn told(generator: &mut Generator, data: Data, bell: u8) -> Option<Term> {
    let (variable, value) = (generator.private(data)?, generator.constant(data));
    let operator = if data == Data::Truth { Operator::Alike } else { Operator::Equal };
    let test = Term::new(Kind::Operate(operator), vec![Term::new(Kind::Fetch, vec![variable]), value]);
    let bell = Kind::Name { id: bell, result: Type::Command, once: false };
    let [bell, skip] = [bell, Kind::Skip].map(|kind| Term::new(kind, vec![]));
    Some(Term::new(Kind::If, vec![test, bell, skip]))
}

/// One that makes procedures too, half of the time.
fn generator<'a>(random: &'a mut Random, heading: &'a Heading) -> Generator<'a> {
    if random.one_in(2) {
        Generator::new(random, heading)
    } else {
        Generator::with_procedures(random, heading)
    }
}

/// The blocks of the private variables around the term, the first outermost.
fn blocks(scope: &[(u8, Meaning)], term: Term) -> Term {
    scope.iter().rev().fold(term, |inside, (id, meaning)| match meaning {
        Meaning::Private(data) => Term::new(Kind::New { id: *id, data: *data }, vec![inside]),
        _ => inside,
    })
}

/// A block around a command that is about as long as may be: in front of it stands a long procedure that is not used.
fn long(random: &mut Random) -> Vec<u8> {
    let heading = heading(random);
    let room = LONGEST - random.below(10);
    let mut generator = Generator::new(random, &heading);
    let (id, data) = (generator.binder_id(&[]), generator.random.choose(&Data::ALL));
    generator.scope.push((id, Meaning::Private(data)));
    let term = generator.term(Type::Command, 20, 6);
    let unused = Procedure { id: generator.spare, result: Type::Command, parameters: vec![] };
    let skips = |count| in_sequence(&vec![Term::new(Kind::Skip, vec![]); count]);
    let with = |count| Term::new(Kind::Procedure(unused.clone()), vec![skips(count), term.clone()]);
    let sheet = |count| written(&heading, &blocks(&generator.scope, with(count)));
    sheet(1 + room.saturating_sub(sheet(1).len()) / 2)
}

/// A value fetched from a large variable, which as a sheet of its own may be asked more than it is here.
fn of_a_variable(random: &mut Random) -> Vec<u8> {
    let heading = heading(random);
    let (data, weight) = (random.choose(&Data::ALL), random.between(100, 2000) as u64);
    let mut generator = Generator::new(random, &heading);
    let command = generator.term(Type::Command, weight, 20);
    let variable = generator.term(Type::Variable(data), 10, 6);
    let large = Term::new(Kind::Sequence, vec![command, variable]);
    written(&heading, &Term::new(Kind::Fetch, vec![large]))
}

/// Any part; often one in blocks, or the one right inside the whole term.
fn any_part<'a>(random: &mut Random, whole: &'a Sheet) -> Part<'a> {
    let mut all = parts(whole);
    let in_blocks: Vec<usize> = (0..all.len()).filter(|&i| !all[i].around.is_empty()).collect();
    let number = match random.below(4) {
        0 if all.len() > 1 => 1,
        1..=2 if !in_blocks.is_empty() => random.choose(&in_blocks),
        _ => random.below(all.len()),
    };
    all.swap_remove(number)
}

/// A part changed, and whether it surely leaves the whole sheet's plays as they are, and those of its own sheet.
struct Changed {
    term: Term,
    alike: bool,
    alike_alone: bool,
}

/// A changed part with which the whole sheet is accepted, if one is found in a few trials.
fn fitting(random: &mut Random, heading: &Heading, own: &Heading, part: &Part, whole: &[u8]) -> Changed {
    for _ in 1..TRIALS {
        let found = changed(random, heading, own, part);
        if read(&part.exchanged(whole, &found.term)).is_ok() {
            return found;
        }
    }
    changed(random, heading, own, part)
}

/// The part changed in its own sheet, where that is accepted, or as it stands in the whole sheet. What is tidied there
/// may differ by itself, since a private variable holds what was written to it.
fn changed(random: &mut Random, heading: &Heading, own: &Heading, part: &Part) -> Changed {
    let alone = read(&written(own, part.term)).ok().filter(|_| random.one_in(2));
    let (style, steps) = (random.below(12), random.between(1, 4));
    let mut generator = generator(random, if alone.is_some() { own } else { heading });
    let term = alone.as_ref().map_or(part.term, |sheet| &sheet.term);
    if alone.is_none() {
        generator.scope = part.around.iter().map(|&(id, data)| (id, Meaning::Private(data))).collect();
    }
    let term = match style {
        0..=5 => generator.tidied(term, steps),
        6..=8 => generator.altered(term, steps),
        9..=10 => {
            let altered = generator.altered(term, 1);
            generator.tidied(&altered, steps)
        }
        _ => generator.term(term.gives, 20, 5),
    };
    Changed { term, alike: style <= 5, alike_alone: style <= 5 && alone.is_some() }
}
