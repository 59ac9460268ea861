//! Long sheets: many small uses in sequence, with nearly as many states as the reckoned size allows.

use crate::random::Random;
use crate::reader::{LARGEST, LONGEST};
use crate::sheet::{written, Data, Heading, Kind, Numbers, Record, Term, Type};

const NUMBER: Type = Type::Expression(Data::Number);
const VARIABLE: Type = Type::Variable(Data::Truth);

/// The names: two commands, a number and a truth variable, and three names that take them.
const NAMES: [(Type, &[Type]); 7] = [
    (Type::Command, &[]),
    (Type::Command, &[]),
    (NUMBER, &[]),
    (VARIABLE, &[]),
    (Type::Command, &[NUMBER]),
    (Type::Command, &[VARIABLE]),
    (Type::Command, &[Type::Command, NUMBER]),
];

#[derive(Clone)]
pub struct Long {
    heading: Heading,
    /// Whether the names that take others ask once.
    once: bool,
    items: Vec<Term>,
}

impl Long {
    /// A sheet of at most the size and the length, and close to one of them.
    pub fn random(random: &mut Random) -> Long {
        let once = random.one_in(2);
        let declare = |(id, &(result, arguments)): (usize, &(Type, &[Type]))| Record::Declare {
            once: once && !arguments.is_empty(),
            id: id as u8,
            result,
            arguments: arguments.to_vec(),
        };
        let records = NAMES.iter().enumerate().map(declare).collect();
        let numbers = Numbers { z: random.between(1, 31) as i8, rule: random.choose(&[0, 1, 2]) };
        let heading = Heading { numbers, records };
        let fullness = random.choose(&[1, 1, 2, 4]);
        let menu: Vec<usize> = (0..random.between(1, 3)).map(|_| random.choose(&[0, 1, 4, 5, 6])).collect();
        let mut long = Long { heading, once, items: vec![] };
        let (mut size, mut length) = (3, 64);
        loop {
            let item = long.item(random.choose(&menu));
            size += item.weight(long.heading.numbers);
            length += 2 * item.records() + 1;
            if fullness * size > LARGEST || fullness as usize * length > LONGEST {
                return long;
            }
            long.items.push(item);
        }
    }

    /// A use of the name, with plain names as its arguments.
    fn item(&self, name: usize) -> Term {
        let (result, arguments) = NAMES[name];
        let plain = |wanted: &Type| NAMES.iter().position(|n| n.0 == *wanted).expect("each type has a plain name");
        let parts = arguments.iter().map(|wanted| self.item(plain(wanted))).collect();
        Term::new(Kind::Name { id: name as u8, result, once: self.once && !arguments.is_empty() }, parts)
    }

    /// Puts another use in the place of one, or takes one out.
    pub fn change(&mut self, random: &mut Random) {
        let at = random.below(self.items.len());
        if random.one_in(3) {
            self.items.remove(at);
        } else {
            self.items[at] = self.item(random.choose(&[0, 1]));
        }
    }

    pub fn sheet(&self) -> Vec<u8> {
        written(&self.heading, &in_sequence(&self.items))
    }

    /// The same uses in another nesting of sequences. This makes no difference.
    pub fn other_sheet(&self, random: &mut Random) -> Vec<u8> {
        let (first, rest) = self.items.split_at(random.below(self.items.len() + 1));
        if first.is_empty() || rest.is_empty() {
            return self.sheet();
        }
        let both = vec![in_sequence(first), in_sequence(rest)];
        written(&self.heading, &Term::new(Kind::Sequence, both))
    }
}

/// The commands one after the other, in a term of low depth.
fn in_sequence(items: &[Term]) -> Term {
    match items {
        [] => Term::new(Kind::Skip, vec![]),
        [item] => item.clone(),
        _ => {
            let (first, rest) = items.split_at(items.len() / 2);
            Term::new(Kind::Sequence, vec![in_sequence(first), in_sequence(rest)])
        }
    }
}
