//! Blocks inside blocks: counters of several private variables, which a name moves on and looks at.

use crate::sheet::{Data, Heading, Numbers, Operator, Term, Type};
use crate::terms::*;

/// Takes a step and a look.
const CALLER: u8 = 1;
const C: u8 = 2;
const D: u8 = 3;
/// The id of the first private variable.
const FIRST: u8 = 100;

/// `new a in new b in ... f(step, look)`, followed by commands up to a size.
#[derive(Clone)]
pub struct Counter {
    pub z: i8,
    pub wraps: bool,
    /// The data of the variables, the one that moves fastest first.
    pub digits: Vec<Data>,
    /// Where the look runs another command: a value for each variable.
    pub mark: Vec<i8>,
    /// Whether numbers count down, with marks of the other sign. This makes no difference.
    pub down: bool,
    /// The commands that follow, and what their groups are.
    pub following: usize,
    pub group: usize,
}

impl Counter {
    pub fn heading(&self) -> Heading {
        let plain = |id| declared(id, Type::Command, &[]);
        let records = vec![declared(CALLER, Type::Command, &[Type::Command; 2]), plain(C), plain(D)];
        Heading { numbers: Numbers { z: self.z, rule: self.wraps as u8 }, records }
    }

    pub fn term(&self) -> Term {
        let call = named(CALLER, Type::Command, vec![self.step(0), self.look()]);
        let blocks = (0..self.digits.len()).fold(call, |body, i| block(FIRST + i as u8, self.digits[i], body));
        let commands: Vec<Term> = (0..self.following).map(|i| plain(if i % 3 == 0 { D } else { C })).collect();
        sequence(blocks, in_sequence(&commands, self.group))
    }

    fn variable(&self, i: usize) -> Term {
        private(FIRST + i as u8, self.digits[i])
    }

    /// A value of the digit, with its sign turned where it counts down.
    fn constant(&self, i: usize, value: i8) -> Term {
        match self.digits[i] {
            Data::Truth => truth(value == 1),
            Data::Number => number(if self.down { -value } else { value }),
        }
    }

    /// Moves the digit on; at its last value it starts again and the next digit is moved on.
    fn step(&self, i: usize) -> Term {
        let (first, last) = match self.digits[i] {
            Data::Truth => (0, 1),
            Data::Number => (-self.z, self.z),
        };
        let on = match self.digits[i] {
            Data::Truth => truth(true),
            Data::Number => operate(Operator::Plus, fetch(self.variable(i)), self.constant(i, 1)),
        };
        let again = assign(self.variable(i), self.constant(i, first));
        let again = if i + 1 < self.digits.len() { sequence(again, self.step(i + 1)) } else { again };
        branch(self.stands_at(i, last), again, assign(self.variable(i), on))
    }

    fn stands_at(&self, i: usize, value: i8) -> Term {
        match (self.digits[i], value) {
            (Data::Truth, 1) => fetch(self.variable(i)),
            (Data::Truth, _) => operate(Operator::Alike, fetch(self.variable(i)), truth(false)),
            (Data::Number, _) => operate(Operator::Equal, fetch(self.variable(i)), self.constant(i, value)),
        }
    }

    fn look(&self) -> Term {
        let tests = self.mark.iter().enumerate().map(|(i, &value)| self.stands_at(i, value));
        tests.fold(plain(D), |inside, test| branch(test, inside, plain(C)))
    }
}

fn plain(id: u8) -> Term {
    named(id, Type::Command, vec![])
}
