//! Routines: statements in sequence over a few declared names, with private variables here and there.

use crate::random::Random;
use crate::sheet::{Data, Heading, Numbers, Operator, Term, Type};
use crate::terms::*;

const COMMANDS: [u8; 4] = [10, 11, 12, 13];
const E: u8 = 20;
const B: u8 = 21;
const V: u8 = 30;
const T: u8 = 31;
/// Takes a command.
const F: u8 = 40;
/// Takes a number and a command.
const G: u8 = 41;
/// A number that takes a number.
const H: u8 = 42;

/// How much statements may weigh beyond what is asked for.
const SLACK: u64 = 60;

/// The ids of private variables, by the number of blocks around them.
const PRIVATES: [u8; 2] = [100, 101];

pub fn heading(z: i8, wraps: bool) -> Heading {
    let mut records: Vec<_> = COMMANDS.iter().map(|&id| declared(id, Type::Command, &[])).collect();
    records.push(declared(E, NUMBER, &[]));
    records.push(declared(B, TRUTH, &[]));
    records.push(declared(V, NUMBER_VARIABLE, &[]));
    records.push(declared(T, TRUTH_VARIABLE, &[]));
    records.push(declared(F, Type::Command, &[Type::Command]));
    records.push(declared(G, Type::Command, &[NUMBER, Type::Command]));
    records.push(declared(H, NUMBER, &[NUMBER]));
    Heading { numbers: Numbers { z, rule: wraps as u8 }, records }
}

pub fn command(number: usize) -> Term {
    named(COMMANDS[number], Type::Command, vec![])
}

fn asked_number() -> Term {
    named(E, NUMBER, vec![])
}

pub fn asked_truth() -> Term {
    named(B, TRUTH, vec![])
}

/// A use of the name that takes a command.
pub fn taken(inside: Term) -> Term {
    named(F, Type::Command, vec![inside])
}

fn shared_number() -> Term {
    named(V, NUMBER_VARIABLE, vec![])
}

fn shared_truth() -> Term {
    named(T, TRUTH_VARIABLE, vec![])
}

/// Makes statements at random.
pub struct Author<'a> {
    pub random: &'a mut Random,
    pub z: i8,
    /// The most that a statement may weigh.
    pub heaviest: u64,
}

impl Author<'_> {
    /// Statements that weigh `weight` together, or a little more.
    pub fn statements(&mut self, weight: u64) -> Vec<Term> {
        let (mut statements, mut total) = (Vec::new(), 0);
        while total < weight {
            let statement = self.statement();
            let own = statement.weight(Numbers { z: self.z, rule: 0 });
            if own <= self.heaviest && total + own < weight + SLACK {
                total += own;
                statements.push(statement);
            }
        }
        statements
    }

    fn statement(&mut self) -> Term {
        match self.random.below(16) {
            0..=2 => self.plain(),
            3..=4 => self.kept_number(),
            5..=6 => self.choice(),
            7..=8 => self.rounds(),
            9 => taken(self.plain()),
            10 => named(G, Type::Command, vec![self.sum(), self.plain()]),
            11 => self.kept_truth(),
            12..=13 => self.countdown(),
            14 => self.remembered(),
            _ => self.switch(),
        }
    }

    fn plain(&mut self) -> Term {
        command(self.random.below(COMMANDS.len()))
    }

    fn constant(&mut self) -> Term {
        number(self.random.below(2 * self.z as usize + 1) as i8 - self.z)
    }

    /// `e + k`, or the like.
    fn sum(&mut self) -> Term {
        let operator = self.random.choose(&[Operator::Plus, Operator::Minus, Operator::Times]);
        operate(operator, asked_number(), self.constant())
    }

    /// `v := e + k` or `v := h(!v)`.
    fn kept_number(&mut self) -> Term {
        let value = match self.random.below(3) {
            0 => named(H, NUMBER, vec![fetch(shared_number())]),
            1 => fetch(shared_number()),
            _ => self.sum(),
        };
        assign(shared_number(), value)
    }

    /// `t := b and !t`.
    fn kept_truth(&mut self) -> Term {
        let operator = self.random.choose(&[Operator::And, Operator::Or, Operator::Alike]);
        assign(shared_truth(), operate(operator, asked_truth(), fetch(shared_truth())))
    }

    /// `if e < k then c else d`.
    fn choice(&mut self) -> Term {
        let operator = self.random.choose(&[Operator::Less, Operator::Equal]);
        let test = operate(operator, asked_number(), self.constant());
        let no = if self.random.one_in(2) { skip() } else { self.plain() };
        branch(test, self.plain(), no)
    }

    /// `while b do c` or `while e = !v do c`.
    fn rounds(&mut self) -> Term {
        let test = match self.random.below(3) {
            0 => operate(Operator::Equal, asked_number(), fetch(shared_number())),
            _ => asked_truth(),
        };
        repeat(test, self.plain())
    }

    /// `new x in (x := e; while 0 < !x do (c; x := !x - 1))`.
    fn countdown(&mut self) -> Term {
        let variable = private(PRIVATES[0], Data::Number);
        let less = operate(Operator::Minus, fetch(variable.clone()), number(1));
        let round = sequence(self.plain(), assign(variable.clone(), less));
        let test = operate(Operator::Less, number(0), fetch(variable.clone()));
        block(PRIVATES[0], Data::Number, sequence(assign(variable, asked_number()), repeat(test, round)))
    }

    /// `new x in (x := e; if !x = k then c else v := !x)`.
    fn remembered(&mut self) -> Term {
        let variable = private(PRIVATES[0], Data::Number);
        let test = operate(Operator::Equal, fetch(variable.clone()), self.constant());
        let copied = assign(shared_number(), fetch(variable.clone()));
        let body = sequence(assign(variable, asked_number()), branch(test, self.plain(), copied));
        block(PRIVATES[0], Data::Number, body)
    }

    /// `new y in new s in (y := b; while !y do (s := b; if !s then c else y := !s))`.
    fn switch(&mut self) -> Term {
        let (outer, inner) = (private(PRIVATES[0], Data::Truth), private(PRIVATES[1], Data::Truth));
        let ended = assign(outer.clone(), fetch(inner.clone()));
        let test = branch(fetch(inner.clone()), self.plain(), ended);
        let round = sequence(assign(inner, asked_truth()), test);
        let body = sequence(assign(outer.clone(), asked_truth()), repeat(fetch(outer), round));
        block(PRIVATES[0], Data::Truth, block(PRIVATES[1], Data::Truth, body))
    }
}
