//! Pairs on which a table of all pairs of positions fills up, though the plays are plain.

use crate::sheet::{Data, Heading, Numbers, Operator, Term, Type};
use crate::terms::*;

const C: u8 = 1;
const B: u8 = 2;
const E: u8 = 3;
/// The id of the first private variable.
const FIRST: u8 = 100;

pub fn heading(z: i8, wraps: bool) -> Heading {
    let records = vec![declared(C, Type::Command, &[]), declared(B, TRUTH, &[]), declared(E, NUMBER, &[])];
    Heading { numbers: Numbers { z, rule: wraps as u8 }, records }
}

fn commands(count: usize) -> Vec<Term> {
    vec![named(C, Type::Command, vec![]); count]
}

fn asked(data: Data) -> Term {
    match data {
        Data::Truth => named(B, TRUTH, vec![]),
        Data::Number => named(E, NUMBER, vec![]),
    }
}

fn variable(i: usize, data: Data) -> Term {
    private(FIRST + i as u8, data)
}

fn blocks(variables: &[Data], body: Term) -> Term {
    variables.iter().enumerate().fold(body, |body, (i, &data)| block(FIRST + i as u8, data, body))
}

/// Rounds that ask for two values of each data given and run `count` commands. The private variables keep the first
/// values asked for, or else the last ones; nothing reads them, so that this makes no difference. Any contents of the
/// one sheet's variables meet any contents of the other's.
pub fn dead_privates(variables: &[Data], count: usize, keeps_first: bool) -> Term {
    let kept = variables.iter().enumerate().map(|(i, &data)| assign(variable(i, data), asked(data)));
    let dropped = variables.iter().map(|&data| drop_value(data));
    let mut round: Vec<Term> = if keeps_first { kept.chain(dropped).collect() } else { dropped.chain(kept).collect() };
    round.extend(commands(count));
    blocks(variables, repeat(asked(Data::Truth), in_sequence(&round, 4)))
}

/// Asks for a value and does nothing with it.
fn drop_value(data: Data) -> Term {
    let test = match data {
        Data::Truth => asked(data),
        Data::Number => operate(Operator::Equal, asked(data), number(0)),
    };
    branch(test, skip(), skip())
}

/// Runs `count` commands in each round and never ends, so that there is no complete play. The private variables count
/// the rounds: only after as many rounds as they have contents does it come back to where it was.
pub fn endless(variables: &[Data], count: usize) -> Term {
    let round = sequence(in_sequence(&commands(count), 4), step(variables, 0));
    blocks(variables, repeat(truth(true), round))
}

/// Moves the variables on from the one given; a number goes over from Z to -Z, which needs overflow rule 1.
fn step(variables: &[Data], i: usize) -> Term {
    let at = variable(i, variables[i]);
    let carry = |here: Term| if i + 1 < variables.len() { sequence(here, step(variables, i + 1)) } else { here };
    match variables[i] {
        Data::Truth => branch(fetch(at.clone()), carry(assign(at.clone(), truth(false))), assign(at, truth(true))),
        Data::Number => {
            let on = assign(at.clone(), operate(Operator::Plus, fetch(at.clone()), number(1)));
            let over = branch(operate(Operator::Equal, fetch(at), number(0)), carry(skip()), skip());
            sequence(on, over)
        }
    }
}
