//! Moves, questions and answers, and what operators give.

use crate::sheet::{Heading, Numbers, Operator, Type, INFINITIES, INFINITY, MINUS_INFINITY, NOT_A_NUMBER, NO_PLAY};

/// A move. The order of the fields is document 01's order of moves; moves without a value have 0.
#[derive(Clone, Copy, Debug, PartialEq, Eq, PartialOrd, Ord, Hash)]
pub struct Move {
    pub kind: u8,
    pub id: u8,
    pub argument: u8,
    pub value: i8,
}

pub const WHOLE: u8 = 255;

impl Move {
    /// How many bytes the record of a move of this kind has; kinds above 6 have none.
    pub fn length(kind: u8) -> Option<usize> {
        match kind {
            0..=4 => Some(3),
            5 | 6 => Some(4),
            _ => None,
        }
    }

    pub fn write(&self, out: &mut Vec<u8>) {
        out.extend([self.kind, self.id, self.argument]);
        if self.kind >= 5 {
            out.push(self.value as u8);
        }
    }
}

#[derive(Clone, Copy, Debug, PartialEq, Eq, Hash)]
pub enum Question {
    Run,
    Ask,
    Read,
    Write(i8),
}

#[derive(Clone, Copy, Debug, PartialEq, Eq, Hash)]
pub enum Answer {
    Done,
    Value(i8),
    Ok,
}

impl Question {
    pub fn all(of: Type, numbers: Numbers) -> Vec<Question> {
        match of {
            Type::Command => vec![Question::Run],
            Type::Expression(_) => vec![Question::Ask],
            Type::Variable(data) => {
                let writes = data.values(numbers).into_iter().map(Question::Write);
                std::iter::once(Question::Read).chain(writes).collect()
            }
        }
    }

    pub fn at(self, id: u8, argument: u8) -> Move {
        let (kind, value) = match self {
            Question::Run => (0, 0),
            Question::Ask => (2, 0),
            Question::Read => (3, 0),
            Question::Write(value) => (6, value),
        };
        Move { kind, id, argument, value }
    }

    /// The answers to the question when it is put to something of that type.
    pub fn answers(self, of: Type, numbers: Numbers) -> Vec<Answer> {
        match (self, of.data()) {
            (Question::Run, _) => vec![Answer::Done],
            (Question::Write(_), _) => vec![Answer::Ok],
            (Question::Ask | Question::Read, Some(data)) => {
                data.values(numbers).into_iter().map(Answer::Value).collect()
            }
            (Question::Ask | Question::Read, None) => vec![],
        }
    }
}

impl Answer {
    pub fn at(self, id: u8, argument: u8) -> Move {
        let (kind, value) = match self {
            Answer::Done => (1, 0),
            Answer::Ok => (4, 0),
            Answer::Value(value) => (5, value),
        };
        Move { kind, id, argument, value }
    }

    pub fn value(self) -> i8 {
        match self {
            Answer::Value(value) => value,
            Answer::Done | Answer::Ok => 0,
        }
    }
}

/// The result of an operator, or none where it has no play.
pub fn operate(operator: Operator, left: i8, right: i8, heading: &Heading) -> Option<i8> {
    if heading.numbers.rule == INFINITIES {
        return Some(operate_reals(operator, left, right, heading.numbers.z));
    }
    let (a, b) = (left as i32, right as i32);
    match operator {
        Operator::Plus => fit(a + b, heading),
        Operator::Minus => fit(a - b, heading),
        Operator::Times => fit(a * b, heading),
        Operator::Remainder if b == 0 => None,
        Operator::Remainder => fit(a.rem_euclid(b), heading),
        Operator::Equal | Operator::Alike => Some((a == b) as i8),
        Operator::Less => Some((a < b) as i8),
        Operator::And => Some((a == 1 && b == 1) as i8),
        Operator::Or => Some((a == 1 || b == 1) as i8),
    }
}

/// The result under rule 2, by the arithmetic of IEEE 754.
fn operate_reals(operator: Operator, left: i8, right: i8, z: i8) -> i8 {
    let (a, b) = (real(left), real(right));
    match operator {
        Operator::Plus => value(a + b, z),
        Operator::Minus => value(a - b, z),
        Operator::Times => value(a * b, z),
        Operator::Remainder if a.is_infinite() || b.is_infinite() => NOT_A_NUMBER,
        Operator::Remainder => value(a.rem_euclid(b), z),
        Operator::Equal => (a == b) as i8,
        Operator::Less => (a < b) as i8,
        Operator::Alike => (left == right) as i8,
        Operator::And => (left == 1 && right == 1) as i8,
        Operator::Or => (left == 1 || right == 1) as i8,
    }
}

fn real(value: i8) -> f64 {
    match value {
        MINUS_INFINITY => f64::NEG_INFINITY,
        INFINITY => f64::INFINITY,
        NOT_A_NUMBER => f64::NAN,
        number => number as f64,
    }
}

fn value(real: f64, z: i8) -> i8 {
    if real.is_nan() {
        return NOT_A_NUMBER;
    }
    if real.abs() <= z as f64 {
        return real as i8;
    }
    if real < 0.0 {
        MINUS_INFINITY
    } else {
        INFINITY
    }
}

/// The overflow rules 0 and 1.
fn fit(mut result: i32, heading: &Heading) -> Option<i8> {
    let z = heading.numbers.z as i32;
    if heading.numbers.rule == NO_PLAY && !(-z..=z).contains(&result) {
        return None;
    }
    while result > z {
        result -= 2 * z + 1;
    }
    while result < -z {
        result += 2 * z + 1;
    }
    Some(result as i8)
}
