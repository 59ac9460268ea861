//! Terms of any type over 32 declared names, with up to four arguments of all types.

use crate::random::Random;
use crate::sheet::{Heading, Numbers, Record, Term, Type};
use crate::terms::*;

const NAMES: usize = 32;
const MOST_ARGUMENTS: usize = 4;

/// A plain name of each type first, then names of each type with one to four arguments.
pub fn heading(random: &mut Random, z: i8, wraps: bool) -> Heading {
    let mut records: Vec<Record> = Vec::new();
    for (id, &result) in Type::ALL.iter().enumerate() {
        records.push(declared(id as u8, result, &[]));
    }
    while records.len() < NAMES {
        let id = records.len() as u8;
        let count = 1 + id as usize % MOST_ARGUMENTS;
        let arguments: Vec<Type> = (0..count).map(|_| random.choose(&Type::ALL)).collect();
        records.push(declared(id, Type::ALL[id as usize % Type::ALL.len()], &arguments));
    }
    Heading { numbers: Numbers { z, rule: wraps as u8 }, records }
}

/// Makes terms over such a heading.
pub struct User<'a> {
    pub random: &'a mut Random,
    pub heading: &'a Heading,
}

impl User<'_> {
    /// Uses of names in sequence, and at last one of that type, with a size of at least `size`.
    pub fn whole(&mut self, wanted: Type, size: u64) -> Term {
        let numbers = self.heading.numbers;
        let weight = (size - 2 - wanted.answers(numbers)) / wanted.questions(numbers) + 1;
        let last = self.used(wanted, weight / 4, 5);
        let (mut commands, mut total) = (Vec::new(), last.weight(numbers));
        while total < weight {
            let left = (weight - total).min(weight / 8);
            let command = self.used(Type::Command, left, 5);
            total += command.weight(numbers);
            commands.push(command);
        }
        sequence(in_sequence(&commands, 1), last)
    }

    /// A use of a name of that type: of one with arguments, where the weight and the depth allow it.
    fn used(&mut self, wanted: Type, weight: u64, depth: usize) -> Term {
        let fitting: Vec<(u8, Vec<Type>)> = self.heading.records.iter().filter_map(|r| fits(r, wanted)).collect();
        for _ in 0..4 {
            let (id, arguments) = self.random.choose(&fitting);
            if let Some(term) = self.with_arguments(id, wanted, &arguments, weight, depth) {
                return term;
            }
        }
        named(wanted.byte(), wanted, vec![])
    }

    /// A use of the name, if its arguments can be had within the weight.
    fn with_arguments(&mut self, id: u8, result: Type, wanted: &[Type], weight: u64, depth: usize) -> Option<Term> {
        let numbers = self.heading.numbers;
        let share = weight.checked_sub(2)? / wanted.len().max(1) as u64;
        let mut arguments = Vec::new();
        for &t in wanted {
            let left = share.checked_sub(t.answers(numbers))? / t.questions(numbers);
            if left < 2 || depth == 0 {
                return None;
            }
            arguments.push(self.used(t, left, depth - 1));
        }
        Some(named(id, result, arguments))
    }
}

/// The id and the arguments of a record that declares a name of that type.
fn fits(record: &Record, wanted: Type) -> Option<(u8, Vec<Type>)> {
    match record {
        Record::Declare { id, result, arguments, .. } if *result == wanted => Some((*id, arguments.clone())),
        _ => None,
    }
}
