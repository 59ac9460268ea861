//! The card of document 02, [12]: the smallest table of positions that has a routine's complete plays, and its bytes.
//!
//! Two states of the machine are one position if the same moves lead from both to the end. They are told apart in
//! rounds over all states: at first by whether the play has ended there, and then by the moves of each and the classes,
//! of the round before, to which they lead. When a round tells no more of them apart, the classes are the positions.

use crate::boundary::{MOVE, POSITION, VALUED_MOVE};
use crate::machine::{Machine, Move};
use std::collections::HashMap;

#[derive(Clone, Debug, PartialEq)]
pub struct Position {
    /// Whether the play has ended.
    pub end: bool,
    /// The moves in document 01's order, each with the number of the position to which it leads.
    pub moves: Vec<(Move, usize)>,
}

/// The states that a beginning of a complete play leads to, in the order of the first ones that do, and the number of
/// each: fewer moves come first, and then the first differing move decides.
fn reached(machine: &Machine) -> (Vec<usize>, HashMap<usize, usize>) {
    let mut states = Vec::from_iter(machine.start());
    let mut numbers: HashMap<usize, usize> = states.iter().map(|&state| (state, 0)).collect();
    let mut next = 0;
    while next < states.len() {
        for &(_, to) in machine.moves(states[next]) {
            if !numbers.contains_key(&to) {
                numbers.insert(to, states.len());
                states.push(to);
            }
        }
        next += 1;
    }
    (states, numbers)
}

/// A class for each position of a table, so that two have the same one exactly if the same moves lead from both to the
/// end. Classes are numbered in the order in which they are met.
fn classes(table: &[Position]) -> Vec<usize> {
    let mut classes: Vec<usize> = table.iter().map(|position| position.end as usize).collect();
    let mut count = 0;
    loop {
        let mut met = HashMap::new();
        let round = table.iter().zip(&classes).map(|(position, &class)| {
            let leads: Vec<(Move, usize)> = position.moves.iter().map(|&(m, to)| (m, classes[to])).collect();
            let new = met.len();
            *met.entry((class, leads)).or_insert(new)
        });
        let round = round.collect();
        classes = round;
        if met.len() == count {
            return classes;
        }
        count = met.len();
    }
}

/// The table with one position for those of each class. Each stands where the first of its class stood.
fn merged(table: &[Position], classes: &[usize]) -> Vec<Position> {
    let mut positions: Vec<Position> = Vec::new();
    for (position, &class) in table.iter().zip(classes) {
        if class == positions.len() {
            let moves = position.moves.iter().map(|&(m, to)| (m, classes[to])).collect();
            positions.push(Position { end: position.end, moves });
        }
    }
    positions
}

/// The smallest table of a machine's complete plays, in the order of the first beginnings that lead to each position.
pub fn positions(machine: &Machine) -> Vec<Position> {
    let (states, numbers) = reached(machine);
    let all = states.iter().map(|&state| Position {
        end: machine.is_end(state),
        moves: machine.moves(state).iter().map(|(m, to)| (*m, numbers[to])).collect(),
    });
    let all: Vec<Position> = all.collect();
    merged(&all, &classes(&all))
}

/// The bytes of a table, as they stand in a card after the heading and the type.
pub fn written(table: &[Position]) -> Vec<u8> {
    let mut bytes = Vec::new();
    for position in table {
        bytes.extend([POSITION, position.end as u8]);
        for (shown, to) in &position.moves {
            bytes.push(if shown.kind < 5 { MOVE } else { VALUED_MOVE });
            shown.write(&mut bytes);
            bytes.extend((*to as u16).to_le_bytes());
        }
    }
    bytes
}

/// The table that the bytes of one are read back to; none where they are not the records of a table.
pub fn read_back(mut bytes: &[u8]) -> Option<Vec<Position>> {
    let mut table: Vec<Position> = Vec::new();
    loop {
        match *bytes {
            [] => break,
            [POSITION, end @ (0 | 1), ..] => {
                table.push(Position { end: end == 1, moves: vec![] });
                bytes = &bytes[2..];
            }
            [MOVE, kind @ 0..=4, id, argument, low, high, ..] => {
                let to = u16::from_le_bytes([low, high]) as usize;
                table.last_mut()?.moves.push((Move { kind, id, argument, value: 0 }, to));
                bytes = &bytes[6..];
            }
            [VALUED_MOVE, kind @ 5..=6, id, argument, value, low, high, ..] => {
                let to = u16::from_le_bytes([low, high]) as usize;
                table.last_mut()?.moves.push((Move { kind, id, argument, value: value as i8 }, to));
                bytes = &bytes[7..];
            }
            _ => return None,
        }
    }
    let count = table.len();
    table.iter().flat_map(|position| &position.moves).all(|&(_, to)| to < count).then_some(table)
}

/// That a table has what document 02 says of it by itself: moves in order and none twice, each position met from the
/// first in its order, one end, which has no moves, and no two positions that are one.
pub fn expect_smallest(table: &[Position]) -> Result<(), String> {
    let mut met = (!table.is_empty()) as usize;
    for (number, position) in table.iter().enumerate() {
        if number >= met {
            return Err(format!("no beginning leads to position {number}"));
        }
        if position.end != position.moves.is_empty() {
            return Err(format!("position {number} is the end with moves, or has none and is not the end"));
        }
        if !position.moves.windows(2).all(|pair| pair[0].0 < pair[1].0) {
            return Err(format!("the moves of position {number} are not in order"));
        }
        for &(_, to) in &position.moves {
            if to > met {
                return Err(format!("position {to} comes too late"));
            }
            met = met.max(to + 1);
        }
    }
    match classes(table).into_iter().max().map_or(0, |last| last + 1) == table.len() {
        true => Ok(()),
        false => Err("two positions are one".to_string()),
    }
}
