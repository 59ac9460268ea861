//! Plays to follow: complete ones, their beginnings, changed ones and plays of nothing.

use super::damage::damaged;
use crate::machine::{Machine, Move};
use crate::random::Random;
use crate::services::records;

/// The records of a play that has something to do with the machine.
pub fn play_for(random: &mut Random, machine: &Machine) -> Vec<u8> {
    if random.one_in(4) {
        return records(&wandering(random, machine));
    }
    let complete = complete_play(random, machine);
    match random.below(10) {
        0..=2 => records(&complete),
        3..=4 => records(&complete[..random.below(complete.len() + 1)]),
        5..=6 => records(&mutated(random, complete)),
        7 => {
            let mut bytes = records(&complete);
            bytes.truncate(random.below(bytes.len() + 1));
            bytes
        }
        8 => {
            let bytes = records(&complete);
            damaged(random, bytes)
        }
        _ => random_play(random),
    }
}

/// A random walk to the end; it hurries once it has taken many moves. Without plays it is empty.
pub fn complete_play(random: &mut Random, machine: &Machine) -> Vec<Move> {
    let mut play = Vec::new();
    let patience = random.choose(&[5, 20, 60, 400, 4000]);
    let Some(mut state) = machine.start() else {
        return play;
    };
    while !machine.is_end(state) {
        let moves = machine.moves(state);
        let nearest = moves.iter().min_by_key(|(_, to)| machine.left(*to)).expect("a live state has a move");
        let (shown, next) = if play.len() < patience { random.choose(moves) } else { *nearest };
        play.push(shown);
        state = next;
    }
    play
}

/// A random walk that may lead to where no complete play goes.
fn wandering(random: &mut Random, machine: &Machine) -> Vec<Move> {
    let mut play = Vec::new();
    let mut state = Machine::FIRST;
    for _ in 0..random.choose(&[5, 20, 60]) {
        let moves = machine.all_moves(state);
        if moves.is_empty() {
            break;
        }
        let (shown, next) = random.choose(moves);
        play.push(shown);
        match next {
            Some(next) => state = next,
            None => break,
        }
    }
    play
}

fn mutated(random: &mut Random, mut play: Vec<Move>) -> Vec<Move> {
    let at = random.below(play.len() + 1);
    if at == play.len() {
        play.push(random_move(random));
        return play;
    }
    match random.below(7) {
        0 => play.insert(at, random_move(random)),
        1 => drop(play.remove(at)),
        2 => play[at].value = random.byte() as i8,
        3 => play[at].value = play[at].value.wrapping_add(1),
        4 => play[at].argument = random.below(5) as u8,
        5 => play[at].id = random.byte(),
        _ => play.insert(at, play[at]),
    }
    play
}

fn random_move(random: &mut Random) -> Move {
    let id = random.choose(&[0, 1, 7, 8, 9, 253, 254, 255]);
    let kind = if random.one_in(12) { 7 } else { random.below(7) as u8 };
    Move { kind, id, argument: random.below(5) as u8, value: random.byte() as i8 }
}

pub fn random_play(random: &mut Random) -> Vec<u8> {
    let play: Vec<Move> = (0..random.below(5)).map(|_| random_move(random)).collect();
    let bytes = records(&play);
    if random.one_in(2) {
        damaged(random, bytes)
    } else {
        bytes
    }
}
