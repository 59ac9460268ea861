//! The first complete play of exactly one of two machines, by breadth-first search over all pairs of states.
//!
//! Pairs are visited in document 01's order of the first plays that lead to them: fewer moves first, then by the first
//! differing move. So the first pair in which exactly one play has ended shows the play.

use crate::machine::{Machine, Move};
use std::collections::HashSet;

#[derive(Clone, Debug, PartialEq)]
pub enum Difference {
    Same,
    /// A play of the old sheet only, or else of the new one only.
    Apart {
        in_old: bool,
        play: Vec<Move>,
    },
    /// The search was given up: more pairs than allowed.
    TooMany,
}

/// A state of each machine; none where the machine has left all its complete plays.
pub type Pair = (Option<usize>, Option<usize>);

struct Visit {
    pair: Pair,
    /// The visit and the move that led here.
    from: Option<(usize, Move)>,
}

pub fn first_difference(old: &Machine, new: &Machine, most: usize) -> Difference {
    let first = (old.start(), new.start());
    let mut seen = HashSet::from([first]);
    let mut visits = vec![Visit { pair: first, from: None }];
    let mut next = 0;
    while next < visits.len() {
        let (p, q) = visits[next].pair;
        for (shown, pair) in successors(old, new, (p, q)) {
            if !seen.insert(pair) {
                continue;
            }
            visits.push(Visit { pair, from: Some((next, shown)) });
            let ended = (pair.0.is_some_and(|s| old.is_end(s)), pair.1.is_some_and(|s| new.is_end(s)));
            if ended.0 != ended.1 {
                return Difference::Apart { in_old: ended.0, play: play_to(&visits) };
            }
        }
        if visits.len() > most {
            return Difference::TooMany;
        }
        next += 1;
    }
    Difference::Same
}

/// The pairs that one move leads to, in the order of moves.
pub fn successors(old: &Machine, new: &Machine, (p, q): Pair) -> Vec<(Move, Pair)> {
    let leaving_old = p.map_or(&[][..], |state| old.moves(state));
    let leaving_new = q.map_or(&[][..], |state| new.moves(state));
    let (mut i, mut j) = (0, 0);
    let mut found = Vec::new();
    loop {
        let (a, b) = (leaving_old.get(i), leaving_new.get(j));
        let shown = match (a, b) {
            (None, None) => return found,
            (Some(a), None) => a.0,
            (None, Some(b)) => b.0,
            (Some(a), Some(b)) => a.0.min(b.0),
        };
        let to_old = a.filter(|a| a.0 == shown).map(|a| a.1);
        let to_new = b.filter(|b| b.0 == shown).map(|b| b.1);
        i += to_old.is_some() as usize;
        j += to_new.is_some() as usize;
        found.push((shown, (to_old, to_new)));
    }
}

/// The play that leads to the last visit.
fn play_to(visits: &[Visit]) -> Vec<Move> {
    let mut play = Vec::new();
    let mut at = visits.len() - 1;
    while let Some((before, shown)) = visits[at].from {
        play.push(shown);
        at = before;
    }
    play.reverse();
    play
}
