//! The limited look of document 02, [9], level by level: the pairs of states to which plays of one length lead, each
//! with the level and the move before it.
//!
//! Unlike the search of a comparison it never strikes out a pair because plays of another length lead there too: what
//! it finds within so many moves, it finds by walking through all plays of as many.

use crate::compare::{successors, Pair};
use crate::machine::{Machine, Move};
use std::collections::HashSet;

#[derive(Clone, Debug, PartialEq)]
pub enum Sight {
    /// No play of at most as many moves is of one sheet only.
    Nothing,
    /// The first that is: of the old sheet, or else of the new one.
    Apart { in_old: bool, play: Vec<Move> },
    /// The walk was given up: more steps than allowed.
    TooMany,
}

/// A pair, and where it came from in the level before.
struct Place {
    pair: Pair,
    from: usize,
    by: Option<Move>,
}

pub fn walk(old: &Machine, new: &Machine, limit: usize, most_steps: usize) -> Sight {
    let mut levels = vec![vec![Place { pair: (old.start(), new.start()), from: 0, by: None }]];
    let mut steps = 0;
    for _ in 0..limit {
        let last = &levels[levels.len() - 1];
        let mut seen = HashSet::new();
        let mut level = Vec::new();
        for (from, place) in last.iter().enumerate() {
            for (shown, pair) in successors(old, new, place.pair) {
                steps += 1;
                let ended = (pair.0.is_some_and(|s| old.is_end(s)), pair.1.is_some_and(|s| new.is_end(s)));
                if ended.0 != ended.1 {
                    return Sight::Apart { in_old: ended.0, play: play_to(&levels, from, shown) };
                }
                if seen.insert(pair) {
                    level.push(Place { pair, from, by: Some(shown) });
                }
            }
        }
        if level.is_empty() {
            return Sight::Nothing;
        }
        if steps > most_steps {
            return Sight::TooMany;
        }
        levels.push(level);
    }
    Sight::Nothing
}

/// The play that leads to a place of the last level, and one move more.
fn play_to(levels: &[Vec<Place>], mut at: usize, shown: Move) -> Vec<Move> {
    let mut play = vec![shown];
    for level in levels.iter().rev() {
        play.extend(level[at].by);
        at = level[at].from;
    }
    play.reverse();
    play
}
