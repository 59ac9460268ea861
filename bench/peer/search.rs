//! Breadth first over all pairs of positions, with a table of one bit for each pair.
//!
//! Pairs are met in document 01's order of the first plays that lead to them: fewer moves first, then by the first move
//! that differs. So the first pair with exactly one play at its end shows the play.

use super::positions::{Positions, Shown, END, START};

/// The most positions of a sheet, and nowhere.
const ROW: usize = 4097;
const BITS: usize = 64;

struct Visit {
    old: u16,
    new: u16,
    /// The visit and the move that led here.
    from: u32,
    shown: Shown,
}

pub struct Search {
    table: Vec<u64>,
    visits: Vec<Visit>,
}

/// The sheet that has the play alone, and its moves.
pub struct Difference {
    pub in_old: bool,
    pub play: Vec<Shown>,
}

impl Default for Search {
    fn default() -> Search {
        Search { table: vec![0; (ROW * ROW).div_ceil(BITS)], visits: Vec::new() }
    }
}

impl Search {
    /// Takes all pairs out of the table.
    pub fn clear(&mut self) {
        self.table.fill(0);
        self.visits.clear();
    }

    /// How many pairs were visited.
    pub fn visited(&self) -> usize {
        self.visits.len()
    }

    /// The first play that only one of the two has. The table has to be clear.
    pub fn first_difference(&mut self, old: &Positions, new: &Positions) -> Option<Difference> {
        self.visit(START, START, 0, 0);
        let mut at = 0;
        while at < self.visits.len() {
            if let Some(in_old) = self.leave(at, old, new) {
                return Some(Difference { in_old, play: self.play_to_last() });
            }
            at += 1;
        }
        None
    }

    /// Visits the pairs that one move leads to, in the order of moves; stops where exactly one play is at its end, and
    /// says whether it is the old sheet's.
    fn leave(&mut self, at: usize, old: &Positions, new: &Positions) -> Option<bool> {
        let Visit { old: p, new: q, .. } = self.visits[at];
        let (leaving_old, leaving_new) = (old.moves(p as usize), new.moves(q as usize));
        let (mut i, mut j) = (0, 0);
        loop {
            let (a, b) = (leaving_old.get(i), leaving_new.get(j));
            let shown = match (a, b) {
                (None, None) => return None,
                (Some(a), None) => a.shown,
                (None, Some(b)) => b.shown,
                (Some(a), Some(b)) => a.shown.min(b.shown),
            };
            let a = a.filter(|a| a.shown == shown).map(|a| a.to as usize);
            let b = b.filter(|b| b.shown == shown).map(|b| b.to as usize);
            i += a.is_some() as usize;
            j += b.is_some() as usize;
            let (p, q) = (a.unwrap_or(old.nowhere()), b.unwrap_or(new.nowhere()));
            if self.visit(p, q, at, shown) && (p == END) != (q == END) {
                return Some(p == END);
            }
        }
    }

    /// Notes a visit to a pair; whether it is the first to it.
    fn visit(&mut self, old: usize, new: usize, from: usize, shown: Shown) -> bool {
        let pair = old * ROW + new;
        let (word, bit) = (&mut self.table[pair / BITS], 1 << (pair % BITS));
        if *word & bit != 0 {
            return false;
        }
        *word |= bit;
        self.visits.push(Visit { old: old as u16, new: new as u16, from: from as u32, shown });
        true
    }

    /// The moves that led to the last visit.
    fn play_to_last(&self) -> Vec<Shown> {
        let mut play = Vec::new();
        let mut at = self.visits.len() - 1;
        while at > 0 {
            play.push(self.visits[at].shown);
            at = self.visits[at].from as usize;
        }
        play.reverse();
        play
    }
}
