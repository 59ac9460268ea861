//! A plain comparer to time the library against: it writes all positions of both sheets and keeps a table of all pairs
//! of positions. It gives document 01's answers on sheets that compare accepts.

mod positions;
mod search;
mod sheet;

use positions::{write_record, Positions};
use search::Search;
use sheet::Sheet;

/// What compare answers.
#[derive(Debug, PartialEq)]
pub enum Answer {
    Same,
    Apart {
        in_old: bool,
        moves: usize,
        /// The records of the play.
        records: Vec<u8>,
    },
}

/// The memory that comparisons use again.
#[derive(Default)]
pub struct Peer {
    sheets: [Sheet; 2],
    positions: [Positions; 2],
    search: Search,
}

impl Peer {
    /// Clears the table of pairs. To be called before every comparison.
    pub fn clear(&mut self) {
        self.search.clear();
    }

    /// How many pairs of positions the last comparison visited.
    pub fn visited(&self) -> usize {
        self.search.visited()
    }

    /// Compares two sheets; none where they are not in order, or have other headings or result types.
    pub fn compare(&mut self, old: &[u8], new: &[u8]) -> Option<Answer> {
        let [a, b] = &mut self.sheets;
        a.read(old)?;
        b.read(new)?;
        if old[..a.heading_length] != new[..b.heading_length] || a.gives() != b.gives() {
            return None;
        }
        let [p, q] = &mut self.positions;
        p.write(a);
        q.write(b);
        match self.search.first_difference(p, q) {
            None => Some(Answer::Same),
            Some(difference) => {
                let mut records = Vec::new();
                difference.play.iter().for_each(|&shown| write_record(shown, &mut records));
                Some(Answer::Apart { in_old: difference.in_old, moves: difference.play.len(), records })
            }
        }
    }
}
