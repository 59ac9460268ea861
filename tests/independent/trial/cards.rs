//! Holds the library's cards to those here, and to what request [12] of document 02 says of them: a card read back has
//! exactly the sheet's complete plays, no smaller table has them, and two sheets have equal cards exactly if compare
//! says "same".

use super::{expect_words, Counts, MOST_PAIRS};
use crate::boundary::SAME;
use crate::card::{expect_smallest, read_back, Position};
use crate::cases::plays::complete_play;
use crate::compare::{first_difference, Difference};
use crate::library::{self, bytes_of, Compared, WORDS};
use crate::machine::Machine;
use crate::random::Random;
use crate::reader::{read, Sheet};
use crate::services::{self, records, space_for_card, words_to_follow, Answer};

/// How many plays are walked through each table.
const WALKS: usize = 2;

/// How often each thing happened.
#[derive(Default)]
pub struct CardCounts {
    made: usize,
    /// Those of sheets without plays.
    empty: usize,
    /// Those with fewer positions than the sheet's machine has states, and the most positions.
    merged: usize,
    most_positions: usize,
    /// The longest card, and the greatest share of card space, in hundredths.
    longest: usize,
    fullest: usize,
    /// Pairs of sheets with one card, and with two.
    doubles: usize,
    different: usize,
}

impl CardCounts {
    fn note(&mut self, sheet: &Sheet, machine: &Machine, table: &[Position], length: usize) {
        let space = space_for_card(sheet.heading.numbers.z, sheet.size) as usize;
        self.made += 1;
        self.empty += table.is_empty() as usize;
        self.merged += (!table.is_empty() && table.len() < machine.reached) as usize;
        self.most_positions = self.most_positions.max(table.len());
        self.longest = self.longest.max(length);
        self.fullest = self.fullest.max(100 * length / space);
    }

    pub fn print(&self) {
        println!("card: {} made, {} of them without positions", self.made, self.empty);
        println!("card: {} with fewer positions than states; up to {} positions", self.merged, self.most_positions);
        println!("card: up to {} bytes, up to {} hundredths of the space", self.longest, self.fullest);
        println!("card: {} pairs with one card, {} with two", self.doubles, self.different);
    }
}

/// The card of a sheet, with as much lent as is said.
pub fn run(sheet: &[u8], words: usize, space: usize, room: usize, counts: &mut Counts) -> Result<(), String> {
    let answer = services::card(sheet, words, space);
    counts.note(&answer);
    let got = library::card(sheet, words, space, room)?;
    expect_words(&answer, got.words)?;
    got.expect_space(&bytes_of(&answer))?;
    match (answer, read(sheet)) {
        (Answer::Carded { card }, Ok(accepted)) => expect_plays(sheet, &accepted, &card, counts),
        _ => Ok(()),
    }
}

/// Reads the card of a sheet back and holds the table to the plays.
fn expect_plays(bytes: &[u8], sheet: &Sheet, card: &[u8], counts: &mut Counts) -> Result<(), String> {
    let records_at = sheet.heading_length + 1;
    let table = card.get(records_at..).and_then(read_back).ok_or("the card is no table")?;
    expect_smallest(&table)?;
    let machine = Machine::of(sheet);
    counts.cards.note(sheet, &machine, &table, card.len());
    let end = table.iter().position(|position| position.end);
    let told = Machine::of_table(table.into_iter().map(|position| position.moves).collect(), end);
    if let Difference::Apart { .. } = first_difference(&machine, &told, MOST_PAIRS) {
        return Err("the card read back has other plays".to_string());
    }
    let mut random = Random::new(card.len() as u64, bytes.len() as u64);
    let walks = if told.start().is_some() { WALKS } else { 0 };
    (0..walks).try_for_each(|_| expect_complete(bytes, sheet, &mut random, &told))
}

/// That the library calls a play that is walked through the table complete.
fn expect_complete(bytes: &[u8], sheet: &Sheet, random: &mut Random, told: &Machine) -> Result<(), String> {
    let play = complete_play(random, told);
    let words = words_to_follow(sheet.heading.numbers.z, sheet.size) as usize;
    let answer = Answer::Followed { count: play.len(), complete: true };
    expect_words(&answer, library::follow(bytes, &records(&play), words, WORDS)?)
        .map_err(|what| format!("a play walked through the card: {what}"))
}

/// The card of a sheet, with just as much lent as it needs; none where the sheet is refused.
fn card(bytes: &[u8], room: usize, counts: &mut Counts) -> Result<Option<Vec<u8>>, String> {
    let Ok(sheet) = read(bytes) else {
        return Ok(None);
    };
    let z = sheet.heading.numbers.z;
    let (words, space) = (words_to_follow(z, sheet.size) as usize, space_for_card(z, sheet.size) as usize);
    run(bytes, words, space, room, counts)?;
    let got = library::card(bytes, words, space, room)?;
    let length = got.words[2] as usize;
    Ok(Some(got.space()[..length].to_vec()))
}

/// Two sheets that compare accepts have equal cards exactly if it says "same"; two with different headings or types,
/// which it refuses by 12, have different ones.
pub fn expect_doubles(
    old: &[u8],
    new: &[u8],
    compared: &Compared,
    room: usize,
    counts: &mut Counts,
) -> Result<(), String> {
    let (Some(a), Some(b)) = (card(old, room, counts)?, card(new, room, counts)?) else {
        return Ok(());
    };
    let equal = a == b;
    counts.cards.doubles += equal as usize;
    counts.cards.different += !equal as usize;
    if equal == (compared.words[0] == SAME) {
        Ok(())
    } else {
        Err(format!("the cards are {}equal, and compare says otherwise", if equal { "" } else { "not " }))
    }
}
