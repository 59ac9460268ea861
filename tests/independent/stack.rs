//! Runs every service of the library in a thread with a small stack, on sheets that are as deep and as large as may be,
//! and holds the answers to those of the services here.

use crate::cases::deep;
use crate::library::{self, bytes_of, words_of, Words, WORDS};
use crate::machine::{Machine, Move};
use crate::reader::read;
use crate::renumber::LIST;
use crate::services::{self, space_for_card, space_to_compare, words_to_compare, words_to_follow, Answer};

/// Bytes of the small stack: what a thread of Rust has where nothing is said.
const STACK: usize = 2 << 20;

/// The moves of a short look.
const FEW: u64 = 10;

/// Bytes of play space for a move: S + T - 1 moves have just room in what is lent here.
const MOVE: u64 = 4;

/// What the library answers in a thread with the small stack.
fn answered<T: Send>(ask: impl FnOnce() -> Result<T, String> + Send) -> Result<T, String> {
    std::thread::scope(|scope| {
        let thread = std::thread::Builder::new().stack_size(STACK).spawn_scoped(scope, ask);
        thread.map_err(|e| e.to_string())?.join().map_err(|_| "the call does not return".to_string())?
    })
}

fn expect(what: &str, answer: &Answer, got: Words) -> Result<(), String> {
    if words_of(answer) == got {
        Ok(())
    } else {
        Err(format!("{what}: expected {answer:?}, the library gives {got:?}"))
    }
}

/// A complete play of the fewest moves, or an empty one.
fn shortest(machine: &Machine) -> Vec<Move> {
    let mut play = Vec::new();
    let mut at = machine.start();
    while let Some(state) = at.filter(|&state| !machine.is_end(state)) {
        let nearest = machine.moves(state).iter().min_by_key(|(_, to)| machine.left(*to));
        play.extend(nearest.map(|(shown, _)| *shown));
        at = nearest.map(|(_, to)| *to);
    }
    play
}

/// Runs the services on a sheet; compare and look with the sheet itself.
fn run_sheet(sheet: &[u8]) -> Result<(), String> {
    run_renumber(sheet)?;
    expect("check", &services::check(sheet), answered(|| library::check(sheet, WORDS))?)?;
    expect("profile", &services::profile(sheet), answered(|| library::profile(sheet, WORDS))?)?;
    let (z, size, play) = match read(sheet) {
        Ok(accepted) => {
            let play = services::records(&shortest(&Machine::of(&accepted)));
            (accepted.heading.numbers.z, accepted.size, play)
        }
        Err(_) => (1, 1, vec![]),
    };
    let words = words_to_follow(z, size) as usize;
    let answer = services::follow(sheet, &play, words);
    expect("follow", &answer, answered(|| library::follow(sheet, &play, words, WORDS))?)?;
    run_card(sheet, words, space_for_card(z, size) as usize)?;
    run_pair(sheet, sheet, words_to_compare(z, size, size) as usize, space_to_compare(size, size) as usize)
}

fn run_renumber(sheet: &[u8]) -> Result<(), String> {
    let answer = services::renumber(sheet, sheet.len(), LIST);
    let got = answered(|| library::renumber(sheet, sheet.len(), LIST, WORDS))?;
    expect("renumber", &answer, got.words)?;
    got.expect(&answer)
}

fn run_card(sheet: &[u8], words: usize, space: usize) -> Result<(), String> {
    let answer = services::card(sheet, words, space);
    let got = answered(|| library::card(sheet, words, space, WORDS))?;
    expect("card", &answer, got.words)?;
    got.expect_space(&bytes_of(&answer))
}

fn run_pair(old: &[u8], new: &[u8], words: usize, space: usize) -> Result<(), String> {
    let answer = services::compare(old, new, words, space, usize::MAX);
    let got = answered(|| library::compare(old, new, words, space, WORDS))?;
    expect("compare", &answer, got.words)?;
    got.expect_space(&bytes_of(&answer))?;
    run_looks(old, new, words, space, answer)
}

/// Looks through a few moves, and through all, of two sheets of which compare gives that answer.
fn run_looks(old: &[u8], new: &[u8], words: usize, space: usize, compared: Answer) -> Result<(), String> {
    let all = match compared {
        Answer::Same { marks } => Answer::Looked { through: space as u64 / MOVE, same: true, marks },
        other => other,
    };
    let within = services::look(old, new, FEW, words, space);
    for (limit, answer) in [(FEW, within), (u64::MAX, all)] {
        let got = answered(|| library::look(old, new, limit, words, space, WORDS))?;
        expect("look", &answer, got.words)?;
        got.expect_space(&bytes_of(&answer))?;
    }
    Ok(())
}

/// Runs the deepest sheets and those of the files; whether all answers are right.
pub fn run(files: &[String]) -> Result<bool, String> {
    let mut sheets: Vec<(String, Vec<u8>)> = deep::sheets();
    for file in files {
        sheets.push((file.clone(), std::fs::read(file).map_err(|e| format!("{file}: {e}"))?));
    }
    let mut failed = 0;
    for (name, sheet) in &sheets {
        if let Err(what) = run_sheet(sheet) {
            failed += 1;
            println!("{name}: {what}");
        }
    }
    println!("{} sheets in {} KiB of stack, {failed} failed", sheets.len(), STACK >> 10);
    Ok(failed == 0)
}
