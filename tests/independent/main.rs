//! An implementation of document 01's services that shares no code and no method with the proved library.
//!
//! `independent vectors FILE...` runs the cases of vector files through it. `independent random SEED COUNT` compares it
//! with the library on random cases, most of them short, and `independent near SEED COUNT` on sheets near the size
//! limit. `independent compare OLD NEW [WORDS SPACE]` prints what document 01's program prints for two sheets in hex,
//! or would with as many working words and bytes of play space. `independent write SEED COUNT` prints random cases and
//! its answers as lines of a vector file. `independent stack FILE...` runs the library's services in a thread with
//! 2 MiB of stack on the deepest and largest sheets and on those of the files.
//!
//! After the word `procedures`, `random` and `write` have cases with procedures, kind 28 of document 02; after the word
//! `renumber`, sheets to renumber; after the word `names`, sheets with many name records, of which some are used; after
//! the word `parts`, sheets that differ in one part, and the parts as sheets of their own; with
//! the word `quiet`, sheets in which few records or none offend against the profile; with the word `cards`, sheets of
//! all sizes to make cards of, and pairs of sheets that may have one card.

#[allow(dead_code)]
#[path = "../../bindings/rust/src/boundary.rs"]
mod boundary;
mod card;
mod cases;
mod compare;
mod generate;
mod inline;
mod landing;
mod library;
mod look;
mod machine;
mod mark;
mod moves;
mod part;
mod quiet;
mod random;
mod reader;
mod related;
mod renumber;
mod scope;
mod services;
mod sheet;
mod stack;
mod trial;
mod vectors;
mod weigh;

use cases::Case;
use random::Random;
use std::process::ExitCode;

const USAGE: &str = "usage: independent [procedures | renumber | names | parts | quiet | cards] \
    vectors FILE... | random SEED COUNT | near SEED COUNT | write SEED COUNT | stack FILE... | \
    compare OLD NEW [WORDS SPACE]";

/// The working words and the bytes of play space of document 01's program.
const WORDS: usize = 16_384;
const SPACE: usize = 2_040;

/// Bytes of stack: a use of a procedure is weighed by recursion into its term, and uses may be many.
const STACK: usize = 64 << 20;

/// Whether all went well.
fn run(arguments: &[String]) -> Result<bool, String> {
    match arguments.split_first() {
        Some((word, rest)) if word == "procedures" => run_mode(rest, cases::procedures::case),
        Some((word, rest)) if word == "renumber" => run_mode(rest, cases::renumber::case),
        Some((word, rest)) if word == "names" => run_mode(rest, cases::names::case),
        Some((word, rest)) if word == "parts" => run_mode(rest, cases::parts::case),
        Some((word, rest)) if word == "quiet" => run_mode(rest, cases::quiet::case),
        Some((word, rest)) if word == "cards" => run_mode(rest, cases::cards::case),
        _ => run_mode(arguments, cases::case),
    }
}

/// Runs a mode, with random cases as `make` makes them.
fn run_mode(arguments: &[String], make: fn(&mut Random) -> Case) -> Result<bool, String> {
    let mut arguments = arguments.iter();
    let mode = arguments.next().map(String::as_str);
    match (mode, arguments.as_slice()) {
        (Some("vectors"), files @ [_, ..]) => vectors::run(files),
        (Some("random"), [seed, count]) => Ok(trial::run(number(seed)?, number(count)?, make)),
        (Some("near"), [seed, count]) => Ok(trial::run(number(seed)?, number(count)?, cases::near::case)),
        (Some("write"), [seed, count]) => Ok(write(number(seed)?, number(count)?, make)),
        (Some("stack"), files) => stack::run(files),
        (Some("compare"), [old, new]) => print_comparison(old, new, WORDS, SPACE),
        (Some("compare"), [old, new, words, space]) => {
            print_comparison(old, new, number(words)? as usize, number(space)? as usize)
        }
        _ => Err(USAGE.to_string()),
    }
}

/// Prints random cases and their answers as lines of a vector file.
fn write(seed: u64, count: u64, make: fn(&mut Random) -> Case) -> bool {
    for i in 0..count {
        println!("{}", vectors::line(&make(&mut Random::new(seed, i))));
    }
    true
}

fn print_comparison(old: &str, new: &str, words: usize, space: usize) -> Result<bool, String> {
    print!("{}", services::compare_text(&vectors::bytes(old)?, &vectors::bytes(new)?, words, space));
    Ok(true)
}

fn number(text: &str) -> Result<u64, String> {
    text.parse().map_err(|_| format!("not a whole number: '{text}'"))
}

fn main() -> ExitCode {
    let arguments: Vec<String> = std::env::args().skip(1).collect();
    let all = std::thread::Builder::new().stack_size(STACK).spawn(move || run(&arguments));
    match all.expect("a thread can be had").join().expect("all runs to its end") {
        Ok(true) => ExitCode::SUCCESS,
        Ok(false) => ExitCode::FAILURE,
        Err(what) => {
            eprintln!("{what}");
            ExitCode::from(2)
        }
    }
}
