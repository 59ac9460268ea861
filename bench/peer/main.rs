//! `peer OLD NEW`: compares two files with sheets and prints document 01's lines, without the one with the sizes.

#[path = "mod.rs"]
mod peer;

use peer::{Answer, Peer};
use std::process::ExitCode;

/// The records of a play, one a line.
fn lines(mut records: &[u8]) -> String {
    let mut text = String::new();
    while let [kind, id, argument, rest @ ..] = records {
        text += &format!("{kind} {id} {argument}");
        records = rest;
        if let (5 | 6, [value, rest @ ..]) = (kind, rest) {
            text += &format!(" {}", *value as i8);
            records = rest;
        }
        text += "\n";
    }
    text
}

fn main() -> ExitCode {
    let arguments: Vec<String> = std::env::args().skip(1).collect();
    let [old, new] = &arguments[..] else {
        eprintln!("usage: peer OLD NEW");
        return ExitCode::from(2);
    };
    let read = |path: &String| std::fs::read(path).unwrap_or_default();
    let mut peer = Peer::default();
    peer.clear();
    match peer.compare(&read(old), &read(new)) {
        None => println!("refused"),
        Some(Answer::Same) => println!("same"),
        Some(Answer::Apart { in_old, moves, records }) => {
            print!("apart in {} {moves}\n{}", if in_old { "old" } else { "new" }, lines(&records));
        }
    }
    eprintln!("{} pairs visited", peer.visited());
    ExitCode::SUCCESS
}
