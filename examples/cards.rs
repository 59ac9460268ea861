//! Files the sheets of a folder by their cards: `cards FOLDER` prints a line for each card, with its length and the
//! sheets that have it, then a line for each sheet that is refused, and last how many doubles there are. Cards stand in
//! the order of their bytes, so that those with one heading stand together.

use std::collections::BTreeMap;
use std::process::ExitCode;

/// The sheets of a folder, by name: the files `NAME.sheet`.
fn sheets(folder: &str) -> std::io::Result<BTreeMap<String, Vec<u8>>> {
    let mut sheets = BTreeMap::new();
    for entry in std::fs::read_dir(folder)? {
        let path = entry?.path();
        if let (Some(name), Some("sheet")) = (path.file_stem(), path.extension().and_then(|e| e.to_str())) {
            sheets.insert(name.to_string_lossy().into_owned(), std::fs::read(&path)?);
        }
    }
    Ok(sheets)
}

fn file(folder: &str) -> std::io::Result<()> {
    let mut filed: BTreeMap<Vec<u8>, Vec<String>> = BTreeMap::new();
    let mut refused = Vec::new();
    for (name, sheet) in sheets(folder)? {
        match negyvosal::card(&sheet) {
            Ok(card) => filed.entry(card).or_default().push(name),
            Err(what) => refused.push(format!("{name}: refused {} at {}", what.number, what.place)),
        }
    }
    for (card, names) in &filed {
        println!("{} bytes: {}", card.len(), names.join(" "));
    }
    refused.iter().for_each(|line| println!("{line}"));
    let doubles = filed.values().filter(|names| names.len() > 1).count();
    println!("cards {}, of several sheets {doubles}, refused {}", filed.len(), refused.len());
    Ok(())
}

fn main() -> ExitCode {
    let arguments: Vec<String> = std::env::args().skip(1).collect();
    let [folder] = &arguments[..] else {
        eprintln!("usage: cards FOLDER");
        return ExitCode::from(2);
    };
    match file(folder) {
        Ok(()) => ExitCode::SUCCESS,
        Err(error) => {
            eprintln!("{folder}: {error}");
            ExitCode::FAILURE
        }
    }
}
