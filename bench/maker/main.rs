//! `maker FOLDER`: writes the fifty pairs of sheets for year-end timing into the folder, the same ones each time, with
//! an index. Every pair is held to the rules of `rules.rs` and to what its class promises before it is written.

mod counters;
mod exploding;
mod fifty;
mod names;
#[path = "../peer/mod.rs"]
mod peer;
#[allow(dead_code)]
#[path = "../../tests/independent/random.rs"]
mod random;
#[allow(dead_code)]
#[path = "../../tests/independent/reader.rs"]
mod reader;
mod routine;
mod rules;
#[allow(dead_code)]
#[path = "../../tests/independent/sheet.rs"]
mod sheet;
mod terms;
mod tidy;
#[path = "../../tests/independent/weigh.rs"]
mod weigh;

use fifty::{fifty, Class, Pair};
use peer::{Answer, Peer};
use std::path::Path;
use std::process::ExitCode;

const HEAD: &str =
    "# pair class | Z, overflow rule, type | sizes | answer | pairs of positions visited | what the sheets are\n";

/// What the class promises of the answer, or what is wrong with it.
fn keeps_the_promise(class: Class, answer: &Answer, visited: usize) -> Result<(), String> {
    let kept = match (class, answer) {
        (Class::Loops | Class::Tidied, Answer::Same) => visited < 20_000,
        (Class::Early, Answer::Apart { moves, .. }) => *moves <= 12,
        (Class::Late, Answer::Apart { moves, .. }) => *moves >= 100,
        (Class::News | Class::Names, _) => visited < 20_000,
        (Class::DeadPrivates, Answer::Same) => (50_000..200_000).contains(&visited),
        (Class::Endless, Answer::Same) => visited > 2_000_000,
        _ => false,
    };
    let shown = match answer {
        Answer::Same => "same".to_string(),
        Answer::Apart { moves, .. } => format!("apart by {moves} moves"),
    };
    kept.then_some(()).ok_or(format!("{shown}, {visited} pairs of positions visited"))
}

/// Writes a pair into its folder; its line of the index.
fn write(folder: &Path, number: usize, pair: &Pair, peer: &mut Peer) -> Result<String, String> {
    let [old, new] = [&pair.old, &pair.new].map(|term| sheet::written(&pair.heading, term));
    let (a, b) = rules::keeps_the_rules(&old, &new)?;
    peer.clear();
    let answer = peer.compare(&old, &new).ok_or("refused by the peer")?;
    keeps_the_promise(pair.class, &answer, peer.visited())?;
    let place = folder.join(format!("{number:02}"));
    let written = std::fs::create_dir_all(&place)
        .and_then(|()| std::fs::write(place.join("old.sheet"), &old))
        .and_then(|()| std::fs::write(place.join("new.sheet"), &new));
    written.map_err(|error| error.to_string())?;
    let shown = match answer {
        Answer::Same => "same".to_string(),
        Answer::Apart { in_old, moves, .. } => format!("apart in {} {moves}", if in_old { "old" } else { "new" }),
    };
    let Pair { class, heading, what, .. } = pair;
    Ok(format!(
        "{number:02} {} | {} {} {} | {} {} | {shown} | {} | {what}\n",
        class.name(),
        heading.numbers.z,
        heading.numbers.rule,
        a.term.gives.byte(),
        a.size,
        b.size,
        peer.visited()
    ))
}

fn run(folder: &Path) -> Result<(), String> {
    let mut peer = Peer::default();
    let mut index = HEAD.to_string();
    for (pair, number) in fifty().iter().zip(1..) {
        index += &write(folder, number, pair, &mut peer).map_err(|what| format!("pair {number}: {what}"))?;
    }
    std::fs::write(folder.join("index.txt"), index).map_err(|error| error.to_string())
}

fn main() -> ExitCode {
    let Some(folder) = std::env::args().nth(1) else {
        eprintln!("usage: maker FOLDER");
        return ExitCode::from(2);
    };
    match run(Path::new(&folder)) {
        Ok(()) => ExitCode::SUCCESS,
        Err(what) => {
            eprintln!("{what}");
            ExitCode::FAILURE
        }
    }
}
