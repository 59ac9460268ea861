//! `year-end FOLDER [each]`: times the library and the peer on the pairs of sheets in the folder, and holds their
//! answers to each other. The exit status is 0 only if all agree.

#[allow(dead_code)]
#[path = "../bindings/rust/src/boundary.rs"]
mod boundary;
mod clock;
mod peer;

use boundary::{negyvosal_check, negyvosal_compare, state_words, ACCEPTED, APART, OLD_MARK, SAME, WORDS};
use clock::now;
use peer::{Answer, Peer};
use std::path::Path;
use std::process::ExitCode;

const RUNS: usize = 15;
const IN_OLD: u32 = 0;
/// What play space is filled with, so that what the library leaves is seen.
const UNTOUCHED: u8 = 0;

/// The classes on which a table of all pairs of positions fills up.
const EXPLODING: [&str; 2] = ["dead-privates", "endless"];

/// A pair of sheets and what the library is lent for it.
struct Pair {
    name: String,
    class: String,
    old: Vec<u8>,
    new: Vec<u8>,
    words: Vec<u32>,
    space: Vec<u8>,
}

/// The size of a sheet, as the library reckons it.
fn size(sheet: &[u8]) -> Result<usize, String> {
    let mut out = [0; WORDS];
    // SAFETY: both pointers are to as many elements as the lengths say.
    unsafe { negyvosal_check(sheet.as_ptr(), sheet.len(), out.as_mut_ptr(), WORDS) };
    if out[0] == ACCEPTED {
        Ok(out[2] as usize)
    } else {
        Err(format!("refused {} at {}", out[1], out[3]))
    }
}

impl Pair {
    /// The pair of a line of the index, which begins with its folder and its class.
    fn read(folder: &Path, line: &str) -> Result<Pair, String> {
        let mut fields = line.split_whitespace().map(str::to_string);
        let (Some(name), Some(class)) = (fields.next(), fields.next()) else {
            return Err(format!("no pair in the line '{line}'"));
        };
        let file = |sheet: &str| {
            let path = folder.join(&name).join(sheet);
            std::fs::read(&path).map_err(|error| format!("{}: {error}", path.display()))
        };
        let (old, new) = (file("old.sheet")?, file("new.sheet")?);
        let sizes = size(&old)? + size(&new)?;
        let (words, space) = (vec![0; state_words(old[0]) * (sizes + 1)], vec![UNTOUCHED; 4 * (sizes - 1)]);
        Ok(Pair { name, class, old, new, words, space })
    }

    fn clear(&mut self) {
        self.words.fill(0);
        self.space.fill(UNTOUCHED);
    }

    /// Runs the library once; the words of its answer and the time.
    fn run_library(&mut self) -> ([u32; WORDS], f64) {
        let mut out = [0; WORDS];
        let start = now();
        // SAFETY: every pointer is to as many elements as its length says, and none overlap.
        unsafe {
            negyvosal_compare(
                self.old.as_ptr(),
                self.old.len(),
                self.new.as_ptr(),
                self.new.len(),
                self.words.as_mut_ptr(),
                self.words.len(),
                self.space.as_mut_ptr(),
                self.space.len(),
                out.as_mut_ptr(),
                WORDS,
            );
        }
        (out, now() - start)
    }

    /// Runs the peer once; its answer and the time.
    fn run_peer(&self, peer: &mut Peer) -> (Option<Answer>, f64) {
        let start = now();
        let answer = peer.compare(&self.old, &self.new);
        (answer, now() - start)
    }

    /// Whether the library's words, but for the marks, and play space say what the peer answers, and nothing more.
    fn agrees(&self, words: [u32; WORDS], answer: &Option<Answer>) -> bool {
        let words = &words[..OLD_MARK];
        match answer {
            None => false,
            Some(Answer::Same) => words == [SAME, 0, 0, 0, 0] && self.space.iter().all(|&b| b == UNTOUCHED),
            Some(Answer::Apart { in_old, moves, records }) => {
                let (shown, rest) = self.space.split_at(records.len().min(self.space.len()));
                words == [APART, if *in_old { IN_OLD } else { 1 }, *moves as u32, 0, 0]
                    && shown == records
                    && rest.iter().all(|&b| b == UNTOUCHED)
            }
        }
    }

    /// The least times of the library and the peer, in turn; none where their answers differ.
    fn time(&mut self, peer: &mut Peer) -> Option<Times> {
        let mut least = Times { pairs: 1, visited: 0, library: f64::INFINITY, peer: f64::INFINITY };
        for _ in 0..RUNS {
            self.clear();
            peer.clear();
            let (words, library) = self.run_library();
            let (answer, by_peer) = self.run_peer(peer);
            if !self.agrees(words, &answer) {
                return None;
            }
            least.library = least.library.min(library);
            least.peer = least.peer.min(by_peer);
            least.visited = peer.visited();
        }
        Some(least)
    }
}

/// Times of some pairs, summed.
#[derive(Clone, Copy, Default)]
struct Times {
    pairs: usize,
    /// The pairs of positions that the peer visits.
    visited: usize,
    library: f64,
    peer: f64,
}

impl Times {
    fn add(&mut self, other: Times) {
        self.pairs += other.pairs;
        self.visited += other.visited;
        self.library += other.library;
        self.peer += other.peer;
    }

    fn print(&self, name: &str) {
        let ratio = self.library / self.peer;
        let Times { pairs, visited, library, peer } = self;
        println!("{name:<36}{pairs:>6}{visited:>10}{library:>10.0}{peer:>10.0}{ratio:>16.2}");
    }
}

/// The times by class, in the order of the index.
#[derive(Default)]
struct Totals {
    classes: Vec<(String, Times)>,
}

impl Totals {
    fn add(&mut self, class: &str, times: Times) {
        match self.classes.iter_mut().find(|(name, _)| name == class) {
            Some((_, sum)) => sum.add(times),
            None => self.classes.push((class.to_string(), times)),
        }
    }

    fn sum(&self, counted: impl Fn(&str) -> bool) -> Times {
        let mut sum = Times::default();
        self.classes.iter().filter(|(name, _)| counted(name)).for_each(|(_, times)| sum.add(*times));
        sum
    }

    fn print(&self) {
        self.classes.iter().for_each(|(name, times)| times.print(name));
        self.sum(|_| true).print("all");
        self.sum(|class| !EXPLODING.contains(&class)).print(&format!("all but {}", EXPLODING.join(" and ")));
    }
}

/// Times every pair; how many answers differ.
fn run(folder: &Path, each: bool) -> Result<usize, String> {
    let index = folder.join("index.txt");
    let lines = std::fs::read_to_string(&index).map_err(|error| format!("{}: {error}", index.display()))?;
    let mut peer = Peer::default();
    let (mut totals, mut differ) = (Totals::default(), 0);
    println!("Processor time of the thread in microseconds, least of {RUNS} runs a pair, library and peer in turn.");
    println!("Before each run working words, play space and the peer's table are cleared, outside the timing.");
    println!("'visited' counts the pairs of positions that the peer looks at.");
    println!("{:<36}{:>6}{:>10}{:>10}{:>10}{:>16}", "class", "pairs", "visited", "library", "peer", "library : peer");
    for line in lines.lines().filter(|line| !line.starts_with('#')) {
        let mut pair = Pair::read(folder, line)?;
        match pair.time(&mut peer) {
            Some(times) => {
                totals.add(&pair.class, times);
                if each {
                    times.print(&format!("  {} {}", pair.name, pair.class));
                }
            }
            None => {
                differ += 1;
                println!("pair {}: the answers differ", pair.name);
            }
        }
    }
    totals.print();
    Ok(differ)
}

fn main() -> ExitCode {
    let arguments: Vec<String> = std::env::args().skip(1).collect();
    let (folder, each) = match arguments.iter().map(String::as_str).collect::<Vec<_>>()[..] {
        [folder] => (folder.to_string(), false),
        [folder, "each"] => (folder.to_string(), true),
        _ => {
            eprintln!("usage: year-end FOLDER [each]");
            return ExitCode::from(2);
        }
    };
    match run(Path::new(&folder), each) {
        Ok(0) => {
            println!("The answers agree on every pair: verdict, sheet, number of moves and records.");
            ExitCode::SUCCESS
        }
        Ok(differ) => {
            println!("The answers differ on {differ} pairs.");
            ExitCode::FAILURE
        }
        Err(what) => {
            eprintln!("{what}");
            ExitCode::from(2)
        }
    }
}
