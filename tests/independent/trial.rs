//! Runs random cases through the services here and through the library, and reports where they disagree.

mod cards;
mod parts;

use crate::cases::parts::OnePart;
use crate::cases::{near, Case};
use crate::compare::{first_difference, Difference};
use crate::library::{self, bytes_of, words_of, Compared, Words, WORDS};
use crate::machine::Machine;
use crate::mark::NONE;
use crate::random::Random;
use crate::reader::{read, read_under, Fault, Rule, Sheet};
use crate::renumber::LIST;
use crate::services::{self, Answer, Marks, Which};
use crate::sheet::{written, Record, Type};
use crate::vectors::hex;
use cards::CardCounts;
use parts::PartCounts;

/// The number of the refusal of a use of a retired id.
const RETIRED: u32 = 6;

/// The number of the refusal of two sheets with different headings or types.
const UNLIKE: u32 = 12;

/// The most pairs that one comparison visits.
const MOST_PAIRS: usize = 300_000;

/// The most steps that one look walks.
const MOST_STEPS: usize = 100_000;

/// How often each thing happened.
#[derive(Default)]
struct Counts {
    accepted: usize,
    most_used: u32,
    /// Accepted sheets that use all the names they declare, and ones that declare some and use none.
    all_used: usize,
    none_used: usize,
    followed: usize,
    complete: usize,
    same: usize,
    /// Those tried with every name declared by kind 3.
    same_once: usize,
    apart: usize,
    capped: usize,
    refused: [usize; 19],
    /// Sheets in the profile, and those of them that are expressions with some play.
    quiet: usize,
    quiet_expressions: usize,
    /// Sheets that check refuses and that the rule before request [3] accepts.
    turned_away: usize,
    /// Looks: apart, same, same so far, and those walked in part only.
    looks: [usize; 4],
    renumbered: usize,
    most_changes: usize,
    unaltered: usize,
    /// Comparisons of two sheets without any play.
    empty: usize,
    /// Comparisons of two sheets with different marks, and those that are the same.
    unlike_marks: usize,
    same_with_unlike_marks: usize,
    longest_play: usize,
    largest: u64,
    most_states: usize,
    /// Comparisons of two sheets near the size limit.
    near: usize,
    /// Comparisons in which some silent walk goes round for ever.
    rounds: usize,
    parts: PartCounts,
    cards: CardCounts,
}

impl Counts {
    fn note(&mut self, answer: &Answer) {
        match answer {
            Answer::Refused { number, .. } => self.refused[*number as usize] += 1,
            Answer::Accepted { size, mark, .. } => {
                self.accepted += 1;
                self.largest = self.largest.max(*size);
                self.most_used = self.most_used.max(mark.used);
                self.all_used += (mark.used > 0 && mark.unused == NONE) as usize;
                self.none_used += (mark.used == 0 && mark.unused != NONE) as usize;
            }
            Answer::Followed { complete, .. } => {
                self.followed += 1;
                self.complete += *complete as usize;
            }
            Answer::Same { marks: [old, new] } => {
                self.same += 1;
                self.unlike_marks += (old != new) as usize;
                self.same_with_unlike_marks += (old != new) as usize;
            }
            Answer::Apart { play, marks: [old, new], .. } => {
                self.apart += 1;
                self.unlike_marks += (old != new) as usize;
                self.longest_play = self.longest_play.max(play.len());
            }
            Answer::Looked { .. } | Answer::Carded { .. } => {}
            Answer::Renumbered { changes, .. } => {
                self.renumbered += 1;
                self.most_changes = self.most_changes.max(changes.len());
                self.unaltered += changes.is_empty() as usize;
            }
            Answer::Unknown => self.capped += 1,
        }
    }

    fn print(&self) {
        println!("check: {} accepted, sizes up to {}", self.accepted, self.largest);
        println!("check: {} refused that the earlier rule accepts", self.turned_away);
        println!(
            "check: up to {} names used; all {} times, none {} times",
            self.most_used, self.all_used, self.none_used
        );
        println!("profile: {} accepted, {} of them expressions that play", self.quiet, self.quiet_expressions);
        println!("follow: {} followed, {} of them complete", self.followed, self.complete);
        println!("compare: {} same, {} of them without plays", self.same, self.empty);
        println!("compare: {} same with every name asking once too", self.same_once);
        println!("compare: {} apart, by up to {} moves", self.apart, self.longest_play);
        let (unlike, same) = (self.unlike_marks, self.same_with_unlike_marks);
        println!("compare: {unlike} with different marks, {same} of them same");
        println!("compare: {} with over {MOST_PAIRS} pairs, tried in part only", self.capped);
        println!("compare: up to {} states, {} times with a silent loop", self.most_states, self.rounds);
        println!("compare: {} with both sizes {} or more", self.near, near::SMALLEST);
        let [apart, same, so_far, capped] = self.looks;
        println!("look: {apart} apart, {same} same, {so_far} same so far; {capped} walked in part only");
        println!("renumber: {} renumbered, {} of them unaltered", self.renumbered, self.unaltered);
        println!("renumber: up to {} changes", self.most_changes);
        self.parts.print();
        self.cards.print();
        println!("refused, by number: {}", by_number(&self.refused));
    }
}

/// The counts that are not 0, each with its number.
fn by_number(counts: &[usize]) -> String {
    let counted = counts.iter().enumerate().filter(|(_, count)| **count > 0);
    let counted: Vec<String> = counted.map(|(number, count)| format!("{number}: {count}")).collect();
    counted.join(", ")
}

/// Runs that many cases as `make` makes them; whether there was no disagreement.
pub fn run(seed: u64, count: u64, make: fn(&mut Random) -> Case) -> bool {
    let mut counts = Counts::default();
    let mut disagreements = 0;
    for i in 0..count {
        let mut random = Random::new(seed, i);
        let case = make(&mut random);
        let room = WORDS + random.below(4);
        if let Err(what) = run_case(&case, room, &mut counts) {
            disagreements += 1;
            println!("case {i}: {}: {what}", shown(&case));
        }
    }
    counts.print();
    println!("{count} cases, {disagreements} disagreements");
    disagreements == 0
}

fn shown(case: &Case) -> String {
    match case {
        Case::Check { sheet } => format!("check {}", hex(sheet)),
        Case::Follow { sheet, play, words } => {
            format!("follow {} play {} words {words}", hex(sheet), hex(play))
        }
        Case::Compare { old, new, words, space, .. } => {
            format!("compare {} and {} words {words} space {space}", hex(old), hex(new))
        }
        Case::Renumber { sheet, output, list } => format!("renumber {} output {output} list {list}", hex(sheet)),
        Case::Card { sheet, words, space } => format!("card {} words {words} space {space}", hex(sheet)),
        Case::Parts(OnePart { wholes: [old, new], place, parts: [part_old, part_new], .. }) => {
            let parts = format!("parts {} and {}", hex(part_old), hex(part_new));
            format!("{parts} at {place} of {} and {}", hex(old), hex(new))
        }
    }
}

fn run_case(case: &Case, room: usize, counts: &mut Counts) -> Result<(), String> {
    match case {
        Case::Check { sheet } => {
            let answer = services::check(sheet);
            counts.note(&answer);
            counts.turned_away += (read(sheet).is_err() && read_under(Rule::Earlier, sheet).is_ok()) as usize;
            expect_words(&answer, library::check(sheet, room)?)?;
            expect_mark(sheet)?;
            expect_profile(sheet, room, counts)
        }
        Case::Follow { sheet, play, words } => {
            let answer = services::follow(sheet, play, *words);
            counts.note(&answer);
            expect_words(&answer, library::follow(sheet, play, *words, room)?)
        }
        Case::Compare { old, new, words, space, alike } => {
            let got = library::compare(old, new, *words, *space, room)?;
            match services::read_both(old, new, *words, *space) {
                Ok((a, b)) => {
                    run_compare(&a, &b, *alike, &got, counts)?;
                    expect_once(&a, &b, &got, room, counts)?;
                    cards::expect_doubles(old, new, &got, room, counts)?;
                    let call = |limit| library::look(old, new, limit, *words, *space, room);
                    run_looks(&a, &b, &got, call, counts)
                }
                Err(answer) => {
                    counts.note(&answer);
                    expect_words(&answer, got.words)?;
                    got.expect_space(&[])?;
                    if matches!(answer, Answer::Refused { number: UNLIKE, .. }) {
                        cards::expect_doubles(old, new, &got, room, counts)?;
                    }
                    let got = library::look(old, new, *words as u64, *words, *space, room)?;
                    expect_words(&answer, got.words)?;
                    got.expect_space(&[])
                }
            }
        }
        Case::Renumber { sheet, output, list } => {
            let answer = services::renumber(sheet, *output, *list);
            counts.note(&answer);
            let got = library::renumber(sheet, *output, *list, room)?;
            expect_words(&answer, got.words)?;
            got.expect(&answer)?;
            expect_renumbered(sheet, &answer)
        }
        Case::Parts(case) => parts::run(case, room, counts),
        Case::Card { sheet, words, space } => cards::run(sheet, *words, *space, room, counts),
    }
}

/// That a name is used is also to be seen without looking at the term: once its id is retired, the sheet is refused for
/// it.
fn expect_mark(bytes: &[u8]) -> Result<(), String> {
    let Ok(sheet) = read(bytes) else {
        return Ok(());
    };
    let mark = sheet.mark();
    for (number, record) in sheet.heading.records.iter().enumerate() {
        let mut heading = sheet.heading.clone();
        heading.records[number] = Record::Retire { id: record.id() };
        let refused = matches!(read(&written(&heading, &sheet.term)), Err(Fault { number: RETIRED, .. }));
        if refused != (mark.bits >> number & 1 == 1) {
            return Err(format!("bit {number} of the mark {} is wrong", mark.bits));
        }
    }
    Ok(())
}

/// The profile; and of an expression in it, that all moves of its plays are *ask*, *read* and value.
fn expect_profile(bytes: &[u8], room: usize, counts: &mut Counts) -> Result<(), String> {
    let answer = services::profile(bytes);
    expect_words(&answer, library::profile(bytes, room)?)?;
    if !matches!(answer, Answer::Accepted { .. }) {
        counts.refused[18] += matches!(answer, Answer::Refused { number: 18, .. }) as usize;
        return Ok(());
    }
    counts.quiet += 1;
    let Ok(sheet) = read(bytes) else {
        return Err("profile accepts what check refuses".to_string());
    };
    if !matches!(sheet.term.gives, Type::Expression(_)) {
        return Ok(());
    }
    let machine = Machine::of(&sheet);
    let (mut seen, mut left) = (Vec::new(), Vec::from_iter(machine.start()));
    counts.quiet_expressions += !left.is_empty() as usize;
    while let Some(state) = left.pop() {
        if seen.contains(&state) {
            continue;
        }
        seen.push(state);
        for (shown, to) in machine.moves(state) {
            if ![2, 3, 5].contains(&shown.kind) {
                return Err(format!("a quiet expression has a move of kind {}", shown.kind));
            }
            left.push(*to);
        }
    }
    Ok(())
}

/// What document 02 says of a sheet renumbered: it is accepted and has the plays that the earlier rule gave the old one,
/// with the same type and size, and there is nothing left to change.
fn expect_renumbered(bytes: &[u8], answer: &Answer) -> Result<(), String> {
    let Answer::Renumbered { sheet, changes } = answer else {
        return Ok(());
    };
    let (Ok(old), Ok(new)) = (read_under(Rule::Earlier, bytes), read(sheet)) else {
        return Err("the sheet renumbered is refused".to_string());
    };
    if (old.term.gives, old.size, bytes.len()) != (new.term.gives, new.size, sheet.len()) {
        return Err("the sheet renumbered has another type, size or length".to_string());
    }
    if changes.is_empty() != (sheet == bytes) || changes.is_empty() != read(bytes).is_ok() {
        return Err("there are changes without need, or none where there should be some".to_string());
    }
    let again = Answer::Renumbered { sheet: sheet.clone(), changes: vec![] };
    if services::renumber(sheet, sheet.len(), LIST) != again {
        return Err("it is not renumbered once and for all".to_string());
    }
    if old.mark() != new.mark() {
        return Err("it uses other names".to_string());
    }
    match first_difference(&Machine::of(&old), &Machine::of(&new), MOST_PAIRS) {
        Difference::Apart { .. } => Err("it has other plays".to_string()),
        _ => Ok(()),
    }
}

fn expect_words(answer: &Answer, got: Words) -> Result<(), String> {
    let wanted = words_of(answer);
    if wanted == got {
        Ok(())
    } else {
        Err(format!("expected {wanted:?}, the library gives {got:?}"))
    }
}

/// Two sheets that compare accepts.
fn run_compare(a: &Sheet, b: &Sheet, alike: bool, got: &Compared, counts: &mut Counts) -> Result<(), String> {
    let (old, new) = (Machine::of(a), Machine::of(b));
    expect_states(a, &old)?;
    expect_states(b, &new)?;
    let marks = services::marks_of(a, b);
    let answer = services::compare_machines(&old, &new, marks, MOST_PAIRS);
    counts.note(&answer);
    counts.most_states = counts.most_states.max(old.reached).max(new.reached);
    counts.near += (a.size.min(b.size) >= near::SMALLEST) as usize;
    counts.rounds += (old.goes_round() || new.goes_round()) as usize;
    counts.empty += (answer == Answer::Same { marks } && old.start().is_none()) as usize;
    match &answer {
        Answer::Unknown => expect_some_answer(&old, &new, marks, got),
        Answer::Apart { .. } if alike => Err("a tidied copy is apart".to_string()),
        Answer::Apart { play, .. } if play.len() as u64 > a.size + b.size - 1 => {
            Err(format!("the play has {} moves", play.len()))
        }
        _ => {
            expect_words(&answer, got.words)?;
            got.expect_space(&bytes_of(&answer))
        }
    }
}

/// Two sheets that are the same are the same with every name declared by kind 3: a play tells by its moves how often each
/// call asks, and those that ask at most once are the plays that are left.
fn expect_once(a: &Sheet, b: &Sheet, got: &Compared, room: usize, counts: &mut Counts) -> Result<(), String> {
    let same = words_of(&Answer::Same { marks: services::marks_of(a, b) });
    let [old, new] = [a, b].map(asking_once);
    let (Ok(a), Ok(b)) = (read(&old), read(&new)) else {
        return Ok(());
    };
    if got.words != same {
        return Ok(());
    }
    counts.same_once += 1;
    let words = services::words_to_compare(a.heading.numbers.z, a.size, b.size);
    let space = services::space_to_compare(a.size, b.size);
    let got = library::compare(&old, &new, words as usize, space as usize, room)?;
    if got.words == same {
        Ok(())
    } else {
        Err("they are not the same where every name asks once".to_string())
    }
}

/// The bytes of the sheet with every name declared by kind 3. It may be too large.
fn asking_once(sheet: &Sheet) -> Vec<u8> {
    let mut heading = sheet.heading.clone();
    for record in &mut heading.records {
        if let Record::Declare { once, .. } = record {
            *once = true;
        }
    }
    written(&heading, &sheet.term)
}

/// Looks through two sheets that compare accepts: by the walk here, where it is short enough, and by what compare
/// gives.
fn run_looks(
    a: &Sheet,
    b: &Sheet,
    compared: &Compared,
    call: impl Fn(u64) -> Result<Compared, String>,
    counts: &mut Counts,
) -> Result<(), String> {
    let (old, new) = (Machine::of(a), Machine::of(b));
    let marks = services::marks_of(a, b);
    let whole = a.size + b.size - 1;
    let apart = compared.words[0] == words_of(&Answer::Apart { sheet: Which::Old, play: vec![], marks })[0];
    let moves = compared.words[2] as u64;
    let mut limits = vec![0, 2, 5, 12, whole - 1, whole, u64::MAX];
    if apart {
        limits.extend([moves - 1, moves, moves + 1]);
    }
    for limit in limits {
        let got = call(limit)?;
        let by_compare = match apart && moves <= limit {
            true => {
                let play = services::first_moves(compared.space(), moves as usize).ok_or("no play in play space")?;
                let sheet = if compared.words[1] == 0 { Which::Old } else { Which::New };
                Answer::Apart { sheet, play, marks }
            }
            false => Answer::Looked { through: limit.min(whole), same: limit >= whole, marks },
        };
        counts.looks[match by_compare {
            Answer::Apart { .. } => 0,
            _ if limit >= whole => 1,
            _ => 2,
        }] += 1;
        let by_walk = services::look_machines(&old, &new, whole, limit, marks, MOST_STEPS);
        if by_walk == Answer::Unknown {
            counts.looks[3] += 1;
        } else if by_walk != by_compare {
            return Err(format!("within {limit} moves the walk finds {by_walk:?}, and compare {by_compare:?}"));
        }
        expect_words(&by_compare, got.words).map_err(|what| format!("look {limit}: {what}"))?;
        got.expect_space(&bytes_of(&by_compare)).map_err(|what| format!("look {limit}: {what}"))?;
    }
    Ok(())
}

/// The reckoned size bounds the states in which a move is due.
fn expect_states(sheet: &Sheet, machine: &Machine) -> Result<(), String> {
    if machine.reached as u64 <= sheet.size {
        Ok(())
    } else {
        Err(format!("{} states in size {}", machine.reached, sheet.size))
    }
}

/// Of a pair whose search was given up: the answer is "same", or a complete play of exactly the sheet named.
fn expect_some_answer(old: &Machine, new: &Machine, marks: Marks, got: &Compared) -> Result<(), String> {
    if got.words == words_of(&Answer::Same { marks }) {
        return got.expect_space(&[]);
    }
    let moves = got.words[2] as usize;
    let shown = services::first_moves(got.space(), moves).ok_or("play space holds no such play")?;
    let sheet = if got.words[1] == 0 { Which::Old } else { Which::New };
    let answer = Answer::Apart { sheet, play: shown, marks };
    expect_words(&answer, got.words)?;
    let bytes = bytes_of(&answer);
    got.expect_space(&bytes)?;
    let Answer::Apart { play, .. } = answer else {
        return Ok(());
    };
    if old.follow(&play).1 == (sheet == Which::Old) && new.follow(&play).1 == (sheet == Which::New) {
        Ok(())
    } else {
        Err("the play shown is not complete in exactly that sheet".to_string())
    }
}
