//! Runs the cases of vector files, one JSON object a line, through the services here.

use crate::cases::{self, parts::OnePart};
use crate::part::expect_one_part;
use crate::services;
use std::collections::HashMap;

/// A value of a case: the objects hold texts, whole numbers and lists of these only.
enum Value {
    Text(String),
    Number(usize),
    Numbers(Vec<usize>),
}

type Case = HashMap<String, Value>;

/// A reader of one line.
struct Line<'a> {
    rest: &'a str,
}

impl Line<'_> {
    fn blank(&mut self) {
        self.rest = self.rest.trim_start();
    }

    /// Whether the character comes next; then it is passed over.
    fn passes(&mut self, wanted: char) -> bool {
        self.blank();
        match self.rest.strip_prefix(wanted) {
            Some(rest) => {
                self.rest = rest;
                true
            }
            None => false,
        }
    }

    fn expect(&mut self, wanted: char) -> Result<(), String> {
        if self.passes(wanted) {
            Ok(())
        } else {
            Err(format!("'{wanted}' expected before '{}'", self.rest))
        }
    }

    fn text(&mut self) -> Result<String, String> {
        self.expect('"')?;
        let mut text = String::new();
        let mut letters = self.rest.chars();
        loop {
            match letters.next() {
                None => return Err("a text without an end".to_string()),
                Some('"') => break,
                Some('\\') => match letters.next() {
                    Some('n') => text.push('\n'),
                    Some(letter @ ('"' | '\\' | '/')) => text.push(letter),
                    other => return Err(format!("an escape that is not known: {other:?}")),
                },
                Some(letter) => text.push(letter),
            }
        }
        self.rest = letters.as_str();
        Ok(text)
    }

    fn value(&mut self) -> Result<Value, String> {
        self.blank();
        if self.rest.starts_with('"') {
            return Ok(Value::Text(self.text()?));
        }
        if self.passes('[') {
            return self.numbers().map(Value::Numbers);
        }
        self.number().map(Value::Number)
    }

    /// The rest of a list, which is not empty.
    fn numbers(&mut self) -> Result<Vec<usize>, String> {
        let mut numbers = vec![self.number()?];
        while self.passes(',') {
            numbers.push(self.number()?);
        }
        self.expect(']')?;
        Ok(numbers)
    }

    fn number(&mut self) -> Result<usize, String> {
        self.blank();
        let end = self.rest.find(|c: char| !c.is_ascii_digit()).unwrap_or(self.rest.len());
        let (digits, rest) = self.rest.split_at(end);
        self.rest = rest;
        digits.parse().map_err(|_| format!("a value expected before '{rest}'"))
    }

    fn case(&mut self) -> Result<Case, String> {
        let mut case = Case::new();
        self.expect('{')?;
        loop {
            let name = self.text()?;
            self.expect(':')?;
            case.insert(name, self.value()?);
            if !self.passes(',') {
                break;
            }
        }
        self.expect('}')?;
        self.blank();
        if self.rest.is_empty() {
            Ok(case)
        } else {
            Err(format!("more after the case: '{}'", self.rest))
        }
    }
}

fn text<'a>(case: &'a Case, name: &str) -> Result<&'a str, String> {
    match case.get(name) {
        Some(Value::Text(text)) => Ok(text),
        _ => Err(format!("no text '{name}'")),
    }
}

fn number(case: &Case, name: &str) -> Result<usize, String> {
    match case.get(name) {
        Some(Value::Number(number)) => Ok(*number),
        _ => Err(format!("no number '{name}'")),
    }
}

/// The bytes that a text gives in hex.
pub fn bytes(hex: &str) -> Result<Vec<u8>, String> {
    let digits: Option<Vec<u32>> = hex.chars().map(|c| c.to_digit(16)).collect();
    match digits {
        Some(digits) if digits.len() % 2 == 0 => Ok(digits.chunks(2).map(|d| (16 * d[0] + d[1]) as u8).collect()),
        _ => Err(format!("not in hex: '{hex}'")),
    }
}

pub fn hex(bytes: &[u8]) -> String {
    bytes.iter().map(|b| format!("{b:02x}")).collect()
}

/// What a case gives.
fn outcome(case: &Case) -> Result<String, String> {
    let part = |name: &str| bytes(text(case, name)?);
    match text(case, "service")? {
        "check" => Ok(services::text(&services::check(&part("sheet")?))),
        "profile" => Ok(services::text(&services::profile(&part("sheet")?))),
        "follow" => {
            let words = number(case, "words")?;
            Ok(services::text(&services::follow(&part("sheet")?, &part("play")?, words)))
        }
        "compare" => {
            let (words, space) = (number(case, "words")?, number(case, "space")?);
            Ok(services::compare_text(&part("old")?, &part("new")?, words, space))
        }
        "look" => {
            let (limit, words, space) = (number(case, "limit")?, number(case, "words")?, number(case, "space")?);
            Ok(services::look_text(&part("old")?, &part("new")?, limit as u64, words, space))
        }
        "card" => {
            let (words, space) = (number(case, "words")?, number(case, "space")?);
            Ok(services::text(&services::card(&part("sheet")?, words, space)))
        }
        "renumber" => {
            let (output, list) = (number(case, "out")?, number(case, "list")?);
            Ok(services::text(&services::renumber(&part("sheet")?, output, list)))
        }
        "parts" => {
            let [old, new, part_old, part_new] = [part("old")?, part("new")?, part("part_old")?, part("part_new")?];
            expect_one_part(&old, &new, number(case, "place")?, [&part_old, &part_new])?;
            Ok(services::parts_text(&old, &new, &part_old, &part_new))
        }
        other => Err(format!("service {other} is not known")),
    }
}

/// The marks that a comparison passes on; none where it is refused.
fn marks_of(old: &[u8], new: &[u8], words: usize, space: usize) -> Option<[usize; 2]> {
    let (a, b) = services::read_both(old, new, words, space).ok()?;
    Some(services::marks_of(&a, &b).map(|mark| mark.bits as usize))
}

/// The marks that a case gives.
fn marks(case: &Case) -> Result<Option<[usize; 2]>, String> {
    if text(case, "service")? != "compare" {
        return Ok(None);
    }
    let (old, new) = (bytes(text(case, "old")?)?, bytes(text(case, "new")?)?);
    Ok(marks_of(&old, &new, number(case, "words")?, number(case, "space")?))
}

fn run_line(line: &str) -> Result<(), String> {
    let case = Line { rest: line }.case()?;
    let (wanted, got) = (text(&case, "expect")?, outcome(&case)?);
    if wanted != got {
        return Err(format!("expected {wanted:?}, got {got:?}"));
    }
    match (case.get("marks"), marks(&case)?) {
        (None, None) => Ok(()),
        (Some(Value::Numbers(wanted)), Some(got)) if wanted[..] == got => Ok(()),
        (_, got) => Err(format!("the marks are {got:?}")),
    }
}

/// A case and its answer as a line of a vector file.
pub fn line(case: &cases::Case) -> String {
    let (given, expect) = match case {
        cases::Case::Check { sheet } => {
            (format!("\"check\", \"sheet\": \"{}\"", hex(sheet)), services::text(&services::check(sheet)))
        }
        cases::Case::Follow { sheet, play, words } => (
            format!("\"follow\", \"sheet\": \"{}\", \"play\": \"{}\", \"words\": {words}", hex(sheet), hex(play)),
            services::text(&services::follow(sheet, play, *words)),
        ),
        cases::Case::Compare { old, new, words, space, .. } => (
            format!(
                "\"compare\", \"old\": \"{}\", \"new\": \"{}\", \"words\": {words}, \"space\": {space}",
                hex(old),
                hex(new)
            ),
            services::compare_text(old, new, *words, *space),
        ),
        cases::Case::Renumber { sheet, output, list } => (
            format!("\"renumber\", \"sheet\": \"{}\", \"out\": {output}, \"list\": {list}", hex(sheet)),
            services::text(&services::renumber(sheet, *output, *list)),
        ),
        cases::Case::Card { sheet, words, space } => (
            format!("\"card\", \"sheet\": \"{}\", \"words\": {words}, \"space\": {space}", hex(sheet)),
            services::text(&services::card(sheet, *words, *space)),
        ),
        cases::Case::Parts(OnePart { wholes: [old, new], place, parts: [part_old, part_new], .. }) => (
            format!(
                "\"parts\", \"old\": \"{}\", \"new\": \"{}\", \"place\": {place}, \
                \"part_old\": \"{}\", \"part_new\": \"{}\"",
                hex(old),
                hex(new),
                hex(part_old),
                hex(part_new)
            ),
            services::parts_text(old, new, part_old, part_new),
        ),
    };
    format!("{{\"service\": {given}, \"expect\": \"{}\"{}}}", expect.replace('\n', "\\n"), marks_field(case))
}

/// The field of a line that has the marks of a comparison.
fn marks_field(case: &cases::Case) -> String {
    let marks = match case {
        cases::Case::Compare { old, new, words, space, .. } => marks_of(old, new, *words, *space),
        _ => None,
    };
    marks.map_or(String::new(), |[old, new]| format!(", \"marks\": [{old}, {new}]"))
}

/// Runs the files; whether all cases give what they should.
pub fn run(files: &[String]) -> Result<bool, String> {
    let (mut passed, mut failed) = (0, 0);
    for file in files {
        let lines = std::fs::read_to_string(file).map_err(|e| format!("{file}: {e}"))?;
        for (i, line) in lines.lines().enumerate() {
            match run_line(line) {
                Ok(()) => passed += 1,
                Err(what) => {
                    failed += 1;
                    println!("{file}:{}: {what}", i + 1);
                }
            }
        }
    }
    println!("{passed} passed, {failed} failed");
    Ok(failed == 0)
}
