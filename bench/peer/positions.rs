//! The positions of a sheet and the moves between them: as many positions as document 01's reckoned size counts.
//!
//! One recursion over the term writes the positions in order. What an answer of the part at hand leads to stands on the
//! native stack as a chain of `Then`. Each part, asked one question, has as many positions as it weighs, one after the
//! other, and starts at the first; so every position that is not written yet is known by its number.

use super::sheet::{Class, Kind, Operator, Part, Sheet, Type};

/// A move as a number, so that the order of the numbers is document 01's order of moves.
pub type Shown = u32;

const NO_VALUE: i8 = 0;
const RUN: u8 = 0;
const DONE: u8 = 1;
const ASK: u8 = 2;
const READ: u8 = 3;
const OK: u8 = 4;
const VALUE: u8 = 5;
const WRITE: u8 = 6;

/// The place of the whole term.
const WHOLE: u8 = 255;

const MOST_BLOCKS: usize = 32;

fn shown(kind: u8, id: u8, argument: u8, value: i8) -> Shown {
    u32::from_be_bytes([kind, id, argument, (value as u8) ^ 128])
}

/// The record of a move.
pub fn write_record(shown: Shown, out: &mut Vec<u8>) {
    let [kind, id, argument, value] = shown.to_be_bytes();
    out.extend([kind, id, argument]);
    if kind >= VALUE {
        out.push(value ^ 128);
    }
}

#[derive(Clone, Copy)]
enum Question {
    Run,
    Ask,
    Read,
    /// The code of the value that is written.
    Write(usize),
}

impl Question {
    fn shown(self, id: u8, argument: u8, values: usize) -> Shown {
        match self {
            Question::Run => shown(RUN, id, argument, NO_VALUE),
            Question::Ask => shown(ASK, id, argument, NO_VALUE),
            Question::Read => shown(READ, id, argument, NO_VALUE),
            Question::Write(code) => shown(WRITE, id, argument, value_of(code, values)),
        }
    }

    fn answer_kind(self) -> u8 {
        match self {
            Question::Run => DONE,
            Question::Ask | Question::Read => VALUE,
            Question::Write(_) => OK,
        }
    }

    /// How many answers there are from something with as many values.
    fn answers(self, values: usize) -> usize {
        match self {
            Question::Run | Question::Write(_) => 1,
            Question::Ask | Question::Read => values,
        }
    }
}

/// The questions to something of this type, in the order of its positions.
fn questions(of: Type) -> impl Iterator<Item = Question> {
    let first = match of.class {
        Class::Command => Question::Run,
        Class::Expression => Question::Ask,
        Class::Variable => Question::Read,
    };
    std::iter::once(first).chain((0..of.questions() - 1).map(Question::Write))
}

/// The value with this code, of that many values.
fn value_of(code: usize, values: usize) -> i8 {
    if values > 2 && code > values / 2 {
        code as i8 - values as i8
    } else {
        code as i8
    }
}

/// The codes of that many values, from the lowest value.
fn codes(values: usize) -> impl Iterator<Item = usize> {
    let below = (values - 1) / 2;
    (values - below..values).chain(0..values - below)
}

/// What an answer of a part leads to. The answer is a code; done and ok have 0.
enum Then<'a> {
    /// Answer `code` leads to `first + code * stride`.
    To { first: usize, stride: usize },
    /// The test of an if is decided.
    Test { yes: usize, no: usize },
    /// The test of a while is decided: another round, or done.
    Round { yes: usize, outer: &'a Then<'a> },
    /// The right operand gives its value; that of the left one is there.
    Right { operator: Operator, left: usize, takes: usize, outer: &'a Then<'a> },
    /// The body of a block is done.
    Block { level: usize, outer: &'a Then<'a> },
}

/// The copy of a block's body that is being written.
#[derive(Clone, Copy)]
struct Copied {
    /// The code that the variable has in it.
    code: usize,
    weight: usize,
}

#[derive(Clone, Copy)]
pub struct Move {
    pub shown: Shown,
    pub to: u32,
}

#[derive(Default)]
pub struct Positions {
    /// What a silent position leads to; itself, where it is not silent.
    leads: Vec<u32>,
    /// Where the moves of each position begin, and where those of the last one end.
    first: Vec<u32>,
    moves: Vec<Move>,
}

pub const START: usize = 0;
pub const END: usize = 1;

impl Positions {
    /// How many positions there are; also the number of nowhere, which has no moves.
    pub fn nowhere(&self) -> usize {
        self.leads.len() - 1
    }

    pub fn moves(&self, position: usize) -> &[Move] {
        &self.moves[self.first[position] as usize..self.first[position + 1] as usize]
    }

    /// Writes the positions of a sheet in the place of those that are here.
    pub fn write(&mut self, sheet: &Sheet) {
        self.leads.clear();
        self.first.clear();
        self.moves.clear();
        let copied = [Copied { code: 0, weight: 0 }; MOST_BLOCKS];
        Writer { sheet, out: self, copied }.whole();
        self.lead_past_silence();
    }

    /// Leads every move past silent positions. A silent loop leads nowhere.
    fn lead_past_silence(&mut self) {
        let nowhere = self.nowhere() as u32;
        let mut walk = Vec::new();
        for start in 0..nowhere {
            let mut at = start;
            while self.leads[at as usize] != at {
                walk.push(at);
                at = std::mem::replace(&mut self.leads[at as usize], nowhere);
            }
            walk.drain(..).for_each(|passed| self.leads[passed as usize] = at);
        }
        self.moves.iter_mut().for_each(|m| m.to = self.leads[m.to as usize]);
    }
}

struct Writer<'a> {
    sheet: &'a Sheet,
    out: &'a mut Positions,
    /// By the number of blocks around it.
    copied: [Copied; MOST_BLOCKS],
}

impl Writer<'_> {
    /// The number of the position that is written next.
    fn next(&self) -> usize {
        self.out.leads.len()
    }

    fn silent(&mut self, to: usize) {
        self.out.leads.push(to as u32);
        self.out.first.push(self.out.moves.len() as u32);
    }

    /// Begins a position with moves, which follow.
    fn begin(&mut self) {
        self.silent(self.next());
    }

    fn add(&mut self, shown: Shown, to: usize) {
        self.out.moves.push(Move { shown, to: to as u32 });
    }

    /// The start, the end, and for each question to the whole term its positions and its answers.
    fn whole(&mut self) {
        let root = self.sheet.part(self.sheet.root());
        self.begin();
        for kind in RUN..=WRITE {
            self.add_questions(kind, WHOLE, 0, root, END + 1);
        }
        self.begin();
        self.asked(self.sheet.root(), WHOLE, 0, END);
        self.nowhere();
    }

    /// What comes after the last position: nowhere, which has no moves.
    fn nowhere(&mut self) {
        self.begin();
        self.out.first.push(self.out.moves.len() as u32);
    }

    /// Adds the questions of that kind to a part, whose positions begin at `at`, in the order of moves.
    fn add_questions(&mut self, kind: u8, id: u8, argument: u8, part: &Part, at: usize) {
        let (weight, values) = (part.weight(), part.gives.values());
        match (kind, part.gives.class) {
            (RUN, Class::Command) | (ASK, Class::Expression) | (READ, Class::Variable) => {
                self.add(shown(kind, id, argument, NO_VALUE), at);
            }
            (WRITE, Class::Variable) => {
                let writes = at + weight + values;
                for code in codes(values) {
                    let asked = shown(kind, id, argument, value_of(code, values));
                    self.add(asked, writes + code * (weight + 1));
                }
            }
            _ => {}
        }
    }

    /// A part at a place, for each question: its positions, then those that show its answers and lead to `back`.
    fn asked(&mut self, place: usize, id: u8, argument: u8, back: usize) {
        let part = self.sheet.part(place);
        let values = part.gives.values();
        for question in questions(part.gives) {
            let replies = self.next() + part.weight();
            self.part(place, question, &Then::To { first: replies, stride: 1 });
            for code in 0..question.answers(values) {
                let value = if question.answer_kind() == VALUE { value_of(code, values) } else { NO_VALUE };
                self.begin();
                self.add(shown(question.answer_kind(), id, argument, value), back);
            }
        }
    }

    /// The positions of a part that is asked the question.
    fn part(&mut self, place: usize, question: Question, then: &Then) {
        let part = self.sheet.part(place);
        let [first, second, third, _] = part.parts();
        match part.kind {
            Kind::Constant(code) => self.silent(self.exit(then, code as usize)),
            Kind::Diverge => self.begin(),
            Kind::Name { id, arguments } => self.name(part, id, arguments as usize, question, then),
            Kind::Private(level) => self.private(level as usize, question, then),
            Kind::Fetch => self.part(first, Question::Read, then),
            Kind::Operate(operator) => self.operation(operator, first, second, then),
            Kind::Assign => self.assignment(first, second, then),
            Kind::Sequence => {
                self.part(first, Question::Run, &Then::To { first: self.after(first), stride: 0 });
                self.part(second, question, then);
            }
            Kind::If => {
                let yes = self.after(first);
                let no = yes + self.sheet.part(second).weight();
                self.part(first, Question::Ask, &Then::Test { yes, no });
                self.part(second, question, then);
                self.part(third, question, then);
            }
            Kind::While => {
                let again = self.next();
                self.part(first, Question::Ask, &Then::Round { yes: self.after(first), outer: then });
                self.part(second, Question::Run, &Then::To { first: again, stride: 0 });
            }
            Kind::New { level, values } => {
                let (level, weight) = (level as usize, self.sheet.part(first).weight());
                for code in 0..values as usize {
                    self.copied[level] = Copied { code, weight };
                    self.part(first, Question::Run, &Then::Block { level, outer: then });
                }
            }
        }
    }

    /// The position after those of a part that is written next.
    fn after(&self, place: usize) -> usize {
        self.next() + self.sheet.part(place).weight()
    }

    /// The left operand, then the right one for each value of the left.
    fn operation(&mut self, operator: Operator, left: usize, right: usize, then: &Then) {
        let takes = self.sheet.part(left).gives.values();
        let rights = Then::To { first: self.after(left), stride: self.sheet.part(right).weight() };
        self.part(left, Question::Ask, &rights);
        for code in 0..takes {
            self.part(right, Question::Ask, &Then::Right { operator, left: code, takes, outer: then });
        }
    }

    /// The value, then the variable for each value written. Its ok is the assignment's done.
    fn assignment(&mut self, variable: usize, value: usize, then: &Then) {
        let writes = Then::To { first: self.after(value), stride: self.sheet.part(variable).weight() };
        self.part(value, Question::Ask, &writes);
        for code in 0..self.sheet.part(variable).gives.values() {
            self.part(variable, Question::Write(code), then);
        }
    }

    /// A private variable has two silent positions.
    fn private(&mut self, level: usize, question: Question, then: &Then) {
        self.silent(self.next() + 1);
        let copied = self.copied[level];
        let to = match question {
            Question::Write(code) => {
                let moved = (code as isize - copied.code as isize) * copied.weight as isize;
                self.exit_with(then, 0, level, moved)
            }
            _ => self.exit(then, copied.code),
        };
        self.silent(to);
    }

    /// A use of a declared name: it shows the question, then waits for an answer or a question to an argument.
    fn name(&mut self, part: &Part, id: u8, arguments: usize, question: Question, then: &Then) {
        let (waits, places) = (self.next() + 1, part.parts());
        self.begin();
        self.add(question.shown(id, 0, part.gives.values()), waits);
        self.begin();
        for kind in RUN..=WRITE {
            if kind == question.answer_kind() {
                self.add_answers(kind, id, question.answers(part.gives.values()), then);
            }
            let mut at = waits + 1;
            for (&place, j) in places[..arguments].iter().zip(1..) {
                let argument = self.sheet.part(place);
                self.add_questions(kind, id, j, argument, at);
                at += argument.gives.questions() * argument.weight() + argument.gives.answers();
            }
        }
        for (&place, j) in places[..arguments].iter().zip(1..) {
            self.asked(place, id, j, waits);
        }
    }

    /// Adds the answers of a name, in the order of moves.
    fn add_answers(&mut self, kind: u8, id: u8, answers: usize, then: &Then) {
        for code in codes(answers) {
            self.add(shown(kind, id, 0, value_of(code, answers)), self.exit(then, code));
        }
    }

    /// The position that an answer leads to, or nowhere.
    fn exit(&self, then: &Then, code: usize) -> usize {
        self.exit_with(then, code, MOST_BLOCKS, 0)
    }

    /// The same where the variable of the block at `level` has changed: the position is as far away as its copy, unless
    /// the answer leaves that block.
    fn exit_with(&self, mut then: &Then, mut code: usize, level: usize, mut moved: isize) -> usize {
        let at = loop {
            match *then {
                Then::To { first, stride } => break first + code * stride,
                Then::Test { yes, no } => break if code == 1 { yes } else { no },
                Then::Round { yes, .. } if code == 1 => break yes,
                Then::Round { outer, .. } => (code, then) = (0, outer),
                Then::Right { operator, left, takes, outer } => match self.result(operator, left, code, takes) {
                    Some(result) => (code, then) = (result, outer),
                    None => return self.sheet.size(),
                },
                Then::Block { level: left, outer } => {
                    if left == level {
                        moved = 0;
                    }
                    then = outer;
                }
            }
        };
        at.wrapping_add_signed(moved)
    }

    /// The code of an operator's result, or none where it has no play.
    fn result(&self, operator: Operator, left: usize, right: usize, takes: usize) -> Option<usize> {
        let (a, b) = (value_of(left, takes) as isize, value_of(right, takes) as isize);
        match operator {
            Operator::Plus => self.fit(a + b),
            Operator::Minus => self.fit(a - b),
            Operator::Times => self.fit(a * b),
            Operator::Remainder if b == 0 => None,
            Operator::Remainder => self.fit(a.rem_euclid(b)),
            Operator::Equal => Some((a == b) as usize),
            Operator::Less => Some((a < b) as usize),
            Operator::And => Some((a & b) as usize),
            Operator::Or => Some((a | b) as usize),
        }
    }

    /// The overflow rule: the code of a number, if it has one.
    fn fit(&self, result: isize) -> Option<usize> {
        let (numbers, z) = (self.sheet.numbers as isize, self.sheet.numbers as isize / 2);
        (self.sheet.wraps || (-z..=z).contains(&result)).then(|| result.rem_euclid(numbers) as usize)
    }
}
