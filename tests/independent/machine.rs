//! The plays of a sheet as a plain machine, built straight from the term.
//!
//! A configuration is what an interpreter would hold: what is going on now, a stack of what waits for it, and the store
//! of private variables. A term is played in an environment: a use of a procedure plays the procedure's term in the
//! environment of its record, and a parameter plays its argument in the environment of the use. All configurations that
//! can be reached are numbered. Steps that show no move are then walked through until a move is due, with marks that
//! find a walk that goes round for ever.

use crate::landing::Landings;
pub use crate::moves::Move;
use crate::moves::{operate, Answer, Question, WHOLE};
use crate::reader::Sheet;
use crate::scope::{At, Numbered, Placed, Scopes};
use crate::sheet::{Kind, Operator, Type};
use std::collections::VecDeque;

/// A use of a declared name that has been asked and has not answered yet.
#[derive(Clone, Copy, PartialEq, Eq, Hash)]
struct Call<'a> {
    at: Placed<'a>,
    id: u8,
    result: Type,
    question: Question,
    /// Whether it asks its arguments at most once, and whether it may ask them no more.
    once: bool,
    spent: bool,
}

/// What is going on.
#[derive(Clone, Copy, PartialEq, Eq, Hash)]
enum Now<'a> {
    Start,
    /// A question is put to a term.
    Asked(Placed<'a>, Question),
    /// A name is to answer, or to ask one of its arguments.
    Waiting(Call<'a>),
    /// The term last asked answers.
    Answered(Answer),
    End,
}

/// What goes on once the term last asked answers.
#[derive(Clone, Copy, PartialEq, Eq, Hash)]
enum Frame<'a> {
    /// An argument, by its number from 1, answers the name.
    Argument(Call<'a>, u8),
    /// The left operand gives its value.
    Left(Placed<'a>, Operator),
    /// The right operand gives its value; that of the left one is there.
    Right(Operator, i8),
    /// The value of an assignment is there and is to be written.
    Assigned(Placed<'a>),
    /// It has been written.
    Written,
    /// The first part of a sequence is done.
    First(Placed<'a>, Question),
    /// The test of an if is decided.
    Test(Placed<'a>, Question),
    /// The test of a while is decided.
    Guard(Placed<'a>),
    /// A round of a while is done.
    Round(Placed<'a>),
    /// A block is done.
    Block,
}

/// A stack of frames by number; the empty one has none.
type Stack = Option<usize>;

#[derive(Clone, PartialEq, Eq, Hash)]
struct Configuration<'a> {
    now: Now<'a>,
    frames: Stack,
    store: Vec<i8>,
}

impl<'a> Configuration<'a> {
    fn to(&self, now: Now<'a>) -> Configuration<'a> {
        Configuration { now, ..self.clone() }
    }

    /// Asks a term, with nothing to do after its answer but what is on the stack.
    fn ask(&self, at: Placed<'a>, question: Question) -> Step<'a> {
        Step::Silent(self.to(Now::Asked(at, question)))
    }

    fn answer(&self, answer: Answer) -> Step<'a> {
        Step::Silent(self.to(Now::Answered(answer)))
    }

    fn show(&self, shown: Move, now: Now<'a>) -> Step<'a> {
        Step::Moves(vec![(shown, self.to(now))])
    }
}

enum Step<'a> {
    Silent(Configuration<'a>),
    Moves(Vec<(Move, Configuration<'a>)>),
}

impl Step<'_> {
    fn stuck() -> Self {
        Step::Moves(vec![])
    }
}

/// Plays a sheet, one step at a time.
struct Player<'a> {
    sheet: &'a Sheet,
    landings: Landings<'a>,
    scopes: Scopes<'a>,
    stacks: Numbered<(Frame<'a>, Stack)>,
}

impl<'a> Player<'a> {
    fn new(sheet: &'a Sheet) -> Player<'a> {
        Player { sheet, landings: Landings::of(&sheet.term), scopes: Scopes::new(), stacks: Numbered::new() }
    }

    fn pushed(&mut self, from: &Configuration<'a>, frame: Frame<'a>) -> Configuration<'a> {
        let frames = Some(self.stacks.number((frame, from.frames)).0);
        Configuration { frames, ..from.clone() }
    }

    /// Asks a term, with that to do after its answer.
    fn ask_for(&mut self, from: &Configuration<'a>, frame: Frame<'a>, at: Placed<'a>, question: Question) -> Step<'a> {
        self.pushed(from, frame).ask(at, question)
    }

    fn step(&mut self, from: &Configuration<'a>) -> Step<'a> {
        match from.now {
            Now::Start => self.start(from),
            Now::Asked(at, question) => self.asked(from, at, question),
            Now::Waiting(call) => self.waiting(from, call),
            Now::Answered(answer) => self.answered(from, answer),
            Now::End => Step::stuck(),
        }
    }

    fn start(&self, from: &Configuration<'a>) -> Step<'a> {
        let whole = Placed { at: At(&self.sheet.term), scope: None };
        let questions = Question::all(self.sheet.term.gives, self.sheet.heading.numbers).into_iter();
        Step::Moves(questions.map(|q| (q.at(WHOLE, 0), from.to(Now::Asked(whole, q)))).collect())
    }

    fn asked(&mut self, from: &Configuration<'a>, at: Placed<'a>, question: Question) -> Step<'a> {
        let frame = match &at.at.0.kind {
            Kind::Operate(operator) => Frame::Left(at, *operator),
            Kind::Sequence => Frame::First(at, question),
            Kind::If => Frame::Test(at, question),
            Kind::While => Frame::Guard(at),
            Kind::Assign => return self.ask_for(from, Frame::Assigned(at), at.part(1), Question::Ask),
            Kind::New { id, .. } => return self.block(from, at, *id),
            _ => return self.asked_at_once(from, at, question),
        };
        let first = if matches!(frame, Frame::First(..)) { Question::Run } else { Question::Ask };
        self.ask_for(from, frame, at.part(0), first)
    }

    /// A term that answers, or hands the question on, with nothing to do afterwards.
    fn asked_at_once(&mut self, from: &Configuration<'a>, at: Placed<'a>, question: Question) -> Step<'a> {
        match at.at.0.kind {
            Kind::Skip => from.answer(Answer::Done),
            Kind::Constant(_, value) => from.answer(Answer::Value(value)),
            Kind::Name { id, result, once } => {
                let call = Call { at, id, result, question, once, spent: false };
                from.show(question.at(id, 0), Now::Waiting(call))
            }
            Kind::Private { id, .. } => stored(from, self.scopes.stored(id, at.scope), question),
            Kind::Parameter { id, .. } => from.ask(self.scopes.argument(id, at.scope), question),
            Kind::Call { id, .. } => from.ask(self.called(id, at), question),
            Kind::Procedure(_) => from.ask(self.scopes.rest(at), question),
            Kind::Fetch => from.ask(at.part(0), Question::Read),
            _ => Step::stuck(),
        }
    }

    /// What a use of a procedure plays: the argument that it comes down to, or the procedure's term.
    fn called(&mut self, id: u8, call: Placed<'a>) -> Placed<'a> {
        match self.landings.get(call.at) {
            Some(landing) => self.scopes.argument_at(landing.depth, landing.number, call.scope),
            None => self.scopes.called(id, call),
        }
    }

    /// A block is entered: its variable is the newest of the store.
    fn block(&mut self, from: &Configuration<'a>, at: Placed<'a>, id: u8) -> Step<'a> {
        let body = self.scopes.body(at, id, from.store.len());
        let mut inside = self.pushed(from, Frame::Block);
        inside.store.push(0);
        inside.ask(body, Question::Run)
    }

    /// The name answers, or asks one of its arguments.
    fn waiting(&mut self, from: &Configuration<'a>, call: Call<'a>) -> Step<'a> {
        let numbers = self.sheet.heading.numbers;
        let answers = call.question.answers(call.result, numbers).into_iter();
        let mut moves: Vec<_> = answers.map(|a| (a.at(call.id, 0), from.to(Now::Answered(a)))).collect();
        let arguments = if call.spent { 0 } else { call.at.at.0.parts.len() };
        for (i, j) in (0..arguments).zip(1..) {
            let argument = call.at.part(i);
            let waits = self.pushed(from, Frame::Argument(call, j));
            for asked in Question::all(argument.at.0.gives, numbers) {
                moves.push((asked.at(call.id, j), waits.to(Now::Asked(argument, asked))));
            }
        }
        Step::Moves(moves)
    }

    fn answered(&mut self, from: &Configuration<'a>, answer: Answer) -> Step<'a> {
        let Some(stack) = from.frames else {
            return from.show(answer.at(WHOLE, 0), Now::End);
        };
        let (frame, frames) = *self.stacks.get(stack);
        let rest = Configuration { frames, ..from.clone() };
        match frame {
            Frame::Argument(call, j) => {
                let waits = Call { spent: call.once, ..call };
                rest.show(answer.at(call.id, j), Now::Waiting(waits))
            }
            Frame::Left(at, operator) => {
                self.ask_for(&rest, Frame::Right(operator, answer.value()), at.part(1), Question::Ask)
            }
            Frame::Right(operator, left) => match operate(operator, left, answer.value(), &self.sheet.heading) {
                Some(result) => rest.answer(Answer::Value(result)),
                None => Step::stuck(),
            },
            Frame::Assigned(at) => self.ask_for(&rest, Frame::Written, at.part(0), Question::Write(answer.value())),
            Frame::Written => rest.answer(Answer::Done),
            Frame::First(at, question) => rest.ask(at.part(1), question),
            Frame::Test(at, question) => rest.ask(at.part(if answer.value() == 1 { 1 } else { 2 }), question),
            Frame::Guard(at) if answer.value() == 1 => self.ask_for(&rest, Frame::Round(at), at.part(1), Question::Run),
            Frame::Guard(_) => rest.answer(Answer::Done),
            Frame::Round(at) => rest.ask(at, Question::Run),
            Frame::Block => left(rest),
        }
    }
}

/// A private variable is asked.
fn stored<'a>(from: &Configuration<'a>, place: usize, question: Question) -> Step<'a> {
    match question {
        Question::Write(value) => {
            let mut next = from.clone();
            next.store[place] = value;
            next.answer(Answer::Ok)
        }
        _ => from.answer(Answer::Value(from.store[place])),
    }
}

/// A block is left, and its variable with it.
fn left(mut from: Configuration) -> Step {
    from.store.pop();
    from.answer(Answer::Done)
}

/// A configuration by number, with what it leads to.
enum Node {
    Silent(usize),
    Moves(Vec<(Move, usize)>),
}

/// The configurations met so far, by number, and those of them that are not looked at yet.
struct Met<'a> {
    numbered: Numbered<Configuration<'a>>,
    waiting: VecDeque<Configuration<'a>>,
}

impl<'a> Met<'a> {
    fn number(&mut self, next: Configuration<'a>) -> usize {
        let (number, is_new) = self.numbered.number(next.clone());
        if is_new {
            self.waiting.push_back(next);
        }
        number
    }
}

/// All configurations that can be reached, numbered as they are met; the first is the start. Also the end's number.
fn explore(sheet: &Sheet) -> (Vec<Node>, Option<usize>) {
    let mut player = Player::new(sheet);
    let mut met = Met { numbered: Numbered::new(), waiting: VecDeque::new() };
    met.number(Configuration { now: Now::Start, frames: None, store: vec![] });
    let mut nodes = Vec::new();
    let mut end = None;
    while let Some(configuration) = met.waiting.pop_front() {
        if configuration.now == Now::End {
            end = Some(nodes.len());
        }
        nodes.push(match player.step(&configuration) {
            Step::Silent(next) => Node::Silent(met.number(next)),
            Step::Moves(moves) => Node::Moves(moves.into_iter().map(|(m, next)| (m, met.number(next))).collect()),
        });
    }
    (nodes, end)
}

/// Where each configuration leads by silent steps: to the one in which a move is due, or to none if it goes round.
fn settle(nodes: &[Node]) -> Vec<Option<usize>> {
    #[derive(Clone, Copy, PartialEq)]
    enum Mark {
        New,
        OnTheWalk,
        Known(Option<usize>),
    }
    let mut marks = vec![Mark::New; nodes.len()];
    for first in 0..nodes.len() {
        let mut walk = Vec::new();
        let mut at = first;
        let target = loop {
            match (marks[at], &nodes[at]) {
                (Mark::Known(target), _) => break target,
                (Mark::OnTheWalk, _) => break None,
                (Mark::New, Node::Moves(_)) => break Some(at),
                (Mark::New, Node::Silent(next)) => {
                    marks[at] = Mark::OnTheWalk;
                    walk.push(at);
                    at = *next;
                }
            }
        };
        walk.push(first);
        walk.into_iter().for_each(|i| marks[i] = Mark::Known(target));
    }
    let known = marks.into_iter().map(|mark| match mark {
        Mark::Known(target) => target,
        _ => None,
    });
    known.collect()
}

/// Which states a complete play passes through, by backward search: the fewest moves to the end, or none.
fn left_to_end(moves: &[Vec<(Move, Option<usize>)>], end: Option<usize>) -> Vec<Option<usize>> {
    let mut into = vec![Vec::new(); moves.len()];
    for (from, leaving) in moves.iter().enumerate() {
        leaving.iter().filter_map(|&(_, to)| to).for_each(|to| into[to].push(from));
    }
    let mut left = vec![None; moves.len()];
    let mut waiting = VecDeque::new();
    if let Some(end) = end {
        left[end] = Some(0);
        waiting.push_back((end, 0));
    }
    while let Some((state, far)) = waiting.pop_front() {
        for &from in &into[state] {
            if left[from].is_none() {
                left[from] = Some(far + 1);
                waiting.push_back((from, far + 1));
            }
        }
    }
    left
}

/// The machine of a sheet, with the states that a complete play passes through and the moves between them.
pub struct Machine {
    /// The moves of each state in document 01's order.
    moves: Vec<Vec<(Move, usize)>>,
    /// The same with the moves that no complete play has; none where a silent walk goes round.
    all_moves: Vec<Vec<(Move, Option<usize>)>>,
    left: Vec<Option<usize>>,
    /// How many states can be reached in which a move is due or the play has ended.
    pub reached: usize,
}

impl Machine {
    /// The state before the first move.
    pub const FIRST: usize = 0;

    pub fn of(sheet: &Sheet) -> Machine {
        let (nodes, end) = explore(sheet);
        let settled = settle(&nodes);
        let shown = nodes.iter().map(|node| match node {
            Node::Silent(_) => vec![],
            Node::Moves(leaving) => leaving.iter().map(|&(m, to)| (m, settled[to])).collect(),
        });
        let mut all_moves: Vec<Vec<(Move, Option<usize>)>> = shown.collect();
        all_moves.iter_mut().for_each(|leaving| leaving.sort());
        let left = left_to_end(&all_moves, end);
        let live = |&(m, to): &(Move, Option<usize>)| to.filter(|&to| left[to].is_some()).map(|to| (m, to));
        let moves = all_moves.iter().map(|leaving| leaving.iter().filter_map(live).collect()).collect();
        let reached = all_moves.iter().filter(|leaving| !leaving.is_empty()).count() + end.iter().count();
        Machine { moves, all_moves, left, reached }
    }

    /// The machine of a table of states, the first of them before the first move, with the moves of each in document
    /// 01's order. Where there is no state it has no play.
    pub fn of_table(mut table: Vec<Vec<(Move, usize)>>, end: Option<usize>) -> Machine {
        if table.is_empty() {
            table.push(vec![]);
        }
        let all_moves: Vec<Vec<(Move, Option<usize>)>> =
            table.iter().map(|leaving| leaving.iter().map(|&(m, to)| (m, Some(to))).collect()).collect();
        let left = left_to_end(&all_moves, end);
        let reached = table.len();
        Machine { moves: table, all_moves, left, reached }
    }

    /// The state before the first move, or none where the sheet has no complete play.
    pub fn start(&self) -> Option<usize> {
        self.left[Machine::FIRST].map(|_| Machine::FIRST)
    }

    /// The moves that some complete play has.
    pub fn moves(&self, state: usize) -> &[(Move, usize)] {
        &self.moves[state]
    }

    pub fn all_moves(&self, state: usize) -> &[(Move, Option<usize>)] {
        &self.all_moves[state]
    }

    /// Whether some silent walk goes round for ever.
    pub fn goes_round(&self) -> bool {
        self.all_moves.iter().flatten().any(|(_, to)| to.is_none())
    }

    pub fn is_end(&self, state: usize) -> bool {
        self.left[state] == Some(0)
    }

    /// The fewest moves to the end.
    pub fn left(&self, state: usize) -> usize {
        self.left[state].unwrap_or(usize::MAX)
    }

    /// How many moves of the play begin some complete play, and whether the whole of it is complete.
    pub fn follow(&self, play: &[Move]) -> (usize, bool) {
        let Some(mut state) = self.start() else {
            return (0, false);
        };
        for (count, wanted) in play.iter().enumerate() {
            match self.moves[state].iter().find(|(m, _)| m == wanted) {
                Some(&(_, next)) => state = next,
                None => return (count, false),
            }
        }
        (play.len(), self.is_end(state))
    }
}
