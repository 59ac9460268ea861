//! Sheets with private counters that a name moves on and looks at through its arguments.

use crate::random::Random;
use crate::sheet::{written, Data, Heading, Kind, Numbers, Operator, Record, Term, Type};

const CALLER: u8 = 3;
const SHOWN: [u8; 2] = [4, 5];

/// `new a in new b in f(step, look)`: the step counts, and the look shows whether the counters stand at a mark.
#[derive(Clone)]
pub struct Counter {
    z: i8,
    rule: u8,
    /// The marks of the counters, one or two of them.
    marks: Vec<i8>,
    /// What the look runs at the mark, and what elsewhere: 0 and 1 a name, 2 skip, 3 diverge.
    shows: [usize; 2],
    /// Whether it counts down from 0 with marks of the other sign. This makes no difference.
    pub down: bool,
    /// Whether the name asks once.
    once: bool,
}

impl Counter {
    pub fn random(random: &mut Random) -> Counter {
        let levels = random.between(1, 2);
        let z = random.between(1, if levels == 1 { 7 } else { 3 }) as i8;
        let marks = (0..levels).map(|_| mark(random, z)).collect();
        let shows = [random.below(4), random.below(3)];
        let (down, once) = (random.one_in(2), random.one_in(5));
        Counter { z, rule: random.choose(&[0, 1, 2]), marks, shows, down, once }
    }

    /// Changes a mark or what is shown.
    pub fn change(&mut self, random: &mut Random) {
        if random.one_in(5) {
            self.shows[random.below(2)] = random.below(4);
        } else {
            let level = random.below(self.marks.len());
            self.marks[level] = mark(random, self.z);
        }
    }

    pub fn sheet(&self) -> Vec<u8> {
        let plain = |id| Record::Declare { once: false, id, result: Type::Command, arguments: vec![] };
        let caller =
            Record::Declare { once: self.once, id: CALLER, result: Type::Command, arguments: vec![Type::Command; 2] };
        let records = vec![caller, plain(SHOWN[0]), plain(SHOWN[1])];
        let heading = Heading { numbers: Numbers { z: self.z, rule: self.rule }, records };
        written(&heading, &self.term())
    }

    fn term(&self) -> Term {
        let call = Kind::Name { id: CALLER, result: Type::Command, once: self.once };
        let body = Term::new(call, vec![self.step(0), self.look()]);
        (0..self.marks.len()).fold(body, |inside, level| {
            Term::new(Kind::New { id: variable_id(level), data: Data::Number }, vec![inside])
        })
    }

    fn signed(&self, value: i8) -> Term {
        Term::new(Kind::Constant(Data::Number, if self.down { -value } else { value }), vec![])
    }

    /// Moves the counter on; at its last value it starts again and the next counter is moved on.
    fn step(&self, level: usize) -> Term {
        let on = Term::new(Kind::Operate(Operator::Plus), vec![fetched(level), self.signed(1)]);
        let on = assigned(level, on);
        let again = assigned(level, self.signed(-self.z));
        let again = if level + 1 < self.marks.len() {
            Term::new(Kind::Sequence, vec![again, self.step(level + 1)])
        } else {
            again
        };
        Term::new(Kind::If, vec![self.stands_at(level, self.z), again, on])
    }

    fn stands_at(&self, level: usize, value: i8) -> Term {
        Term::new(Kind::Operate(Operator::Equal), vec![fetched(level), self.signed(value)])
    }

    fn look(&self) -> Term {
        let [yes, no] = self.shows.map(shown);
        let tests = self.marks.iter().enumerate().map(|(level, &mark)| self.stands_at(level, mark));
        tests.fold(yes, |inside, test| Term::new(Kind::If, vec![test, inside, no.clone()]))
    }
}

fn mark(random: &mut Random, z: i8) -> i8 {
    random.below(2 * z as usize + 1) as i8 - z
}

fn variable_id(level: usize) -> u8 {
    level as u8
}

fn variable(level: usize) -> Term {
    Term::new(Kind::Private { id: variable_id(level), data: Data::Number }, vec![])
}

fn fetched(level: usize) -> Term {
    Term::new(Kind::Fetch, vec![variable(level)])
}

fn assigned(level: usize, value: Term) -> Term {
    Term::new(Kind::Assign, vec![variable(level), value])
}

fn shown(what: usize) -> Term {
    match what {
        2 => Term::new(Kind::Skip, vec![]),
        3 => Term::new(Kind::Diverge(Type::Command), vec![]),
        name => Term::new(Kind::Name { id: SHOWN[name], result: Type::Command, once: false }, vec![]),
    }
}
