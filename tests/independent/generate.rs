//! Random valid headings and terms.

use crate::random::Random;
use crate::sheet::{Data, Heading, Kind, Numbers, Operator, Procedure, Record, Term, Type};

/// A heading with some plain names, of about half of the types, and up to `most` other name records.
pub fn heading(random: &mut Random, most: usize) -> Heading {
    let z = random.choose(&[1, 1, 1, 1, 2, 2, 3, 4, 5, 6, 7, 8, 15, 31]);
    let rule = random.choose(&[0, 1, 2]);
    let mut heading = Heading { numbers: Numbers { z, rule }, records: Vec::new() };
    for result in Type::ALL {
        if random.one_in(2) {
            add(random, &mut heading, |random, id| {
                let once = random.one_in(10);
                Record::Declare { once, id, result, arguments: vec![] }
            });
        }
    }
    for _ in 0..random.between(most / 3, most) {
        add(random, &mut heading, record);
    }
    heading
}

/// Adds the record for a random id, if no record has that id.
fn add(random: &mut Random, heading: &mut Heading, make: impl Fn(&mut Random, u8) -> Record) {
    let id = if random.one_in(2) { random.choose(&[0, 1, 7, 8, 9, 253, 254]) } else { random.byte() };
    if id < 255 && heading.record(id).is_none() {
        let record = make(random, id);
        heading.records.push(record);
    }
}

fn record(random: &mut Random, id: u8) -> Record {
    if random.one_in(10) {
        return Record::Retire { id };
    }
    let count = random.choose(&[0, 1, 1, 1, 2, 2, 3, 4]);
    let arguments = (0..count).map(|_| random.choose(&Type::ALL)).collect();
    Record::Declare { once: random.one_in(3), id, result: random.choose(&Type::ALL), arguments }
}

/// What an id stands for inside its binder.
#[derive(Clone)]
pub enum Meaning {
    Private(Data),
    Parameter(Type),
    /// A procedure, and which of its parameters its term does not mention.
    Procedure(Procedure, Vec<bool>),
}

/// Makes terms over a heading.
pub struct Generator<'a> {
    pub random: &'a mut Random,
    pub heading: &'a Heading,
    /// The ids that binders take where they can; they are few, so that many stand side by side with the same.
    pool: Vec<u8>,
    /// Whether a binder may take an id that an enclosing one holds.
    hides: bool,
    /// An id that no name record and none of the pool has.
    pub spare: u8,
    /// Another one, for procedures that are put in; none where there are to be no procedures.
    pub helper: Option<u8>,
    /// What is bound around the place at hand, the innermost last.
    pub scope: Vec<(u8, Meaning)>,
}

impl<'a> Generator<'a> {
    pub fn new(random: &'a mut Random, heading: &'a Heading) -> Generator<'a> {
        let mut free: Vec<u8> = (0..255).filter(|&id| heading.record(id).is_none()).collect();
        let spare = free.remove(random.below(free.len()));
        let pool = (0..random.between(1, 3)).map(|_| random.choose(&free)).collect();
        Generator { random, heading, pool, hides: false, spare, helper: None, scope: Vec::new() }
    }

    /// One whose binders may hide others.
    pub fn hiding(mut self) -> Generator<'a> {
        self.hides = true;
        self
    }

    /// One whose binders may hide others, now and then.
    pub fn hiding_at_times(mut self) -> Generator<'a> {
        self.hides = self.random.one_in(10);
        self
    }

    /// One that makes procedures too.
    pub fn with_procedures(random: &'a mut Random, heading: &'a Heading) -> Generator<'a> {
        let mut generator = Generator::new(random, heading);
        let free = |id: &u8| generator.spare != *id && heading.record(*id).is_none();
        let mut free: Vec<u8> = (0..255).filter(free).collect();
        for _ in 0..4 {
            generator.pool.push(generator.random.choose(&free));
        }
        free.retain(|id| !generator.pool.contains(id));
        generator.helper = Some(generator.random.choose(&free));
        generator
    }

    /// A term of that type whose size is near the one asked for.
    pub fn whole(&mut self, wanted: Type, size: u64) -> Term {
        let numbers = self.heading.numbers;
        let weight = size.saturating_sub(2 + wanted.answers(numbers)) / wanted.questions(numbers);
        self.term(wanted, weight, 30)
    }

    /// A term of that type, of about that weight and at most that depth.
    pub fn term(&mut self, wanted: Type, weight: u64, depth: usize) -> Term {
        if self.helper.is_some() && depth > 2 && weight > 3 && self.random.one_in(5) {
            return self.procedure(wanted, weight, depth);
        }
        let enough = depth <= 1 || weight <= 2 || (weight < 10 && self.random.one_in(3));
        match wanted {
            Type::Expression(data) if enough && depth > 1 => self.small_expression(data),
            _ if enough => self.leaf(wanted),
            Type::Command => self.command(weight, depth),
            Type::Expression(data) => self.expression(data, weight, depth),
            Type::Variable(data) => self.variable(data, weight, depth),
        }
    }

    fn leaf(&mut self, wanted: Type) -> Term {
        let names = self.names(wanted, true);
        if self.random.one_in(100) {
            return Term::new(Kind::Diverge(wanted), vec![]);
        }
        if !names.is_empty() && self.random.below(3) > 0 {
            return self.name(&names, 0, 1);
        }
        match wanted {
            Type::Command => Term::new(Kind::Skip, vec![]),
            Type::Expression(data) => self.constant(data),
            Type::Variable(data) => match self.private(data) {
                Some(variable) => variable,
                None if !names.is_empty() => self.name(&names, 0, 1),
                None => Term::new(Kind::Diverge(wanted), vec![]),
            },
        }
    }

    /// A private variable that is read, if there is one, or a leaf.
    fn small_expression(&mut self, data: Data) -> Term {
        match self.private(data) {
            Some(variable) if self.random.below(3) > 0 => Term::new(Kind::Fetch, vec![variable]),
            _ => self.leaf(Type::Expression(data)),
        }
    }

    pub fn constant(&mut self, data: Data) -> Term {
        let mut values: Vec<i8> = data.constants(self.heading.numbers).collect();
        if data == Data::Number && self.random.one_in(2) {
            values = vec![-1, 0, 1];
        }
        Term::new(Kind::Constant(data, self.random.choose(&values)), vec![])
    }

    /// A private variable of the scope that holds the data and is not hidden.
    pub fn private(&mut self, data: Data) -> Option<Term> {
        let visible: Vec<u8> = self.scope.iter().map(|v| v.0).filter(|&id| self.is_private(id, data)).collect();
        if visible.is_empty() {
            return None;
        }
        let id = self.random.choose(&visible);
        Some(Term::new(Kind::Private { id, data }, vec![]))
    }

    /// What the innermost binder of the id makes of it.
    pub fn meaning(&self, id: u8) -> Option<&Meaning> {
        self.scope.iter().rev().find(|v| v.0 == id).map(|v| &v.1)
    }

    /// Whether the id is that of a private variable with such data.
    fn is_private(&self, id: u8, wanted: Data) -> bool {
        matches!(self.meaning(id), Some(Meaning::Private(data)) if *data == wanted)
    }

    /// The names with that result: those without arguments, or those with some. Where there are parameters or
    /// procedures to choose from, they are often the only ones.
    fn names(&mut self, wanted: Type, plain: bool) -> Vec<(u8, Vec<Type>)> {
        let bound = self.bound_names(wanted, plain);
        if !bound.is_empty() && !self.random.one_in(3) {
            return bound;
        }
        let declared = self.heading.records.iter().filter_map(|record| match record {
            Record::Declare { id, result, arguments, .. } if *result == wanted => Some((*id, arguments.clone())),
            _ => None,
        });
        declared.filter(|(_, arguments)| arguments.is_empty() == plain).chain(bound).collect()
    }

    /// The parameters and procedures of the scope with that result, without arguments or with some.
    fn bound_names(&self, wanted: Type, plain: bool) -> Vec<(u8, Vec<Type>)> {
        let visible = self.scope.iter().filter_map(|&(id, _)| match self.meaning(id)? {
            Meaning::Parameter(result) if *result == wanted => Some((id, vec![])),
            Meaning::Procedure(procedure, _) if procedure.result == wanted => Some((id, procedure.types())),
            _ => None,
        });
        visible.filter(|(_, arguments)| arguments.is_empty() == plain).collect()
    }

    /// A use of one of the names.
    fn name(&mut self, names: &[(u8, Vec<Type>)], weight: u64, depth: usize) -> Term {
        let (id, arguments) = self.random.choose(names);
        let kind = self.kind_of_use(id);
        let shares = self.shares(weight, arguments.len());
        let parts = arguments.iter().zip(shares).map(|(&wanted, share)| {
            let asked =
                share.saturating_sub(wanted.answers(self.heading.numbers)) / wanted.questions(self.heading.numbers);
            self.term(wanted, asked, depth - 1)
        });
        let parts = parts.collect();
        Term::new(kind, parts)
    }

    fn kind_of_use(&self, id: u8) -> Kind {
        match (self.meaning(id), self.heading.record(id)) {
            (Some(Meaning::Private(data)), _) => Kind::Private { id, data: *data },
            (Some(Meaning::Parameter(result)), _) => Kind::Parameter { id, result: *result },
            (Some(Meaning::Procedure(procedure, _)), _) => Kind::Call { id, result: procedure.result },
            (None, Some(Record::Declare { once, result, .. })) => Kind::Name { id, result: *result, once: *once },
            (None, _) => Kind::Name { id, result: Type::Command, once: false },
        }
    }

    /// Splits a weight at random.
    fn shares(&mut self, weight: u64, count: usize) -> Vec<u64> {
        let parts: Vec<u64> = (0..count).map(|_| self.random.between(1, 6) as u64).collect();
        let sum: u64 = parts.iter().sum();
        parts.iter().map(|p| weight * p / sum).collect()
    }

    /// A term of this kind with parts of these types.
    fn compound(&mut self, kind: Kind, wanted: &[Type], weight: u64, depth: usize) -> Term {
        let shares = self.shares(weight, wanted.len());
        let parts = wanted.iter().zip(shares).map(|(&t, share)| self.term(t, share, depth - 1)).collect();
        Term::new(kind, parts)
    }

    fn sequence(&mut self, wanted: Type, weight: u64, depth: usize) -> Term {
        self.compound(Kind::Sequence, &[Type::Command, wanted], weight, depth)
    }

    fn branch(&mut self, wanted: Type, weight: u64, depth: usize) -> Term {
        self.compound(Kind::If, &[Type::Expression(Data::Truth), wanted, wanted], weight, depth)
    }

    /// A use with arguments, or a sequence where no name fits.
    fn name_or_sequence(&mut self, wanted: Type, weight: u64, depth: usize) -> Term {
        let names = self.names(wanted, false);
        if names.is_empty() {
            self.sequence(wanted, weight, depth)
        } else {
            self.name(&names, weight.saturating_sub(2), depth)
        }
    }

    fn command(&mut self, weight: u64, depth: usize) -> Term {
        match self.random.below(21) {
            0..=4 => self.sequence(Type::Command, weight, depth),
            5..=7 => self.branch(Type::Command, weight, depth),
            8..=9 => self.rounds(weight, depth),
            10..=12 => self.block(weight, depth),
            13..=16 => self.assignment(weight, depth),
            _ => self.name_or_sequence(Type::Command, weight, depth),
        }
    }

    /// A while. Its guard is seldom the constant true, and often a private number that the round changes.
    fn rounds(&mut self, weight: u64, depth: usize) -> Term {
        if depth > 3 && self.random.one_in(2) {
            if let Some(variable) = self.private(Data::Number) {
                return self.counting(variable);
            }
        }
        let mut term = self.compound(Kind::While, &[Type::Expression(Data::Truth), Type::Command], weight, depth);
        if term.parts[0].kind == Kind::Constant(Data::Truth, 1) && !self.random.one_in(8) {
            term.parts[0].kind = Kind::Constant(Data::Truth, 0);
        }
        term
    }

    /// A while that changes a private number until it passes a mark, or goes on for ever.
    fn counting(&mut self, variable: Term) -> Term {
        let fetched = Term::new(Kind::Fetch, vec![variable.clone()]);
        let (mark, step) = (self.constant(Data::Number), self.constant(Data::Number));
        let compared = Kind::Operate(self.random.choose(&[Operator::Equal, Operator::Less]));
        let moved = Kind::Operate(self.random.choose(&[Operator::Plus, Operator::Minus, Operator::Times]));
        let guard = if self.random.one_in(2) { vec![fetched.clone(), mark] } else { vec![mark, fetched.clone()] };
        let round = Term::new(Kind::Assign, vec![variable, Term::new(moved, vec![fetched, step])]);
        Term::new(Kind::While, vec![Term::new(compared, guard), round])
    }

    /// A term of operators, constants and plain names only.
    pub fn arithmetic(&mut self, data: Data, depth: usize) -> Term {
        if depth <= 1 || self.random.one_in(4) {
            return self.leaf(Type::Expression(data));
        }
        let fitting: Vec<Operator> = Operator::ALL.into_iter().filter(|o| o.gives() == data).collect();
        let operator = self.random.choose(&fitting);
        let parts = (0..2).map(|_| self.arithmetic(operator.takes(), depth - 1)).collect();
        Term::new(Kind::Operate(operator), parts)
    }

    fn block(&mut self, weight: u64, depth: usize) -> Term {
        let (id, data) = (self.binder_id(&[]), self.random.choose(&Data::ALL));
        self.scope.push((id, Meaning::Private(data)));
        let body = self.term(Type::Command, weight / data.count(self.heading.numbers), depth - 1);
        self.scope.pop();
        Term::new(Kind::New { id, data }, vec![body])
    }

    fn is_at_hand(&mut self, data: Data) -> bool {
        self.scope.iter().any(|v| self.is_private(v.0, data)) || !self.names(Type::Variable(data), true).is_empty()
    }

    /// Data of which there is some variable at hand, if there is any.
    fn data_at_hand(&mut self) -> Option<Data> {
        let found: Vec<Data> = Data::ALL.into_iter().filter(|data| self.is_at_hand(*data)).collect();
        (!found.is_empty()).then(|| self.random.choose(&found))
    }

    fn assignment(&mut self, weight: u64, depth: usize) -> Term {
        let Some(data) = self.data_at_hand() else {
            return self.block(weight, depth);
        };
        let shares = self.shares(weight, 2);
        let variable = self.term(Type::Variable(data), shares[0] / data.count(self.heading.numbers), depth - 1);
        let value = self.term(Type::Expression(data), shares[1], depth - 1);
        Term::new(Kind::Assign, vec![variable, value])
    }

    fn expression(&mut self, data: Data, weight: u64, depth: usize) -> Term {
        let wanted = Type::Expression(data);
        match self.random.below(14) {
            0..=3 => self.operation(data, weight, depth),
            4..=6 if self.data_at_hand() == Some(data) => {
                self.compound(Kind::Fetch, &[Type::Variable(data)], weight, depth)
            }
            4..=7 => self.branch(wanted, weight, depth),
            8..=9 => self.sequence(wanted, weight, depth),
            _ => self.name_or_sequence(wanted, weight, depth),
        }
    }

    fn operation(&mut self, data: Data, weight: u64, depth: usize) -> Term {
        let fitting: Vec<Operator> = Operator::ALL.into_iter().filter(|o| o.gives() == data).collect();
        let operator = self.random.choose(&fitting);
        let operand = Type::Expression(operator.takes());
        let shares = self.shares(weight, 2);
        let left = self.term(operand, shares[0], depth - 1);
        let right = self.term(operand, shares[1] / operator.takes().count(self.heading.numbers), depth - 1);
        Term::new(Kind::Operate(operator), vec![left, right])
    }

    fn variable(&mut self, data: Data, weight: u64, depth: usize) -> Term {
        let wanted = Type::Variable(data);
        match self.random.below(8) {
            0..=1 => self.branch(wanted, weight, depth),
            2..=3 => self.sequence(wanted, weight, depth),
            4..=5 => self.name_or_sequence(wanted, weight, depth),
            _ => self.leaf(wanted),
        }
    }

    /// A procedure, and a term of that type in which it may be used. A parameter may have the procedure's own id.
    fn procedure(&mut self, wanted: Type, weight: u64, depth: usize) -> Term {
        let procedure = self.signature();
        let shares = self.shares(weight, 2);
        let outside = self.scope.len();
        self.scope.extend(procedure.parameters.iter().map(|p| (p.0, Meaning::Parameter(p.1))));
        let body = self.term(procedure.result, shares[0].min(40), depth - 1);
        self.scope.truncate(outside);
        self.scope.push((procedure.id, Meaning::of(&procedure, &body)));
        let rest = self.term(wanted, shares[1], depth - 1);
        self.scope.pop();
        Term::new(Kind::Procedure(procedure), vec![body, rest])
    }

    /// A procedure's record with random ids and types.
    pub fn signature(&mut self) -> Procedure {
        let (id, result) = (self.binder_id(&[]), self.kind_of_type());
        let mut procedure = Procedure { id, result, parameters: Vec::new() };
        for _ in 0..self.random.choose(&[0, 1, 1, 1, 2, 2, 3, 4]) {
            let id = self.binder_id(&[]);
            if procedure.parameter(id).is_none() {
                procedure.parameters.push((id, self.kind_of_type()));
            }
        }
        procedure
    }

    /// A type, most often a command.
    fn kind_of_type(&mut self) -> Type {
        if self.random.one_in(3) {
            Type::Command
        } else {
            self.random.choose(&Type::ALL)
        }
    }

    /// An id for a binder around the terms: one of a few, or another where these are taken.
    pub fn binder_id(&mut self, around: &[&Term]) -> u8 {
        let fitting: Vec<u8> = self.pool.iter().copied().filter(|&id| self.may_bind(id, around)).collect();
        if fitting.is_empty() {
            self.other_id(around)
        } else {
            self.random.choose(&fitting)
        }
    }

    /// That id for a binder around the terms, or another where it is taken.
    pub fn id_or_other(&mut self, id: u8, around: &[&Term]) -> u8 {
        if self.may_bind(id, around) {
            id
        } else {
            self.other_id(around)
        }
    }

    /// Whether a binder around the terms may have the id: it hides nothing and nothing hides it, or this may be.
    fn may_bind(&self, id: u8, around: &[&Term]) -> bool {
        self.hides || (self.meaning(id).is_none() && !around.iter().any(|term| term.binds(id)))
    }

    /// An id for a binder around the terms that none of those kept for something has; the spare one where none is left.
    fn other_id(&mut self, around: &[&Term]) -> u8 {
        let kept = |id: u8| self.pool.contains(&id) || id == self.spare || Some(id) == self.helper;
        let free = |&id: &u8| self.heading.record(id).is_none() && !kept(id) && self.may_bind(id, around);
        let free: Vec<u8> = (0..255).filter(free).collect();
        if free.is_empty() {
            self.spare
        } else {
            self.random.choose(&free)
        }
    }
}

impl Meaning {
    /// What the id of a procedure with that term stands for.
    pub fn of(procedure: &Procedure, body: &Term) -> Meaning {
        let unused = procedure.parameters.iter().map(|p| !body.mentions(p.0)).collect();
        Meaning::Procedure(procedure.clone(), unused)
    }
}
