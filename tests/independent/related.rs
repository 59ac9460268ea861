//! Copies of a term that differ from it a little: tidied ones, with the same plays, and altered ones.

use crate::generate::{Generator, Meaning};
use crate::sheet::{Data, Kind, Operator, Procedure, Term, Type};

fn constant(data: Data, value: i8) -> Term {
    Term::new(Kind::Constant(data, value), vec![])
}

fn skip() -> Term {
    Term::new(Kind::Skip, vec![])
}

fn sequence(first: Term, then: Term) -> Term {
    Term::new(Kind::Sequence, vec![first, then])
}

fn operate(operator: Operator, left: Term, right: Term) -> Term {
    Term::new(Kind::Operate(operator), vec![left, right])
}

fn branch(test: Term, yes: Term, no: Term) -> Term {
    Term::new(Kind::If, vec![test, yes, no])
}

/// A while that goes round for ever and shows no move.
fn endless(round: Term) -> Term {
    Term::new(Kind::While, vec![constant(Data::Truth, 1), round])
}

impl Generator<'_> {
    /// A copy with the same plays.
    pub fn tidied(&mut self, term: &Term, steps: usize) -> Term {
        self.changed(term, steps, Generator::tidy)
    }

    /// A copy that likely has other plays.
    pub fn altered(&mut self, term: &Term, steps: usize) -> Term {
        self.changed(term, steps, Generator::alter)
    }

    fn changed(&mut self, term: &Term, steps: usize, change: fn(&mut Self, Term) -> Term) -> Term {
        let mut copy = term.clone();
        for _ in 0..steps {
            let place = self.random.below(copy.records());
            self.change_at(&mut copy, place, change);
        }
        copy
    }

    /// Changes the record with that number, counted from the whole term.
    fn change_at(&mut self, term: &mut Term, place: usize, change: fn(&mut Self, Term) -> Term) {
        if place == 0 {
            let old = std::mem::replace(term, skip());
            *term = change(self, old);
            return;
        }
        let outside = self.scope.len();
        let mut place = place - 1;
        for i in 0..term.parts.len() {
            let records = term.parts[i].records();
            if place < records {
                self.enter(term, i);
                self.change_at(&mut term.parts[i], place, change);
                break;
            }
            place -= records;
        }
        self.scope.truncate(outside);
    }

    /// Adds to the scope what a term binds in one of its parts.
    fn enter(&mut self, term: &Term, part: usize) {
        match (&term.kind, part) {
            (Kind::New { id, data }, _) => self.scope.push((*id, Meaning::Private(*data))),
            (Kind::Procedure(procedure), 0) => {
                self.scope.extend(procedure.parameters.iter().map(|p| (p.0, Meaning::Parameter(p.1))));
            }
            (Kind::Procedure(procedure), _) => {
                self.scope.push((procedure.id, Meaning::of(procedure, &term.parts[0])));
            }
            _ => {}
        }
    }

    /// A term with the same plays.
    fn tidy(&mut self, mut term: Term) -> Term {
        if let Some(helper) = self.helper {
            if self.random.one_in(2) {
                return self.tidy_with_procedures(term, helper);
            }
        }
        if self.random.one_in(2) {
            return self.tidy_any(term);
        }
        match (&term.kind, term.gives) {
            (Kind::While, _) => {
                let round = sequence(term.parts[1].clone(), term.clone());
                branch(term.parts.swap_remove(0), round, skip())
            }
            (Kind::If, _) => {
                let [test, yes, no] = three(term.parts);
                branch(operate(Operator::Alike, test, constant(Data::Truth, 0)), no, yes)
            }
            (Kind::Operate(operator), _) if swappable(*operator, &term.parts) => {
                term.parts.reverse();
                term
            }
            (Kind::Sequence, _) if term.parts[0].kind == Kind::Sequence => {
                let [first, rest] = two(term.parts);
                let [one, two] = two(first.parts);
                sequence(one, sequence(two, rest))
            }
            (Kind::Assign, _) if matches!(term.parts[0].kind, Kind::Private { .. }) => {
                let variable = term.parts[0].clone();
                let again = Term::new(Kind::Fetch, vec![variable.clone()]);
                sequence(term, Term::new(Kind::Assign, vec![variable, again]))
            }
            (Kind::Diverge(_), _) => sequence(endless(skip()), term),
            (_, Type::Expression(data)) => self.tidy_expression(term, data),
            (_, Type::Command) => self.tidy_command(term),
            _ => self.tidy_any(term),
        }
    }

    /// A term with the same plays: with a procedure more or less, or another argument where none is used.
    fn tidy_with_procedures(&mut self, term: Term, helper: u8) -> Term {
        match &term.kind {
            Kind::Procedure(procedure) if !term.parts[1].mentions(procedure.id) => {
                let [_, rest] = two(term.parts);
                rest
            }
            Kind::Call { id, .. } if self.unused_parameter(*id).is_some() => self.exchange_argument(term),
            _ => self.wrap(term, helper),
        }
    }

    /// The number of a parameter that the procedure with the id does not mention.
    fn unused_parameter(&self, id: u8) -> Option<usize> {
        match self.meaning(id)? {
            Meaning::Procedure(_, unused) => unused.iter().position(|u| *u),
            _ => None,
        }
    }

    fn exchange_argument(&mut self, mut call: Term) -> Term {
        if let Kind::Call { id, .. } = call.kind {
            if let Some(number) = self.unused_parameter(id) {
                call.parts[number] = self.term(call.parts[number].gives, 20, 4);
            }
        }
        call
    }

    /// The term with a procedure around it: not used, with the term as its own, or with the term as an argument.
    fn wrap(&mut self, term: Term, helper: u8) -> Term {
        let other = self.random.choose(&Type::ALL);
        let junk = self.term(other, 6, 3);
        let helper = self.id_or_other(helper, &[&term, &junk]);
        let result = term.gives;
        let call = |arguments| Term::new(Kind::Call { id: helper, result }, arguments);
        let record = |parameters| Kind::Procedure(Procedure { id: helper, result, parameters });
        let id = if self.random.one_in(3) { helper } else { self.binder_id(&[]) };
        let parameter = Term::new(Kind::Parameter { id, result }, vec![]);
        match self.random.below(4) {
            _ if term.mentions(helper) || junk.mentions(helper) => Term::new(record(vec![]), vec![term, call(vec![])]),
            0 => Term::new(record(vec![]), vec![term, call(vec![])]),
            1 => Term::new(record(vec![(id, result)]), vec![parameter, call(vec![term])]),
            2 => {
                let parameters = vec![(self.id_or_other(self.spare, &[]), other), (id, result)];
                Term::new(record(parameters), vec![sequence(skip(), parameter), call(vec![junk, term])])
            }
            _ => {
                let unused = Procedure { id: helper, result: other, parameters: vec![] };
                Term::new(Kind::Procedure(unused), vec![junk, term])
            }
        }
    }

    fn tidy_any(&mut self, term: Term) -> Term {
        let truth = self.random.below(2) as i8;
        let other = if self.random.one_in(2) { Term::new(Kind::Diverge(term.gives), vec![]) } else { term.clone() };
        match self.random.below(3) {
            0 => sequence(skip(), term),
            1 if truth == 1 => branch(constant(Data::Truth, 1), term, other),
            1 => branch(constant(Data::Truth, 0), other, term),
            _ => sequence(Term::new(Kind::While, vec![constant(Data::Truth, 0), skip()]), term),
        }
    }

    fn tidy_command(&mut self, term: Term) -> Term {
        match self.random.below(3) {
            0 => sequence(term, skip()),
            _ => {
                let (id, data) = (self.id_or_other(self.spare, &[&term]), self.random.choose(&Data::ALL));
                Term::new(Kind::New { id, data }, vec![term])
            }
        }
    }

    fn tidy_expression(&mut self, term: Term, data: Data) -> Term {
        let (operator, neutral) = match data {
            Data::Number => self.random.choose(&[(Operator::Plus, 0), (Operator::Minus, 0), (Operator::Times, 1)]),
            Data::Truth => self.random.choose(&[(Operator::And, 1), (Operator::Or, 0), (Operator::Alike, 1)]),
        };
        operate(operator, term, constant(data, neutral))
    }

    /// A term of the same type.
    fn alter(&mut self, mut term: Term) -> Term {
        match (&term.kind, self.random.below(3)) {
            (Kind::Constant(data, _), 0..=1) => self.constant(*data),
            (Kind::Private { data, .. }, 0..=1) => self.private(*data).unwrap_or(term),
            (Kind::Operate(_), 0) => {
                term.parts.reverse();
                term
            }
            (Kind::Operate(operator), 1) => {
                let alike = |o: &Operator| o.takes() == operator.takes() && o.gives() == operator.gives();
                let others: Vec<Operator> = Operator::ALL.into_iter().filter(alike).collect();
                Term::new(Kind::Operate(self.random.choose(&others)), term.parts)
            }
            (Kind::If, 0..=1) => {
                term.parts.swap(1, 2);
                term
            }
            (Kind::Sequence, 0) => term.parts.swap_remove(1),
            (Kind::While, 0) => {
                let [test, round] = two(term.parts);
                branch(test, round, skip())
            }
            (Kind::New { .. }, 0) => {
                let again = term.parts[0].clone();
                term.parts[0] = sequence(again.clone(), again);
                term
            }
            _ => self.alter_any(term),
        }
    }

    fn alter_any(&mut self, term: Term) -> Term {
        let wanted = term.gives;
        match (self.random.below(8), wanted) {
            (0, _) if self.random.one_in(2) => Term::new(Kind::Diverge(wanted), vec![]),
            (0, _) => sequence(endless(skip()), term),
            (1..=2, Type::Command) => sequence(term.clone(), term),
            (3, Type::Command) => {
                let (id, data) = (self.binder_id(&[&term]), self.random.choose(&Data::ALL));
                Term::new(Kind::New { id, data }, vec![term])
            }
            (4, Type::Command) => {
                let test = self.term(Type::Expression(Data::Truth), 6, 3);
                Term::new(Kind::While, vec![test, term])
            }
            (5, _) => {
                let first = self.term(Type::Command, 6, 3);
                sequence(first, term)
            }
            (6, _) => {
                let (test, other) = (self.term(Type::Expression(Data::Truth), 6, 3), self.term(wanted, 6, 3));
                branch(test, term, other)
            }
            _ => self.term(wanted, 10, 4),
        }
    }
}

fn two(parts: Vec<Term>) -> [Term; 2] {
    parts.try_into().expect("two parts")
}

fn three(parts: Vec<Term>) -> [Term; 3] {
    parts.try_into().expect("three parts")
}

/// Whether the operands may change places: one of them shows no move and the operator does not mind.
fn swappable(operator: Operator, operands: &[Term]) -> bool {
    let minds = matches!(operator, Operator::Minus | Operator::Remainder | Operator::Less);
    !minds && operands.iter().any(|o| matches!(o.kind, Kind::Constant(..)))
}
