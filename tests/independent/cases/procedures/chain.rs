//! Chains of procedures, each of which uses the one before it twice: what is said grows as a power of 2, or not at all.

use crate::random::Random;
use crate::sheet::{written, Data, Heading, Kind, Numbers, Operator, Procedure, Record, Term, Type};

/// The declared command, the parameter, the private variable, and the first of the procedures.
const NAME: u8 = 8;
const PARAMETER: u8 = 60;
const VARIABLE: u8 = 61;
const FIRST: u8 = 70;

/// What the first procedure does with its parameter.
#[derive(Clone, Copy, Debug, PartialEq)]
enum Base {
    /// It is its parameter.
    Itself,
    /// It does nothing.
    Nothing,
    /// It runs a name first.
    After,
    Twice,
    /// `while !diverge do x`.
    Round,
    /// `while !(x; diverge) do skip`.
    Guard,
    /// It runs it in a block with a private variable.
    Inside,
}

const BASES: [Base; 7] =
    [Base::Itself, Base::Nothing, Base::After, Base::Twice, Base::Round, Base::Guard, Base::Inside];

pub struct Chain {
    base: Base,
    length: usize,
    /// Which of the chain are used, each with the next one's use as its argument, by bits.
    uses: usize,
    /// Whether all of it is an argument that is not used.
    unused: bool,
}

fn leaf(kind: Kind) -> Term {
    Term::new(kind, vec![])
}

fn parameter() -> Term {
    leaf(Kind::Parameter { id: PARAMETER, result: Type::Command })
}

fn call(id: u8, argument: Term) -> Term {
    Term::new(Kind::Call { id, result: Type::Command }, vec![argument])
}

fn procedure(id: u8, body: Term, rest: Term) -> Term {
    let parameters = vec![(PARAMETER, Type::Command)];
    Term::new(Kind::Procedure(Procedure { id, result: Type::Command, parameters }), vec![body, rest])
}

impl Chain {
    /// Mostly short ones, long ones where that adds nothing, and a few at the limit.
    pub fn random(random: &mut Random) -> Chain {
        if random.one_in(12) {
            return Chain::at_the_limit(random);
        }
        let base = random.choose(&BASES);
        let cheap = matches!(base, Base::Itself | Base::Nothing);
        let length = if cheap { random.between(1, 25) } else { random.between(1, 7) };
        let unused = random.one_in(5);
        let length = if unused { random.between(1, 25) } else { length };
        let uses = if base == Base::Inside { random.between(1, 4) } else { random.below(1 << length) };
        Chain { base, length: length.max(3), uses, unused }
    }

    /// A chain whose use weighs about as much as is accepted.
    pub fn at_the_limit(random: &mut Random) -> Chain {
        let base = random.choose(&[Base::After, Base::Round, Base::Guard, Base::Itself]);
        let most = match base {
            Base::After | Base::Guard => 2046,
            _ => 4092,
        };
        Chain { base, length: 13, uses: most - 2 + random.below(5), unused: false }
    }

    fn first(&self) -> Term {
        let sequence = |a: Term, b: Term| Term::new(Kind::Sequence, vec![a, b]);
        let never = leaf(Kind::Diverge(Type::Variable(Data::Truth)));
        let rounds =
            |guard: Term, round: Term| Term::new(Kind::While, vec![Term::new(Kind::Fetch, vec![guard]), round]);
        match self.base {
            Base::Itself => parameter(),
            Base::Nothing => leaf(Kind::Skip),
            Base::After => sequence(leaf(Kind::Name { id: NAME, result: Type::Command, once: false }), parameter()),
            Base::Twice => sequence(parameter(), parameter()),
            Base::Round => rounds(never, parameter()),
            Base::Guard => rounds(sequence(parameter(), never), leaf(Kind::Skip)),
            Base::Inside => inside(sequence),
        }
    }

    pub fn heading_and_term(&self) -> (Heading, Term) {
        let record = Record::Declare { once: false, id: NAME, result: Type::Command, arguments: vec![] };
        let heading = Heading { numbers: Numbers { z: 1, rule: 1 }, records: vec![record] };
        let mut term = leaf(Kind::Name { id: NAME, result: Type::Command, once: false });
        for i in (0..self.length).filter(|i| self.uses >> i & 1 == 1) {
            term = call(FIRST + i as u8, term);
        }
        if self.unused {
            term = procedure(VARIABLE, leaf(Kind::Skip), call(VARIABLE, term));
        }
        for i in (1..self.length).rev() {
            let before = FIRST + i as u8 - 1;
            term = procedure(before + 1, call(before, call(before, parameter())), term);
        }
        (heading, procedure(FIRST, self.first(), term))
    }

    pub fn sheet(&self) -> Vec<u8> {
        let (heading, term) = self.heading_and_term();
        written(&heading, &term)
    }
}

/// `new v in (v := !v + 1; (x; if !v = 1 then skip else diverge))`: it ends if nothing else changes the variable.
fn inside(sequence: impl Fn(Term, Term) -> Term) -> Term {
    let variable = leaf(Kind::Private { id: VARIABLE, data: Data::Number });
    let with_one = |operator| {
        let fetched = Term::new(Kind::Fetch, vec![variable.clone()]);
        Term::new(Kind::Operate(operator), vec![fetched, leaf(Kind::Constant(Data::Number, 1))])
    };
    let step = Term::new(Kind::Assign, vec![variable.clone(), with_one(Operator::Plus)]);
    let never = leaf(Kind::Diverge(Type::Command));
    let test = Term::new(Kind::If, vec![with_one(Operator::Equal), leaf(Kind::Skip), never]);
    let body = sequence(step, sequence(parameter(), test));
    Term::new(Kind::New { id: VARIABLE, data: Data::Number }, vec![body])
}
