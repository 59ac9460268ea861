//! The sheet as written: types, name records, terms, and the bytes they are written with.

use crate::weigh::Weigher;

/// The data of an expression or a variable.
#[derive(Clone, Copy, Debug, PartialEq, Eq, Hash)]
pub enum Data {
    Truth,
    Number,
}

impl Data {
    pub const ALL: [Data; 2] = [Data::Truth, Data::Number];

    /// The byte of a new's data.
    pub fn from_byte(byte: u8) -> Option<Data> {
        match byte {
            1 => Some(Data::Truth),
            2 => Some(Data::Number),
            _ => None,
        }
    }

    pub fn byte(self) -> u8 {
        match self {
            Data::Truth => 1,
            Data::Number => 2,
        }
    }

    /// The values that constants have, from the lowest.
    pub fn constants(self, numbers: Numbers) -> std::ops::RangeInclusive<i8> {
        match self {
            Data::Truth => 0..=1,
            Data::Number => -numbers.z..=numbers.z,
        }
    }

    /// The values, from the lowest.
    pub fn values(self, numbers: Numbers) -> Vec<i8> {
        let constants = self.constants(numbers);
        if self == Data::Number && numbers.rule == INFINITIES {
            let ends = [INFINITY, NOT_A_NUMBER];
            return std::iter::once(MINUS_INFINITY).chain(constants).chain(ends).collect();
        }
        constants.collect()
    }

    /// How many values there are: document 01's K.
    pub fn count(self, numbers: Numbers) -> u64 {
        self.values(numbers).len() as u64
    }
}

#[derive(Clone, Copy, Debug, PartialEq, Eq, Hash)]
pub enum Type {
    Command,
    Expression(Data),
    Variable(Data),
}

impl Type {
    pub const ALL: [Type; 5] = [
        Type::Command,
        Type::Expression(Data::Truth),
        Type::Expression(Data::Number),
        Type::Variable(Data::Truth),
        Type::Variable(Data::Number),
    ];

    pub fn from_byte(byte: u8) -> Option<Type> {
        Type::ALL.get(byte as usize).copied()
    }

    pub fn byte(self) -> u8 {
        Type::ALL.iter().position(|&t| t == self).expect("all types are listed") as u8
    }

    /// The data of an expression or a variable; a command has none.
    pub fn data(self) -> Option<Data> {
        match self {
            Type::Command => None,
            Type::Expression(data) | Type::Variable(data) => Some(data),
        }
    }

    /// How many questions there are.
    pub fn questions(self, numbers: Numbers) -> u64 {
        match self {
            Type::Command | Type::Expression(_) => 1,
            Type::Variable(data) => 1 + data.count(numbers),
        }
    }

    /// How many answers there are, summed over the questions.
    pub fn answers(self, numbers: Numbers) -> u64 {
        match self {
            Type::Command => 1,
            Type::Expression(data) => data.count(numbers),
            Type::Variable(data) => 2 * data.count(numbers),
        }
    }
}

#[derive(Clone, Copy, Debug, PartialEq, Eq, Hash)]
pub enum Operator {
    Plus,
    Minus,
    Times,
    Remainder,
    Equal,
    Less,
    And,
    Or,
    /// Equal on truths.
    Alike,
}

impl Operator {
    pub const ALL: [Operator; 9] = [
        Operator::Plus,
        Operator::Minus,
        Operator::Times,
        Operator::Remainder,
        Operator::Equal,
        Operator::Less,
        Operator::And,
        Operator::Or,
        Operator::Alike,
    ];

    pub fn from_byte(byte: u8) -> Option<Operator> {
        Operator::ALL.get(byte as usize).copied()
    }

    /// The data of both operands.
    pub fn takes(self) -> Data {
        match self {
            Operator::And | Operator::Or | Operator::Alike => Data::Truth,
            _ => Data::Number,
        }
    }

    /// The data of the result.
    pub fn gives(self) -> Data {
        match self {
            Operator::Plus | Operator::Minus | Operator::Times | Operator::Remainder => Data::Number,
            _ => Data::Truth,
        }
    }
}

/// A record of the heading.
#[derive(Clone, Debug, PartialEq)]
pub enum Record {
    /// A name; one that asks once puts at most one question to its arguments in a call.
    Declare {
        once: bool,
        id: u8,
        result: Type,
        arguments: Vec<Type>,
    },
    Retire {
        id: u8,
    },
}

impl Record {
    pub fn id(&self) -> u8 {
        match self {
            Record::Declare { id, .. } | Record::Retire { id } => *id,
        }
    }

    pub fn write(&self, out: &mut Vec<u8>) {
        match self {
            Record::Declare { once, id, result, arguments } => {
                out.extend([if *once { 3 } else { 1 }, *id, result.byte(), arguments.len() as u8]);
                out.extend((0..4).map(|j| arguments.get(j).map_or(255, |t| t.byte())));
            }
            Record::Retire { id } => out.extend([2, *id]),
        }
    }
}

/// Two of the overflow rules: a result out of range has no play, or becomes an infinity. Under rule 1 it wraps around.
pub const NO_PLAY: u8 = 0;
pub const INFINITIES: u8 = 2;

/// The bytes of the values that are no numbers.
pub const MINUS_INFINITY: i8 = -127;
pub const INFINITY: i8 = 126;
pub const NOT_A_NUMBER: i8 = 127;

/// The range of numbers, -Z to Z, and the overflow rule.
#[derive(Clone, Copy, Debug, PartialEq)]
pub struct Numbers {
    pub z: i8,
    pub rule: u8,
}

/// The bytes up to the term: the range of numbers, the overflow rule and the name records.
#[derive(Clone, Debug, PartialEq)]
pub struct Heading {
    pub numbers: Numbers,
    pub records: Vec<Record>,
}

impl Heading {
    pub fn record(&self, id: u8) -> Option<&Record> {
        self.records.iter().find(|r| r.id() == id)
    }

    pub fn write(&self, out: &mut Vec<u8>) {
        out.extend([self.numbers.z as u8, self.numbers.rule]);
        self.records.iter().for_each(|r| r.write(out));
    }
}

/// What a record of the term is; its parts stand beside it in a `Term`.
#[derive(Clone, Debug, PartialEq)]
pub enum Kind {
    Skip,
    Diverge(Type),
    Constant(Data, i8),
    /// A use of a declared name.
    Name {
        id: u8,
        result: Type,
        once: bool,
    },
    /// A use of a private variable.
    Private {
        id: u8,
        data: Data,
    },
    /// A use of a parameter of a procedure.
    Parameter {
        id: u8,
        result: Type,
    },
    /// A use of a procedure, with its arguments.
    Call {
        id: u8,
        result: Type,
    },
    Fetch,
    Operate(Operator),
    Assign,
    Sequence,
    If,
    While,
    New {
        id: u8,
        data: Data,
    },
    /// A procedure: its term, then the term in which it may be used.
    Procedure(Procedure),
}

/// The record of a procedure, without its terms.
#[derive(Clone, Debug, PartialEq)]
pub struct Procedure {
    pub id: u8,
    pub result: Type,
    pub parameters: Vec<(u8, Type)>,
}

impl Procedure {
    /// The number of the parameter with the id.
    pub fn parameter(&self, id: u8) -> Option<usize> {
        self.parameters.iter().position(|p| p.0 == id)
    }

    pub fn types(&self) -> Vec<Type> {
        self.parameters.iter().map(|p| p.1).collect()
    }

    fn write(&self, out: &mut Vec<u8>) {
        out.extend([28, self.id, self.result.byte(), self.parameters.len() as u8]);
        for j in 0..4 {
            out.extend(self.parameters.get(j).map_or([255, 255], |(id, t)| [*id, t.byte()]));
        }
    }
}

impl Kind {
    /// The id of a use.
    pub fn used_id(&mut self) -> Option<&mut u8> {
        match self {
            Kind::Name { id, .. } | Kind::Private { id, .. } => Some(id),
            Kind::Parameter { id, .. } | Kind::Call { id, .. } => Some(id),
            _ => None,
        }
    }

    /// The bytes of the record, without its parts.
    pub fn write(&self, out: &mut Vec<u8>) {
        match self {
            Kind::Skip => out.push(16),
            Kind::Diverge(result) => out.extend([17, result.byte()]),
            Kind::Constant(Data::Truth, value) => out.extend([18, *value as u8]),
            Kind::Constant(Data::Number, value) => out.extend([19, *value as u8]),
            Kind::Name { id, .. } | Kind::Private { id, .. } => out.extend([20, *id]),
            Kind::Parameter { id, .. } | Kind::Call { id, .. } => out.extend([20, *id]),
            Kind::Fetch => out.push(21),
            Kind::Operate(operator) => out.extend([22, *operator as u8]),
            Kind::Assign => out.push(23),
            Kind::Sequence => out.push(24),
            Kind::If => out.push(25),
            Kind::While => out.push(26),
            Kind::New { id, data } => out.extend([27, *id, data.byte()]),
            Kind::Procedure(procedure) => procedure.write(out),
        }
    }
}

#[derive(Clone, Debug, PartialEq)]
pub struct Term {
    pub kind: Kind,
    pub gives: Type,
    pub parts: Vec<Term>,
}

impl Term {
    /// A term with its type; that the parts have the types they should is judged elsewhere.
    pub fn new(kind: Kind, parts: Vec<Term>) -> Term {
        let gives = match &kind {
            Kind::Skip | Kind::Assign | Kind::While | Kind::New { .. } => Type::Command,
            Kind::Diverge(result) | Kind::Name { result, .. } => *result,
            Kind::Parameter { result, .. } | Kind::Call { result, .. } => *result,
            Kind::Constant(data, _) => Type::Expression(*data),
            Kind::Private { data, .. } => Type::Variable(*data),
            Kind::Fetch => Type::Expression(parts[0].gives.data().expect("a variable has data")),
            Kind::Operate(operator) => Type::Expression(operator.gives()),
            Kind::Sequence | Kind::If | Kind::Procedure(_) => parts[1].gives,
        };
        Term { kind, gives, parts }
    }

    pub fn write(&self, out: &mut Vec<u8>) {
        self.kind.write(out);
        self.parts.iter().for_each(|p| p.write(out));
    }

    /// Whether there is a use of the id that is not bound inside the term.
    pub fn mentions(&self, id: u8) -> bool {
        let part = |i: usize| self.parts[i].mentions(id);
        match &self.kind {
            Kind::New { id: block, .. } => *block != id && part(0),
            Kind::Procedure(p) => (p.parameter(id).is_none() && part(0)) || (p.id != id && part(1)),
            Kind::Name { id: used, .. } | Kind::Private { id: used, .. } if *used == id => true,
            Kind::Parameter { id: used, .. } | Kind::Call { id: used, .. } if *used == id => true,
            _ => self.parts.iter().any(|p| p.mentions(id)),
        }
    }

    /// The ids that the record binds in one of its parts.
    pub fn bound_in(&self, part: usize) -> Vec<u8> {
        match (&self.kind, part) {
            (Kind::New { id, .. }, _) => vec![*id],
            (Kind::Procedure(procedure), 0) => procedure.parameters.iter().map(|p| p.0).collect(),
            (Kind::Procedure(procedure), _) => vec![procedure.id],
            _ => vec![],
        }
    }

    /// Whether some binder in the term has the id.
    pub fn binds(&self, id: u8) -> bool {
        let part = |(i, part): (usize, &Term)| self.bound_in(i).contains(&id) || part.binds(id);
        self.parts.iter().enumerate().any(part)
    }

    /// The number of records.
    pub fn records(&self) -> usize {
        1 + self.parts.iter().map(Term::records).sum::<usize>()
    }

    pub fn depth(&self) -> usize {
        1 + self.parts.iter().map(Term::depth).max().unwrap_or(0)
    }

    /// The weight of a term in which nothing is used that is bound outside of it.
    pub fn weight(&self, numbers: Numbers) -> u64 {
        Weigher::new(numbers).weight(self, &mut Vec::new())
    }

    /// Document 01's reckoned size of a whole term.
    pub fn size(&self, numbers: Numbers) -> u64 {
        let asked = self.gives.questions(numbers).saturating_mul(self.weight(numbers));
        asked.saturating_add(2 + self.gives.answers(numbers))
    }
}

/// The bytes of a sheet.
pub fn written(heading: &Heading, term: &Term) -> Vec<u8> {
    let mut bytes = Vec::new();
    heading.write(&mut bytes);
    term.write(&mut bytes);
    bytes
}
