//! Reads a sheet from its bytes, or gives the first refusal in document 01's order.
//!
//! The reader keeps the open records, those with parts still to come, on a stack of its own. A record is closed as soon
//! as its last byte is read; closing judges its type as a part of the record below it, and may close that one too.

use crate::sheet::{Data, Heading, Kind, Numbers, Operator, Procedure, Record, Term, Type};

pub const LONGEST: usize = 4096;
pub const LARGEST: u64 = 4096;
pub const DEEPEST: usize = 32;
pub const MOST_RECORDS: usize = 32;

/// Whether a binder may take an id that an enclosing one holds.
#[derive(Clone, Copy, Debug, PartialEq)]
pub enum Rule {
    /// It may, as before document 02's request [3], and hides the other.
    Earlier,
    /// It may not.
    Present,
}

/// The number of a refusal of one sheet, and its place.
#[derive(Clone, Copy, Debug, PartialEq)]
pub struct Fault {
    pub number: u32,
    pub place: usize,
}

fn fault<T>(number: u32, place: usize) -> Result<T, Fault> {
    Err(Fault { number, place })
}

/// An accepted sheet.
#[derive(Clone, Debug)]
pub struct Sheet {
    pub heading: Heading,
    /// How many bytes the heading has.
    pub heading_length: usize,
    pub term: Term,
    pub size: u64,
}

/// A record whose parts are not all read.
struct Open {
    place: usize,
    kind: Kind,
    /// The types of the arguments of a use; empty for all other kinds.
    declared: Vec<Type>,
    parts: Vec<Term>,
}

/// What a part has to be.
enum Demand {
    Any,
    AnyVariable,
    Only(Type),
}

struct Reader<'a> {
    rule: Rule,
    bytes: &'a [u8],
    at: usize,
    heading: Heading,
    open: Vec<Open>,
}

/// The sheet with these bytes, or its refusal.
pub fn read(bytes: &[u8]) -> Result<Sheet, Fault> {
    read_under(Rule::Present, bytes)
}

/// The same by one rule or the other.
pub fn read_under(rule: Rule, bytes: &[u8]) -> Result<Sheet, Fault> {
    if bytes.len() > LONGEST {
        return fault(1, LONGEST);
    }
    let heading = Heading { numbers: Numbers { z: 0, rule: 0 }, records: Vec::new() };
    let mut reader = Reader { rule, bytes, at: 0, heading, open: Vec::new() };
    reader.read_heading()?;
    let heading_length = reader.at;
    let term = reader.read_term()?;
    if reader.at < bytes.len() {
        return fault(10, reader.at);
    }
    let size = term.size(reader.heading.numbers);
    if size > LARGEST {
        return fault(11, 0);
    }
    Ok(Sheet { heading: reader.heading, heading_length, term, size })
}

impl Reader<'_> {
    /// The next byte as `judge` takes it; 2 where the sheet has ended, 3 where `judge` does not take it.
    fn next<T>(&mut self, judge: impl Fn(u8) -> Option<T>) -> Result<T, Fault> {
        let Some(&byte) = self.bytes.get(self.at) else {
            return fault(2, self.bytes.len());
        };
        let Some(value) = judge(byte) else {
            return fault(3, self.at);
        };
        self.at += 1;
        Ok(value)
    }

    fn next_id(&mut self) -> Result<u8, Fault> {
        self.next(|b| (b < 255).then_some(b))
    }

    fn next_type(&mut self) -> Result<Type, Fault> {
        self.next(Type::from_byte)
    }

    /// An id that no name record has had so far.
    fn next_unused_id(&mut self) -> Result<u8, Fault> {
        let id = self.next_id()?;
        match self.heading.record(id) {
            Some(_) => fault(4, self.at - 1),
            None => Ok(id),
        }
    }

    /// The id just read, for a binder: by the present rule no enclosing one has it.
    fn for_binder(&self, id: u8) -> Result<u8, Fault> {
        let enclosed = self.open.iter().any(|open| open.bound(id).is_some());
        if self.rule == Rule::Present && enclosed {
            fault(16, self.at - 1)
        } else {
            Ok(id)
        }
    }

    /// The id of a new or of a procedure.
    fn next_binder(&mut self) -> Result<u8, Fault> {
        let id = self.next_unused_id()?;
        self.for_binder(id)
    }

    fn read_heading(&mut self) -> Result<(), Fault> {
        self.heading.numbers.z = self.next(|b| (1..=31).contains(&b).then_some(b as i8))?;
        self.heading.numbers.rule = self.next(|b| (b < 3).then_some(b))?;
        while let Some(&kind @ 1..=3) = self.bytes.get(self.at) {
            if self.heading.records.len() == MOST_RECORDS {
                return fault(9, self.at);
            }
            self.at += 1;
            let record = match kind {
                2 => Record::Retire { id: self.next_unused_id()? },
                _ => self.read_declaration(kind == 3)?,
            };
            self.heading.records.push(record);
        }
        Ok(())
    }

    fn read_declaration(&mut self, once: bool) -> Result<Record, Fault> {
        let id = self.next_unused_id()?;
        let result = self.next_type()?;
        let count = self.next(|b| (b <= 4).then_some(b as usize))?;
        let mut arguments = Vec::new();
        for j in 0..4 {
            if j < count {
                arguments.push(self.next_type()?);
            } else {
                self.next(|b| (b == 255).then_some(()))?;
            }
        }
        Ok(Record::Declare { once, id, result, arguments })
    }

    fn read_term(&mut self) -> Result<Term, Fault> {
        loop {
            let mut newest = self.read_record()?;
            while newest.parts.len() == newest.wanted() {
                let part = Term::new(newest.kind, newest.parts);
                let Some(mut below) = self.open.pop() else {
                    return Ok(part);
                };
                if !below.demand().met_by(part.gives) {
                    return fault(7, newest.place);
                }
                below.parts.push(part);
                newest = below;
            }
            self.open.push(newest);
        }
    }

    /// The kind and the body of a record, without its parts.
    fn read_record(&mut self) -> Result<Open, Fault> {
        let place = self.at;
        let byte = self.next(|b| (16..=28).contains(&b).then_some(b))?;
        if self.open.len() == DEEPEST {
            return fault(8, place);
        }
        let mut declared = Vec::new();
        let kind = match byte {
            16 => Kind::Skip,
            17 => Kind::Diverge(self.next_type()?),
            18 => Kind::Constant(Data::Truth, self.next(|b| (b < 2).then_some(b as i8))?),
            19 => Kind::Constant(Data::Number, self.next_number()?),
            20 => self.read_use(&mut declared)?,
            21 => Kind::Fetch,
            22 => Kind::Operate(self.next(Operator::from_byte)?),
            23 => Kind::Assign,
            24 => Kind::Sequence,
            25 => Kind::If,
            26 => Kind::While,
            27 => Kind::New { id: self.next_binder()?, data: self.next(Data::from_byte)? },
            _ => Kind::Procedure(self.read_procedure()?),
        };
        Ok(Open { place, kind, declared, parts: Vec::new() })
    }

    fn next_number(&mut self) -> Result<i8, Fault> {
        let numbers = self.heading.numbers;
        self.next(|b| Data::Number.constants(numbers).contains(&(b as i8)).then_some(b as i8))
    }

    /// The body of a procedure's record.
    fn read_procedure(&mut self) -> Result<Procedure, Fault> {
        let id = self.next_binder()?;
        let result = self.next_type()?;
        let count = self.next(|b| (b <= 4).then_some(b as usize))?;
        let mut procedure = Procedure { id, result, parameters: Vec::new() };
        for j in 0..4 {
            if j < count {
                let parameter = self.next_parameter(&procedure)?;
                procedure.parameters.push(parameter);
            } else {
                self.next(|b| (b == 255).then_some(()))?;
                self.next(|b| (b == 255).then_some(()))?;
            }
        }
        Ok(procedure)
    }

    /// The id and the type of a parameter; earlier ones of the record do not have that id.
    fn next_parameter(&mut self, procedure: &Procedure) -> Result<(u8, Type), Fault> {
        let id = self.next_unused_id()?;
        if procedure.parameter(id).is_some() {
            return fault(4, self.at - 1);
        }
        Ok((self.for_binder(id)?, self.next_type()?))
    }

    /// A use: of what the innermost open record binds to that id, else of the name declared.
    fn read_use(&mut self, declared: &mut Vec<Type>) -> Result<Kind, Fault> {
        let id = self.next_id()?;
        if let Some((kind, arguments)) = self.open.iter().rev().find_map(|open| open.bound(id)) {
            *declared = arguments;
            return Ok(kind);
        }
        match self.heading.record(id) {
            None => fault(5, self.at - 1),
            Some(Record::Retire { .. }) => fault(6, self.at - 1),
            Some(Record::Declare { once, result, arguments, .. }) => {
                declared.clone_from(arguments);
                Ok(Kind::Name { id, result: *result, once: *once })
            }
        }
    }
}

impl Open {
    /// What a use of the id in the next part means and the types of its arguments, if this record binds the id there.
    fn bound(&self, id: u8) -> Option<(Kind, Vec<Type>)> {
        match &self.kind {
            Kind::New { id: block, data } if *block == id => Some((Kind::Private { id, data: *data }, vec![])),
            Kind::Procedure(procedure) if self.parts.is_empty() => {
                let result = procedure.parameters[procedure.parameter(id)?].1;
                Some((Kind::Parameter { id, result }, vec![]))
            }
            Kind::Procedure(procedure) if procedure.id == id => {
                Some((Kind::Call { id, result: procedure.result }, procedure.types()))
            }
            _ => None,
        }
    }

    /// How many parts the record has.
    fn wanted(&self) -> usize {
        match self.kind {
            Kind::Skip | Kind::Diverge(_) | Kind::Constant(..) => 0,
            Kind::Private { .. } | Kind::Parameter { .. } => 0,
            Kind::Name { .. } | Kind::Call { .. } => self.declared.len(),
            Kind::Fetch | Kind::New { .. } => 1,
            Kind::Operate(_) | Kind::Assign | Kind::Sequence | Kind::While | Kind::Procedure(_) => 2,
            Kind::If => 3,
        }
    }

    /// What the next part has to be.
    fn demand(&self) -> Demand {
        let truth = Type::Expression(Data::Truth);
        match (&self.kind, self.parts.len()) {
            (Kind::Name { .. } | Kind::Call { .. }, j) => Demand::Only(self.declared[j]),
            (Kind::Procedure(procedure), 0) => Demand::Only(procedure.result),
            (Kind::Procedure(_), _) => Demand::Any,
            (Kind::Operate(operator), _) => Demand::Only(Type::Expression(operator.takes())),
            (Kind::Fetch, _) | (Kind::Assign, 0) => Demand::AnyVariable,
            (Kind::Assign, _) => {
                Demand::Only(Type::Expression(self.parts[0].gives.data().expect("a variable has data")))
            }
            (Kind::If, 0) | (Kind::While, 0) => Demand::Only(truth),
            (Kind::If, 1) | (Kind::Sequence, 1) => Demand::Any,
            (Kind::If, _) => Demand::Only(self.parts[1].gives),
            _ => Demand::Only(Type::Command),
        }
    }
}

impl Demand {
    fn met_by(&self, gives: Type) -> bool {
        match self {
            Demand::Any => true,
            Demand::AnyVariable => matches!(gives, Type::Variable(_)),
            Demand::Only(wanted) => *wanted == gives,
        }
    }
}
