//! Reads a sheet into a table of parts. A sheet that is not in order gives none, without a cause.

const LONGEST: usize = 4096;
const LARGEST: usize = 4096;
const DEEPEST: usize = 32;
const MOST_RECORDS: usize = 32;
const MOST_ARGUMENTS: usize = 4;
const IDS: u8 = 255;
const UNUSED: u8 = 255;

/// The kinds of records.
const DECLARE: u8 = 1;
const RETIRE: u8 = 2;
const SKIP: u8 = 16;
const DIVERGE: u8 = 17;
const TRUTH: u8 = 18;
const NUMBER: u8 = 19;
const USE: u8 = 20;
const FETCH: u8 = 21;
const OPERATE: u8 = 22;
const ASSIGN: u8 = 23;
const SEQUENCE: u8 = 24;
const IF: u8 = 25;
const WHILE: u8 = 26;
const NEW: u8 = 27;

/// How many truths there are.
const TRUTHS: u8 = 2;

#[derive(Clone, Copy, PartialEq)]
pub enum Class {
    Command,
    Expression,
    Variable,
}

/// A class and the number of values of its data: 2 for truths, 2Z + 1 for numbers. A command has the one answer, done.
#[derive(Clone, Copy, PartialEq)]
pub struct Type {
    pub class: Class,
    values: u8,
}

impl Type {
    const COMMAND: Type = Type { class: Class::Command, values: 1 };

    fn expression(values: u8) -> Type {
        Type { class: Class::Expression, values }
    }

    fn variable(values: u8) -> Type {
        Type { class: Class::Variable, values }
    }

    pub fn values(self) -> usize {
        self.values as usize
    }

    pub fn questions(self) -> usize {
        match self.class {
            Class::Variable => 1 + self.values(),
            _ => 1,
        }
    }

    /// The answers, summed over the questions.
    pub fn answers(self) -> usize {
        match self.class {
            Class::Variable => 2 * self.values(),
            _ => self.values(),
        }
    }
}

#[derive(Clone, Copy)]
pub enum Operator {
    Plus,
    Minus,
    Times,
    Remainder,
    Equal,
    Less,
    And,
    Or,
}

/// What a part is. A value stands as its code: itself, or 2Z + 1 more where it is negative.
#[derive(Clone, Copy)]
pub enum Kind {
    /// Answers at once with this code: a constant, or skip.
    Constant(u8),
    Diverge,
    Name {
        id: u8,
        arguments: u8,
    },
    /// A private variable, by the number of blocks around its own.
    Private(u8),
    Fetch,
    Operate(Operator),
    Assign,
    Sequence,
    If,
    While,
    /// A block, with the number of blocks around it and the values of its variable.
    New {
        level: u8,
        values: u8,
    },
}

pub struct Part {
    pub kind: Kind,
    pub gives: Type,
    weight: u32,
    parts: [u16; MOST_ARGUMENTS],
}

impl Part {
    pub fn weight(&self) -> usize {
        self.weight as usize
    }

    /// The places of its parts in the table.
    pub fn parts(&self) -> [usize; MOST_ARGUMENTS] {
        self.parts.map(usize::from)
    }
}

/// A declared name.
#[derive(Clone, Copy)]
struct Name {
    result: Type,
    count: u8,
    arguments: [Type; MOST_ARGUMENTS],
}

/// What an id stands for.
#[derive(Clone, Copy)]
enum Standing {
    Free,
    Retired,
    Declared(Name),
}

/// A sheet; one that is read takes the place of the one before.
#[derive(Default)]
pub struct Sheet {
    /// How many numbers there are: 2Z + 1.
    pub numbers: usize,
    pub wraps: bool,
    pub heading_length: usize,
    parts: Vec<Part>,
}

impl Sheet {
    pub fn part(&self, place: usize) -> &Part {
        &self.parts[place]
    }

    /// The place of the whole term, which is written last.
    pub fn root(&self) -> usize {
        self.parts.len() - 1
    }

    pub fn gives(&self) -> Type {
        self.parts[self.root()].gives
    }

    /// Document 01's reckoned size, and the number of positions.
    pub fn size(&self) -> usize {
        let (gives, weight) = (self.gives(), self.parts[self.root()].weight());
        gives.questions() * weight + 2 + gives.answers()
    }

    /// Reads a sheet from its bytes.
    pub fn read(&mut self, bytes: &[u8]) -> Option<()> {
        if bytes.len() > LONGEST {
            return None;
        }
        self.parts.clear();
        let mut reader = Reader { bytes, at: 0, numbers: 0, names: [Standing::Free; IDS as usize], scope: vec![] };
        self.wraps = reader.heading()?;
        self.numbers = reader.numbers as usize;
        self.heading_length = reader.at;
        reader.part(&mut self.parts, DEEPEST)?;
        (reader.at == bytes.len() && self.size() <= LARGEST).then_some(())
    }
}

struct Reader<'a> {
    bytes: &'a [u8],
    at: usize,
    numbers: u8,
    names: [Standing; IDS as usize],
    /// The private variables around this place, the innermost last: id and values.
    scope: Vec<(u8, u8)>,
}

impl Reader<'_> {
    fn byte(&mut self) -> Option<u8> {
        let byte = *self.bytes.get(self.at)?;
        self.at += 1;
        Some(byte)
    }

    fn byte_below(&mut self, limit: u8) -> Option<u8> {
        self.byte().filter(|&b| b < limit)
    }

    fn type_byte(&mut self) -> Option<Type> {
        match self.byte()? {
            0 => Some(Type::COMMAND),
            1 => Some(Type::expression(TRUTHS)),
            2 => Some(Type::expression(self.numbers)),
            3 => Some(Type::variable(TRUTHS)),
            4 => Some(Type::variable(self.numbers)),
            _ => None,
        }
    }

    /// Reads the heading; whether numbers wrap.
    fn heading(&mut self) -> Option<bool> {
        let z = self.byte_below(8).filter(|&z| z > 0)?;
        self.numbers = 2 * z + 1;
        let wraps = self.byte_below(2)? == 1;
        let mut records = 0;
        while let Some(&(DECLARE | RETIRE)) = self.bytes.get(self.at) {
            records += 1;
            self.name_record()?;
        }
        (records <= MOST_RECORDS).then_some(wraps)
    }

    fn name_record(&mut self) -> Option<()> {
        let kind = self.byte()?;
        let id = self.free_id()?;
        self.names[id as usize] =
            if kind == DECLARE { Standing::Declared(self.declaration()?) } else { Standing::Retired };
        Some(())
    }

    fn declaration(&mut self) -> Option<Name> {
        let result = self.type_byte()?;
        let count = self.byte_below(MOST_ARGUMENTS as u8 + 1)?;
        let mut arguments = [Type::COMMAND; MOST_ARGUMENTS];
        for argument in &mut arguments[..count as usize] {
            *argument = self.type_byte()?;
        }
        for _ in count as usize..MOST_ARGUMENTS {
            self.byte().filter(|&b| b == UNUSED)?;
        }
        Some(Name { result, count, arguments })
    }

    /// An id that no name record has.
    fn free_id(&mut self) -> Option<u8> {
        let id = self.byte_below(IDS)?;
        matches!(self.names[id as usize], Standing::Free).then_some(id)
    }

    /// Reads a part of at most that depth into the table; its place there.
    fn part(&mut self, table: &mut Vec<Part>, depth: usize) -> Option<usize> {
        let depth = depth.checked_sub(1)?;
        let part = match self.byte()? {
            SKIP => leaf(Kind::Constant(0), Type::COMMAND, 1),
            DIVERGE => leaf(Kind::Diverge, self.type_byte()?, 1),
            TRUTH => leaf(Kind::Constant(self.byte_below(TRUTHS)?), Type::expression(TRUTHS), 1),
            NUMBER => leaf(Kind::Constant(self.number()?), Type::expression(self.numbers), 1),
            USE => self.use_of_id(table, depth)?,
            FETCH => self.fetch(table, depth)?,
            OPERATE => self.operation(table, depth)?,
            ASSIGN => self.assignment(table, depth)?,
            SEQUENCE => self.sequence(table, depth)?,
            IF => self.branch(table, depth)?,
            WHILE => self.repetition(table, depth)?,
            NEW => self.block(table, depth)?,
            _ => return None,
        };
        table.push(part);
        Some(table.len() - 1)
    }

    /// The code of a number.
    fn number(&mut self) -> Option<u8> {
        let (value, z) = (self.byte()? as i8, self.numbers as i8 / 2);
        (-z..=z).contains(&value).then(|| value.rem_euclid(self.numbers as i8) as u8)
    }

    /// Reads a part of this type.
    fn part_of(&mut self, table: &mut Vec<Part>, depth: usize, wanted: Type) -> Option<usize> {
        self.part(table, depth).filter(|&place| table[place].gives == wanted)
    }

    /// Reads a variable.
    fn variable(&mut self, table: &mut Vec<Part>, depth: usize) -> Option<usize> {
        self.part(table, depth).filter(|&place| table[place].gives.class == Class::Variable)
    }

    fn use_of_id(&mut self, table: &mut Vec<Part>, depth: usize) -> Option<Part> {
        let id = self.byte_below(IDS)?;
        if let Some(level) = self.scope.iter().rposition(|v| v.0 == id) {
            return Some(leaf(Kind::Private(level as u8), Type::variable(self.scope[level].1), 2));
        }
        let Standing::Declared(name) = self.names[id as usize] else {
            return None;
        };
        let mut part = leaf(Kind::Name { id, arguments: name.count }, name.result, 2);
        for (j, &wanted) in name.arguments[..name.count as usize].iter().enumerate() {
            let place = self.part_of(table, depth, wanted)?;
            part.parts[j] = place as u16;
            part.weight = light(part.weight() + wanted.questions() * table[place].weight() + wanted.answers())?;
        }
        Some(part)
    }

    fn fetch(&mut self, table: &mut Vec<Part>, depth: usize) -> Option<Part> {
        let variable = self.variable(table, depth)?;
        let (values, weight) = (table[variable].gives.values, table[variable].weight());
        whole(Kind::Fetch, Type::expression(values), weight, &[variable])
    }

    /// The values that the next operator takes, those that it gives, and the operator.
    fn operator(&mut self) -> Option<(u8, u8, Operator)> {
        let numbers = self.numbers;
        match self.byte()? {
            0 => Some((numbers, numbers, Operator::Plus)),
            1 => Some((numbers, numbers, Operator::Minus)),
            2 => Some((numbers, numbers, Operator::Times)),
            3 => Some((numbers, numbers, Operator::Remainder)),
            4 => Some((numbers, TRUTHS, Operator::Equal)),
            5 => Some((numbers, TRUTHS, Operator::Less)),
            6 => Some((TRUTHS, TRUTHS, Operator::And)),
            7 => Some((TRUTHS, TRUTHS, Operator::Or)),
            8 => Some((TRUTHS, TRUTHS, Operator::Equal)),
            _ => None,
        }
    }

    fn operation(&mut self, table: &mut Vec<Part>, depth: usize) -> Option<Part> {
        let (takes, gives, operator) = self.operator()?;
        let left = self.part_of(table, depth, Type::expression(takes))?;
        let right = self.part_of(table, depth, Type::expression(takes))?;
        let weight = table[left].weight() + takes as usize * table[right].weight();
        whole(Kind::Operate(operator), Type::expression(gives), weight, &[left, right])
    }

    fn assignment(&mut self, table: &mut Vec<Part>, depth: usize) -> Option<Part> {
        let variable = self.variable(table, depth)?;
        let values = table[variable].gives.values;
        let value = self.part_of(table, depth, Type::expression(values))?;
        let weight = table[value].weight() + values as usize * table[variable].weight();
        whole(Kind::Assign, Type::COMMAND, weight, &[variable, value])
    }

    fn sequence(&mut self, table: &mut Vec<Part>, depth: usize) -> Option<Part> {
        let first = self.part_of(table, depth, Type::COMMAND)?;
        let rest = self.part(table, depth)?;
        let weight = table[first].weight() + table[rest].weight();
        whole(Kind::Sequence, table[rest].gives, weight, &[first, rest])
    }

    fn branch(&mut self, table: &mut Vec<Part>, depth: usize) -> Option<Part> {
        let test = self.part_of(table, depth, Type::expression(TRUTHS))?;
        let yes = self.part(table, depth)?;
        let no = self.part_of(table, depth, table[yes].gives)?;
        let weight = table[test].weight() + table[yes].weight() + table[no].weight();
        whole(Kind::If, table[yes].gives, weight, &[test, yes, no])
    }

    fn repetition(&mut self, table: &mut Vec<Part>, depth: usize) -> Option<Part> {
        let test = self.part_of(table, depth, Type::expression(TRUTHS))?;
        let round = self.part_of(table, depth, Type::COMMAND)?;
        let weight = table[test].weight() + table[round].weight();
        whole(Kind::While, Type::COMMAND, weight, &[test, round])
    }

    fn block(&mut self, table: &mut Vec<Part>, depth: usize) -> Option<Part> {
        let id = self.free_id()?;
        let values = match self.byte()? {
            1 => TRUTHS,
            2 => self.numbers,
            _ => return None,
        };
        let level = self.scope.len() as u8;
        self.scope.push((id, values));
        let body = self.part_of(table, depth, Type::COMMAND)?;
        self.scope.pop();
        let weight = values as usize * table[body].weight();
        whole(Kind::New { level, values }, Type::COMMAND, weight, &[body])
    }
}

fn leaf(kind: Kind, gives: Type, weight: u32) -> Part {
    Part { kind, gives, weight, parts: [0; MOST_ARGUMENTS] }
}

/// A part with these parts, unless it is too heavy.
fn whole(kind: Kind, gives: Type, weight: usize, places: &[usize]) -> Option<Part> {
    let mut part = leaf(kind, gives, light(weight)?);
    part.parts.iter_mut().zip(places).for_each(|(part, &place)| *part = place as u16);
    Some(part)
}

/// A weight, if a sheet that holds it can be accepted.
fn light(weight: usize) -> Option<u32> {
    (weight <= LARGEST).then_some(weight as u32)
}
