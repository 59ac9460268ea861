//! The environments in which terms are played.
//!
//! A parameter stands for its argument together with the environment of the use; a procedure stands for its record
//! together with the environment of that. Environments are numbered, equal ones alike, so that it is quick to tell
//! whether two are the same.

use crate::sheet::{Kind, Procedure, Term};
use std::collections::HashMap;
use std::hash::{Hash, Hasher};

/// A term of the sheet, told from others by where it stands in memory.
#[derive(Clone, Copy)]
pub struct At<'a>(pub &'a Term);

impl PartialEq for At<'_> {
    fn eq(&self, other: &Self) -> bool {
        std::ptr::eq(self.0, other.0)
    }
}

impl Eq for At<'_> {}

impl Hash for At<'_> {
    fn hash<H: Hasher>(&self, state: &mut H) {
        std::ptr::hash(self.0, state);
    }
}

/// Things by number: equal ones have the same.
pub struct Numbered<T> {
    numbers: HashMap<T, usize>,
    things: Vec<T>,
}

impl<T: Clone + Eq + Hash> Numbered<T> {
    pub fn new() -> Numbered<T> {
        Numbered { numbers: HashMap::new(), things: Vec::new() }
    }

    /// The number of a thing, and whether it is new.
    pub fn number(&mut self, thing: T) -> (usize, bool) {
        if let Some(&number) = self.numbers.get(&thing) {
            return (number, false);
        }
        let number = self.things.len();
        self.numbers.insert(thing.clone(), number);
        self.things.push(thing);
        (number, true)
    }

    pub fn get(&self, number: usize) -> &T {
        &self.things[number]
    }
}

/// An environment by number; the empty one has none.
pub type Scope = Option<usize>;

/// A term in its environment.
#[derive(Clone, Copy, PartialEq, Eq, Hash)]
pub struct Placed<'a> {
    pub at: At<'a>,
    pub scope: Scope,
}

impl<'a> Placed<'a> {
    /// A part that binds nothing more.
    pub fn part(self, i: usize) -> Placed<'a> {
        Placed { at: At(&self.at.0.parts[i]), scope: self.scope }
    }
}

/// What the innermost binder of an environment binds.
#[derive(Clone, PartialEq, Eq, Hash)]
enum Binding<'a> {
    /// A block's id to a place in the store.
    Block(u8, usize),
    /// The id of the procedure with this record.
    Procedure(At<'a>),
    /// The parameters of the procedure with this record to their arguments.
    Arguments(At<'a>, Vec<Placed<'a>>),
}

fn procedure<'a>(record: At<'a>) -> &'a Procedure {
    match &record.0.kind {
        Kind::Procedure(procedure) => procedure,
        _ => unreachable!("only procedures are bound so"),
    }
}

impl Binding<'_> {
    fn binds(&self, id: u8) -> bool {
        match self {
            Binding::Block(block, _) => *block == id,
            Binding::Procedure(record) => procedure(*record).id == id,
            Binding::Arguments(record, _) => procedure(*record).parameter(id).is_some(),
        }
    }
}

#[derive(Clone, PartialEq, Eq, Hash)]
struct Entry<'a> {
    outside: Scope,
    /// How many entries are outside.
    depth: usize,
    binding: Binding<'a>,
}

pub struct Scopes<'a> {
    entries: Numbered<Entry<'a>>,
}

impl<'a> Scopes<'a> {
    pub fn new() -> Scopes<'a> {
        Scopes { entries: Numbered::new() }
    }

    fn bind(&mut self, outside: Scope, binding: Binding<'a>) -> Scope {
        let depth = outside.map_or(0, |number| self.entries.get(number).depth + 1);
        Some(self.entries.number(Entry { outside, depth, binding }).0)
    }

    /// The body of a block whose variable stands at that place of the store.
    pub fn body(&mut self, block: Placed<'a>, id: u8, store: usize) -> Placed<'a> {
        Placed { scope: self.bind(block.scope, Binding::Block(id, store)), ..block.part(0) }
    }

    /// The term in which a procedure may be used.
    pub fn rest(&mut self, record: Placed<'a>) -> Placed<'a> {
        Placed { scope: self.bind(record.scope, Binding::Procedure(record.at)), ..record.part(1) }
    }

    /// The term of the procedure that a use means, with its arguments.
    pub fn called(&mut self, id: u8, call: Placed<'a>) -> Placed<'a> {
        let entry = self.innermost(id, call.scope);
        let Binding::Procedure(record) = entry.binding else {
            unreachable!("a call is of a procedure");
        };
        let outside = entry.outside;
        let arguments = (0..call.at.0.parts.len()).map(|i| call.part(i)).collect();
        Placed { at: At(&record.0.parts[0]), scope: self.bind(outside, Binding::Arguments(record, arguments)) }
    }

    /// The argument that a parameter stands for.
    pub fn argument(&self, id: u8, scope: Scope) -> Placed<'a> {
        match &self.innermost(id, scope).binding {
            Binding::Arguments(record, arguments) => arguments[procedure(*record).parameter(id).expect("it binds it")],
            _ => unreachable!("it is a parameter"),
        }
    }

    /// The argument by the number of entries outside the one that binds it, and the parameter's number.
    pub fn argument_at(&self, depth: usize, number: usize, mut scope: Scope) -> Placed<'a> {
        loop {
            let entry = self.entries.get(scope.expect("the entry is there"));
            match &entry.binding {
                Binding::Arguments(_, arguments) if entry.depth == depth => return arguments[number],
                _ => scope = entry.outside,
            }
        }
    }

    /// The place of a private variable in the store.
    pub fn stored(&self, id: u8, scope: Scope) -> usize {
        match self.innermost(id, scope).binding {
            Binding::Block(_, store) => store,
            _ => unreachable!("it is a private variable"),
        }
    }

    fn innermost(&self, id: u8, mut scope: Scope) -> &Entry<'a> {
        loop {
            let entry = self.entries.get(scope.expect("what is used is bound"));
            if entry.binding.binds(id) {
                return entry;
            }
            scope = entry.outside;
        }
    }
}
