//! Sheets and plays with something wrong in them.

use super::heading_and_term;
use super::limits;
use crate::random::Random;
use crate::reader::read;
use crate::sheet::{written, Kind, Record, Term};

/// A sheet in which some record has an id that it may not have, more often than not.
pub fn misnamed(random: &mut Random) -> Vec<u8> {
    let (mut heading, mut term) = heading_and_term(random);
    let retired = heading.records.len();
    limits::fill_records(&mut heading, retired + 1, limits::retired);
    let record = if random.one_in(2) { heading.records[retired].clone() } else { random.choose(&heading.records) };
    let id = if random.one_in(5) { random.byte() } else { record.id() };
    let place = random.below(term.records());
    let named = record_at(&mut term, place);
    match &mut named.kind {
        Kind::Name { id: old, .. } | Kind::Private { id: old, .. } | Kind::New { id: old, .. } => *old = id,
        kind => *kind = Kind::Name { id, result: named.gives, once: false },
    }
    if random.one_in(4) {
        heading.records.push(record);
    }
    written(&heading, &term)
}

/// The sheet with one of its names declared by the other kind.
pub fn redeclared(random: &mut Random, bytes: Vec<u8>) -> Vec<u8> {
    let Ok(mut sheet) = read(&bytes) else {
        return bytes;
    };
    let kinds = sheet.heading.records.iter_mut().filter_map(|record| match record {
        Record::Declare { once, .. } => Some(once),
        Record::Retire { .. } => None,
    });
    let mut kinds: Vec<&mut bool> = kinds.collect();
    if !kinds.is_empty() {
        let at = random.below(kinds.len());
        *kinds[at] ^= true;
    }
    written(&sheet.heading, &sheet.term)
}

/// The record with that number, counted from the whole term.
pub fn record_at(term: &mut Term, place: usize) -> &mut Term {
    if place == 0 {
        return term;
    }
    let mut place = place - 1;
    for part in &mut term.parts {
        let records = part.records();
        if place < records {
            return record_at(part, place);
        }
        place -= records;
    }
    unreachable!("the term has as many records")
}

pub fn random_bytes(random: &mut Random) -> Vec<u8> {
    let mut bytes = vec![random.between(0, 8) as u8, random.below(3) as u8];
    for _ in 0..random.below(30) {
        bytes.push(match random.below(4) {
            0 => random.byte(),
            1 => random.between(0, 4) as u8,
            _ => random.between(15, 29) as u8,
        });
    }
    bytes.truncate(random.below(40));
    bytes
}

/// The bytes with some changed, cut out, put in or cut off.
pub fn damaged(random: &mut Random, mut bytes: Vec<u8>) -> Vec<u8> {
    for _ in 0..random.choose(&[1, 1, 1, 2, 3]) {
        let at = random.below(bytes.len() + 1);
        let byte = damaging_byte(random, &bytes, at);
        match random.below(6) {
            0 => bytes.truncate(at),
            1 => bytes.insert(at, byte),
            2 if at < bytes.len() => {
                bytes.remove(at);
            }
            3 => bytes.push(byte),
            _ if at < bytes.len() => bytes[at] = byte,
            _ => {}
        }
    }
    bytes
}

/// A byte to stand at that place: near the one there, one from elsewhere in the sheet, a kind, or any.
pub fn damaging_byte(random: &mut Random, bytes: &[u8], at: usize) -> u8 {
    let old = bytes.get(at).copied().unwrap_or(0);
    match random.below(6) {
        0 => old.wrapping_add(1),
        1 => old.wrapping_sub(1),
        2 => random.between(15, 29) as u8,
        3 => random.choose(&[0, 1, 2, 3, 4, 5, 8, 254, 255]),
        4 if !bytes.is_empty() => random.choose(bytes),
        _ => random.byte(),
    }
}
