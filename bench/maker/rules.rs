//! What every pair has to keep to.

use crate::reader::{read, Sheet};
use crate::sheet::{Kind, Operator, Term};

/// Both sizes are above this.
pub const SMALLEST: u64 = 3400;

/// Both sheets, or what is wrong with the pair.
pub fn keeps_the_rules(old: &[u8], new: &[u8]) -> Result<(Sheet, Sheet), String> {
    let (a, b) = (accepted(old)?, accepted(new)?);
    if old[..a.heading_length] != new[..b.heading_length] || a.term.gives != b.term.gives {
        return Err("headings or result types differ".to_string());
    }
    if old == new {
        return Err("both sheets are the same bytes".to_string());
    }
    Ok((a, b))
}

fn accepted(bytes: &[u8]) -> Result<Sheet, String> {
    let sheet = read(bytes).map_err(|fault| format!("refused {} at {}", fault.number, fault.place))?;
    if sheet.size <= SMALLEST {
        return Err(format!("size {}", sheet.size));
    }
    if takes_remainders(&sheet.term) {
        return Err("a remainder".to_string());
    }
    Ok(sheet)
}

fn takes_remainders(term: &Term) -> bool {
    term.kind == Kind::Operate(Operator::Remainder) || term.parts.iter().any(takes_remainders)
}
