//! A book's bytes: the row, the number of entries, where each body stands, then the bodies.

use crate::formulas::{Fault, Formula};

const MOST_ENTRIES: usize = 64;
const MOST_BYTES: usize = 65_535;

pub struct Book {
    pub entries: usize,
    pub bytes: Vec<u8>,
}

pub fn check_row(row: &[u8]) -> Result<(), String> {
    let letters = row.iter().all(u8::is_ascii_uppercase);
    let distinct = (1..row.len()).all(|i| !row[..i].contains(&row[i]));
    if (1..=4).contains(&row.len()) && letters && distinct {
        return Ok(());
    }
    let row = String::from_utf8_lossy(row);
    Err(format!("ROW={row}: a row is 1 to 4 distinct letters A to Z"))
}

/// The book of the formulas, panel and cloud in turn. The row is a proper one.
pub fn make(row: &[u8], formulas: &[Formula]) -> Result<Book, Fault> {
    let entries = count_entries(formulas)?;
    let head = 2 + row.len() + 8 * entries;
    let mut fields = vec![row.len() as u8];
    fields.extend(row);
    fields.push(entries as u8);
    let mut bodies: Vec<u8> = Vec::new();
    for formula in formulas {
        let offset = head + bodies.len();
        bodies.extend(formula.bytes);
        not_too_long(formula.line, head + bodies.len())?;
        fields.extend((offset as u16).to_le_bytes());
        fields.extend((formula.bytes.len() as u16).to_le_bytes());
    }
    fields.extend(bodies);
    Ok(Book { entries, bytes: fields })
}

fn count_entries(formulas: &[Formula]) -> Result<usize, Fault> {
    if formulas.is_empty() {
        return Err(Fault::new(0, "there is no formula in it"));
    }
    if let Some(formula) = formulas.get(2 * MOST_ENTRIES) {
        let what = format!("one entry too many begins here; a book has at most {MOST_ENTRIES}");
        return Err(Fault::new(formula.line, what));
    }
    if let ([.., last], true) = (formulas, formulas.len() % 2 == 1) {
        let what =
            format!("an odd number of formulas, {}: this one has no partner", formulas.len());
        return Err(Fault::new(last.line, what));
    }
    Ok(formulas.len() / 2)
}

fn not_too_long(line: usize, length: usize) -> Result<(), Fault> {
    if length > MOST_BYTES {
        let what = format!("with this formula the book passes {MOST_BYTES} bytes");
        return Err(Fault::new(line, what));
    }
    Ok(())
}
