//! The formula book: reading it, and the printer's answer.

use crate::compare::compare;
use crate::refusal::{Fault, Side};
use crate::row::{Row, MOST_LETTERS};

pub const MOST_BYTES: usize = 65_535;
pub const MOST_ENTRIES: usize = 64;

pub struct Book<'a> {
    pub row: Row,
    pub entries: Vec<(&'a [u8], &'a [u8])>,
}

/// Walks over the head field by field; a field that is cut is 13 at the book's length.
struct Head<'a> {
    book: &'a [u8],
    at: usize,
}

impl<'a> Head<'a> {
    fn byte(&mut self) -> Result<u8, Fault> {
        let byte = self.book.get(self.at).ok_or(self.cut())?;
        self.at += 1;
        Ok(*byte)
    }

    fn pair(&mut self) -> Result<usize, Fault> {
        let two = self.book.get(self.at..self.at + 2).ok_or(self.cut())?;
        self.at += 2;
        Ok(usize::from(two[0]) + 256 * usize::from(two[1]))
    }

    fn cut(&self) -> Fault {
        Fault::new(13, self.book.len())
    }

    /// The body that should begin at `start`, from its two fields.
    fn body(&mut self, start: usize) -> Result<&'a [u8], Fault> {
        let offset_place = self.at;
        if self.pair()? != start {
            return Err(Fault::new(13, offset_place));
        }
        let length_place = self.at;
        let length = self.pair()?;
        self.book.get(start..start + length).ok_or(Fault::new(13, length_place))
    }

    fn row(&mut self) -> Result<Row, Fault> {
        let count = usize::from(self.byte()?);
        if count == 0 || count > MOST_LETTERS {
            return Err(Fault::new(13, 0));
        }
        let mut letters = Vec::new();
        for place in 1..=count {
            letters.push(self.byte()?);
            if Row::read(&letters).is_none() {
                return Err(Fault::new(13, place));
            }
        }
        Row::read(&letters).ok_or(Fault::new(13, 0))
    }
}

pub fn read(book: &[u8]) -> Result<Book<'_>, Fault> {
    if book.len() > MOST_BYTES {
        return Err(Fault::new(3, 0));
    }
    let mut head = Head { book, at: 0 };
    let row = head.row()?;
    let count_place = head.at;
    let count = usize::from(head.byte()?);
    if count == 0 || count > MOST_ENTRIES {
        return Err(Fault::new(13, count_place));
    }
    let mut start = head.at + 8 * count;
    let mut entries = Vec::new();
    for _ in 0..count {
        let panel = head.body(start)?;
        let cloud = head.body(start + panel.len())?;
        start += panel.len() + cloud.len();
        entries.push((panel, cloud));
    }
    if start < book.len() {
        return Err(Fault::new(13, start));
    }
    Ok(Book { row, entries })
}

/// The printer's whole answer text.
pub fn print(bytes: &[u8]) -> String {
    let book = match read(bytes) {
        Ok(book) => book,
        Err(fault) => return format!("BOOK REFUSED {} {}\n", fault.number, fault.place),
    };
    let mut out = format!("BOOK {} {}\n", book.row.len(), book.entries.len());
    for (number, (panel, cloud)) in book.entries.iter().enumerate() {
        out.push_str(&format!("{number} {}\n", entry(&book.row, panel, cloud)));
    }
    out
}

fn entry(row: &Row, panel: &[u8], cloud: &[u8]) -> String {
    match compare(row, panel, cloud) {
        Ok(verdict) => verdict.text(),
        Err(refusal) => {
            let body = if refusal.side == Side::Left { "E" } else { "C" };
            format!("REFUSED {body} {} {}", refusal.number, refusal.place)
        }
    }
}
