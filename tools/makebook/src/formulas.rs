//! The formulas of a text file, with the lines that they begin on.

use std::path::Path;

/// What is wrong with the formulas: on which line, from 1 (0: the file as a whole), and in words.
pub struct Fault {
    line: usize,
    what: String,
}

impl Fault {
    pub fn new(line: usize, what: impl Into<String>) -> Fault {
        Fault { line, what: what.into() }
    }

    /// As compilers name a place: FILE:LINE: what is wrong.
    pub fn text(&self, file: &Path) -> String {
        match self.line {
            0 => format!("{}: {}", file.display(), self.what),
            line => format!("{}:{line}: {}", file.display(), self.what),
        }
    }
}

/// A formula as it stands in the file, from the start of its first line to the end of its last, so
/// that the places that the printer names count from there. Line feeds inside are blanks of a term.
pub struct Formula<'a> {
    pub line: usize,
    pub bytes: &'a [u8],
}

/// The formulas of a text, in order.
pub fn split(text: &[u8]) -> Result<Vec<Formula<'_>>, Fault> {
    let mut splitter = Splitter { text, formulas: Vec::new(), begun: None };
    let mut start = 0;
    for (index, line) in text.split(|byte| *byte == b'\n').enumerate() {
        splitter.take(index + 1, start, line)?;
        start += line.len() + 1;
    }
    match splitter.begun {
        Some(Begun { line, depth, .. }) => Err(unclosed(line, depth)),
        None => Ok(splitter.formulas),
    }
}

/// A formula that goes on: where it begins, and how many parentheses are open.
struct Begun {
    line: usize,
    start: usize,
    depth: usize,
}

struct Splitter<'a> {
    text: &'a [u8],
    formulas: Vec<Formula<'a>>,
    begun: Option<Begun>,
}

impl Splitter<'_> {
    /// Goes on with one line, which begins at byte `start` of the text.
    fn take(&mut self, number: usize, start: usize, line: &[u8]) -> Result<(), Fault> {
        no_carriage_return(number, line)?;
        let first = line.iter().find(|byte| **byte != b' ');
        let mut begun = match self.begun.take() {
            Some(begun) if first == Some(&b'#') => return Err(comment_inside(number, begun.line)),
            Some(begun) => begun,
            None if matches!(first, None | Some(b'#')) => return Ok(()),
            None => Begun { line: number, start, depth: 0 },
        };
        only_bytes_of_terms(number, line)?;
        begun.depth = depth_after(number, begun.depth, line)?;
        if begun.depth > 0 {
            self.begun = Some(begun);
        } else {
            let bytes = &self.text[begun.start..start + line.len()];
            self.formulas.push(Formula { line: begun.line, bytes });
        }
        Ok(())
    }
}

fn depth_after(number: usize, before: usize, line: &[u8]) -> Result<usize, Fault> {
    line.iter().try_fold(before, |depth, byte| match byte {
        b'(' => Ok(depth + 1),
        b')' if depth == 0 => {
            Err(Fault::new(number, "a parenthesis is closed that was not opened"))
        }
        b')' => Ok(depth - 1),
        _ => Ok(depth),
    })
}

fn no_carriage_return(number: usize, line: &[u8]) -> Result<(), Fault> {
    match line.last() {
        Some(b'\r') => {
            Err(Fault::new(number, "the line ends with CR LF; lines must end with LF alone"))
        }
        _ => Ok(()),
    }
}

/// No term has such a byte: the printer would refuse the formula, by a number and without a line.
fn only_bytes_of_terms(number: usize, line: &[u8]) -> Result<(), Fault> {
    let Some(at) = line.iter().position(|byte| !(b' '..=b'~').contains(byte)) else {
        return Ok(());
    };
    let name = match &line[at..] {
        [b'\t', ..] => " (a tab)",
        [0xEF, 0xBB, 0xBF, ..] => " (a byte order mark)",
        _ => "",
    };
    let what = format!("byte {:#04x}{name} in column {}, which no formula has", line[at], at + 1);
    Err(Fault::new(number, what))
}

fn unclosed(line: usize, depth: usize) -> Fault {
    let open =
        if depth == 1 { "a parenthesis is".into() } else { format!("{depth} parentheses are") };
    let what =
        format!("the formula that begins here goes on to the end of the file: {open} not closed");
    Fault::new(line, what)
}

fn comment_inside(number: usize, begun: usize) -> Fault {
    let what = format!(
        "a line that begins with # inside the formula of line {begun}, whose parentheses are not closed"
    );
    Fault::new(number, what)
}
