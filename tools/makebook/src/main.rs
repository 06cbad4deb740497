//! makebook ROW FILE OUT: the book of the formulas in FILE, over the variables of ROW, in OUT.
//!
//! Exit status: 0 made; 1 something is wrong with the call, the formulas or a file. Then OUT is as it was.

mod book;
mod formulas;
mod output;

use std::fs::File;
use std::io::{self, Read, Write};
use std::path::Path;
use std::process::ExitCode;

const HELP: &str = "\
makebook ROW FILE OUT    the book of the formulas in FILE, over the variables of ROW, in OUT
makebook --help          this text
makebook --version       the version

ROW   1 to 4 distinct letters A to Z
FILE  a panel formula, its cloud formula, the next panel formula, and so on, each on a line of its
      own; a formula goes on over lines until its parentheses are closed. Between formulas there may
      be blank lines, and lines that begin with # and are passed over.
OUT   written only when all is well, and then at once; it may not be FILE
";

/// Comments may be long; a file beyond this is not one that somebody wrote.
const MOST_READ: u64 = 16 << 20;

fn main() -> ExitCode {
    let words: Vec<std::ffi::OsString> = std::env::args_os().skip(1).collect();
    let done = match words.as_slice() {
        [word] if word == "--help" => say(HELP),
        [word] if word == "--version" => say(concat!("makebook ", env!("CARGO_PKG_VERSION"), "\n")),
        [row, file, out] => {
            let made = make(row.as_encoded_bytes(), Path::new(file), Path::new(out));
            // The book is there, whether or not that can be said.
            made.map(|text| say(&text).unwrap_or_else(|message| complain(&message)))
        }
        _ => Err(format!("three words are wanted\n{HELP}")),
    };
    match done {
        Ok(()) => ExitCode::SUCCESS,
        Err(message) => {
            complain(&message);
            ExitCode::FAILURE
        }
    }
}

fn complain(message: &str) {
    eprintln!("makebook: {}", message.trim_end());
}

fn say(text: &str) -> Result<(), String> {
    let mut out = io::stdout().lock();
    let written = out.write_all(text.as_bytes()).and_then(|()| out.flush());
    written.map_err(|error| format!("standard output: {error}"))
}

/// Makes the book and returns what is to be said of it.
fn make(row: &[u8], file: &Path, out: &Path) -> Result<String, String> {
    book::check_row(row)?;
    let text = read(file).map_err(|error| format!("{}: {error}", file.display()))?;
    let target = output::target(file, out)?;
    let book = formulas::split(&text)
        .and_then(|formulas| book::make(row, &formulas))
        .map_err(|fault| fault.text(file))?;
    output::put(&target, &book.bytes)
        .map_err(|error| format!("{}: not written: {error}", out.display()))?;
    let row = String::from_utf8_lossy(row);
    let count = book.entries;
    let noun = if count == 1 { "entry" } else { "entries" };
    Ok(format!("{}: row {row}, {count} {noun}, {} bytes\n", out.display(), book.bytes.len()))
}

fn read(file: &Path) -> io::Result<Vec<u8>> {
    let mut text = Vec::new();
    File::open(file)?.take(MOST_READ + 1).read_to_end(&mut text)?;
    if text.len() as u64 > MOST_READ {
        return Err(io::Error::other(format!("more than {MOST_READ} bytes")));
    }
    Ok(text)
}
