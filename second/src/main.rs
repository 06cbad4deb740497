//! An independent second program, written from the documents alone, to check the real one against.

mod book;
mod compare;
mod desk;
mod form;
mod formread;
mod make;
mod measure;
mod number;
mod operate;
mod poly;
mod refusal;
mod row;
mod term;
mod termwork;
#[cfg(test)]
mod tests;
mod trials;

use std::io::{self, Read, Write};
use std::process::ExitCode;

const HELP: &str = "\
second desk                              requests on standard input, one answer line each
second book                              a book on standard input, the printer's answer
second generate SEED COUNT               COUNT request lines for the desk
second books SEED COUNT DIR              COUNT books as DIR/0.book, DIR/1.book, ...
second trials                            what crate trials has to print
second help                              this text
";

/// Exit status 2 for a call that cannot be served, 1 for a file or stream that fails.
enum Trouble {
    Call(String),
    Stream(io::Error),
}

impl From<io::Error> for Trouble {
    fn from(error: io::Error) -> Trouble {
        Trouble::Stream(error)
    }
}

fn main() -> ExitCode {
    let arguments: Vec<String> = std::env::args().skip(1).collect();
    let words: Vec<&str> = arguments.iter().map(String::as_str).collect();
    match run(&words) {
        Ok(()) => ExitCode::SUCCESS,
        // A reader that has seen enough closes its end; that is no fault of ours.
        Err(Trouble::Stream(error)) if error.kind() == io::ErrorKind::BrokenPipe => {
            ExitCode::SUCCESS
        }
        Err(Trouble::Stream(error)) => {
            eprintln!("second: {error}");
            ExitCode::from(1)
        }
        Err(Trouble::Call(message)) => {
            eprintln!("second: {message}");
            ExitCode::from(2)
        }
    }
}

fn run(words: &[&str]) -> Result<(), Trouble> {
    match words {
        ["desk"] => Ok(desk::run(io::stdin().lock(), io::stdout().lock())?),
        ["book"] => write_out(book::print(&whole_input()?).as_bytes()),
        ["generate", seed, count] => {
            let (seed, count) = (decimal(seed)?, decimal(count)?);
            Ok(make::lines::write(seed, count, io::stdout().lock())?)
        }
        ["books", seed, count, folder] => {
            Ok(make::books::write(decimal(seed)?, decimal(count)?, folder)?)
        }
        ["trials"] => write_out(trials::lines().as_bytes()),
        ["help"] => write_out(HELP.as_bytes()),
        _ => Err(Trouble::Call(format!("no such call; the modes are\n{HELP}"))),
    }
}

fn whole_input() -> io::Result<Vec<u8>> {
    let mut text = Vec::new();
    io::stdin().lock().read_to_end(&mut text)?;
    Ok(text)
}

fn write_out(bytes: &[u8]) -> Result<(), Trouble> {
    let mut out = io::stdout().lock();
    out.write_all(bytes)?;
    Ok(out.flush()?)
}

fn decimal(word: &str) -> Result<u64, Trouble> {
    word.parse().map_err(|_| Trouble::Call(format!("not a number: {word}")))
}
