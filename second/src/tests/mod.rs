//! Cases of document 01, examples of the readings, and checks by other ways of working.

mod books;
mod cases;
mod laws;
mod makers;
mod places;
mod readings;
mod refusals;

use crate::desk;

/// Asks the desk; `|` stands for the tab.
fn ask(request: &str) -> String {
    let line = request.replace('|', "\t");
    String::from_utf8(desk::answer(line.as_bytes())).unwrap()
}

/// Each request with the answer it must get.
fn all(table: &[(&str, &str)]) {
    for (request, answer) in table {
        assert_eq!(ask(request), *answer, "{request}");
    }
}

/// A term of this many minus signs round X, all parentheses open at once.
fn minuses(count: usize) -> String {
    format!("{}X{}", "(- ".repeat(count), ")".repeat(count))
}
