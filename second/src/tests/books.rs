//! Case B byte for byte, and every way a book is refused.

use crate::book::print;
use crate::make::books;
use crate::make::rng::Rng;

/// The book of these bodies, panel and cloud in turn.
fn make(row: &[u8], bodies: &[&[u8]]) -> Vec<u8> {
    books::bytes(row, 2 + row.len() + 4 * bodies.len(), bodies)
}

fn case_b() -> Vec<u8> {
    let bodies: [&[u8]; 6] = [
        b"(* (+ X Y) (- X Y))",
        b"(- (EXPT X 2) (EXPT Y 2))",
        b"(* X Y)",
        b"0",
        b"(+ X Y Z)",
        b"1",
    ];
    make(b"XY", &bodies)
}

fn small() -> Vec<u8> {
    make(b"XY", &[b"X", b"Y"])
}

#[test]
fn case_b_byte_for_byte() {
    let book = case_b();
    assert_eq!(book.len(), 90);
    let head = [
        2, b'X', b'Y', 3, 28, 0, 19, 0, 47, 0, 25, 0, 72, 0, 7, 0, 79, 0, 1, 0, 80, 0, 9, 0, 89, 0,
        1, 0,
    ];
    assert_eq!(book[..28], head);
    assert_eq!(print(&book), "BOOK 2 3\n0 SAME\n1 DIFF 1 1 1 0\n2 REFUSED E 4 7\n");
}

fn refused(book: &[u8], place: usize) {
    assert_eq!(print(book), format!("BOOK REFUSED 13 {place}\n"), "{book:?}");
}

fn changed(place: usize, byte: u8) -> Vec<u8> {
    let mut book = small();
    book[place] = byte;
    book
}

#[test]
fn wrong_fields() {
    // The small book: 0 count, 1 and 2 letters, 3 entries, 4 to 11 numbers, 12 and 13 bodies.
    refused(&[], 0);
    refused(&changed(0, 0), 0);
    refused(&changed(0, 5), 0);
    refused(&changed(1, b'x'), 1);
    refused(&changed(2, b'X'), 2);
    refused(&changed(3, 0), 3);
    refused(&changed(3, 65), 3);
    refused(&changed(4, 13), 4);
    refused(&changed(5, 1), 4);
    refused(&changed(6, 3), 6);
    refused(&changed(6, 2), 8);
    refused(&changed(8, 12), 8);
    refused(&changed(10, 2), 10);
    refused(&changed(10, 0), 13);
    let mut longer = small();
    longer.push(b' ');
    refused(&longer, 14);
}

#[test]
fn cut_books() {
    let book = small();
    for length in 0..6 {
        refused(&book[..length], length);
    }
    // The first offset is right though it lies beyond the end; a half field is cut.
    refused(&book[..6], 6);
    refused(&book[..7], 7);
    // With its length there, the length is the wrong field.
    for length in 8..13 {
        refused(&book[..length], 6);
    }
    refused(&book[..13], 10);
    // An earlier wrong field is named even where a later one is cut.
    refused(&changed(1, b'1')[..3], 1);
    refused(&changed(4, 0)[..7], 4);
}

#[test]
fn a_length_of_nothing() {
    let book = make(b"X", &[b"", b""]);
    assert_eq!(print(&book), "BOOK 1 1\n0 REFUSED E 4 0\n");
    // Nothing at an offset beyond the end passes the end too.
    refused(&book[..9], 5);
    refused(&book[..10], 5);
}

#[test]
fn bodies_spoil_only_their_entry() {
    let long = vec![b' '; 4_097];
    let bodies: [&[u8]; 8] = [b"X", &long, b"X", b"Q", b"1073741824", b"(", b"X", b"(- (- X))"];
    let book = make(b"X", &bodies);
    let answer = "BOOK 1 4\n0 REFUSED C 3 0\n1 REFUSED C 5 0\n2 REFUSED E 9 0\n3 SAME\n";
    assert_eq!(print(&book), answer);
}

#[test]
fn lengths_about_the_limit() {
    let full: Vec<u8> = vec![b' '; 65_535 - 11];
    let book = make(b"X", &[b"", &full]);
    assert_eq!(book.len(), 65_535);
    assert_eq!(print(&book), "BOOK 1 1\n0 REFUSED E 4 0\n");
    let mut over = book.clone();
    over.push(b' ');
    assert_eq!(print(&over), "BOOK REFUSED 3 0\n");
    assert_eq!(print(&vec![0; 70_000]), "BOOK REFUSED 3 0\n");
}

#[test]
fn made_books_are_good_and_bad() {
    let mut rng = Rng::new(5);
    let answers: Vec<String> = (0..400).map(|_| print(&books::one(&mut rng))).collect();
    let count = |part: &str| answers.iter().filter(|a| a.contains(part)).count();
    assert!(count("BOOK REFUSED 13 ") > 100);
    assert!(count("BOOK REFUSED 3 0") > 2);
    for part in ["SAME", "DIFF", "REFUSED E", "REFUSED C", "BOOK 4 "] {
        assert!(count(part) > 20, "{part}");
    }
}
