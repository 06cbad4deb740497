//! What every call has to answer, and what every lent buffer has to hold afterwards, on tables and buffers one short, exact and longer: the output of crate `trials`.

use crate::{book, desk};

const FIXED: usize = 16_384;
const BEYOND: usize = 7;
const RESULT: usize = 64;
const TRIES: usize = 12;

/// The row X and one entry, `X` twice.
const BOOK: &[u8] = b"\x01X\x01\x0b\x00\x01\x00\x0c\x00\x01\x00XX";

/// A call's fields as in a request line of the desk, without word and row; the first text is cut in try 10, the second in try 11.
fn requests() -> Vec<(&'static str, Vec<&'static str>)> {
    vec![
        ("form", vec!["(* (+ X Y) (- X Y))"]),
        ("negate", vec!["(POW 2 1 (POW 2 -1 0))"]),
        ("add", vec!["(POW 1 1 0)", "(POP 1 (POW 1 1 0))"]),
        ("multiply", vec!["(POW 1 1 (POW 1 1 0))", "(POW 1 1 (POW 1 -1 0))"]),
        ("raise", vec!["(POW 1 1 (POW 1 1 0))", "2"]),
        ("remainder", vec!["(+ (EXPT X 3) Y)"]),
        ("form_remainder", vec!["(POW 3 1 (POW 1 1 0))"]),
        ("compare", vec!["(* X Y)", "0"]),
        ("counters", vec!["(* 256 X)", "0"]),
        ("print_book", vec![]),
        ("judge", vec!["(POW 2 1 (POW 2 -1 0))"]),
    ]
}

/// The answer of a call to which nothing short was lent, by the desk.
fn served(call: &str, fields: &[&str], k: usize) -> String {
    // a text is answered as the desk answers one
    if call == "print_book" {
        return format!("FORM {}", book::print(&BOOK[..BOOK.len() - usize::from(k == 10)]));
    }
    let left = cut(fields[0], k == 10);
    let mut line = vec![call.replace('_', ""), "XY".to_string()];
    if call == "counters" {
        line.push(["8", "7", "16"][usize::from(k == 8) + 2 * usize::from(k == 9)].to_string());
    }
    line.push(left.to_string());
    let right = |field: &&str| cut(field, k == 11 && call != "raise").to_string();
    line.extend(fields[1..].iter().map(right));
    if call.ends_with("remainder") {
        let coordinates = ["-3", "2", "5"];
        line.extend(coordinates[..point_length(k)].iter().map(|x| x.to_string()));
    }
    String::from_utf8(desk::answer(line.join("\t").as_bytes())).expect("answers are text")
}

/// The text without its last byte, where it is to be refused.
fn cut(text: &str, refused: bool) -> &str {
    &text[..text.len() - usize::from(refused)]
}

fn point_length(k: usize) -> usize {
    match k {
        8 => 1,
        5 => 3,
        _ => 2,
    }
}

/// The line of one try.
fn trial(call: &str, fields: &[&str], k: usize) -> String {
    let tables = call != "judge";
    let buffer_short = call == "compare" && k == 8;
    let (mut answer, touched) = if call != "print_book" && (k == 6 || k == 7) {
        ("REFUSED 1 neither 0".to_string(), false)
    } else if tables && ((1..=4).contains(&k) || buffer_short) {
        ("REFUSED 2 neither 0".to_string(), false)
    } else {
        (served(call, fields, k), true)
    };
    let mut result = ".".repeat(RESULT);
    let mut point = "7 7 7".to_string();
    if let Some(text) = answer.strip_prefix("FORM ").map(str::to_string) {
        answer = "REFUSED 11 neither 0".to_string();
        if k != 8 {
            answer = format!("TEXT {}", text.len());
            result = text.clone() + &result[text.len()..];
        }
    }
    if call == "compare" {
        if let Some(numbers) = answer.strip_prefix("DIFF ").map(str::to_string) {
            let numbers: Vec<&str> = numbers.split(' ').collect();
            point = format!("{} {} 7", numbers[0], numbers[1]);
            answer = format!("DIFF {} {}", numbers[2], numbers[3]);
        }
    }
    let mut line = format!("{call} {k}: {answer}");
    if tables {
        let dirty = match (touched, k) {
            (false, _) => FIXED + BEYOND,
            (true, 5) => 0,
            (true, _) => BEYOND,
        };
        line += &format!("; result {result}; point {point}; not 0 {dirty} {dirty} {dirty} {dirty}");
    }
    line + "\n"
}

/// All lines: try by try those of the calls with tables, then those of `judge`.
pub fn lines() -> String {
    let calls = requests();
    let (judge, others) = calls.split_last().expect("eleven calls");
    let line = |k: usize, call: &(&str, Vec<&str>)| trial(call.0, &call.1, k);
    let with_tables = (0..TRIES).flat_map(|k| others.iter().map(move |call| line(k, call)));
    with_tables.chain((0..TRIES).map(|k| line(k, judge))).collect()
}
