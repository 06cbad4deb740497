//! The desk: one request per line, one answer line each.

use crate::number::{natural_32, signed_32};
use crate::refusal::Refusal;
use crate::row::Row;
use crate::{compare, operate};
use std::io::{self, BufRead, BufReader, Read, Write};

/// What a field after the word must be; only numbers can be wrong in themselves.
#[derive(Clone, Copy, PartialEq)]
enum Field {
    Bytes,
    Natural,
}

/// The fields after a word, and whether any number of coordinates follows them.
fn shape(word: &[u8]) -> Option<(&'static [Field], bool)> {
    use Field::{Bytes, Natural};
    match word {
        b"form" | b"judge" | b"negate" => Some((&[Bytes, Bytes], false)),
        b"add" | b"multiply" | b"compare" => Some((&[Bytes, Bytes, Bytes], false)),
        b"raise" => Some((&[Bytes, Bytes, Natural], false)),
        b"counters" => Some((&[Bytes, Natural, Bytes, Bytes], false)),
        b"remainder" | b"formremainder" => Some((&[Bytes, Bytes], true)),
        _ => None,
    }
}

fn wrong_field(fields: &[&[u8]]) -> Option<usize> {
    let Some((wanted, coordinates)) = shape(fields[0]) else {
        return Some(0);
    };
    for (k, kind) in wanted.iter().enumerate() {
        match fields.get(k + 1) {
            None => return Some(k + 1),
            Some(field) if *kind == Field::Natural && natural_32(field).is_none() => {
                return Some(k + 1)
            }
            Some(_) => {}
        }
    }
    let known = wanted.len() + 1;
    (known..fields.len()).find(|k| !coordinates || signed_32(fields[*k]).is_none())
}

pub fn answer(line: &[u8]) -> Vec<u8> {
    let fields: Vec<&[u8]> = line.split(|byte| *byte == b'\t').collect();
    if let Some(n) = wrong_field(&fields) {
        return format!("? {n}").into_bytes();
    }
    served(&fields).unwrap_or_else(|refusal| refusal.text().into_bytes())
}

/// The fields are known to be right in number and kind.
fn served(fields: &[&[u8]]) -> Result<Vec<u8>, Refusal> {
    let row = Row::read(fields[1]).ok_or(Refusal::neither(1))?;
    match fields[0] {
        b"form" => operate::form(&row, fields[2]).map(form_line),
        b"judge" => operate::judge(&row, fields[2]).map(|()| b"YES".to_vec()),
        b"add" => operate::add(&row, fields[2], fields[3]).map(form_line),
        b"multiply" => operate::multiply(&row, fields[2], fields[3]).map(form_line),
        b"negate" => operate::negate(&row, fields[2]).map(form_line),
        b"raise" => operate::raise(&row, fields[2], natural(fields[3])).map(form_line),
        b"remainder" => operate::term_remainder(&row, fields[2], &point(fields)).map(number_line),
        b"formremainder" => {
            operate::form_remainder(&row, fields[2], &point(fields)).map(number_line)
        }
        b"compare" => {
            compare::compare(&row, fields[2], fields[3]).map(|verdict| verdict.text().into_bytes())
        }
        _ => compare::counters(&row, natural(fields[2]), fields[3], fields[4]).map(same_line),
    }
}

fn natural(field: &[u8]) -> u32 {
    natural_32(field).expect("looked at before")
}

fn point(fields: &[&[u8]]) -> Vec<i128> {
    let coordinate = |field: &&[u8]| i128::from(signed_32(field).expect("looked at before"));
    fields[3..].iter().map(coordinate).collect()
}

fn form_line(text: Vec<u8>) -> Vec<u8> {
    [b"FORM ".as_slice(), &text].concat()
}

fn number_line(value: i128) -> Vec<u8> {
    format!("REMAINDER {value}").into_bytes()
}

fn same_line(same: bool) -> Vec<u8> {
    if same {
        b"SAME".to_vec()
    } else {
        b"DIFF".to_vec()
    }
}

pub fn run(input: impl Read, output: impl Write) -> io::Result<()> {
    let mut input = BufReader::with_capacity(1 << 16, input);
    let mut output = io::BufWriter::new(output);
    let mut line = Vec::new();
    loop {
        // A caller that waits for each answer gets it before the next line is read.
        if input.buffer().is_empty() {
            output.flush()?;
        }
        line.clear();
        if input.read_until(b'\n', &mut line)? == 0 {
            return output.flush();
        }
        let request = line.strip_suffix(b"\n").unwrap_or(&line);
        output.write_all(&answer(request))?;
        output.write_all(b"\n")?;
    }
}
