//! Random books: good ones, and ones damaged in every field.

use super::rng::Rng;
use super::{damage, lines, texts};
use crate::book::{MOST_BYTES, MOST_ENTRIES};
use crate::row::Row;
use std::fs;
use std::io;
use std::path::Path;

pub fn write(seed: u64, count: u64, folder: &str) -> io::Result<()> {
    let mut rng = Rng::new(seed);
    fs::create_dir_all(folder)?;
    for number in 0..count {
        let path = Path::new(folder).join(format!("{number}.book"));
        fs::write(path, one(&mut rng))?;
    }
    Ok(())
}

pub fn one(rng: &mut Rng) -> Vec<u8> {
    if rng.percent(3) {
        return full(rng);
    }
    let row = lines::row(rng);
    let entries = entries(rng);
    let bodies = bodies(rng, &row, entries);
    let head = 2 + row.len() + 8 * entries;
    let mut made = joined(row.letters(), head, &bodies);
    if rng.percent(50) {
        damaged(rng, &mut made, row.len(), head);
    }
    made
}

fn entries(rng: &mut Rng) -> usize {
    match rng.below(30) {
        0 => MOST_ENTRIES,
        1 => MOST_ENTRIES + 1,
        2 => 0,
        _ => 1 + rng.index(5),
    }
}

fn bodies(rng: &mut Rng, row: &Row, entries: usize) -> Vec<Vec<u8>> {
    let mut all = Vec::new();
    for _ in 0..entries {
        let mut pair = texts::term_pair(rng, row, true);
        if rng.percent(5) {
            // Outside the desk a body may hold any byte.
            pair[rng.index(2)].push(rng.pick(b"\t\n\n "));
        }
        if rng.percent(3) {
            pair[rng.index(2)].clear();
        }
        all.extend(pair);
    }
    all
}

fn joined(row: &[u8], head: usize, bodies: &[Vec<u8>]) -> Vec<u8> {
    let bodies: Vec<&[u8]> = bodies.iter().map(Vec::as_slice).collect();
    bytes(row, head, &bodies)
}

/// Nothing is looked at here, so that a wrong book can be made on purpose.
/// Numbers are cut to 16 bits.
pub fn bytes(row: &[u8], head: usize, bodies: &[&[u8]]) -> Vec<u8> {
    let mut book = vec![row.len() as u8];
    book.extend(row);
    book.push((bodies.len() / 2) as u8);
    let mut offset = head;
    for body in bodies {
        book.extend((offset as u16).to_le_bytes());
        book.extend((body.len() as u16).to_le_bytes());
        offset += body.len();
    }
    bodies.iter().for_each(|body| book.extend(*body));
    book
}

/// Eight entries that fill the book to its limit, or one byte over it.
fn full(rng: &mut Rng) -> Vec<u8> {
    let row = lines::row(rng);
    let head = 2 + row.len() + 8 * 8;
    let mut missing = MOST_BYTES - head + rng.index(2);
    let mut bodies = Vec::new();
    for body in texts::short_bodies(rng, &row, 16) {
        let body = damage::padded(rng, &body, missing.min(4_096));
        missing -= body.len();
        bodies.push(body);
    }
    joined(row.letters(), head, &bodies)
}

fn damaged(rng: &mut Rng, made: &mut Vec<u8>, letters: usize, head: usize) {
    match rng.below(10) {
        0 => made[0] = rng.pick(&[0, 1, 2, 3, 4, 5, 6, 255]),
        1 | 2 => {
            let place = 1 + rng.index(letters);
            // The first letter again, or no capital at all.
            made[place] = rng.pick(&[made[1], made[1], b'a', b'x', b'@', b'[', 0, b' ', 255]);
        }
        3 => made[1 + letters] = rng.pick(&[0, 1, 2, 64, 65, 66, 128, 255]),
        4..=6 => wrong_number(rng, letters, head, made),
        7 => {
            let place = rng.index(head.min(made.len()));
            made[place] = rng.below(256) as u8;
        }
        _ => other_length(rng, made, head),
    }
}

/// One of the 16-bit numbers a little or far off.
fn wrong_number(rng: &mut Rng, letters: usize, head: usize, made: &mut [u8]) {
    let count = (head - 2 - letters) / 2;
    if count == 0 {
        return;
    }
    let place = 2 + letters + 2 * rng.index(count);
    let old = u16::from_le_bytes([made[place], made[place + 1]]);
    let new = match rng.below(8) {
        0 | 1 => old.wrapping_add(1),
        2 | 3 => old.wrapping_sub(1),
        4 => old.swap_bytes(),
        5 => 0,
        6 => u16::MAX,
        _ => rng.below(65_536) as u16,
    };
    made[place..place + 2].copy_from_slice(&new.to_le_bytes());
}

fn other_length(rng: &mut Rng, made: &mut Vec<u8>, head: usize) {
    match rng.below(6) {
        0 | 1 => made.truncate(rng.index(head + 1)),
        2 => made.truncate(rng.index(made.len() + 1)),
        3 => made.extend(vec![b' '; 1 + rng.index(3)]),
        4 => {
            made.remove(rng.index(made.len()));
        }
        _ => made.insert(rng.index(made.len()), rng.below(256) as u8),
    }
}
