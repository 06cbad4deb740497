//! The row: 1 to 4 distinct capital letters, an ordered list.

pub const MOST_LETTERS: usize = 4;

#[derive(Clone, Debug, PartialEq, Eq)]
pub struct Row {
    letters: Vec<u8>,
}

impl Row {
    pub fn read(text: &[u8]) -> Option<Row> {
        let mut row = Row { letters: Vec::new() };
        if text.is_empty() || text.len() > MOST_LETTERS {
            return None;
        }
        for letter in text {
            if !row.takes(*letter) {
                return None;
            }
            row.letters.push(*letter);
        }
        Some(row)
    }

    /// Whether this letter may follow the ones already there.
    pub fn takes(&self, letter: u8) -> bool {
        letter.is_ascii_uppercase() && !self.letters.contains(&letter)
    }

    pub fn len(&self) -> usize {
        self.letters.len()
    }

    pub fn letters(&self) -> &[u8] {
        &self.letters
    }

    pub fn position(&self, letter: u8) -> Option<usize> {
        self.letters.iter().position(|known| *known == letter)
    }
}
