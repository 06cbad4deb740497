//! Refusals as document 01 numbers them.

#[derive(Clone, Copy, Debug, PartialEq, Eq)]
pub enum Side {
    Left,
    Right,
    Neither,
}

#[derive(Clone, Copy, Debug, PartialEq, Eq)]
pub struct Refusal {
    pub number: u8,
    pub side: Side,
    pub place: usize,
}

/// What is wrong in one text, before it is known on which side the text stands.
#[derive(Clone, Copy, Debug, PartialEq, Eq)]
pub struct Fault {
    pub number: u8,
    pub place: usize,
}

impl Fault {
    pub fn new(number: u8, place: usize) -> Fault {
        Fault { number, place }
    }

    pub fn on(self, side: Side) -> Refusal {
        Refusal { number: self.number, side, place: self.place }
    }
}

impl Refusal {
    /// Refusals that belong to no text always have place 0.
    pub fn neither(number: u8) -> Refusal {
        Refusal { number, side: Side::Neither, place: 0 }
    }

    pub fn text(&self) -> String {
        let side = match self.side {
            Side::Left => "left",
            Side::Right => "right",
            Side::Neither => "neither",
        };
        format!("REFUSED {} {} {}", self.number, side, self.place)
    }
}
