//! Makers of random requests and books, all from a seed.

pub mod books;
pub mod damage;
pub mod edges;
pub mod forms;
pub mod lines;
pub mod pairs;
pub mod raw;
pub mod rng;
pub mod shadow;
pub mod terms;
pub mod texts;
