//! READ, CHECK, LOWER, RUN and the source meaning in plain Rust, written from
//! document 01 alone. It judges the Rattle, and shares no line with it.

pub mod book;
pub mod check;
pub mod lower;
pub mod meaning;
pub mod run;

/// A numbered refusal with its place.
#[derive(Clone, Copy, Debug, PartialEq, Eq)]
pub struct Refusal {
    pub number: u16,
    pub place: u16,
}

impl Refusal {
    pub fn new(number: u16, place: usize) -> Refusal {
        let place = u16::try_from(place).expect("a place is below 65,536");
        Refusal { number, place }
    }
}
