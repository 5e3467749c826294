//! A refusal of a text: its number and its place.

pub type Place = usize;

#[derive(Clone, Copy, Debug, PartialEq, Eq, PartialOrd, Ord, Hash)]
pub struct Refusal {
    // Compared in this order: the smallest place answers, there the smallest number.
    pub place: Place,
    pub number: u8,
}

pub fn refusal(number: u8, place: Place) -> Refusal {
    Refusal { place, number }
}

/// What a stage answers with when these are all its faults.
pub fn least(faults: Vec<Refusal>) -> Result<(), Refusal> {
    faults.into_iter().min().map_or(Ok(()), Err)
}
