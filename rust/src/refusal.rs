//! Why a call did not do what it was asked, and why a cycle could not be completed.

use std::error::Error;
use std::fmt;

/// A refusal, by the number that the paper gives it.
#[derive(Clone, Copy, Debug, PartialEq, Eq, Hash)]
#[non_exhaustive]
pub enum Refusal {
    /// 1: the text is too long.
    TextTooLong,
    /// 2: a character is not allowed, or a line too long.
    CharacterOrLine,
    /// 3: no legal text goes on with this word.
    Grammar,
    /// 4: a name is unknown here, of the wrong kind, declared twice, or too long.
    Name,
    /// 5: a constant is wrong.
    Constant,
    /// 6: subscripts are wrong in count, bound or direction; of a lookup: no such number.
    Subscript,
    /// 7: a length rule is broken.
    Length,
    /// 8: a facility does not take this store.
    StoreKind,
    /// 9: the sequencing register or a state's value is wrong.
    Sequencing,
    /// 10: a ceiling is passed.
    Ceiling,
    /// 12: a lent buffer is too short.
    BufferTooShort,
    /// 13: the image does not pass.
    Image,
    /// 14: store or record is unsound.
    Unsound,
    /// 15: the stimulus is of the wrong length, or has a spare bit set.
    Stimulus,
    /// A number that the module does not give.
    Other(u32),
}

const REFUSALS: [(Refusal, u32, &str); 14] = [
    (Refusal::TextTooLong, 1, "the text is longer than 32,768 bytes"),
    (Refusal::CharacterOrLine, 2, "a character is not allowed, or a line is longer than 132 columns"),
    (Refusal::Grammar, 3, "no legal text goes on with this word"),
    (Refusal::Name, 4, "a name is unknown here, of the wrong kind, declared twice, or too long"),
    (Refusal::Constant, 5, "a constant has no digit, a length that is not 1 to 256, or a bare value above 65,535"),
    (Refusal::Subscript, 6, "subscripts are wrong in count, bound or direction, or no such number is there"),
    (Refusal::Length, 7, "lengths do not fit each other, or one exceeds 256 bits"),
    (Refusal::StoreKind, 8, "a facility does not take this store"),
    (Refusal::Sequencing, 9, "the sequencing register or a state's value is wrong"),
    (Refusal::Ceiling, 10, "a ceiling is passed"),
    (Refusal::BufferTooShort, 12, "a lent buffer is too short"),
    (Refusal::Image, 13, "the image does not pass"),
    (Refusal::Unsound, 14, "store or record is unsound"),
    (Refusal::Stimulus, 15, "the stimulus is of the wrong length, or has a spare bit set"),
];

impl Refusal {
    /// What an answer's number means; 0 is no refusal.
    pub fn answered(number: u32) -> Result<(), Refusal> {
        if number == 0 {
            return Ok(());
        }
        let known = REFUSALS.iter().find(|(_, known, _)| *known == number);
        Err(known.map_or(Refusal::Other(number), |(refusal, ..)| *refusal))
    }

    /// The number that the paper gives it.
    pub fn number(self) -> u32 {
        match self {
            Refusal::Other(number) => number,
            _ => REFUSALS.iter().find(|(known, ..)| *known == self).map_or(0, |(_, number, _)| *number),
        }
    }
}

impl fmt::Display for Refusal {
    fn fmt(&self, out: &mut fmt::Formatter) -> fmt::Result {
        let message = REFUSALS.iter().find(|(known, ..)| known == self).map_or("not known", |(.., message)| message);
        write!(out, "refused {}: {message}", self.number())
    }
}

impl Error for Refusal {}

/// A stop, by the number that the paper gives it.
#[derive(Clone, Copy, Debug, PartialEq, Eq, Hash)]
#[non_exhaustive]
pub enum Stop {
    /// S1: a computed subscript lies outside its bounds.
    Subscript,
    /// S2: two plain next states, or two calls.
    TwoNextStates,
    /// S3: the sequencing register got a value that no state bears.
    NoStateBears,
    /// S4: RETURN with no return held.
    NothingToReturn,
    /// S5: a call with 16 returns held.
    TooManyCalls,
    /// S6: no next state is given and no state stands below.
    NoStateBelow,
    /// S7: the cycle number is 4,294,967,295.
    LastCycle,
    /// A number that the module does not give.
    Other(u32),
}

const STOPS: [(Stop, u32, &str); 7] = [
    (Stop::Subscript, 1, "a computed subscript lies outside its bounds"),
    (Stop::TwoNextStates, 2, "two plain next states, or two calls"),
    (Stop::NoStateBears, 3, "the sequencing register got a value that no state bears"),
    (Stop::NothingToReturn, 4, "RETURN with no return held"),
    (Stop::TooManyCalls, 5, "a call with 16 returns held"),
    (Stop::NoStateBelow, 6, "no next state is given and no state stands below"),
    (Stop::LastCycle, 7, "the cycle number is 4,294,967,295"),
];

impl Stop {
    /// What an answer's number means; 0 is no stop.
    pub fn answered(number: u32) -> Option<Stop> {
        let known = STOPS.iter().find(|(_, known, _)| *known == number);
        match number {
            0 => None,
            _ => Some(known.map_or(Stop::Other(number), |(stop, ..)| *stop)),
        }
    }

    /// The number that the paper gives it.
    pub fn number(self) -> u32 {
        match self {
            Stop::Other(number) => number,
            _ => STOPS.iter().find(|(known, ..)| *known == self).map_or(0, |(_, number, _)| *number),
        }
    }
}

impl fmt::Display for Stop {
    fn fmt(&self, out: &mut fmt::Formatter) -> fmt::Result {
        let message = STOPS.iter().find(|(known, ..)| known == self).map_or("not known", |(.., message)| message);
        write!(out, "stop {}: {message}", self.number())
    }
}

impl Error for Stop {}

/// Why a cycle was not completed. Store and record are as they were.
#[derive(Clone, Copy, Debug, PartialEq, Eq, Hash)]
pub enum Halt {
    /// It was not begun.
    Refused(Refusal),
    /// It could not be completed.
    Stopped(Stop),
}

impl fmt::Display for Halt {
    fn fmt(&self, out: &mut fmt::Formatter) -> fmt::Result {
        match self {
            Halt::Refused(refusal) => refusal.fmt(out),
            Halt::Stopped(stop) => stop.fmt(out),
        }
    }
}

impl Error for Halt {}

impl From<Refusal> for Halt {
    fn from(refusal: Refusal) -> Halt {
        Halt::Refused(refusal)
    }
}

impl From<Stop> for Halt {
    fn from(stop: Stop) -> Halt {
        Halt::Stopped(stop)
    }
}
