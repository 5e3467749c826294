//! Facilities as they are declared.

use std::ops::Range;

/// The six kinds of facilities.
#[derive(Clone, Copy, Debug, PartialEq, Eq, Hash)]
pub enum Kind {
    /// `REGISTER A`: takes delayed and immediate stores.
    Register,
    /// `REGISTER #A`: has the value of the state.
    SequencingRegister,
    /// `MEMORY M`: takes immediate stores.
    Memory,
    /// `TERMINAL T`: is cleared before each cycle.
    PlainTerminal,
    /// `TERMINAL T = INPUT(c, T)`: is set by the stimulus.
    InputTerminal,
    /// `TERMINAL T = e`: is worked out when read, and has no place in the store.
    ComputedTerminal,
}

impl Kind {
    pub(crate) fn of(number: u8) -> Option<Kind> {
        Some(match number {
            0 => Kind::Register,
            1 => Kind::SequencingRegister,
            2 => Kind::Memory,
            3 => Kind::PlainTerminal,
            4 => Kind::InputTerminal,
            5 => Kind::ComputedTerminal,
            _ => return None,
        })
    }
}

/// First and last bound of a dimension, in declared order: `[15:0]` has 15 first.
/// No bound is above 65,535, so no count of words, bits or bytes overflows.
#[derive(Clone, Copy, Debug, PartialEq, Eq, Hash)]
pub struct Bounds {
    /// Names the first word, or the most significant bit.
    pub first: u16,
    /// Names the last word, or the least significant bit.
    pub last: u16,
}

impl Bounds {
    /// How many numbers lie within.
    pub fn span(self) -> usize {
        usize::from(self.first.abs_diff(self.last)).saturating_add(1)
    }

    /// How far a number is from the first bound, if it lies within.
    pub fn position(self, number: u32) -> Option<usize> {
        let number = u16::try_from(number).ok()?;
        let within = number >= self.first.min(self.last) && number <= self.first.max(self.last);
        within.then(|| number.abs_diff(self.first).into())
    }
}

/// A facility's declaration, and its place in the store. Only an image has
/// facilities to give.
#[derive(Clone, Copy, Debug, PartialEq, Eq, Hash)]
pub struct Facility<'a> {
    pub(crate) number: u32,
    pub(crate) name: &'a str,
    pub(crate) kind: Kind,
    pub(crate) words: Option<Bounds>,
    pub(crate) bits: Option<Bounds>,
    pub(crate) place: Option<u16>,
}

impl<'a> Facility<'a> {
    /// From 0, as declared.
    pub fn number(&self) -> u32 {
        self.number
    }

    /// In capitals; a part of the image.
    pub fn name(&self) -> &'a str {
        self.name
    }

    /// Which of the six kinds it is of.
    pub fn kind(&self) -> Kind {
        self.kind
    }

    /// The bounds of the words, where there are two dimensions.
    pub fn words(&self) -> Option<Bounds> {
        self.words
    }

    /// The bounds of the bits; none for a facility of one bit without dimensions.
    pub fn bits(&self) -> Option<Bounds> {
        self.bits
    }

    /// The first byte in the store; a computed terminal has none.
    pub fn place(&self) -> Option<usize> {
        self.place.map(usize::from)
    }

    /// How many words it has: one, below two dimensions.
    pub fn word_count(&self) -> usize {
        self.words.map_or(1, Bounds::span)
    }

    /// How many bits a word has.
    pub fn word_length(&self) -> usize {
        self.bits.map_or(1, Bounds::span)
    }

    /// The bytes of one word in the store.
    pub fn word_bytes(&self) -> usize {
        self.word_length().div_ceil(8)
    }

    /// The bytes of all words in the store.
    pub fn bytes(&self) -> usize {
        self.place.map_or(0, |_| self.word_count().saturating_mul(self.word_bytes()))
    }

    /// Where the word of this subscript begins in the store. A facility of
    /// at most one dimension has one word, whatever the subscript.
    pub fn word_place(&self, subscript: u32) -> Option<usize> {
        let word = self.words.map_or(Some(0), |bounds| bounds.position(subscript))?;
        self.place()?.checked_add(word.checked_mul(self.word_bytes())?)
    }

    /// The bytes of that word.
    pub(crate) fn word_part(&self, subscript: u32) -> Option<Range<usize>> {
        let start = self.word_place(subscript)?;
        Some(start..start.checked_add(self.word_bytes())?)
    }
}
