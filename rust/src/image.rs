//! Images: what reading makes of a text.

use crate::calls;
use crate::facility::{Facility, Kind};
use crate::records;
use crate::refusal::Refusal;
use crate::stimulus::Stimulus;
use std::error::Error;
use std::fmt;

const LARGEST: usize = 165_556;

/// An image that passes. Bytes are checked when they are taken up; facilities
/// and labels are then read from them, and no more is checked.
#[derive(Clone, Debug, PartialEq, Eq)]
pub struct Image {
    bytes: Vec<u8>,
}

/// Why a text was refused, and the byte at fault.
#[derive(Clone, Copy, Debug, PartialEq, Eq, Hash)]
pub struct ReadError {
    /// Why.
    pub refusal: Refusal,
    /// The first byte of the word, name, operator, store sign or state at fault.
    pub place: usize,
}

impl fmt::Display for ReadError {
    fn fmt(&self, out: &mut fmt::Formatter) -> fmt::Result {
        write!(out, "{}, at byte {}", self.refusal, self.place)
    }
}

impl Error for ReadError {}

impl Image {
    /// The image of a DDL-P text. What reading accepts passes (accepted-passes
    /// in docs/THEOREMS.md), and is not checked.
    pub fn read(text: &[u8]) -> Result<Image, ReadError> {
        let mut bytes = vec![0; LARGEST];
        let answer = calls::read(text, &mut bytes);
        let place = answer.place as usize;
        Refusal::answered(answer.refusal).map_err(|refusal| ReadError { refusal, place })?;
        bytes.truncate(answer.length as usize);
        bytes.shrink_to_fit();
        Ok(Image { bytes })
    }

    /// Bytes kept from an earlier reading, if they pass; those past the image are let go.
    pub fn from_bytes(mut bytes: Vec<u8>) -> Result<Image, Refusal> {
        // A lookup checks the whole image, and what passes has a first facility.
        Refusal::answered(calls::facility_name(&bytes, 0).refusal)?;
        bytes.truncate(records::total(&bytes));
        Ok(Image { bytes })
    }

    /// The bytes of docs/IMAGE.md, to be kept.
    pub fn as_bytes(&self) -> &[u8] {
        &self.bytes
    }

    /// How many facilities are declared.
    pub fn facility_count(&self) -> u32 {
        records::FACILITIES.count(&self.bytes)
    }

    /// How many states there are.
    pub fn state_count(&self) -> u32 {
        records::STATES.count(&self.bytes)
    }

    /// By its number, from 0 as declared.
    pub fn facility(&self, number: u32) -> Result<Facility<'_>, Refusal> {
        numbered(self.facilities(), number)
    }

    /// All facilities, as declared.
    pub fn facilities(&self) -> impl Iterator<Item = Facility<'_>> {
        records::facilities(&self.bytes)
    }

    /// By its name, in any case of letters.
    pub fn facility_named(&self, name: &str) -> Option<Facility<'_>> {
        self.facilities().find(|facility| facility.name.eq_ignore_ascii_case(name))
    }

    /// A state's label; empty for a state without one.
    pub fn state_name(&self, number: u32) -> Result<&str, Refusal> {
        numbered(records::labels(&self.bytes), number)
    }

    /// The bytes of a store.
    pub fn store_size(&self) -> usize {
        bytes_of(self.facilities())
    }

    /// The bytes of a stimulus.
    pub fn stimulus_size(&self) -> usize {
        bytes_of(self.inputs())
    }

    pub(crate) fn inputs(&self) -> impl Iterator<Item = Facility<'_>> {
        self.facilities().filter(|facility| facility.kind == Kind::InputTerminal)
    }

    /// A stimulus of zeroes, to be filled in.
    pub fn stimulus(&self) -> Stimulus<'_> {
        Stimulus::new(self)
    }
}

fn numbered<T>(mut all: impl Iterator<Item = T>, number: u32) -> Result<T, Refusal> {
    all.nth(number as usize).ok_or(Refusal::Subscript)
}

fn bytes_of<'a>(facilities: impl Iterator<Item = Facility<'a>>) -> usize {
    facilities.map(|facility| facility.bytes()).fold(0, usize::saturating_add)
}
