//! The stimulus of a cycle: the input terminals, in the form of the store.

use crate::image::Image;
use crate::word::parsed;
use std::error::Error;
use std::fmt;

/// The input terminals of an image, all zero until they are set.
#[derive(Clone, Debug, PartialEq, Eq)]
pub struct Stimulus<'a> {
    image: &'a Image,
    bytes: Vec<u8>,
}

/// Why an input terminal was not set.
#[derive(Clone, Copy, Debug, PartialEq, Eq, Hash)]
pub enum StimulusError {
    /// The image has no input terminal of this name.
    NoInput,
    /// The terminal has another length, or these are no bits.
    Bits,
}

impl fmt::Display for StimulusError {
    fn fmt(&self, out: &mut fmt::Formatter) -> fmt::Result {
        out.write_str(match self {
            StimulusError::NoInput => "no input terminal has this name",
            StimulusError::Bits => "not as many bits as the input terminal has",
        })
    }
}

impl Error for StimulusError {}

impl<'a> Stimulus<'a> {
    pub(crate) fn new(image: &'a Image) -> Stimulus<'a> {
        Stimulus { image, bytes: vec![0; image.stimulus_size()] }
    }

    /// Sets an input terminal, by its name in any case of letters, to bits such as `0110`.
    pub fn set(&mut self, name: &str, bits: &str) -> Result<(), StimulusError> {
        let mut before: usize = 0;
        for input in self.image.inputs() {
            if input.name.eq_ignore_ascii_case(name) {
                let word = parsed(bits, input.word_length()).ok_or(StimulusError::Bits)?;
                self.bytes.iter_mut().skip(before).zip(word).for_each(|(place, byte)| *place = byte);
                return Ok(());
            }
            before = before.saturating_add(input.bytes());
        }
        Err(StimulusError::NoInput)
    }
}

impl AsRef<[u8]> for Stimulus<'_> {
    fn as_ref(&self) -> &[u8] {
        &self.bytes
    }
}
