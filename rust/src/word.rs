//! A word of the store: bits in the fewest whole bytes, most significant first.

use std::fmt;

/// Of the bits of a byte.
const WEIGHTS: [u8; 8] = [128, 64, 32, 16, 8, 4, 2, 1];

/// One word of a facility, read where it stands. Written out it is its bits.
#[derive(Clone, Copy, Debug, PartialEq, Eq, Hash)]
pub struct Word<'a> {
    bytes: &'a [u8],
    length: usize,
}

impl<'a> Word<'a> {
    pub(crate) fn new(bytes: &'a [u8], length: usize) -> Word<'a> {
        Word { bytes, length }
    }

    /// How many bits it has.
    pub fn length(self) -> usize {
        self.length
    }

    /// The bits, the most significant first.
    pub fn bits(self) -> impl Iterator<Item = bool> + 'a {
        let bits = self.bytes.iter().flat_map(|&byte| WEIGHTS.into_iter().map(move |weight| byte & weight != 0));
        let spare = self.length.wrapping_neg() % 8;
        bits.skip(spare)
    }

    /// The number, where the word has at most 64 bits.
    pub fn number(self) -> Option<u64> {
        let number = || self.bytes.iter().fold(0, |number, &byte| number << 8 | u64::from(byte));
        (self.length <= 64).then(number)
    }
}

impl fmt::Display for Word<'_> {
    fn fmt(&self, out: &mut fmt::Formatter) -> fmt::Result {
        let bits: String = self.bits().map(|bit| if bit { '1' } else { '0' }).collect();
        out.pad(&bits)
    }
}

/// The bytes of a word of this many bits, or none where the bits are too many, too few or no bits.
pub(crate) fn parsed(bits: &str, length: usize) -> Option<Vec<u8>> {
    let sound = bits.len() == length && bits.bytes().all(|bit| matches!(bit, b'0' | b'1'));
    let byte = |bits: &[u8]| bits.iter().fold(0, |byte, bit| byte << 1 | bit & 1);
    sound.then(|| bits.as_bytes().rchunks(8).rev().map(byte).collect())
}
