//! Lent bytes between two walls of other bytes, so that a byte written
//! outside is seen. The walls' lengths are odd and even by turns, so that
//! parts start anywhere in memory.

use crate::Failure;
use second::trials::random::Random;

pub struct Walled {
    bytes: Vec<u8>,
    /// The walls as they were built.
    left: Vec<u8>,
    right: Vec<u8>,
}

impl Walled {
    pub fn around(contents: &[u8], random: &mut Random) -> Walled {
        let thickness = random.between(8, 40);
        let (left, right) = (random.bytes(thickness), random.bytes(thickness));
        let bytes = [&left[..], contents, &right[..]].concat();
        Walled { bytes, left, right }
    }

    /// A part without bytes may point anywhere, and so it does.
    pub fn part(&mut self) -> &mut [u8] {
        if self.bytes.len() == self.left.len() + self.right.len() {
            return &mut [];
        }
        let end = self.bytes.len() - self.right.len();
        &mut self.bytes[self.left.len()..end]
    }

    /// What stands between the walls, if they stand, is what it should be.
    pub fn holds(&self, what: &str, expected: &[u8]) -> Result<(), Failure> {
        let end = self.bytes.len() - self.right.len();
        if self.bytes[..self.left.len()] != self.left || self.bytes[end..] != self.right {
            return Err(format!("{what}: a byte outside was written"));
        }
        let found = &self.bytes[self.left.len()..end];
        if found == expected {
            return Ok(());
        }
        let differs = found.iter().zip(expected).position(|(found, expected)| found != expected);
        Err(match differs {
            Some(at) => format!("{what}: byte {at} is {} and not {}", found[at], expected[at]),
            None => format!("{what}: {} bytes and not {}", found.len(), expected.len()),
        })
    }
}
