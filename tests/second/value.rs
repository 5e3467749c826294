//! Values: strings of bits, the most significant first. A facility's word
//! is such a string too, of any length.

use std::cmp::Ordering;
use std::fmt;

#[derive(Clone, Debug, PartialEq, Eq, Hash)]
pub struct Bits(pub Vec<bool>);

impl Bits {
    pub fn zero(length: usize) -> Bits {
        Bits(vec![false; length])
    }

    pub fn bit(bit: bool) -> Bits {
        Bits(vec![bit])
    }

    /// The number's last `length` bits.
    pub fn from_number(number: usize, length: usize) -> Bits {
        let bit = |weight: usize| weight < usize::BITS as usize && number >> weight & 1 == 1;
        Bits((0..length).rev().map(bit).collect())
    }

    pub fn len(&self) -> usize {
        self.0.len()
    }

    pub fn is_empty(&self) -> bool {
        self.0.is_empty()
    }

    /// The unsigned number; `usize::MAX` stands for anything larger.
    pub fn number(&self) -> usize {
        self.0.iter().fold(0, |number: usize, &bit| number.saturating_mul(2).saturating_add(bit as usize))
    }

    /// The same number in `length` bits: zeroes added or bits dropped on the left.
    pub fn fitted(&self, length: usize) -> Bits {
        let dropped = self.len().saturating_sub(length);
        Bits::zero(length.saturating_sub(self.len())).join(&Bits(self.0[dropped..].to_vec()))
    }

    pub fn part(&self, from: usize, length: usize) -> Bits {
        Bits(self.0[from..from + length].to_vec())
    }

    pub fn put(&mut self, from: usize, value: &Bits) {
        self.0[from..from + value.len()].copy_from_slice(&value.0);
    }

    pub fn join(&self, right: &Bits) -> Bits {
        Bits([&self.0[..], &right.0[..]].concat())
    }

    pub fn repeated(&self, times: usize) -> Bits {
        Bits(self.0.repeat(times))
    }

    pub fn head(&self, length: usize) -> Bits {
        self.part(0, length)
    }

    pub fn tail(&self, length: usize) -> Bits {
        self.part(self.len() - length, length)
    }

    pub fn complement(&self) -> Bits {
        Bits(self.0.iter().map(|bit| !bit).collect())
    }

    /// Bit by bit, the shorter operand extended with zeroes on the left.
    pub fn bitwise(&self, right: &Bits, rule: fn(bool, bool) -> bool) -> Bits {
        let length = self.len().max(right.len());
        let (left, right) = (self.fitted(length), right.fitted(length));
        Bits(left.0.iter().zip(&right.0).map(|(&x, &y)| rule(x, y)).collect())
    }

    /// Exact: one bit more than the longer operand.
    pub fn sum(&self, right: &Bits) -> Bits {
        self.added(right, self.len().max(right.len()) + 1, false)
    }

    /// Exact with its sign, in two's complement: one bit more than the longer operand.
    pub fn difference(&self, right: &Bits) -> Bits {
        let length = self.len().max(right.len()) + 1;
        self.added(&right.fitted(length).complement(), length, true)
    }

    fn added(&self, right: &Bits, length: usize, mut carry: bool) -> Bits {
        let (left, right) = (self.fitted(length), right.fitted(length));
        let mut result = Bits::zero(length);
        for i in (0..length).rev() {
            let ones = left.0[i] as u8 + right.0[i] as u8 + carry as u8;
            result.0[i] = ones & 1 == 1;
            carry = ones > 1;
        }
        result
    }

    /// Compared as unsigned numbers.
    pub fn compare(&self, right: &Bits) -> Ordering {
        let length = self.len().max(right.len());
        self.fitted(length).0.cmp(&right.fitted(length).0)
    }

    pub fn ones(&self) -> usize {
        self.0.iter().filter(|&&bit| bit).count()
    }

    /// The fewest whole bytes, most significant first, spare high bits zero.
    pub fn bytes(&self) -> Vec<u8> {
        let whole = self.fitted(self.len().div_ceil(8) * 8);
        let byte = |bits: &[bool]| bits.iter().fold(0, |byte, &bit| byte << 1 | bit as u8);
        whole.0.chunks(8).map(byte).collect()
    }

    /// The value of `length` bits in these bytes, unless a spare bit is set.
    pub fn from_bytes(bytes: &[u8], length: usize) -> Option<Bits> {
        let bit = |i: usize| bytes[i / 8] >> (7 - i % 8) & 1 == 1;
        let whole = Bits((0..bytes.len() * 8).map(bit).collect());
        let value = whole.fitted(length);
        (whole.ones() == value.ones()).then_some(value)
    }
}

impl fmt::Display for Bits {
    fn fmt(&self, out: &mut fmt::Formatter) -> fmt::Result {
        self.0.iter().try_for_each(|&bit| out.write_str(if bit { "1" } else { "0" }))
    }
}
