//! Decimal numbers around the powers of two at which limbs, lengths and the
//! 256 bits end: each as a length, as a bare constant and after D.

use crate::{held, Failure, Harness};
use second::trials::random::Random;

/// How many numbers a try has.
const NUMBERS: usize = 12;
/// More than the image of a text here.
const ROOM: usize = 400;

pub fn some_decimals(harness: &mut Harness) -> Result<(), Failure> {
    for _ in 0..NUMBERS {
        let number = around_a_power(&mut harness.random);
        let length = harness.random.pick(&[1, 3, 8, 12, 63, 64, 65, 128, 255, 256]);
        one(harness, "a bare decimal", 16, &number)?;
        one(harness, "a decimal length", short(&number), &format!("{number}D1"))?;
        one(harness, "digits after D", length, &format!("{length}D{number}"))?;
    }
    Ok(())
}

/// The length that a number gives, and 1 where it gives none.
fn short(number: &str) -> usize {
    number.parse().ok().filter(|length| (1..=256).contains(length)).unwrap_or(1)
}

fn one(harness: &mut Harness, kind: &str, length: usize, constant: &str) -> Result<(), Failure> {
    let text = format!("REGISTER R[{length}].\nOPERATION O = [R =\n{constant}].\nCONTROL P: O, ->P/.\n");
    held::read(harness, kind, text.as_bytes(), ROOM).map(|_| ())
}

/// A small multiple of a power of two, a few more or a few less, in decimal
/// with some zeroes before it.
fn around_a_power(random: &mut Random) -> String {
    let multiple = random.pick(&[1, 1, 1, 2, 3, 5, 9, 10, 13]);
    let power = random.pick(&[4, 8, 16, 32, 64, 128, 192, 252, 255, 256, 256, 256, 257, 320]);
    let (fill, low) = (random.chance(40), random.below(16));
    let head = (0..4).rev().map(|bit| multiple >> bit & 1 == 1);
    let filled = (4..power).map(|_| fill);
    let tail = (0..4).rev().map(|bit| low >> bit & 1 == 1);
    let zeroes = random.pick(&[0, 0, 1, 20]);
    "0".repeat(zeroes) + &in_decimal(head.chain(filled).chain(tail))
}

/// The number that these bits have, the highest first.
fn in_decimal(bits: impl Iterator<Item = bool>) -> String {
    let mut digits = vec![0];
    for bit in bits {
        let mut carry = bit as u8;
        for digit in &mut digits {
            let twice = 2 * *digit + carry;
            (*digit, carry) = (twice % 10, twice / 10);
        }
        if carry > 0 {
            digits.push(carry);
        }
    }
    digits.iter().rev().map(|digit| char::from(b'0' + digit)).collect()
}
