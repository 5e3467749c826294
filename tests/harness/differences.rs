//! Differences and negations of operands of every length, worked out here
//! apart, byte by byte; and those that would pass 256 bits.

use crate::held::{self, Loan};
use crate::{Failure, Harness};
use second::record::RECORD;
use second::trials::random::Random;

/// The most bits of a value.
const VALUE: usize = 256;
/// More than the image of a text here.
const ROOM: usize = 400;
/// How many pairs of operands a try has.
const PAIRS: usize = 12;
/// Bytes of a number here, enough for one bit more than a value.
const WIDE: usize = VALUE / 8 + 1;

/// A number, the highest byte first.
type Wide = [u8; WIDE];

pub fn some_differences(harness: &mut Harness) -> Result<(), Failure> {
    let (m, n) = (some_length(&mut harness.random), some_length(&mut harness.random));
    let text = text(m, n, harness.random.below(3));
    let (answer, mut image) = held::read(harness, "of differences", text.as_bytes(), ROOM)?;
    if m.max(n) == VALUE {
        let refused = (answer.refusal, Some(answer.place as usize)) == (7, at_fault(&text, m));
        return if refused { Ok(()) } else { Err(format!("{text}: {answer:?}")) };
    }
    image.truncate(answer.length as usize);
    let size = [m.max(n) + 1, m + 1, 1, m, n].map(bytes).iter().sum();
    let (_, store, record) = held::open(harness, "of differences", &image, [size, RECORD])?;
    let mut loan = Loan { image, store, record, scratch: 4 * size, trace: 0 };
    for _ in 0..PAIRS {
        one_pair(harness, &mut loan, m, n)?;
    }
    Ok(())
}

fn some_length(random: &mut Random) -> usize {
    let any = random.between(1, VALUE);
    random.pick(&[1, 2, 7, 8, 63, 64, 65, 127, 128, 192, 254, 255, 256, any, any])
}

/// D takes the difference, E the negation, N whether there was a borrow.
fn text(m: usize, n: usize, first: usize) -> String {
    let mut actions = ["D = A (-) B", "E = (-) A", "N = A (-) B HEAD 1"];
    actions.rotate_left(first);
    let (d, e) = ((m.max(n) + 1).min(VALUE), (m + 1).min(VALUE));
    format!(
        "REGISTER D[{d}], E[{e}], N.\nTERMINAL A[{m}] = INPUT(1,A), B[{n}] = INPUT(1,B).\nOPERATION O = [{}].\nCONTROL P: O, ->P/.\n",
        actions.join(",\n")
    )
}

/// The sign of the first difference or negation that passes 256 bits.
fn at_fault(text: &str, m: usize) -> Option<usize> {
    if m == VALUE {
        text.find("(-)")
    } else {
        text.find("A (-)").map(|place| place + 2)
    }
}

fn one_pair(harness: &mut Harness, loan: &mut Loan, m: usize, n: usize) -> Result<(), Failure> {
    let (left, right) = some_pair(&mut harness.random, m, n);
    let stimulus = [shown(left, m), shown(right, n)].concat();
    let answer = held::cycle(harness, "of differences", loan, &stimulus)?;
    let borrow = (left < right) as u8;
    let expected =
        [shown(less(left, right), m.max(n) + 1), shown(less([0; WIDE], left), m + 1), vec![borrow], stimulus].concat();
    if (answer.refusal, answer.stop) != (0, 0) || loan.store != expected {
        return Err(format!("{m} and {n} bits: {answer:?}, {:?} and not {expected:?}", loan.store));
    }
    Ok(())
}

/// Numbers of m and n bits, sometimes alike in their low bits or apart by one.
fn some_pair(random: &mut Random, m: usize, n: usize) -> (Wide, Wide) {
    let left = some_number(random, m);
    let right = match random.below(4) {
        0 => left,
        1 => less(left, some_number(random, 1)),
        _ => some_number(random, n),
    };
    (left, low(right, n))
}

fn some_number(random: &mut Random, bits: usize) -> Wide {
    let some: Vec<u8> = random.bytes(WIDE);
    let fill = random.pick(&[0, 0xFF]);
    let mixed = random.chance(60);
    low(std::array::from_fn(|i| if mixed { some[i] } else { fill }), bits)
}

/// x - y, modulo 2 to the bits that there are.
fn less(x: Wide, y: Wide) -> Wide {
    let mut result = [0; WIDE];
    let mut borrow = false;
    for i in (0..WIDE).rev() {
        let (one, first) = x[i].overflowing_sub(y[i]);
        let (two, second) = one.overflowing_sub(borrow as u8);
        (result[i], borrow) = (two, first || second);
    }
    result
}

/// The lowest bits of a number.
fn low(number: Wide, bits: usize) -> Wide {
    let kept = |i: usize| bits.saturating_sub((WIDE - 1 - i) * 8).min(8) as u32;
    std::array::from_fn(|i| number[i] & (0xFF_u16 >> (8 - kept(i))) as u8)
}

fn bytes(bits: usize) -> usize {
    bits.div_ceil(8)
}

/// The lowest bits of a number as a store has them.
fn shown(number: Wide, bits: usize) -> Vec<u8> {
    low(number, bits)[WIDE - bytes(bits)..].to_vec()
}
