//! Conditionals with an arm for each value of their condition: which arm a
//! value takes, worked out here apart; and images with another number of arms.

use crate::fields::{forge_conditionals, forge_last_bound};
use crate::held::{self, Loan};
use crate::{Failure, Harness};
use second::record::RECORD;
use std::fmt::Write;

/// More than the image of 64 arms, in actions and in an expression.
const ROOM: usize = 8_000;
/// A, B and S, a byte each.
const STORE: usize = 3;
/// How many values a try has.
const VALUES: usize = 16;

pub fn some_arms(harness: &mut Harness) -> Result<(), Failure> {
    let bits = harness.random.between(1, 6);
    let (arms, mask) = (1 << bits, harness.random.below(1 << bits));
    let (answer, mut image) = held::read(harness, "of arms", text(bits, mask, arms).as_bytes(), ROOM)?;
    image.truncate(answer.length as usize);
    let (_, store, record) = held::open(harness, "of arms", &image, [STORE, RECORD])?;
    let mut loan = Loan { image, store, record, scratch: 4 * STORE, trace: 0 };
    for _ in 0..VALUES {
        let input = harness.random.below(arms);
        let value = input ^ mask;
        let arm = if value == 0 { arms } else { value };
        let answer = held::cycle(harness, "of arms", &mut loan, &[input as u8])?;
        if (answer.refusal, answer.stop) != (0, 0) || loan.store[..2] != [arm as u8; 2] {
            return Err(format!("value {value} of {arms} arms: {answer:?}, {:?}", loan.store));
        }
    }
    other_arms(harness, &loan)?;
    held::read(harness, "of too few arms", text(bits, mask, arms - 1).as_bytes(), ROOM)?;
    held::read(harness, "of too many arms", text(bits, mask, arms + 1).as_bytes(), ROOM).map(|_| ())
}

/// A takes the number of the arm executed, B that of the arm worked out.
fn text(bits: usize, mask: usize, arms: usize) -> String {
    let mut text = format!("REGISTER A[7], B[7].\nTERMINAL S[{bits}] = INPUT(1,S).\nOPERATION O = [");
    for (before, stored) in [("", "A = "), (",\nB = ", "")] {
        let _ = write!(text, "{before}CASE S [+] {bits}D{mask}");
        for arm in 1..=arms {
            let _ = write!(text, "\nDO {stored}7D{arm}");
        }
        text.push_str(" ENDCASE");
    }
    text + "].\nCONTROL P: O, ->P/.\n"
}

/// One arm less in each record of a conditional, and one bit more in the condition: 13 of every call.
fn other_arms(harness: &mut Harness, loan: &Loan) -> Result<(), Failure> {
    for forged in forge_conditionals(&loan.image).into_iter().chain([forge_last_bound(&loan.image)]) {
        let mut loan = Loan { image: forged, ..loan.clone() };
        let (opened, ..) = held::open(harness, "of other arms", &loan.image, [STORE, RECORD])?;
        let cycled = held::cycle(harness, "of other arms", &mut loan, &[0])?.refusal;
        let (ran, _) = held::run(harness, "of other arms", &mut loan, &[0], 1)?;
        if [opened, cycled, ran.refusal] != [13; 3] {
            return Err(format!("other arms: {opened}, {cycled} and {ran:?}"));
        }
        held::lookups(harness, "of other arms", &loan.image, 0)?;
    }
    Ok(())
}
