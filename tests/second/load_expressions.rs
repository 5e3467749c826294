//! Expressions back from their records. A tree is read from its last record
//! backwards, since each part ends right before what follows it; the links
//! in the records are not followed, so no record is read twice.

use crate::description::*;
use crate::image::{COUNTED, DIGIT, EXPRESSION, INFIXES, PREFIXES};
use crate::load::{constant, name, small, two};
use crate::value::Bits;

pub struct Expressions<'a> {
    pub records: &'a [u8],
    pub facilities: &'a [String],
}

/// The records before a part that has been read: their count.
type Before = usize;

fn operator_of<T: Copy>(table: &[(T, u8)], word: u8) -> Option<T> {
    table.iter().find(|(_, known)| *known == word).map(|(operator, _)| *operator)
}

impl Expressions<'_> {
    /// The expression whose last record has this number.
    pub fn ending_at(&self, number: usize) -> Option<Expression> {
        self.before(number + 1).map(|(expression, _)| expression)
    }

    pub fn reference_at(&self, number: usize) -> Option<Reference> {
        match self.ending_at(number)? {
            Expression::Reference(reference) => Some(reference),
            _ => None,
        }
    }

    pub fn lone_constant(&self, number: usize) -> Option<Constant> {
        match self.ending_at(number)? {
            Expression::Constant(constant) => Some(constant),
            _ => None,
        }
    }

    /// The last of the first `count` records.
    fn last(&self, count: usize) -> Option<&[u8]> {
        let start = count.checked_sub(1)?.checked_mul(EXPRESSION)?;
        self.records.get(start..start + EXPRESSION)
    }

    /// The expression that the first `count` records end with.
    fn before(&self, count: usize) -> Option<(Expression, Before)> {
        let record = self.last(count)?;
        let (mark, rest) = (record[0], count - 1);
        match mark {
            1 => self.constant(record[1] as usize + 1, count),
            3..=7 => self.reference(record, rest),
            10 => self.conditional(rest),
            64..=127 => self.infix(operator_of(&INFIXES, mark - 64)?, rest),
            128..=191 => {
                let operator = operator_of(&PREFIXES, mark - 128)?;
                let (operand, rest) = self.before(rest)?;
                Some((Expression::Prefix { operator, place: 0, operand: Box::new(operand) }, rest))
            }
            192.. => self.counted(operator_of(&COUNTED, mark - 192)?, two(record, 4), rest),
            _ => None,
        }
    }

    /// Its own record and those of its further bits, which are marked 2.
    fn constant(&self, length: usize, count: usize) -> Option<(Expression, Before)> {
        let records = length.div_ceil(DIGIT);
        let rest = count.checked_sub(records)?;
        let mut value = Bits::zero(0);
        for number in rest + 1..=count {
            let record = self.last(number)?;
            if record[0] != if number == count { 1 } else { 2 } {
                return None;
            }
            let digit = (2..8).rev().fold(0, |digit, at| digit << 8 | record[at] as usize);
            value = value.join(&Bits::from_number(digit, DIGIT));
        }
        Some((Expression::Constant(constant(value.fitted(length))), rest))
    }

    fn reference(&self, record: &[u8], rest: Before) -> Option<(Expression, Before)> {
        let part = |at: usize| Subscript::Part(small(two(record, at)), small(two(record, at + 2)));
        let (subscripts, rest) = match record[0] {
            3 => (Vec::new(), rest),
            4 => {
                let (one, rest) = self.before(rest)?;
                (vec![Subscript::Single(one)], rest)
            }
            5 => (vec![part(2)], rest),
            6 => {
                let (two, rest) = self.before(rest)?;
                let (one, rest) = self.before(rest)?;
                (vec![Subscript::Single(one), Subscript::Single(two)], rest)
            }
            _ => {
                let (one, rest) = self.before(rest)?;
                (vec![Subscript::Single(one), part(4)], rest)
            }
        };
        let name = name(self.facilities.get(record[1] as usize)?);
        Some((Expression::Reference(Reference { name, subscripts }), rest))
    }

    fn infix(&self, operator: Infix, rest: Before) -> Option<(Expression, Before)> {
        let (right, rest) = self.before(rest)?;
        let (left, rest) = self.before(rest)?;
        Some((Expression::Infix { operator, place: 0, left: Box::new(left), right: Box::new(right) }, rest))
    }

    fn counted(&self, operator: Counted, count: usize, rest: Before) -> Option<(Expression, Before)> {
        let (operand, rest) = self.before(rest)?;
        Some((Expression::Counted { operator, place: 0, operand: Box::new(operand), count: small(count) }, rest))
    }

    /// The arms from the last to the first, then the condition. An IF is the CASE that means the same.
    fn conditional(&self, mut rest: Before) -> Option<(Expression, Before)> {
        let mut arms = Vec::new();
        loop {
            let mark = self.last(rest)?[0];
            let (arm, before) = self.before(rest - 1)?;
            arms.push(arm);
            rest = before;
            match mark {
                8 => break,
                9 => {}
                _ => return None,
            }
        }
        arms.reverse();
        let (condition, rest) = self.before(rest)?;
        let conditional = Conditional { choice: Choice::Case, place: 0, condition, arms };
        Some((Expression::Conditional(Box::new(conditional)), rest))
    }
}
