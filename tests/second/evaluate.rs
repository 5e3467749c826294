//! Expressions worked out over a store.

use crate::description::*;
use crate::value::Bits;
use std::cmp::Ordering;

/// The words of each facility in declared order; none for a computed terminal.
pub type Store = Vec<Vec<Bits>>;

/// The digit of a stop.
#[derive(Clone, Copy, Debug, PartialEq, Eq)]
pub struct Stop(pub u8);

/// The bits that a reference names.
#[derive(Clone, Copy, Debug)]
pub struct Bitplace {
    pub facility: usize,
    pub word: usize,
    pub from: usize,
    pub length: usize,
}

pub struct Values<'a> {
    pub description: &'a Description,
    pub store: Store,
}

impl Values<'_> {
    pub fn value(&self, expression: &Expression) -> Result<Bits, Stop> {
        match expression {
            Expression::Constant(constant) => Ok(constant.value.clone()),
            Expression::Reference(reference) => self.read(reference),
            Expression::Prefix { operator, operand, .. } => Ok(prefixed(*operator, &self.value(operand)?)),
            Expression::Infix { operator, left, right, .. } => {
                let (left, right) = (self.value(left)?, self.value(right)?);
                Ok(combined(*operator, &left, &right))
            }
            Expression::Counted { operator, operand, count, .. } => {
                let (operand, count) = (self.value(operand)?, count.value.number());
                Ok(match operator {
                    Counted::Head => operand.head(count),
                    Counted::Tail => operand.tail(count),
                    Counted::Extend => operand.repeated(count),
                })
            }
            Expression::Conditional(conditional) => {
                let arm = self.chosen(conditional)?.expect("an IF in an expression has ELSE");
                self.value(arm)
            }
        }
    }

    /// The arm that the condition takes; none for an IF without ELSE. The rules give a CASE an arm for each value.
    pub fn chosen<'c, Arm>(&self, conditional: &'c Conditional<Arm>) -> Result<Option<&'c Arm>, Stop> {
        let value = self.value(&conditional.condition)?.number();
        let arms = &conditional.arms;
        match (conditional.choice, value) {
            (Choice::If, 1) => Ok(arms.first()),
            (Choice::If, _) => Ok(arms.get(1)),
            (Choice::Case, 0) => Ok(arms.last()),
            (Choice::Case, _) => {
                assert!(value < arms.len(), "value {value} of {} arms", arms.len());
                Ok(arms.get(value - 1))
            }
        }
    }

    fn read(&self, reference: &Reference) -> Result<Bits, Stop> {
        let place = self.locate(reference)?;
        let facility = &self.description.outline.facilities[place.facility];
        let whole = match &facility.kind {
            Kind::Computed { expression, .. } => &self.value(expression)?,
            _ => &self.store[place.facility][place.word],
        };
        Ok(whole.part(place.from, place.length))
    }

    /// Works out the subscripts in text order.
    pub fn locate(&self, reference: &Reference) -> Result<Bitplace, Stop> {
        let facility = self.description.number(&reference.name);
        let shape = &self.description.shapes[facility];
        let mut place = Bitplace { facility, word: 0, from: 0, length: shape.bits() };
        for (order, (subscript, bounds)) in reference.subscripts.iter().zip(&shape.0).enumerate() {
            let names_word = shape.0.len() == 2 && order == 0;
            let (from, to) = match subscript {
                Subscript::Single(expression) => {
                    let position = bounds.position(self.value(expression)?.number()).ok_or(Stop(1))?;
                    (position, position)
                }
                Subscript::Part(first, last) => (position(bounds, first)?, position(bounds, last)?),
            };
            if names_word {
                place.word = from;
            } else {
                (place.from, place.length) = (from, to - from + 1);
            }
        }
        Ok(place)
    }
}

fn position(bounds: &Bounds, constant: &Constant) -> Result<usize, Stop> {
    bounds.position(constant.value.number()).ok_or(Stop(1))
}

fn prefixed(prefix: Prefix, operand: &Bits) -> Bits {
    let ones = operand.ones();
    match prefix {
        Prefix::Complement => operand.complement(),
        Prefix::Negate => Bits::zero(operand.len()).difference(operand),
        Prefix::ReduceOr => Bits::bit(ones > 0),
        Prefix::ReduceAnd => Bits::bit(ones == operand.len()),
        Prefix::ReduceXor => Bits::bit(ones % 2 == 1),
        Prefix::ReduceSum => Bits::from_number(ones, 16),
    }
}

fn combined(operator: Infix, left: &Bits, right: &Bits) -> Bits {
    let order = left.compare(right);
    match operator {
        Infix::Or => left.bitwise(right, |x, y| x | y),
        Infix::Xor => left.bitwise(right, |x, y| x ^ y),
        Infix::And => left.bitwise(right, |x, y| x & y),
        Infix::Join => left.join(right),
        Infix::Sum => left.sum(right),
        Infix::Difference => left.difference(right),
        Infix::Equal => Bits::bit(order == Ordering::Equal),
        Infix::Unequal => Bits::bit(order != Ordering::Equal),
        Infix::Less => Bits::bit(order == Ordering::Less),
        Infix::Greater => Bits::bit(order == Ordering::Greater),
        Infix::AtLeast => Bits::bit(order != Ordering::Less),
        Infix::AtMost => Bits::bit(order != Ordering::Greater),
    }
}
