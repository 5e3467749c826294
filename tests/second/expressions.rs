//! The grammar of expressions, one function a level of precedence.

use crate::description::*;
use crate::grammar::Grammar;
use crate::refusal::{Place, Refusal};
use crate::words::Word;

type Read = Result<Expression, Refusal>;

const OR: [(&str, Infix); 1] = [("+", Infix::Or)];
const XOR: [(&str, Infix); 1] = [("[+]", Infix::Xor)];
const AND: [(&str, Infix); 1] = [("*", Infix::And)];
const JOIN: [(&str, Infix); 1] = [("CON", Infix::Join)];
const RELATIONS: [(&str, Infix); 6] = [
    ("(=)", Infix::Equal),
    ("#", Infix::Unequal),
    ("<", Infix::Less),
    (">", Infix::Greater),
    (">=", Infix::AtLeast),
    ("<=", Infix::AtMost),
];
const ARITHMETIC: [(&str, Infix); 2] = [("(+)", Infix::Sum), ("(-)", Infix::Difference)];
const REDUCTIONS: [(&str, Prefix); 4] =
    [("+", Prefix::ReduceOr), ("*", Prefix::ReduceAnd), ("[+]", Prefix::ReduceXor), ("(+)", Prefix::ReduceSum)];
const COUNTED: [(&str, Counted); 3] = [("HEAD", Counted::Head), ("TAIL", Counted::Tail), ("EXT", Counted::Extend)];

impl Grammar<'_> {
    pub fn expression(&mut self) -> Read {
        self.chain(&OR, Self::minterm)
    }

    fn minterm(&mut self) -> Read {
        self.chain(&XOR, Self::product)
    }

    fn product(&mut self) -> Read {
        self.chain(&AND, Self::complement)
    }

    fn complement(&mut self) -> Read {
        if !self.sees("-") {
            return self.chain(&JOIN, Self::reduction);
        }
        let place = self.open_operator()?;
        let operand = self.chain(&JOIN, Self::reduction)?;
        Ok(self.closed(Prefix::Complement, place, operand))
    }

    fn reduction(&mut self) -> Read {
        let Some(prefix) = self.seen_in(&REDUCTIONS) else {
            return self.adjustment();
        };
        let place = self.open_operator()?;
        self.take("RED")?;
        let operand = self.adjustment()?;
        Ok(self.closed(prefix, place, operand))
    }

    fn adjustment(&mut self) -> Read {
        let mut operand = self.relation()?;
        while let Some(operator) = self.seen_in(&COUNTED) {
            let place = self.operator()?;
            let count = self.take_constant()?;
            operand = Expression::Counted { operator, place, operand: Box::new(operand), count };
        }
        Ok(operand)
    }

    fn relation(&mut self) -> Read {
        let left = self.arithmetic()?;
        match self.seen_in(&RELATIONS) {
            Some(operator) => self.infix(operator, left, Self::arithmetic),
            None => Ok(left),
        }
    }

    fn arithmetic(&mut self) -> Read {
        let mut left = self.signed_term()?;
        while let Some(operator) = self.seen_in(&ARITHMETIC) {
            left = self.infix(operator, left, Self::term)?;
        }
        Ok(left)
    }

    fn signed_term(&mut self) -> Read {
        if !self.sees("(-)") {
            return self.term();
        }
        let place = self.open_operator()?;
        let operand = self.term()?;
        Ok(self.closed(Prefix::Negate, place, operand))
    }

    fn term(&mut self) -> Read {
        match (self.word_at(0), self.sign_at(0)) {
            (Some(Word::Name(_)), _) => {
                let name = self.take_name()?;
                self.count(name.place)?;
                Ok(Expression::Reference(self.reference(name)?))
            }
            (Some(Word::Constant { .. }), _) => {
                let constant = self.take_constant()?;
                self.count(constant.place)?;
                Ok(Expression::Constant(constant))
            }
            (_, "IF" | "CASE") => {
                let conditional = self.conditional(2, Self::expression)?;
                Ok(Expression::Conditional(Box::new(conditional)))
            }
            _ => {
                self.open_bracket("(")?;
                let inner = self.expression()?;
                self.close_bracket(")")?;
                Ok(inner)
            }
        }
    }
}

// Operators.
impl Grammar<'_> {
    fn seen_in<T: Copy>(&self, table: &[(&str, T)]) -> Option<T> {
        table.iter().find(|(sign, _)| self.sees(sign)).map(|(_, operator)| *operator)
    }

    fn operator(&mut self) -> Result<Place, Refusal> {
        let place = self.step();
        self.count(place)?;
        Ok(place)
    }

    /// A prefix operator is open until its operand ends.
    fn open_operator(&mut self) -> Result<Place, Refusal> {
        let place = self.operator()?;
        self.open(place)?;
        Ok(place)
    }

    fn closed(&mut self, operator: Prefix, place: Place, operand: Expression) -> Expression {
        self.close();
        Expression::Prefix { operator, place, operand: Box::new(operand) }
    }

    fn infix(&mut self, operator: Infix, left: Expression, level: fn(&mut Self) -> Read) -> Read {
        let place = self.operator()?;
        let right = level(self)?;
        Ok(Expression::Infix { operator, place, left: Box::new(left), right: Box::new(right) })
    }

    /// Operators of one precedence, applied from left to right.
    fn chain(&mut self, table: &[(&str, Infix)], level: fn(&mut Self) -> Read) -> Read {
        let mut left = level(self)?;
        while let Some(operator) = self.seen_in(table) {
            left = self.infix(operator, left, level)?;
        }
        Ok(left)
    }
}
