//! Work: one for each operator, operand and action, all arms counted; a
//! computed terminal adds its expression's and an operation its body's.

use crate::description::*;
use std::collections::HashMap;

/// The work that a name adds; sums stop at the largest number.
pub struct Works<'a> {
    meanings: &'a HashMap<String, Meaning>,
    facilities: Vec<usize>,
    operations: Vec<usize>,
}

impl<'a> Works<'a> {
    pub fn of(outline: &Outline, meanings: &'a HashMap<String, Meaning>) -> Works<'a> {
        let mut works = Works { meanings, facilities: Vec::new(), operations: Vec::new() };
        for facility in &outline.facilities {
            let work = match &facility.kind {
                Kind::Computed { expression, .. } => works.expression(expression),
                _ => 0,
            };
            works.facilities.push(work);
        }
        for operation in &outline.operations {
            let work = works.actions(&operation.actions);
            works.operations.push(work);
        }
        works
    }

    /// What an earlier name adds; one not yet known adds nothing.
    fn added(&self, name: &Name) -> usize {
        let work = match self.meanings.get(&name.text) {
            Some(Meaning::Facility(number)) => self.facilities.get(*number),
            Some(Meaning::Operation(number)) => self.operations.get(*number),
            _ => None,
        };
        work.copied().unwrap_or(0)
    }

    pub fn actions(&self, actions: &[Action]) -> usize {
        sum(actions.iter().map(|action| self.action(action)))
    }

    fn action(&self, action: &Action) -> usize {
        match action {
            Action::Store { left, right, .. } => {
                let left = left.iter().map(|reference| self.subscripts(reference));
                sum(left.chain([1, self.expression(right)]))
            }
            Action::Set { left, .. } => sum([1, self.subscripts(left)]),
            Action::Operation(name) => sum([1, self.added(name)]),
            Action::Goto(_) | Action::Call(_) | Action::Return => 1,
            Action::Conditional(conditional) => self.conditional(conditional, |arm| self.actions(arm)),
        }
    }

    fn expression(&self, expression: &Expression) -> usize {
        match expression {
            Expression::Constant(_) => 1,
            Expression::Reference(reference) => sum([1, self.added(&reference.name), self.subscripts(reference)]),
            Expression::Prefix { operand, .. } => sum([1, self.expression(operand)]),
            Expression::Infix { left, right, .. } => sum([1, self.expression(left), self.expression(right)]),
            Expression::Counted { operand, .. } => sum([1, self.expression(operand)]),
            Expression::Conditional(conditional) => self.conditional(conditional, |arm| self.expression(arm)),
        }
    }

    /// A part's constants are no operands.
    fn subscripts(&self, reference: &Reference) -> usize {
        sum(reference.subscripts.iter().map(|subscript| match subscript {
            Subscript::Single(expression) => self.expression(expression),
            Subscript::Part(..) => 0,
        }))
    }

    fn conditional<Arm>(&self, conditional: &Conditional<Arm>, arm: impl Fn(&Arm) -> usize) -> usize {
        let arms = conditional.arms.iter().map(arm);
        sum(arms.chain([1, self.expression(&conditional.condition)]))
    }
}

fn sum(works: impl IntoIterator<Item = usize>) -> usize {
    works.into_iter().fold(0, usize::saturating_add)
}
