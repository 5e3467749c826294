//! The last stage's rules for references, expressions and actions.

use crate::description::*;
use crate::refusal::Place;
use crate::rules::{Length, Rules, VALUE};

/// What an action answers when none of its parts, nor itself, is at fault.
type Sound = Option<()>;

// Expressions.
impl Rules<'_> {
    pub fn length(&mut self, expression: &Expression) -> Length {
        match expression {
            Expression::Constant(constant) => Some(constant.value.len()),
            Expression::Reference(reference) => self.reference(reference),
            Expression::Prefix { operator, place, operand } => {
                let length = self.length(operand)?;
                self.held(Some(prefix_length(*operator, length)), *place)
            }
            Expression::Infix { operator, place, left, right } => {
                let (left, right) = (self.length(left), self.length(right));
                self.held(infix_length(*operator, left?, right?), *place)
            }
            Expression::Counted { operator, place, operand, count } => {
                let length = self.length(operand)?;
                self.held(counted_length(*operator, length, count.value.number()), *place)
            }
            Expression::Conditional(conditional) => self.conditional_expression(conditional),
        }
    }

    /// The length, unless it breaks a rule: 7 at this place.
    fn held(&mut self, length: Length, place: Place) -> Length {
        let length = length.filter(|&length| length <= VALUE);
        if length.is_none() {
            self.fault(7, place);
        }
        length
    }

    fn conditional_expression(&mut self, conditional: &Conditional<Expression>) -> Length {
        let condition = self.length(&conditional.condition);
        let arms: Vec<Length> = conditional.arms.iter().map(|arm| self.length(arm)).collect();
        let arms: Option<Vec<usize>> = arms.into_iter().collect();
        let (condition, arms) = (condition?, arms?);
        let equal = arms.iter().all(|&length| length == arms[0]);
        let sound = equal && arms_fit(conditional.choice, condition, arms.len());
        self.held(sound.then_some(arms[0]), conditional.place)
    }
}

fn prefix_length(prefix: Prefix, length: usize) -> usize {
    match prefix {
        Prefix::Complement => length,
        Prefix::Negate => length + 1,
        Prefix::ReduceOr | Prefix::ReduceAnd | Prefix::ReduceXor => 1,
        Prefix::ReduceSum => 16,
    }
}

fn infix_length(operator: Infix, left: usize, right: usize) -> Length {
    Some(match operator {
        Infix::Or | Infix::Xor | Infix::And => left.max(right),
        Infix::Sum | Infix::Difference => left.max(right) + 1,
        Infix::Join => left + right,
        _ => 1,
    })
}

fn counted_length(operator: Counted, length: usize, count: usize) -> Length {
    match operator {
        Counted::Head | Counted::Tail => (1..=length).contains(&count).then_some(count),
        Counted::Extend => (count >= 1).then_some(length.saturating_mul(count)),
    }
}

fn arms_fit(choice: Choice, condition: usize, arms: usize) -> bool {
    match choice {
        Choice::If => condition == 1,
        Choice::Case => condition <= 6 && arms == 1 << condition,
    }
}

// References.
impl Rules<'_> {
    fn reference(&mut self, reference: &Reference) -> Length {
        let number = self.known(&reference.name, Meaning::Facility);
        let shape = number.and_then(|number| self.shapes[number].clone());
        let fits = shape.as_ref().is_some_and(|shape| count_fits(reference, shape));
        let mut sound = true;
        for (order, subscript) in reference.subscripts.iter().enumerate() {
            // With a wrong number of subscripts none is held against bounds.
            let bounds = shape.as_ref().filter(|_| fits).map(|shape| shape.0[order]);
            sound &= self.subscript(subscript, bounds).is_some();
        }
        let shape = shape.filter(|_| sound)?;
        if !fits {
            self.fault(6, reference.name.place);
            return None;
        }
        self.held(Some(reference_length(reference, &shape)), reference.name.place)
    }

    fn subscript(&mut self, subscript: &Subscript, bounds: Option<Bounds>) -> Sound {
        match subscript {
            Subscript::Single(Expression::Constant(constant)) => self.within(constant, bounds),
            Subscript::Single(expression) => self.length(expression).map(|_| ()),
            Subscript::Part(first, last) => {
                let (from, to) = (self.within(first, bounds), self.within(last, bounds));
                from.and(to)?;
                self.direction(first, last, bounds)
            }
        }
    }

    fn within(&mut self, constant: &Constant, bounds: Option<Bounds>) -> Sound {
        let outside = bounds.is_some_and(|bounds| bounds.position(constant.value.number()).is_none());
        if outside {
            self.fault(6, constant.place);
        }
        (!outside).then_some(())
    }

    /// Both ends lie within; the second must not stand before the first.
    fn direction(&mut self, first: &Constant, last: &Constant, bounds: Option<Bounds>) -> Sound {
        let position = |constant: &Constant| bounds.and_then(|bounds| bounds.position(constant.value.number()));
        let against = position(first) > position(last);
        if against {
            self.fault(6, last.place);
        }
        (!against).then_some(())
    }
}

/// A word of two dimensions needs one subscript that is no part.
fn count_fits(reference: &Reference, shape: &Shape) -> bool {
    match (shape.0.len(), &reference.subscripts[..]) {
        (0 | 1, []) | (1, [_]) | (2, [_, _]) => true,
        (2, [subscript]) => matches!(subscript, Subscript::Single(_)),
        _ => false,
    }
}

fn reference_length(reference: &Reference, shape: &Shape) -> usize {
    let names_bits = reference.subscripts.len() == shape.0.len();
    match reference.subscripts.last() {
        Some(Subscript::Part(first, last)) => first.value.number().abs_diff(last.value.number()) + 1,
        Some(Subscript::Single(_)) if names_bits => 1,
        _ => shape.bits(),
    }
}

// Actions.
impl Rules<'_> {
    pub fn actions(&mut self, actions: &[Action]) -> Sound {
        let sound: Vec<Sound> = actions.iter().map(|action| self.action(action)).collect();
        sound.into_iter().collect()
    }

    fn action(&mut self, action: &Action) -> Sound {
        match action {
            Action::Store { left, sign, delayed, right } => self.store(left, *sign, *delayed, right),
            Action::Set { left, sign } => self.set(left, *sign),
            Action::Operation(name) => self.known(name, Meaning::Operation).map(|_| ()),
            Action::Goto(name) | Action::Call(name) => self.known(name, Meaning::State).map(|_| ()),
            Action::Return => Some(()),
            Action::Conditional(conditional) => self.conditional_action(conditional),
        }
    }

    fn store(&mut self, left: &[Reference], sign: Place, delayed: bool, right: &Expression) -> Sound {
        let lefts: Vec<Length> = left.iter().map(|reference| self.reference(reference)).collect();
        let right = self.length(right);
        let total: usize = lefts.into_iter().collect::<Option<Vec<_>>>()?.iter().sum();
        let allowed = left.iter().all(|reference| self.may_store(reference, delayed));
        if total != right? || total > VALUE {
            self.fault(7, sign);
            return None;
        }
        if !allowed {
            self.fault(8, sign);
        }
        allowed.then_some(())
    }

    fn set(&mut self, left: &Reference, sign: Place) -> Sound {
        let one_bit = self.reference(left)? == 1;
        let plain = matches!(self.kind(left), Some(Kind::Plain));
        if !(one_bit && plain) {
            self.fault(8, sign);
        }
        (one_bit && plain).then_some(())
    }

    fn kind(&self, reference: &Reference) -> Option<&Kind> {
        match self.meanings.get(&reference.name.text) {
            Some(Meaning::Facility(number)) => Some(&self.outline.facilities[*number].kind),
            _ => None,
        }
    }

    fn may_store(&self, reference: &Reference, delayed: bool) -> bool {
        match self.kind(reference) {
            Some(Kind::Register { sequencing }) => delayed || !sequencing,
            Some(Kind::Memory | Kind::Plain) => !delayed,
            _ => false,
        }
    }

    fn conditional_action(&mut self, conditional: &Conditional<Vec<Action>>) -> Sound {
        let condition = self.length(&conditional.condition);
        let arms: Vec<Sound> = conditional.arms.iter().map(|arm| self.actions(arm)).collect();
        arms.into_iter().collect::<Sound>()?;
        let sound = arms_fit(conditional.choice, condition?, conditional.arms.len());
        if !sound {
            self.fault(7, conditional.place);
        }
        sound.then_some(())
    }
}
