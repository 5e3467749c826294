//! One expression somewhere in a description altered, so that a rule of
//! lengths, subscripts or arms may be broken while the layout stays right.

use second::description::*;
use second::trials::random::Random;
use second::value::Bits;
use std::mem::replace;

type Visit<'a> = &'a mut dyn FnMut(&mut Expression);

fn of_expression(expression: &mut Expression, visit: Visit) {
    visit(expression);
    match expression {
        Expression::Constant(_) => {}
        Expression::Reference(reference) => of_reference(reference, visit),
        Expression::Prefix { operand, .. } | Expression::Counted { operand, .. } => of_expression(operand, visit),
        Expression::Infix { left, right, .. } => {
            of_expression(left, visit);
            of_expression(right, visit);
        }
        Expression::Conditional(conditional) => {
            of_expression(&mut conditional.condition, visit);
            conditional.arms.iter_mut().for_each(|arm| of_expression(arm, visit));
        }
    }
}

fn of_reference(reference: &mut Reference, visit: Visit) {
    for subscript in &mut reference.subscripts {
        if let Subscript::Single(expression) = subscript {
            of_expression(expression, visit);
        }
    }
}

fn of_action(action: &mut Action, visit: Visit) {
    match action {
        Action::Store { left, right, .. } => {
            left.iter_mut().for_each(|reference| of_reference(reference, visit));
            of_expression(right, visit);
        }
        Action::Set { left, .. } => of_reference(left, visit),
        Action::Conditional(conditional) => {
            of_expression(&mut conditional.condition, visit);
            conditional.arms.iter_mut().flatten().for_each(|action| of_action(action, visit));
        }
        _ => {}
    }
}

fn of_outline(outline: &mut Outline, visit: Visit) {
    for facility in &mut outline.facilities {
        if let Kind::Computed { expression, .. } = &mut facility.kind {
            of_expression(expression, visit);
        }
    }
    let operations = outline.operations.iter_mut().map(|operation| &mut operation.actions);
    let states = outline.states.iter_mut().map(|state| &mut state.actions);
    operations.chain(states).flatten().for_each(|action| of_action(action, visit));
}

/// Alters one expression; none where there is none.
pub fn altered(changed: &mut Description, random: &mut Random) -> Option<&'static str> {
    let mut count = 0;
    of_outline(&mut changed.outline, &mut |_| count += 1);
    let chosen = random.below(count);
    let mut number = 0;
    of_outline(&mut changed.outline, &mut |expression| {
        if number == chosen {
            alter(expression, random);
        }
        number += 1;
    });
    (count > 0).then_some("with another expression")
}

fn constant(number: usize, length: usize) -> Constant {
    Constant { value: Bits::from_number(number, length), bare: false, place: 0 }
}

fn alter(expression: &mut Expression, random: &mut Random) {
    match expression {
        Expression::Conditional(conditional) if random.chance(70) => return other_arms(conditional, random),
        Expression::Reference(reference) if random.chance(50) => return other_subscripts(reference, random),
        _ => {}
    }
    let some = constant(random.below(300), random.pick(&[1, 2, 16, 48, 49, 256]));
    let inner = Box::new(replace(expression, Expression::Constant(some)));
    *expression = match random.below(5) {
        0 => {
            let operator = random.pick(&[Prefix::Complement, Prefix::Negate, Prefix::ReduceSum, Prefix::ReduceAnd]);
            Expression::Prefix { operator, place: 0, operand: inner }
        }
        1 => {
            let operator = random.pick(&[Counted::Head, Counted::Tail, Counted::Extend]);
            let count = constant(random.pick(&[0, 1, 2, 64, 256, 65_535]), 16);
            Expression::Counted { operator, place: 0, operand: inner, count }
        }
        2 | 3 => {
            let operator = random.pick(&[Infix::Join, Infix::Sum, Infix::Difference, Infix::And, Infix::Less]);
            Expression::Infix { operator, place: 0, left: inner.clone(), right: inner }
        }
        _ => return,
    };
}

fn other_arms(conditional: &mut Conditional<Expression>, random: &mut Random) {
    let arms = &mut conditional.arms;
    let at = random.below(arms.len());
    if arms.len() > 1 && random.chance(50) {
        arms.remove(at);
    } else {
        arms.insert(at, arms[at].clone());
    }
}

fn other_subscripts(reference: &mut Reference, random: &mut Random) {
    let some = Expression::Constant(constant(random.below(20), 16));
    let singles = reference.subscripts.iter().all(|subscript| matches!(subscript, Subscript::Single(_)));
    if singles && reference.subscripts.len() < 2 && random.chance(50) {
        reference.subscripts.push(Subscript::Single(some));
    } else if reference.subscripts.pop().is_some() && random.chance(50) {
        reference.subscripts.push(Subscript::Single(some));
    }
}
