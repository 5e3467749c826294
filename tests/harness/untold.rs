//! Descriptions changed as trees and written out as images, most so that no
//! text can tell them: actions where the grammar has none, lists without
//! actions, other values and extents. Each layout is as reading would write
//! it, so only the rule is broken.

use crate::altered::altered;
use second::description::{Action, Conditional, Description, Name};
use second::image::image;
use second::trials::random::Random;
use second::value::Bits;

/// The image of the description with one thing changed.
pub fn untold(description: &Description, random: &mut Random) -> Option<(&'static str, Vec<u8>)> {
    let mut changed = description.clone();
    let kind = match random.below(14) {
        0 => store_in_state(&mut changed, random),
        1 => next_state_in_operation(&mut changed, random),
        2 => empty_operation(&mut changed, random),
        3 => empty_arm(&mut changed, random),
        4 => state_value(&mut changed, random),
        5 => bounds_turned(&mut changed, random),
        6 => other_extent(&mut changed, random),
        7 => other_arms(&mut changed, random),
        8..=10 => altered(&mut changed, random),
        11 | 12 => more_next_states(&mut changed, random),
        _ => operations_turned(&mut changed, random),
    };
    kind.map(|kind| (kind, image(&changed)))
}

/// An action of the kind looked for, at any depth.
fn find(actions: &[Action], fits: fn(&Action) -> bool) -> Option<&Action> {
    actions.iter().find_map(|action| match action {
        action if fits(action) => Some(action),
        Action::Conditional(conditional) => conditional.arms.iter().find_map(|arm| find(arm, fits)),
        _ => None,
    })
}

fn insert(actions: &mut Vec<Action>, action: Action, random: &mut Random) {
    let at = random.below(actions.len() + 1);
    actions.insert(at, action);
}

fn store_in_state(changed: &mut Description, random: &mut Random) -> Option<&'static str> {
    let is_store = |action: &Action| matches!(action, Action::Store { .. });
    let store = changed.outline.operations.iter().find_map(|operation| find(&operation.actions, is_store))?.clone();
    let state = random.below(changed.outline.states.len());
    insert(&mut changed.outline.states[state].actions, store, random);
    Some("with a store in a state")
}

fn next_state_in_operation(changed: &mut Description, random: &mut Random) -> Option<&'static str> {
    let is_next = |action: &Action| matches!(action, Action::Goto(_) | Action::Call(_) | Action::Return);
    let next = changed.outline.states.iter().find_map(|state| find(&state.actions, is_next))?.clone();
    let operations = &mut changed.outline.operations;
    let operation = random.below(operations.len());
    insert(&mut operations.get_mut(operation)?.actions, next, random);
    Some("with a next state in an operation")
}

/// A text could have these; they bring about the stops that two next states do.
fn more_next_states(changed: &mut Description, random: &mut Random) -> Option<&'static str> {
    let labels: Vec<Name> = changed.outline.states.iter().filter_map(|state| state.label.clone()).collect();
    if labels.is_empty() {
        return None;
    }
    let kinds = random.pick(&[[0, 0], [1, 1], [1, 2], [2, 2]]);
    for state in &mut changed.outline.states {
        for kind in kinds {
            let label = random.pick(&labels);
            let next = [Action::Goto(label.clone()), Action::Call(label), Action::Return];
            insert(&mut state.actions, next[kind].clone(), random);
        }
    }
    Some("with more next states")
}

fn empty_operation(changed: &mut Description, random: &mut Random) -> Option<&'static str> {
    let operation = random.below(changed.outline.operations.len());
    changed.outline.operations.get_mut(operation)?.actions.clear();
    Some("with an operation without actions")
}

fn first_conditional(actions: &mut [Action]) -> Option<&mut Conditional<Vec<Action>>> {
    actions.iter_mut().find_map(|action| match action {
        Action::Conditional(conditional) => Some(conditional),
        _ => None,
    })
}

/// The arms of some conditional action.
fn some_arms<'a>(changed: &'a mut Description, random: &mut Random) -> Option<&'a mut Vec<Vec<Action>>> {
    let outline = &mut changed.outline;
    let operations = outline.operations.iter_mut().map(|operation| &mut operation.actions);
    let states = outline.states.iter_mut().map(|state| &mut state.actions);
    let mut conditionals: Vec<_> = operations.chain(states).filter_map(|list| first_conditional(list)).collect();
    let chosen = random.below(conditionals.len());
    (chosen < conditionals.len()).then(|| &mut conditionals.swap_remove(chosen).arms)
}

fn empty_arm(changed: &mut Description, random: &mut Random) -> Option<&'static str> {
    let arms = some_arms(changed, random)?;
    let arm = random.below(arms.len());
    arms.get_mut(arm)?.clear();
    Some("with an arm without actions")
}

/// An arm more or less; of an IF it is the ELSE.
fn other_arms(changed: &mut Description, random: &mut Random) -> Option<&'static str> {
    let arms = some_arms(changed, random)?;
    let arm = random.below(arms.len());
    if arms.len() > 1 && random.chance(50) {
        arms.remove(arm);
    } else {
        arms.insert(arm, arms.get(arm)?.clone());
    }
    Some("with other arms")
}

/// A state's value of another length, or that of another state.
fn state_value(changed: &mut Description, random: &mut Random) -> Option<&'static str> {
    let register = changed.sequencing?;
    let length = changed.shapes[register].bits();
    let (state, other) = (random.below(changed.values.len()), random.below(changed.values.len()));
    let value = changed.values[other].clone();
    changed.values[state] = match random.below(3) {
        0 => value,
        1 if length < 256 => changed.values[state].fitted(length + 1),
        _ => Bits::zero(1).join(&value).fitted(length.max(2) - 1),
    };
    Some("with a wrong state value")
}

/// Two operations in each other's place, so that one may name a later one.
fn operations_turned(changed: &mut Description, random: &mut Random) -> Option<&'static str> {
    let count = changed.outline.operations.len();
    if count < 2 {
        return None;
    }
    let first = random.below(count - 1);
    let (left, right) = changed.outline.operations.split_at_mut(first + 1);
    std::mem::swap(&mut left[first].actions, &mut right[0].actions);
    Some("with two operations turned round")
}

/// A facility's bits or words in the other direction: parts of it may then lie against it.
fn bounds_turned(changed: &mut Description, random: &mut Random) -> Option<&'static str> {
    let facility = random.below(changed.shapes.len());
    let shape = &mut changed.shapes[facility].0;
    let dimension = random.below(shape.len());
    let bounds = shape.get_mut(dimension)?;
    (bounds.first, bounds.last) = (bounds.last, bounds.first);
    Some("with bounds turned round")
}

/// A dimension longer or shorter by one, or as long as may be.
fn other_extent(changed: &mut Description, random: &mut Random) -> Option<&'static str> {
    let facility = random.below(changed.shapes.len());
    let shape = &mut changed.shapes[facility].0;
    let dimension = random.below(shape.len());
    let bounds = shape.get_mut(dimension)?;
    bounds.last = random.pick(&[bounds.last ^ 1, bounds.last.saturating_sub(1), 65_535, 0]);
    Some("with another extent")
}
