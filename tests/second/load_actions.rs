//! Actions back from their records: a conditional before its arms, an arm
//! before its actions, each with the number of records that belong to it.

use crate::description::*;
use crate::image::ACTION;
use crate::load::{name, two};
use crate::load_expressions::Expressions;

pub struct Actions<'a> {
    pub records: &'a [u8],
    pub expressions: Expressions<'a>,
    pub operations: &'a [String],
    pub states: &'a [String],
}

/// Stores stand only in operations, next states only in states.
#[derive(Clone, Copy, PartialEq)]
enum Within {
    Operation,
    State,
}

impl Actions<'_> {
    pub fn in_operation(&self, first: usize, count: usize) -> Option<Vec<Action>> {
        self.run(first..first + count, Within::Operation)
    }

    pub fn in_state(&self, first: usize, count: usize) -> Option<Vec<Action>> {
        self.run(first..first + count, Within::State)
    }

    fn record(&self, number: usize) -> Option<&[u8]> {
        self.records.get(number * ACTION..(number + 1) * ACTION)
    }

    fn run(&self, run: std::ops::Range<usize>, within: Within) -> Option<Vec<Action>> {
        let mut actions = Vec::new();
        let mut number = run.start;
        while number < run.end {
            let (action, after) = self.action(number, run.end, within)?;
            actions.push(action);
            number = after;
        }
        Some(actions)
    }

    /// An action that must end by `end`, and the number of the record after it.
    fn action(&self, number: usize, end: usize, within: Within) -> Option<(Action, usize)> {
        let record = self.record(number)?;
        let field = two(record, 1);
        let action = match (record[0], within) {
            (1..=4, Within::Operation) => self.store(record)?,
            (5, _) => Action::Set { left: self.expressions.reference_at(field)?, sign: 0 },
            (6, _) => Action::Operation(name(self.operations.get(field)?)),
            (7, Within::State) => Action::Goto(self.label(field)?),
            (8, Within::State) => Action::Call(self.label(field)?),
            (9, Within::State) => Action::Return,
            (10 | 11, _) => return self.conditional(number, end, within),
            _ => return None,
        };
        Some((action, number + 1))
    }

    /// A next state is named, so it has a label.
    fn label(&self, number: usize) -> Option<Name> {
        let label = self.states.get(number)?;
        (!label.is_empty()).then(|| name(label))
    }

    fn store(&self, record: &[u8]) -> Option<Action> {
        let reference = |at: usize| self.expressions.reference_at(two(record, at));
        let (left, right) = match record[0] {
            1 | 2 => (vec![reference(1)?], two(record, 3)),
            _ => (vec![reference(1)?, reference(3)?], two(record, 5)),
        };
        let right = self.expressions.ending_at(right)?;
        Some(Action::Store { left, sign: 0, delayed: record[0] % 2 == 1, right })
    }

    fn conditional(&self, number: usize, end: usize, within: Within) -> Option<(Action, usize)> {
        let record = self.record(number)?;
        let (choice, following) =
            if record[0] == 10 { (Choice::If, two(record, 3)) } else { (Choice::Case, two(record, 5)) };
        let condition = self.expressions.ending_at(two(record, 1))?;
        let after = number + 1 + following;
        if after > end {
            return None;
        }
        let arms = self.arms(number + 1, after, within)?;
        let sound = choice == Choice::Case || arms.len() == 1;
        let conditional = Conditional { choice, place: 0, condition, arms };
        sound.then_some((Action::Conditional(conditional), after))
    }

    fn arms(&self, mut number: usize, end: usize, within: Within) -> Option<Vec<Vec<Action>>> {
        let mut arms = Vec::new();
        while number < end {
            let record = self.record(number)?;
            let after = number + 1 + two(record, 1);
            if record[0] != 12 || after == number + 1 || after > end {
                return None;
            }
            arms.push(self.run(number + 1..after, within)?);
            number = after;
        }
        (!arms.is_empty()).then_some(arms)
    }
}
