//! Any bytes as an image: what they describe, if reading would write them
//! for a legal text, were there no ceiling on texts, lines and nesting.
//!
//! The records are taken for what their marks say, the description is
//! judged by the rules of a text, and then written anew: an image passes
//! when its own bytes come out. So links and unused fields need no test.

use crate::description::*;
use crate::image::{image, ACTION, EXPRESSION, FACILITY, HEADER, NO_VALUE, OPERATION, STATE};
use crate::load_actions::Actions;
use crate::load_expressions::Expressions;
use crate::rules;
use crate::value::Bits;
use crate::words::RESERVED;

const NAME: usize = 132;
const FACILITIES: usize = 256;
const OPERATIONS: usize = 128;
const STATES: usize = 256;
const COUNTED: usize = 2_048;

/// An image that passes: what it describes, and where it ends.
pub struct Loaded {
    pub description: Description,
    pub total: usize,
}

pub fn load(bytes: &[u8]) -> Option<Loaded> {
    let total = four(bytes, 0)?;
    let own = bytes.get(..total)?;
    let sections = Sections::cut(own)?;
    let outline = sections.outline()?;
    let description = rules::description(outline).ok()?;
    (image(&description) == own).then_some(Loaded { description, total })
}

fn four(bytes: &[u8], at: usize) -> Option<usize> {
    let number = bytes.get(at..at + 4)?.try_into().ok()?;
    Some(u32::from_le_bytes(number) as usize)
}

pub fn two(bytes: &[u8], at: usize) -> usize {
    bytes[at] as usize + bytes[at + 1] as usize * 256
}

/// An image has no places.
pub fn constant(value: Bits) -> Constant {
    Constant { value, bare: false, place: 0 }
}

pub fn small(number: usize) -> Constant {
    constant(Bits::from_number(number, 16))
}

pub fn name(text: &str) -> Name {
    Name { text: text.to_string(), place: 0 }
}

/// The sections' bytes; the offsets in the header are not used here.
struct Sections<'a> {
    facilities: &'a [u8],
    operations: &'a [u8],
    expressions: &'a [u8],
    actions: &'a [u8],
    states: &'a [u8],
    names: &'a [u8],
}

impl<'a> Sections<'a> {
    fn cut(own: &'a [u8]) -> Option<Sections<'a>> {
        let mut rest = own.get(HEADER..)?;
        let mut section = |number: usize, size: usize| {
            let length = four(own, 4 + 8 * number)?.checked_mul(size)?;
            let (section, after) = rest.split_at_checked(length)?;
            rest = after;
            Some(section)
        };
        Some(Sections {
            facilities: section(0, FACILITY)?,
            operations: section(1, OPERATION)?,
            expressions: section(2, EXPRESSION)?,
            actions: section(3, ACTION)?,
            states: section(4, STATE)?,
            names: section(5, 1)?,
        })
    }

    /// Each action belongs to one run, so that none is taken twice.
    fn all_run(&self) -> bool {
        let runs = self.operations.chunks(OPERATION).map(|record| two(record, 3));
        let runs = runs.chain(self.states.chunks(STATE).map(|record| two(record, 5)));
        runs.sum::<usize>() == self.actions.len() / ACTION
    }

    fn within_ceilings(&self) -> bool {
        let facilities = self.facilities.len() / FACILITY;
        let states = self.states.len() / STATE;
        let counts = (1..=FACILITIES).contains(&facilities) && (1..=STATES).contains(&states);
        counts && self.operations.len() / OPERATION <= OPERATIONS && self.counted() <= Some(COUNTED)
    }

    /// Operators, operands and actions; left sides and states' values are no operands.
    fn counted(&self) -> Option<usize> {
        let marks = |section: &'a [u8], size: usize| section.chunks(size).map(|record| record[0]);
        let operands = marks(self.expressions, EXPRESSION).filter(|mark| !matches!(mark, 2 | 8 | 9)).count();
        let actions = marks(self.actions, ACTION).filter(|&mark| mark != 12).count();
        let left = |mark: u8| match mark {
            1 | 2 | 5 => 1,
            3 | 4 => 2,
            _ => 0,
        };
        let lefts: usize = marks(self.actions, ACTION).map(left).sum();
        let values = self.states.chunks(STATE).filter(|state| two(state, 1) != NO_VALUE as usize).count();
        // So many actions are too many, whatever their left sides are.
        let actions = Some(actions).filter(|&actions| actions <= COUNTED);
        actions.map_or(Some(COUNTED + 1), |actions| (operands + actions).checked_sub(lefts + values))
    }

    fn outline(&self) -> Option<Outline> {
        if !self.within_ceilings() || !self.all_run() {
            return None;
        }
        let mut names = self.names;
        let facilities = self.names_of(&mut names, self.facilities, FACILITY, 2)?;
        let operations = self.names_of(&mut names, self.operations, OPERATION, 0)?;
        let states = self.names_of(&mut names, self.states, STATE, 0)?;
        let named = |names: &[String]| names.iter().all(|name| !name.is_empty());
        if !names.is_empty() || !named(&facilities) || !named(&operations) {
            return None;
        }
        let expressions = Expressions { records: self.expressions, facilities: &facilities };
        let actions = Actions { records: self.actions, expressions, operations: &operations, states: &states };
        Some(Outline {
            facilities: self.declared(&facilities, &actions.expressions)?,
            operations: self.performed(&operations, &actions)?,
            states: self.entered(&states, &actions)?,
        })
    }

    /// The names of a section's records, taken off the front; each may be empty here.
    fn names_of(&self, names: &mut &[u8], section: &[u8], size: usize, field: usize) -> Option<Vec<String>> {
        let mut taken = |record: &[u8]| {
            let (name, after) = names.split_at_checked(record[field] as usize)?;
            *names = after;
            let text = String::from_utf8(name.to_vec()).ok()?;
            is_name(&text).then_some(text)
        };
        section.chunks(size).map(&mut taken).collect()
    }
}

/// A name in capitals that is no reserved word, or no name at all.
fn is_name(text: &str) -> bool {
    let begins = text.bytes().next().is_none_or(|first| first.is_ascii_uppercase());
    let goes_on = text.bytes().all(|byte| byte.is_ascii_uppercase() || byte.is_ascii_digit());
    begins && goes_on && text.len() <= NAME && !RESERVED.contains(&text)
}

// Declarations.
impl Sections<'_> {
    fn declared(&self, names: &[String], expressions: &Expressions) -> Option<Vec<Facility>> {
        let records = self.facilities.chunks(FACILITY);
        let section = |kind: u8| [0, 0, 1, 2, 2, 2].get(kind as usize).copied().unwrap_or(3);
        if !records.clone().map(|record| section(record[0])).is_sorted() {
            return None;
        }
        let facility = |(record, text): (&[u8], &String)| {
            let kind = kind(record, expressions)?;
            let dimensions = dimensions(record)?;
            let function = matches!(kind, Kind::Input | Kind::Computed { .. });
            let sound = dimensions.len() < 2 || !function;
            sound.then(|| Facility { name: name(text), dimensions, kind })
        };
        records.zip(names).map(facility).collect()
    }

    fn performed(&self, names: &[String], actions: &Actions) -> Option<Vec<Operation>> {
        let operation = |(record, text): (&[u8], &String)| {
            let actions = actions.in_operation(two(record, 1), two(record, 3))?;
            (!actions.is_empty()).then(|| Operation { name: name(text), actions })
        };
        self.operations.chunks(OPERATION).zip(names).map(operation).collect()
    }

    fn entered(&self, names: &[String], actions: &Actions) -> Option<Vec<State>> {
        let state = |(record, text): (&[u8], &String)| {
            let label = (!text.is_empty()).then(|| name(text));
            let value = match two(record, 1) {
                none if none == NO_VALUE as usize => None,
                number => Some(actions.expressions.lone_constant(number)?),
            };
            let actions = actions.in_state(two(record, 3), two(record, 5))?;
            let sound = label.is_some() || value.is_none();
            sound.then_some(State { place: 0, label, value, actions })
        };
        self.states.chunks(STATE).zip(names).map(state).collect()
    }
}

fn kind(record: &[u8], expressions: &Expressions) -> Option<Kind> {
    Some(match record[0] {
        0 => Kind::Register { sequencing: false },
        1 => Kind::Register { sequencing: true },
        2 => Kind::Memory,
        3 => Kind::Plain,
        4 => Kind::Input,
        5 => Kind::Computed { sign: 0, expression: expressions.ending_at(two(record, 11))? },
        _ => return None,
    })
}

fn dimensions(record: &[u8]) -> Option<Vec<Dimension>> {
    let dimension = |at: usize| Dimension { first: Some(small(two(record, at))), last: small(two(record, at + 2)) };
    match record[1] {
        0 => Some(Vec::new()),
        1 => Some(vec![dimension(7)]),
        2 => Some(vec![dimension(3), dimension(7)]),
        _ => None,
    }
}
