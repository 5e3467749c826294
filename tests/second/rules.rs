//! The last stage: names (4), subscripts (6), lengths (7), stores (8), the
//! sequencing register (9), store and work (10). All faults go into one list.

use crate::description::*;
use crate::refusal::{least, refusal, Place, Refusal};
use crate::value::Bits;
use crate::work::Works;
use std::collections::{HashMap, HashSet};

const BOUND: usize = 65_535;
const STORE: usize = 16_384;
const WORK: usize = 65_536;
pub const VALUE: usize = 256;

/// A part at fault has no length; what it belongs to then has no fault of its own.
pub type Length = Option<usize>;

pub struct Rules<'a> {
    pub outline: &'a Outline,
    /// The names declared so far.
    pub meanings: HashMap<String, Meaning>,
    /// The shapes of the facilities so far; none where a bound is at fault.
    pub shapes: Vec<Option<Shape>>,
    sequencing: Option<usize>,
    values: Vec<Bits>,
    faults: Vec<Refusal>,
}

pub fn description(outline: Outline) -> Result<Description, Refusal> {
    let rules = judged(&outline);
    least(rules.faults)?;
    let (meanings, sequencing, values) = (rules.meanings, rules.sequencing, rules.values);
    let shapes = rules.shapes.into_iter().flatten().collect();
    Ok(Description { outline, meanings, shapes, sequencing, values })
}

pub fn faults(outline: &Outline) -> Vec<Refusal> {
    judged(outline).faults
}

fn judged(outline: &Outline) -> Rules<'_> {
    let mut rules = Rules {
        outline,
        meanings: HashMap::new(),
        shapes: Vec::new(),
        sequencing: None,
        values: Vec::new(),
        faults: Vec::new(),
    };
    rules.facilities();
    rules.operations();
    rules.states();
    rules
}

impl Rules<'_> {
    pub fn fault(&mut self, number: u8, place: Place) {
        self.faults.push(refusal(number, place));
    }

    /// A name means its first declaration.
    fn declare(&mut self, name: &Name, meaning: Meaning) {
        if self.meanings.contains_key(&name.text) {
            self.fault(4, name.place);
        } else {
            self.meanings.insert(name.text.clone(), meaning);
        }
    }

    /// The number of what a name means, if it is of the kind asked for.
    pub fn known(&mut self, name: &Name, kind: fn(usize) -> Meaning) -> Option<usize> {
        let meaning = self.meanings.get(&name.text).copied();
        let found = meaning.filter(|meaning| kind(meaning.number()) == *meaning);
        if found.is_none() {
            self.fault(4, name.place);
        }
        found.map(Meaning::number)
    }
}

// Facilities.
impl Rules<'_> {
    fn facilities(&mut self) {
        let mut store = 0;
        let outline = self.outline;
        for (number, facility) in outline.facilities.iter().enumerate() {
            let shape = self.shape(&facility.dimensions);
            if let Kind::Computed { sign, expression } = &facility.kind {
                self.computed(*sign, expression, shape.as_ref());
            } else if let Some(shape) = &shape {
                store += shape.bytes();
                if store > STORE {
                    self.fault(10, facility.name.place);
                }
            }
            if let (Kind::Register { sequencing: true }, Some(shape)) = (&facility.kind, &shape) {
                self.sequencing_register(number, facility, shape);
            }
            self.shapes.push(shape);
            self.declare(&facility.name, Meaning::Facility(number));
        }
    }

    /// Each bound is judged, then all must be sound.
    fn shape(&mut self, dimensions: &[Dimension]) -> Option<Shape> {
        let bounds: Vec<_> = dimensions.iter().map(|dimension| self.bounds(dimension)).collect();
        bounds.into_iter().collect::<Option<Vec<_>>>().map(Shape)
    }

    fn bounds(&mut self, dimension: &Dimension) -> Option<Bounds> {
        let first = dimension.first.as_ref().map_or(Some(1), |constant| self.bound(constant));
        let last = self.bound(&dimension.last);
        Some(Bounds { first: first?, last: last? })
    }

    fn bound(&mut self, constant: &Constant) -> Option<usize> {
        let number = constant.value.number();
        if number > BOUND {
            self.fault(6, constant.place);
            return None;
        }
        Some(number)
    }

    fn computed(&mut self, sign: Place, expression: &Expression, shape: Option<&Shape>) {
        if let (Some(length), Some(shape)) = (self.length(expression), shape) {
            if length != shape.bits() {
                self.fault(7, sign);
            }
        }
    }

    fn sequencing_register(&mut self, number: usize, facility: &Facility, shape: &Shape) {
        if self.sequencing.is_some() || shape.0.len() == 2 || shape.bits() > VALUE {
            self.fault(9, facility.name.place);
        }
        self.sequencing.get_or_insert(number);
    }
}

// Operations and states.
impl Rules<'_> {
    fn operations(&mut self) {
        for (number, operation) in self.outline.operations.iter().enumerate() {
            self.actions(&operation.actions);
            self.declare(&operation.name, Meaning::Operation(number));
        }
    }

    fn states(&mut self) {
        let outline = self.outline;
        for (number, state) in outline.states.iter().enumerate() {
            if let Some(label) = &state.label {
                self.declare(label, Meaning::State(number));
            }
        }
        let register = self.sequencing.map(|number| self.shapes[number].as_ref().map_or(1, Shape::bits));
        let mut borne = HashSet::new();
        let meanings = self.meanings.clone();
        let works = Works::of(outline, &meanings);
        for state in &outline.states {
            let value_sound = self.state_value(state, register, &mut borne);
            let actions_sound = self.actions(&state.actions).is_some();
            if value_sound && actions_sound {
                self.state_itself(state, register, &works);
            }
        }
    }

    /// A wrong, repeated or unwanted value is at fault itself.
    fn state_value(&mut self, state: &State, register: Option<usize>, borne: &mut HashSet<Bits>) -> bool {
        let Some(constant) = &state.value else {
            return true;
        };
        let value = register.and_then(|length| taken(constant, length));
        let sound = value.as_ref().is_some_and(|value| !borne.contains(value));
        if !sound {
            self.fault(9, constant.place);
        }
        borne.extend(value.clone());
        self.values.extend(value);
        sound
    }

    fn state_itself(&mut self, state: &State, register: Option<usize>, works: &Works) {
        if register.is_some() && state.value.is_none() {
            self.fault(9, state.place);
        }
        if works.actions(&state.actions) > WORK {
            self.fault(10, state.place);
        }
    }
}

/// The value for a register of this length: a bare one takes that length.
fn taken(constant: &Constant, length: usize) -> Option<Bits> {
    let value = constant.value.fitted(length);
    let fits = if constant.bare { value.ones() == constant.value.ones() } else { constant.value.len() == length };
    fits.then_some(value)
}
