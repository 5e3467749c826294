//! Opening a run, and one cycle of it.

use crate::bytes;
use crate::description::*;
use crate::evaluate::{Bitplace, Stop, Store, Values};
use crate::value::Bits;
use std::collections::HashSet;

pub const RETURNS: usize = 16;

/// The store and the record's fields.
#[derive(Clone, Debug, PartialEq, Eq)]
pub struct Run {
    pub store: Store,
    pub state: usize,
    pub cycle: u32,
    pub returns: Vec<usize>,
}

#[derive(Clone, Copy, Debug, PartialEq, Eq)]
pub enum Outcome {
    Completed { conflicts: usize },
    Stop(u8),
    Refused(u8),
}

pub fn open(description: &Description) -> Run {
    let words = |(number, shape): (usize, &Shape)| match description.is_stored(number) {
        true => vec![Bits::zero(shape.bits()); shape.words()],
        false => Vec::new(),
    };
    let store = description.shapes.iter().enumerate().map(words).collect();
    let mut run = Run { store, state: 0, cycle: 0, returns: Vec::new() };
    sequence(description, &mut run.store, 0);
    run
}

/// The sequencing register takes the value of the state entered.
fn sequence(description: &Description, store: &mut Store, state: usize) {
    if let Some(register) = description.sequencing {
        store[register][0] = description.values[state].clone();
    }
}

/// One cycle; the stimulus gives the bits of each input terminal.
pub fn cycle(description: &Description, run: &mut Run, stimulus: &[Bits]) -> Outcome {
    let lengths = description.inputs().map(|number| description.shapes[number].bits());
    if !lengths.eq(stimulus.iter().map(Bits::len)) {
        return Outcome::Refused(15);
    }
    match completed(description, run, stimulus) {
        Ok((after, conflicts)) => {
            *run = after;
            Outcome::Completed { conflicts }
        }
        Err(Stop(digit)) => Outcome::Stop(digit),
    }
}

/// One cycle with the stimulus in the form of the store.
pub fn cycle_bytes(description: &Description, run: &mut Run, stimulus: &[u8]) -> Outcome {
    match bytes::stimulus(description, stimulus) {
        Some(stimulus) => cycle(description, run, &stimulus),
        None => Outcome::Refused(15),
    }
}

fn completed(description: &Description, run: &Run, stimulus: &[Bits]) -> Result<(Run, usize), Stop> {
    let cycle = run.cycle.checked_add(1).ok_or(Stop(7))?;
    let mut execution = Execution::start(description, run, stimulus);
    execution.actions(&description.outline.states[run.state].actions)?;
    let (state, returns) = execution.next_state(run)?;
    let (mut store, conflicts) = (execution.values.store, execution.conflicts);
    sequence(description, &mut store, state);
    Ok((Run { store, state, cycle, returns }, conflicts))
}

/// What the actions of a cycle have brought about so far.
struct Execution<'a> {
    values: Values<'a>,
    delayed: Vec<(Bitplace, Bits)>,
    named: HashSet<(usize, usize, usize)>,
    conflicts: usize,
    gotos: Vec<usize>,
    calls: Vec<usize>,
    returns: usize,
}

impl<'a> Execution<'a> {
    /// Inputs are set, plain terminals cleared.
    fn start(description: &'a Description, run: &Run, stimulus: &[Bits]) -> Execution<'a> {
        let mut store = run.store.clone();
        for (number, value) in description.inputs().zip(stimulus) {
            store[number][0] = value.clone();
        }
        for (number, facility) in description.outline.facilities.iter().enumerate() {
            if matches!(facility.kind, Kind::Plain) {
                let length = description.shapes[number].bits();
                store[number].fill(Bits::zero(length));
            }
        }
        Execution {
            values: Values { description, store },
            delayed: Vec::new(),
            named: HashSet::new(),
            conflicts: 0,
            gotos: Vec::new(),
            calls: Vec::new(),
            returns: 0,
        }
    }

    fn actions(&mut self, actions: &[Action]) -> Result<(), Stop> {
        actions.iter().try_for_each(|action| self.action(action))
    }

    fn action(&mut self, action: &Action) -> Result<(), Stop> {
        let description = self.values.description;
        match action {
            Action::Store { left, delayed, right, .. } => self.store(left, *delayed, right)?,
            Action::Set { left, .. } => {
                let place = self.values.locate(left)?;
                self.land(place, &Bits::bit(true));
            }
            Action::Operation(name) => {
                self.actions(&description.outline.operations[description.number(name)].actions)?;
            }
            Action::Goto(name) => self.gotos.push(description.number(name)),
            Action::Call(name) => self.calls.push(description.number(name)),
            Action::Return => self.returns += 1,
            Action::Conditional(conditional) => {
                if let Some(arm) = self.values.chosen(conditional)? {
                    self.actions(arm)?;
                }
            }
        }
        Ok(())
    }

    /// The left side's subscripts, then the right side, then the landing.
    fn store(&mut self, left: &[Reference], delayed: bool, right: &Expression) -> Result<(), Stop> {
        let places: Vec<_> = left.iter().map(|one| self.values.locate(one)).collect::<Result<_, _>>()?;
        let value = self.values.value(right)?;
        if delayed {
            self.name(&places);
        }
        let mut from = 0;
        for place in places {
            let part = value.part(from, place.length);
            from += place.length;
            if delayed {
                self.delayed.push((place, part));
            } else {
                self.land(place, &part);
            }
        }
        Ok(())
    }

    fn land(&mut self, place: Bitplace, value: &Bits) {
        self.values.store[place.facility][place.word].put(place.from, value);
    }

    /// A delayed store conflicts if an earlier one named one of its bits.
    fn name(&mut self, places: &[Bitplace]) {
        let bits = |place: &Bitplace| {
            let (facility, word) = (place.facility, place.word);
            (place.from..place.from + place.length).map(move |bit| (facility, word, bit))
        };
        let bits: Vec<_> = places.iter().flat_map(bits).collect();
        if bits.iter().any(|bit| self.named.contains(bit)) {
            self.conflicts += 1;
        }
        self.named.extend(bits);
    }
}

// The end of the cycle: S2, S4, S3, S6, S5 in this order.
impl Execution<'_> {
    fn next_state(&mut self, run: &Run) -> Result<(usize, Vec<usize>), Stop> {
        let sequenced =
            self.delayed.iter().any(|(place, _)| Some(place.facility) == self.values.description.sequencing);
        if self.gotos.len() + self.returns + sequenced as usize > 1 || self.calls.len() > 1 {
            return Err(Stop(2));
        }
        let mut returns = run.returns.clone();
        let returned = if self.returns == 1 { Some(returns.pop().ok_or(Stop(4))?) } else { None };
        for (place, value) in std::mem::take(&mut self.delayed) {
            self.land(place, &value);
        }
        let plain = match (self.gotos.first(), returned, sequenced) {
            (Some(&state), _, _) | (_, Some(state), _) => state,
            (_, _, true) => self.sequenced_state()?,
            _ => self.below(run.state)?,
        };
        let Some(&called) = self.calls.first() else {
            return Ok((plain, returns));
        };
        if returns.len() >= RETURNS {
            return Err(Stop(5));
        }
        returns.push(plain);
        Ok((called, returns))
    }

    fn sequenced_state(&self) -> Result<usize, Stop> {
        let description = self.values.description;
        let value = description.sequencing.map(|register| &self.values.store[register][0]);
        description.values.iter().position(|borne| Some(borne) == value).ok_or(Stop(3))
    }

    fn below(&self, state: usize) -> Result<usize, Stop> {
        let states = self.values.description.outline.states.len();
        if state + 1 < states {
            Ok(state + 1)
        } else {
            Err(Stop(6))
        }
    }
}
