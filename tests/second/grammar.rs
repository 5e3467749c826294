//! The stage of grammar: sections, declarations, operations and states.
//! The first word that no legal text has here is refused as 3, one that
//! passes a ceiling as 10. Each choice is made from the words seen so far,
//! so the first fault met is the one at the smallest place.

use crate::description::*;
use crate::refusal::{refusal, Place, Refusal};
use crate::words::{PlacedWord, Word};

const FACILITIES: usize = 256;
const OPERATIONS: usize = 128;
const STATES: usize = 256;
const COUNTED: usize = 2_048;
const NESTING: usize = 24;

pub struct Grammar<'a> {
    words: &'a [PlacedWord],
    end: Place,
    next: usize,
    counted: usize,
    nesting: usize,
}

/// The outline of a text of `end` bytes with these words.
pub fn outline(words: &[PlacedWord], end: Place) -> Result<Outline, Refusal> {
    Grammar { words, end, next: 0, counted: 0, nesting: 0 }.description()
}

// The words.
impl<'a> Grammar<'a> {
    pub fn word_at(&self, ahead: usize) -> Option<&'a Word> {
        self.words.get(self.next + ahead).map(|placed| &placed.word)
    }

    pub fn sign_at(&self, ahead: usize) -> &'static str {
        match self.word_at(ahead) {
            Some(Word::Sign(sign)) => sign,
            _ => "",
        }
    }

    pub fn sees(&self, sign: &str) -> bool {
        self.sign_at(0) == sign
    }

    pub fn place(&self) -> Place {
        self.words.get(self.next).map_or(self.end, |placed| placed.place)
    }

    /// The next word cannot stand here.
    pub fn misplaced<T>(&self) -> Result<T, Refusal> {
        Err(refusal(3, self.place()))
    }

    /// Takes the word just seen.
    pub fn step(&mut self) -> Place {
        let place = self.place();
        self.next += 1;
        place
    }

    pub fn take(&mut self, sign: &str) -> Result<Place, Refusal> {
        if self.sees(sign) {
            Ok(self.step())
        } else {
            self.misplaced()
        }
    }

    pub fn take_name(&mut self) -> Result<Name, Refusal> {
        match self.word_at(0) {
            Some(Word::Name(text)) => Ok(Name { text: text.clone(), place: self.step() }),
            _ => self.misplaced(),
        }
    }

    pub fn take_constant(&mut self) -> Result<Constant, Refusal> {
        match self.word_at(0) {
            Some(Word::Constant { value, bare }) => {
                Ok(Constant { value: value.clone(), bare: *bare, place: self.step() })
            }
            _ => self.misplaced(),
        }
    }
}

// The ceilings.
impl Grammar<'_> {
    fn within(reached: usize, ceiling: usize, place: Place) -> Result<(), Refusal> {
        if reached <= ceiling {
            Ok(())
        } else {
            Err(refusal(10, place))
        }
    }

    /// One more operator, operand or action.
    pub fn count(&mut self, place: Place) -> Result<(), Refusal> {
        self.counted += 1;
        Self::within(self.counted, COUNTED, place)
    }

    pub fn open(&mut self, place: Place) -> Result<(), Refusal> {
        self.nesting += 1;
        Self::within(self.nesting, NESTING, place)
    }

    pub fn close(&mut self) {
        self.nesting -= 1;
    }

    pub fn open_bracket(&mut self, sign: &str) -> Result<(), Refusal> {
        let place = self.take(sign)?;
        self.open(place)
    }

    pub fn close_bracket(&mut self, sign: &str) -> Result<(), Refusal> {
        self.take(sign)?;
        self.close();
        Ok(())
    }
}

// The sections.
impl Grammar<'_> {
    fn description(&mut self) -> Result<Outline, Refusal> {
        let facilities = self.facilities()?;
        let operations = self.operations()?;
        self.take("CONTROL")?;
        let states = self.states()?;
        if self.sees("$") {
            self.step();
        }
        if self.word_at(0).is_some() {
            return self.misplaced();
        }
        Ok(Outline { facilities, operations, states })
    }

    fn facilities(&mut self) -> Result<Vec<Facility>, Refusal> {
        let mut facilities = Vec::new();
        for section in ["REGISTER", "MEMORY", "TERMINAL"] {
            if self.sees(section) {
                self.facility_section(section, &mut facilities)?;
            }
        }
        if facilities.is_empty() {
            self.misplaced()
        } else {
            Ok(facilities)
        }
    }

    fn facility_section(&mut self, section: &str, facilities: &mut Vec<Facility>) -> Result<(), Refusal> {
        self.step();
        loop {
            facilities.push(self.facility(section, facilities.len())?);
            if !self.sees(",") {
                return self.section_end();
            }
            self.step();
        }
    }

    fn sees_section_end(&self) -> bool {
        self.sees(".") || self.sees("END")
    }

    fn section_end(&mut self) -> Result<(), Refusal> {
        if !self.sees_section_end() {
            return self.misplaced();
        }
        self.step();
        Ok(())
    }

    fn operations(&mut self) -> Result<Vec<Operation>, Refusal> {
        let mut operations = Vec::new();
        if !self.sees("OPERATION") {
            return Ok(operations);
        }
        loop {
            self.step(); // OPERATION or a comma
            operations.push(self.operation(operations.len())?);
            if !self.sees(",") {
                break;
            }
        }
        if self.sees_section_end() {
            self.step();
        }
        Ok(operations)
    }

    fn states(&mut self) -> Result<Vec<State>, Refusal> {
        let mut states = Vec::new();
        loop {
            states.push(self.state(states.len())?);
            if self.sees_section_end() {
                self.step();
                return Ok(states);
            }
        }
    }
}

// What the sections hold.
impl Grammar<'_> {
    fn facility(&mut self, section: &str, before: usize) -> Result<Facility, Refusal> {
        let sequencing = section == "REGISTER" && self.sees("#");
        if sequencing {
            self.step();
        }
        let name = self.take_name()?;
        Self::within(before + 1, FACILITIES, name.place)?;
        let dimensions = self.dimensions()?;
        let kind = match section {
            "REGISTER" => Kind::Register { sequencing },
            "MEMORY" => Kind::Memory,
            _ if dimensions.len() < 2 && self.sees("=") => self.function(&name)?,
            _ => Kind::Plain,
        };
        Ok(Facility { name, dimensions, kind })
    }

    fn dimensions(&mut self) -> Result<Vec<Dimension>, Refusal> {
        if !self.sees("[") {
            return Ok(Vec::new());
        }
        self.open_bracket("[")?;
        let mut dimensions = vec![self.dimension()?];
        if self.sees(",") {
            self.step();
            dimensions.push(self.dimension()?);
        }
        self.close_bracket("]")?;
        Ok(dimensions)
    }

    fn dimension(&mut self) -> Result<Dimension, Refusal> {
        let first = self.take_constant()?;
        if !self.sees(":") {
            return Ok(Dimension { first: None, last: first });
        }
        self.step();
        Ok(Dimension { first: Some(first), last: self.take_constant()? })
    }

    /// What stands after a terminal, from its `=` on.
    fn function(&mut self, name: &Name) -> Result<Kind, Refusal> {
        let sign = self.step();
        if !self.sees("INPUT") {
            return Ok(Kind::Computed { sign, expression: self.expression()? });
        }
        self.step();
        self.open_bracket("(")?;
        self.take_constant()?;
        self.take(",")?;
        match self.word_at(0) {
            Some(Word::Name(again)) if *again == name.text => self.step(),
            _ => return self.misplaced(),
        };
        self.close_bracket(")")?;
        Ok(Kind::Input)
    }

    fn operation(&mut self, before: usize) -> Result<Operation, Refusal> {
        let name = self.take_name()?;
        Self::within(before + 1, OPERATIONS, name.place)?;
        self.take("=")?;
        self.open_bracket("[")?;
        let actions = self.operation_actions()?;
        self.close_bracket("]")?;
        Ok(Operation { name, actions })
    }

    fn starts_state(&self) -> bool {
        matches!(self.sign_at(0), "/" | "->" | "=>" | "RETURN" | "CASE" | "IF")
            || matches!(self.word_at(0), Some(Word::Name(_)))
    }

    fn state(&mut self, before: usize) -> Result<State, Refusal> {
        if !self.starts_state() {
            return self.misplaced();
        }
        let place = self.place();
        Self::within(before + 1, STATES, place)?;
        let mut state = State { place, label: None, value: None, actions: Vec::new() };
        if matches!(self.word_at(0), Some(Word::Name(_))) && matches!(self.sign_at(1), ":" | "(") {
            state.label = Some(self.take_name()?);
            state.value = self.state_value()?;
            self.take(":")?;
        }
        if !self.sees("/") {
            state.actions = self.state_actions()?;
        }
        self.take("/")?;
        Ok(state)
    }

    fn state_value(&mut self) -> Result<Option<Constant>, Refusal> {
        if !self.sees("(") {
            return Ok(None);
        }
        self.open_bracket("(")?;
        let value = self.take_constant()?;
        self.close_bracket(")")?;
        Ok(Some(value))
    }
}
