//! The grammar of actions, in operations and in states.

use crate::description::*;
use crate::grammar::Grammar;
use crate::refusal::Refusal;
use crate::words::Word;

/// Where an action stands: stores belong to operations, next states to states.
#[derive(Clone, Copy, PartialEq)]
enum Within {
    Operation,
    State,
}

impl Grammar<'_> {
    pub fn operation_actions(&mut self) -> Result<Vec<Action>, Refusal> {
        self.actions(Within::Operation)
    }

    pub fn state_actions(&mut self) -> Result<Vec<Action>, Refusal> {
        self.actions(Within::State)
    }

    fn actions(&mut self, within: Within) -> Result<Vec<Action>, Refusal> {
        let mut actions = vec![self.action(within)?];
        while self.sees(",") {
            self.step();
            actions.push(self.action(within)?);
        }
        Ok(actions)
    }

    fn action(&mut self, within: Within) -> Result<Action, Refusal> {
        match (self.sign_at(0), within) {
            ("IF" | "CASE", _) => {
                let conditional = self.conditional(1, |grammar| grammar.actions(within))?;
                Ok(Action::Conditional(conditional))
            }
            ("->" | "=>" | "RETURN", Within::State) => self.next_state(),
            _ => self.named_action(within),
        }
    }

    fn next_state(&mut self) -> Result<Action, Refusal> {
        let sign = self.sign_at(0);
        let place = self.step();
        self.count(place)?;
        Ok(match sign {
            "->" => Action::Goto(self.take_name()?),
            "=>" => Action::Call(self.take_name()?),
            _ => Action::Return,
        })
    }

    /// The word after the name says whether it begins a left side.
    fn named_action(&mut self, within: Within) -> Result<Action, Refusal> {
        let begins_left_side = match within {
            Within::Operation => matches!(self.sign_at(1), "[" | "CON" | "<-" | "=" | "@"),
            Within::State => matches!(self.sign_at(1), "[" | "@"),
        };
        let name = self.take_name()?;
        if !begins_left_side {
            self.count(name.place)?;
            return Ok(Action::Operation(name));
        }
        let left = self.reference(name)?;
        if self.sees("@") {
            let sign = self.step();
            self.count(sign)?;
            return Ok(Action::Set { left, sign });
        }
        match within {
            Within::Operation => self.store(left),
            Within::State => self.misplaced(),
        }
    }

    fn store(&mut self, first: Reference) -> Result<Action, Refusal> {
        let mut left = vec![first];
        if self.sees("CON") {
            self.step();
            let name = self.take_name()?;
            left.push(self.reference(name)?);
        }
        if !self.sees("<-") && !self.sees("=") {
            return self.misplaced();
        }
        let delayed = self.sees("<-");
        let sign = self.step();
        self.count(sign)?;
        Ok(Action::Store { left, sign, delayed, right: self.expression()? })
    }

    /// From IF or CASE to its end, with at least `fewest` arms.
    pub fn conditional<Arm>(
        &mut self,
        fewest: usize,
        arm: impl Fn(&mut Self) -> Result<Arm, Refusal>,
    ) -> Result<Conditional<Arm>, Refusal> {
        let (choice, before, between, after) = match self.sign_at(0) {
            "IF" => (Choice::If, "THEN", "ELSE", "ENDIF"),
            _ => (Choice::Case, "DO", "DO", "ENDCASE"),
        };
        let place = self.step();
        self.count(place)?;
        self.open(place)?;
        let condition = self.expression()?;
        self.take(before)?;
        let mut arms = vec![arm(self)?];
        let full = |arms: usize| choice == Choice::If && arms == 2;
        while arms.len() < fewest || (self.sees(between) && !full(arms.len())) {
            self.take(between)?;
            arms.push(arm(self)?);
        }
        self.take(after)?;
        self.close();
        Ok(Conditional { choice, place, condition, arms })
    }

    /// The subscripts of a name just taken.
    pub fn reference(&mut self, name: Name) -> Result<Reference, Refusal> {
        let mut subscripts = Vec::new();
        if !self.sees("[") {
            return Ok(Reference { name, subscripts });
        }
        self.open_bracket("[")?;
        subscripts.push(self.subscript()?);
        let single = matches!(subscripts[0], Subscript::Single(_));
        if single && self.sees(",") {
            self.step();
            subscripts.push(self.subscript()?);
        }
        self.close_bracket("]")?;
        if single && subscripts.len() == 1 && self.sees("[") {
            self.open_bracket("[")?;
            subscripts.push(self.subscript()?);
            self.close_bracket("]")?;
        }
        Ok(Reference { name, subscripts })
    }

    fn subscript(&mut self) -> Result<Subscript, Refusal> {
        let is_part = matches!(self.word_at(0), Some(Word::Constant { .. })) && self.sign_at(1) == ":";
        if !is_part {
            return Ok(Subscript::Single(self.expression()?));
        }
        let first = self.take_constant()?;
        self.take(":")?;
        Ok(Subscript::Part(first, self.take_constant()?))
    }
}
