//! Legal descriptions, legal by construction: every name, length, bound,
//! count and byte is kept while the words are written.

use crate::description::{Bounds, Shape};
use crate::trials::phrases::Room;
use crate::trials::piece::{spelled, spelled_long, Piece};
use crate::trials::random::Random;
use crate::words::RESERVED;
use std::collections::HashSet;

#[derive(Clone, Copy, PartialEq)]
pub enum MadeKind {
    Register { sequencing: bool },
    Memory,
    Plain,
    Input,
    Computed { work: usize },
}

#[derive(Clone)]
pub struct Made {
    pub name: String,
    pub kind: MadeKind,
    pub bounds: Vec<Bounds>,
}

impl Made {
    fn bits(&self) -> usize {
        self.bounds.last().map_or(1, |bounds| bounds.size())
    }
}

pub struct Maker {
    pub random: Random,
    pub facilities: Vec<Made>,
    pub operations: Vec<(String, usize)>,
    pub states: Vec<MadeState>,
    /// How many of a hundred next states are calls.
    pub calls: usize,
    names: HashSet<String>,
    store: usize,
    counted: usize,
    size: usize,
}

#[derive(Clone)]
pub struct MadeState {
    pub label: Option<String>,
    pub value: Option<usize>,
}

// Well below the ceilings, which have tests of their own.
const STORE: usize = 16_000;
const COUNTED: usize = 1_900;
const SIZE: usize = 20_000;
const TERMINAL_WORK: usize = 500;
const OPERATION_WORK: usize = 3_000;
const STATE_WORK: usize = 65_536;

/// The words of a legal description.
pub fn legal(random: Random) -> Vec<String> {
    let mut maker = Maker {
        random,
        facilities: Vec::new(),
        operations: Vec::new(),
        states: Vec::new(),
        calls: 0,
        names: HashSet::new(),
        store: 0,
        counted: 0,
        size: 0,
    };
    maker.calls = maker.random.pick(&[0, 10, 90]);
    let mut words = maker.facility_sections();
    words.extend(maker.operation_section());
    words.extend(maker.control_section());
    words
}

// Sections.
impl Maker {
    pub fn room(&mut self, nesting: usize) -> Room {
        Room { nesting, terms: self.random.pick(&[0, 1, 2, 4, 8, 16]) }
    }

    fn section_end(&mut self) -> String {
        self.random.pick(&[".", ".", ".", "END"]).to_string()
    }

    /// Lists the parts after the section's head; a section without parts is left out.
    fn section(&mut self, head: &str, parts: Vec<Piece>) -> Vec<String> {
        if parts.is_empty() {
            return Vec::new();
        }
        let mut words = vec![head.to_string()];
        for part in parts {
            words.extend(part.words);
            words.push(",".to_string());
        }
        words.pop();
        words.push(self.section_end());
        words
    }

    fn facility_sections(&mut self) -> Vec<String> {
        let most = self.random.pick(&[1, 3, 6, 12]);
        let registers = self.random.between(0, most);
        let memories = self.random.between(0, most / 2);
        let terminals = self.random.between((registers + memories == 0) as usize, most);
        let sequencing = registers > 0 && self.random.chance(40);
        let registers = (0..registers).map(|i| self.register(sequencing && i == 0)).collect();
        let mut words = self.section("REGISTER", registers);
        let memories = (0..memories).map(|_| self.stored(MadeKind::Memory)).collect();
        words.extend(self.section("MEMORY", memories));
        let terminals = (0..terminals).map(|_| self.terminal()).collect();
        words.extend(self.section("TERMINAL", terminals));
        words
    }

    fn operation_section(&mut self) -> Vec<String> {
        self.plan_states();
        let most = self.random.pick(&[0, 2, 6, 15]);
        let parts = (0..most).filter_map(|_| self.operation()).collect();
        let mut words = self.section("OPERATION", parts);
        if self.random.chance(20) {
            words.pop();
        }
        words
    }

    fn control_section(&mut self) -> Vec<String> {
        let mut words = vec!["CONTROL".to_string()];
        for state in self.states.clone() {
            words.extend(self.state(&state));
        }
        words.push(self.section_end());
        if self.random.chance(50) {
            words.push("$".to_string());
        }
        words
    }
}

// Facilities.
impl Maker {
    pub fn name(&mut self) -> String {
        loop {
            let length = if self.random.chance(3) { self.random.between(100, 132) } else { self.random.between(1, 6) };
            let mut name = (self.random.pick(b"ABCDEFGHIJKLMNOPQRSTUVWXYZ") as char).to_string();
            while name.len() < length {
                name.push(self.random.pick(b"ABDEFHQX0123456789") as char);
            }
            if !RESERVED.contains(&&name[..]) && self.names.insert(name.clone()) {
                return name;
            }
        }
    }

    pub fn some_length(&mut self) -> usize {
        match self.random.below(10) {
            0..=2 => 1,
            3..=5 => self.random.between(2, 9),
            6 | 7 => self.random.pick(&[15, 16, 17, 31, 32, 33]),
            8 => self.random.pick(&[63, 64, 65, 127, 128, 129]),
            _ => self.random.pick(&[254, 255, 256]),
        }
    }

    fn some_bounds(&mut self, size: usize) -> Bounds {
        let low = self.random.pick(&[0, 0, 1, 1, 7, 300, 65_536 - size]);
        let (low, high) = (low, low + size - 1);
        if self.random.chance(50) {
            Bounds { first: low, last: high }
        } else {
            Bounds { first: high, last: low }
        }
    }

    fn register(&mut self, sequencing: bool) -> Piece {
        if !sequencing {
            return self.stored(MadeKind::Register { sequencing });
        }
        let length = self.random.pick(&[1, 2, 3, 4, 8, 64, 65, 256]);
        let bounds = if length == 1 { Vec::new() } else { vec![self.some_bounds(length)] };
        Piece::default().word("#").with(self.declared(MadeKind::Register { sequencing }, bounds))
    }

    /// A stored facility of any shape that the store has room for.
    fn stored(&mut self, kind: MadeKind) -> Piece {
        let long = if self.random.chance(10) { self.random.between(257, 700) } else { self.some_length() };
        let words = self.random.pick(&[1, 2, 4, 5, 16, 300]);
        let bounds = match self.random.below(3) {
            0 => Vec::new(),
            1 => vec![self.some_bounds(long)],
            _ if kind == MadeKind::Input => vec![self.some_bounds(long)],
            _ => vec![self.some_bounds(words), self.some_bounds(long)],
        };
        let bytes = Shape(bounds.clone()).bytes();
        let fits = self.store + bytes <= STORE;
        self.store += if fits { bytes } else { 1 };
        self.declared(kind, if fits { bounds } else { Vec::new() })
    }

    fn declared(&mut self, kind: MadeKind, bounds: Vec<Bounds>) -> Piece {
        let name = self.name();
        let mut piece = Piece::default().word(&name);
        for (order, bounds) in bounds.iter().enumerate() {
            piece = piece.word(if order == 0 { "[" } else { "," }).with(self.dimension(*bounds));
        }
        if !bounds.is_empty() {
            piece = piece.word("]");
        }
        self.facilities.push(Made { name, kind, bounds });
        self.size += piece.size();
        piece
    }

    fn dimension(&mut self, bounds: Bounds) -> Piece {
        let last = spelled(bounds.last, &mut self.random);
        if bounds.first == 1 && self.random.chance(70) {
            return Piece::default().word(&last);
        }
        let first = spelled(bounds.first, &mut self.random);
        Piece::default().word(&first).word(":").word(&last)
    }

    fn terminal(&mut self) -> Piece {
        match self.random.below(3) {
            0 => self.stored(MadeKind::Plain),
            1 => {
                let piece = self.stored(MadeKind::Input);
                let name = piece.words[0].clone();
                let constant = spelled(self.random.below(99_999), &mut self.random);
                piece.word("=").word("INPUT").word("(").word(&constant).word(",").word(&name).word(")")
            }
            _ => self.computed(),
        }
    }

    /// The expression is made first, since the terminal is not yet known in it.
    fn computed(&mut self) -> Piece {
        let room = self.room(24);
        let mut expression = self.expression(room);
        if expression.work > TERMINAL_WORK || !self.has_room(&expression) {
            expression = self.constant(1);
        }
        self.spend(&expression);
        let bounds = match expression.length {
            1 if self.random.chance(70) => Vec::new(),
            length => vec![self.some_bounds(length)],
        };
        let work = expression.work;
        self.declared(MadeKind::Computed { work }, bounds).word("=").with(expression)
    }
}

// What has been spent.
impl Maker {
    pub fn has_room(&self, piece: &Piece) -> bool {
        self.counted + piece.counted <= COUNTED && self.size + piece.size() <= SIZE
    }

    pub fn spend(&mut self, piece: &Piece) {
        self.counted += piece.counted;
        self.size += piece.size();
    }
}

// Operations and states.
impl Maker {
    /// Labels and values come first: stores to the sequencing register use them.
    fn plan_states(&mut self) {
        let length = self.sequencing_length();
        let most = length.map_or(20, |length| 1 << length.min(4));
        let count = self.random.between(1, most);
        let mut values = Vec::new();
        while values.len() < count {
            let value = self.random.below(1 << length.unwrap_or(16).min(16));
            if !values.contains(&value) {
                values.push(value);
            }
        }
        for value in values {
            let value = length.map(|_| value);
            let label = value.is_some() || self.random.chance(80);
            let label = label.then(|| self.name());
            self.states.push(MadeState { label, value });
        }
    }

    pub fn sequencing_length(&self) -> Option<usize> {
        let sequencing = |made: &&Made| made.kind == MadeKind::Register { sequencing: true };
        self.facilities.iter().find(sequencing).map(Made::bits)
    }

    fn operation(&mut self) -> Option<Piece> {
        let most = self.random.pick(&[1, 2, 4]);
        let body = self.operation_actions(most, 23)?;
        if body.work > OPERATION_WORK || !self.has_room(&body) {
            return None;
        }
        self.spend(&body);
        let name = self.name();
        self.operations.push((name.clone(), body.work));
        Some(Piece::default().word(&name).word("=").word("[").with(body).word("]"))
    }

    fn state(&mut self, state: &MadeState) -> Vec<String> {
        let mut piece = Piece::default();
        if let Some(label) = &state.label {
            piece = piece.word(label);
            if let Some(value) = state.value {
                let value = self.state_value(value);
                piece = piece.word("(").word(&value).word(")");
            }
            piece = piece.word(":");
        }
        let actions = self.state_actions();
        if actions.work <= STATE_WORK && self.has_room(&actions) {
            self.spend(&actions);
            piece = piece.with(actions);
        }
        piece.word("/").words
    }

    /// Bare, or of the register's length.
    pub fn state_value(&mut self, value: usize) -> String {
        match self.sequencing_length() {
            Some(length) if self.random.chance(50) => spelled_long(value, length, &mut self.random),
            _ => value.to_string(),
        }
    }
}
