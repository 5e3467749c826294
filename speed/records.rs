//! Images written record by record after docs/IMAGE.md, so that anything can
//! stand in them. Each has the facilities below, an operation O, and a state
//! P that names it and goes on to itself.

use second::image::{ACTION, EXPRESSION, FACILITY, HEADER, NO_VALUE, OPERATION, STATE};

/// One bit; bits 0 and 1; bits 1 and 2, so that 0 is outside.
pub const A: u8 = 0;
pub const X: u8 = 1;
pub const Y: u8 = 2;
/// A memory whose words have bits 0 and 1; it nearly fills the store, so that a cycle takes the most room for stores.
pub const M: u8 = 3;
/// Plain terminals: one bit; bits 0 and 1.
pub const T: u8 = 4;
pub const U: u8 = 5;
/// The first computed terminal, of one bit, in images that have one.
pub const C: u8 = 6;
/// Each but the computed ones: kind, dimensions, bounds of words and bits, and place in the store.
const FACILITIES: [(u8, u8, [u16; 5]); 6] = [
    (0, 0, [0, 0, 0, 0, 0]),
    (0, 1, [0, 0, 0, 1, 1]),
    (0, 1, [0, 0, 1, 2, 2]),
    (2, 2, [0, 15_999, 0, 1, 3]),
    (3, 0, [0, 0, 0, 0, 16_003]),
    (3, 1, [0, 0, 0, 1, 16_004]),
];
const NAMES: &[u8] = b"AXYMTU";
const COMPUTED: u8 = 5;
/// What computed terminals and operations are called: a letter and three digits.
const NUMBERED: usize = 4;

#[derive(Clone, Default)]
pub struct Sketch {
    expressions: Vec<u8>,
    /// How deep each expression is.
    depths: Vec<usize>,
    actions: Vec<u8>,
    /// The expressions of the computed terminals.
    terminals: Vec<u16>,
    /// Where each operation's actions end.
    operations: Vec<usize>,
    /// The expression that is the state's value.
    pub value: Option<u16>,
    /// Whether the state has the name of the first facility.
    pub named_twice: bool,
    /// Operators, operands and actions.
    pub counted: usize,
}

fn halves(numbers: &[u16]) -> impl Iterator<Item = u8> + '_ {
    numbers.iter().flat_map(|number| number.to_le_bytes())
}

// What is counted, for the ceilings.
impl Sketch {
    /// Expression and action records.
    pub fn records(&self) -> usize {
        self.expressions.len() / EXPRESSION + self.actions.len() / ACTION
    }

    pub fn expression_records(&self) -> usize {
        self.depths.len()
    }

    pub fn depth(&self) -> usize {
        self.depths.iter().copied().max().unwrap_or(0)
    }

    fn depth_of(&self, number: u16) -> usize {
        self.depths.get(number as usize).copied().unwrap_or(0)
    }
}

// Records.
impl Sketch {
    /// An expression's record; answers its number.
    pub fn expression(&mut self, mark: u8, x: u8, fields: [u16; 3]) -> u16 {
        let below = match mark {
            1..=3 | 5 => 0,
            6 | 9 | 10 | 64..=127 => self.depth_of(fields[0]).max(self.depth_of(fields[1])),
            _ => self.depth_of(fields[0]),
        };
        self.counted += !matches!(mark, 2 | 8 | 9) as usize;
        self.depths.push(below + 1);
        self.expressions.extend([mark, x]);
        self.expressions.extend(halves(&fields));
        (self.depths.len() - 1) as u16
    }

    pub fn whole(&mut self, facility: u8) -> u16 {
        self.expression(3, facility, [0; 3])
    }

    pub fn bit(&mut self, value: u16) -> u16 {
        self.expression(1, 0, [value, 0, 0])
    }

    /// An action's record; answers its number. Left sides are no operands.
    pub fn action(&mut self, mark: u8, fields: [u16; 3]) -> usize {
        let left = [0, 1, 1, 2, 2, 1].get(mark as usize).copied().unwrap_or(0);
        self.counted = self.counted + (mark != 12) as usize - left;
        self.actions.push(mark);
        self.actions.extend(halves(&fields));
        self.actions.len() / ACTION - 1
    }

    /// All records from this one on belong to it; its field says how many.
    pub fn hold(&mut self, action: usize, field: usize) {
        let following = (self.actions.len() / ACTION - action - 1) as u16;
        let at = action * ACTION + 1 + 2 * field;
        self.actions[at..at + 2].copy_from_slice(&following.to_le_bytes());
    }

    pub fn end_terminal(&mut self, expression: u16) {
        self.terminals.push(expression);
    }

    /// The actions since the last operation are one.
    pub fn end_operation(&mut self) {
        self.operations.push(self.actions.len() / ACTION);
    }
}

// The image.
impl Sketch {
    fn facilities(&self) -> Vec<u8> {
        let mut bytes = Vec::new();
        for (kind, dimensions, fields) in FACILITIES {
            bytes.extend([kind, dimensions, 1]);
            bytes.extend(halves(&fields));
        }
        for &expression in &self.terminals {
            bytes.extend([COMPUTED, 0, NUMBERED as u8]);
            bytes.extend(halves(&[0, 0, 0, 0, expression]));
        }
        bytes
    }

    fn runs(&self) -> Vec<u8> {
        let mut bytes = Vec::new();
        let mut first = 0;
        for &end in &self.operations {
            bytes.push(NUMBERED as u8);
            bytes.extend(halves(&[first as u16, (end - first) as u16]));
            first = end;
        }
        bytes
    }

    fn state(&self) -> Vec<u8> {
        let first = self.operations.last().copied().unwrap_or(0);
        let count = self.actions.len() / ACTION - first;
        let fields = [self.value.unwrap_or(NO_VALUE), first as u16, count as u16];
        [1].into_iter().chain(halves(&fields)).collect()
    }

    fn names(&self) -> Vec<u8> {
        let numbered = |letter: char, count: usize| (0..count).map(move |number| format!("{letter}{number:03}"));
        let terminals = numbered('C', self.terminals.len()).flat_map(String::into_bytes);
        let operations = numbered('O', self.operations.len()).flat_map(String::into_bytes);
        let label = if self.named_twice { b'A' } else { b'P' };
        NAMES.iter().copied().chain(terminals).chain(operations).chain([label]).collect()
    }

    pub fn image(&self) -> Vec<u8> {
        let sections = [
            (self.facilities(), FACILITY),
            (self.runs(), OPERATION),
            (self.expressions.clone(), EXPRESSION),
            (self.actions.clone(), ACTION),
            (self.state(), STATE),
            (self.names(), 1),
        ];
        let total = HEADER + sections.iter().map(|(section, _)| section.len()).sum::<usize>();
        let mut header = vec![total as u32];
        let mut offset = HEADER;
        for (section, size) in &sections {
            header.extend([(section.len() / size) as u32, offset as u32]);
            offset += section.len();
        }
        let header = header.into_iter().flat_map(u32::to_le_bytes);
        header.chain(sections.into_iter().flat_map(|(section, _)| section)).collect()
    }
}
