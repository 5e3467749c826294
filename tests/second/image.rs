//! The image of a description, written from docs/IMAGE.md: a header, then
//! facilities, operations, expressions, actions, states and names.

use crate::description::*;
use crate::value::Bits;

pub const HEADER: usize = 52;
pub const FACILITY: usize = 13;
pub const OPERATION: usize = 5;
pub const EXPRESSION: usize = 8;
pub const ACTION: usize = 7;
pub const STATE: usize = 7;
/// The bits of a constant that one record holds.
pub const DIGIT: usize = 48;
/// Stands for the value of a state that has none.
pub const NO_VALUE: u16 = 65_535;

pub const PREFIXES: [(Prefix, u8); 6] = [
    (Prefix::Complement, 10),
    (Prefix::Negate, 23),
    (Prefix::ReduceOr, 8),
    (Prefix::ReduceAnd, 7),
    (Prefix::ReduceXor, 21),
    (Prefix::ReduceSum, 22),
];
pub const INFIXES: [(Infix, u8); 12] = [
    (Infix::Or, 8),
    (Infix::Xor, 21),
    (Infix::And, 7),
    (Infix::Join, 38),
    (Infix::Equal, 24),
    (Infix::Unequal, 3),
    (Infix::Less, 15),
    (Infix::Greater, 17),
    (Infix::AtLeast, 25),
    (Infix::AtMost, 26),
    (Infix::Sum, 22),
    (Infix::Difference, 23),
];
pub const COUNTED: [(Counted, u8); 3] = [(Counted::Extend, 40), (Counted::Head, 41), (Counted::Tail, 42)];

/// The number of an operator's word.
fn word_of<T: PartialEq>(table: &[(T, u8)], operator: T) -> u8 {
    table.iter().find(|(known, _)| *known == operator).map_or(0, |(_, word)| *word)
}

/// The sections under way. A section's records are kept as bytes.
struct Writer<'a> {
    description: &'a Description,
    facilities: Vec<u8>,
    operations: Vec<u8>,
    expressions: Vec<u8>,
    actions: Vec<u8>,
    states: Vec<u8>,
    names: Vec<u8>,
}

pub fn image(description: &Description) -> Vec<u8> {
    let mut writer = Writer {
        description,
        facilities: Vec::new(),
        operations: Vec::new(),
        expressions: Vec::new(),
        actions: Vec::new(),
        states: Vec::new(),
        names: Vec::new(),
    };
    let outline = &description.outline;
    outline.facilities.iter().enumerate().for_each(|(number, facility)| writer.facility(number, facility));
    outline.operations.iter().for_each(|operation| writer.operation(operation));
    outline.states.iter().enumerate().for_each(|(number, state)| writer.state(number, state));
    writer.whole()
}

fn halves(numbers: &[u16]) -> impl Iterator<Item = u8> + '_ {
    numbers.iter().flat_map(|number| number.to_le_bytes())
}

// Header and declarations.
impl Writer<'_> {
    fn whole(self) -> Vec<u8> {
        let sections = [
            (self.facilities, FACILITY),
            (self.operations, OPERATION),
            (self.expressions, EXPRESSION),
            (self.actions, ACTION),
            (self.states, STATE),
            (self.names, 1),
        ];
        let total = HEADER + sections.iter().map(|(section, _)| section.len()).sum::<usize>();
        let mut header = vec![total as u32];
        let mut offset = HEADER;
        for (section, size) in &sections {
            header.extend([(section.len() / size) as u32, offset as u32]);
            offset += section.len();
        }
        let header = header.into_iter().flat_map(u32::to_le_bytes);
        header.chain(sections.into_iter().flat_map(|(section, _)| section)).collect()
    }

    fn name(&mut self, name: Option<&Name>) -> u8 {
        let text = name.map_or("", |name| &name.text);
        self.names.extend(text.bytes());
        text.len() as u8
    }

    fn facility(&mut self, number: usize, facility: &Facility) {
        let kind = match &facility.kind {
            Kind::Register { sequencing } => *sequencing as u8,
            Kind::Memory => 2,
            Kind::Plain => 3,
            Kind::Input => 4,
            Kind::Computed { .. } => 5,
        };
        let last = match &facility.kind {
            Kind::Computed { expression, .. } => self.expression(expression),
            _ => self.description.store_place(number).unwrap_or(0) as u16,
        };
        let bounds = &self.description.shapes[number].0;
        let mut fields = [0; 5];
        // The bits' bounds stand last, whether or not words have bounds.
        for (order, bounds) in bounds.iter().rev().enumerate() {
            let at = 2 - 2 * order;
            (fields[at], fields[at + 1]) = (bounds.first as u16, bounds.last as u16);
        }
        fields[4] = last;
        let name = self.name(Some(&facility.name));
        self.facilities.extend([kind, bounds.len() as u8, name]);
        self.facilities.extend(halves(&fields));
    }

    fn operation(&mut self, operation: &Operation) {
        let name = self.name(Some(&operation.name));
        let run = self.run(&operation.actions);
        self.operations.push(name);
        self.operations.extend(halves(&run));
    }

    fn state(&mut self, number: usize, state: &State) {
        let name = self.name(state.label.as_ref());
        let value = match self.description.sequencing {
            Some(_) => self.constant(&self.description.values[number]),
            None => NO_VALUE,
        };
        let run = self.run(&state.actions);
        self.states.push(name);
        self.states.extend(halves(&[value, run[0], run[1]]));
    }
}

// Expressions: each answers the number of its last record.
impl Writer<'_> {
    fn record(&mut self, mark: u8, x: u8, fields: [u16; 3]) -> u16 {
        let number = self.expressions.len() / EXPRESSION;
        self.expressions.extend([mark, x]);
        self.expressions.extend(halves(&fields));
        number as u16
    }

    fn expression(&mut self, expression: &Expression) -> u16 {
        match expression {
            Expression::Constant(constant) => self.constant(&constant.value),
            Expression::Reference(reference) => self.reference(reference),
            Expression::Prefix { operator, operand, .. } => {
                let operand = self.expression(operand);
                self.record(128 + word_of(&PREFIXES, *operator), 0, [operand, 0, 0])
            }
            Expression::Infix { operator, left, right, .. } => {
                let (left, right) = (self.expression(left), self.expression(right));
                self.record(64 + word_of(&INFIXES, *operator), 0, [left, right, 0])
            }
            Expression::Counted { operator, operand, count, .. } => {
                let (operand, count) = (self.expression(operand), count.value.number() as u16);
                self.record(192 + word_of(&COUNTED, *operator), 0, [operand, count, 0])
            }
            Expression::Conditional(conditional) => self.conditional(conditional),
        }
    }

    /// The highest bits first; the last record says how long the constant is.
    fn constant(&mut self, value: &Bits) -> u16 {
        let records = value.len().div_ceil(DIGIT);
        let whole = value.fitted(records * DIGIT);
        let mut number = 0;
        for order in 0..records {
            let last = order + 1 == records;
            let (mark, x) = if last { (1, value.len() - 1) } else { (2, 0) };
            let digit = whole.part(order * DIGIT, DIGIT).number();
            let field = |place: usize| (digit >> (16 * place)) as u16;
            number = self.record(mark, x as u8, [field(0), field(1), field(2)]);
        }
        number
    }

    fn reference(&mut self, reference: &Reference) -> u16 {
        let facility = self.description.number(&reference.name) as u8;
        let end = |constant: &Constant| constant.value.number() as u16;
        match &reference.subscripts[..] {
            [Subscript::Single(one)] => {
                let one = self.expression(one);
                self.record(4, facility, [one, 0, 0])
            }
            [Subscript::Part(first, last)] => self.record(5, facility, [end(first), end(last), 0]),
            [Subscript::Single(one), Subscript::Single(two)] => {
                let (one, two) = (self.expression(one), self.expression(two));
                self.record(6, facility, [one, two, 0])
            }
            [Subscript::Single(one), Subscript::Part(first, last)] => {
                let one = self.expression(one);
                self.record(7, facility, [one, end(first), end(last)])
            }
            _ => self.record(3, facility, [0; 3]),
        }
    }

    fn conditional(&mut self, conditional: &Conditional<Expression>) -> u16 {
        let condition = self.expression(&conditional.condition);
        let mut last = None;
        for arm in &conditional.arms {
            let expression = self.expression(arm);
            last = Some(match last {
                None => self.record(8, 0, [expression, 0, 0]),
                Some(before) => self.record(9, 0, [before, expression, 0]),
            });
        }
        self.record(10, 0, [condition, last.unwrap_or(0), conditional.arms.len() as u16])
    }
}

// Actions.
impl Writer<'_> {
    fn action_records(&self) -> u16 {
        (self.actions.len() / ACTION) as u16
    }

    fn act(&mut self, mark: u8, fields: [u16; 3]) {
        self.actions.push(mark);
        self.actions.extend(halves(&fields));
    }

    /// The first record's number, and how many there are.
    fn run(&mut self, actions: &[Action]) -> [u16; 2] {
        let first = self.action_records();
        actions.iter().for_each(|action| self.action(action));
        [first, self.action_records() - first]
    }

    fn action(&mut self, action: &Action) {
        match action {
            Action::Store { left, delayed, right, .. } => self.store(left, *delayed, right),
            Action::Set { left, .. } => {
                let left = self.reference(left);
                self.act(5, [left, 0, 0]);
            }
            Action::Operation(name) => self.act(6, [self.description.number(name) as u16, 0, 0]),
            Action::Goto(name) => self.act(7, [self.description.number(name) as u16, 0, 0]),
            Action::Call(name) => self.act(8, [self.description.number(name) as u16, 0, 0]),
            Action::Return => self.act(9, [0; 3]),
            Action::Conditional(conditional) => self.conditional_action(conditional),
        }
    }

    fn store(&mut self, left: &[Reference], delayed: bool, right: &Expression) {
        let immediate = !delayed as u8;
        let lefts: Vec<u16> = left.iter().map(|reference| self.reference(reference)).collect();
        let right = self.expression(right);
        match lefts[..] {
            [one, two] => self.act(3 + immediate, [one, two, right]),
            _ => self.act(1 + immediate, [lefts[0], right, 0]),
        }
    }

    /// The conditional and each arm are written first, their counts once they are known.
    fn conditional_action(&mut self, conditional: &Conditional<Vec<Action>>) {
        let condition = self.expression(&conditional.condition);
        let at = self.actions.len();
        let arms = conditional.arms.len() as u16;
        self.act(if arms == 1 { 10 } else { 11 }, [condition, arms, 0]);
        for arm in &conditional.arms {
            let at = self.actions.len();
            self.act(12, [0; 3]);
            self.run(arm);
            self.counted(at, 1);
        }
        self.counted(at, if arms == 1 { 3 } else { 5 });
    }

    /// How many records follow the one that begins here, into its field.
    fn counted(&mut self, at: usize, field: usize) {
        let count = (self.actions.len() - at) / ACTION - 1;
        self.actions[at + field..at + field + 2].copy_from_slice(&(count as u16).to_le_bytes());
    }
}
