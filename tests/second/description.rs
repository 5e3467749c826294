//! What a text describes. Each part that may be at fault bears its place.

use crate::refusal::Place;
use crate::value::Bits;
use std::collections::HashMap;

#[derive(Clone, Debug)]
pub struct Name {
    pub text: String,
    pub place: Place,
}

#[derive(Clone, Debug)]
pub struct Constant {
    pub value: Bits,
    pub bare: bool,
    pub place: Place,
}

#[derive(Clone, Copy, Debug, PartialEq, Eq)]
pub enum Prefix {
    Complement,
    Negate,
    ReduceOr,
    ReduceAnd,
    ReduceXor,
    ReduceSum,
}

#[derive(Clone, Copy, Debug, PartialEq, Eq)]
pub enum Infix {
    Or,
    Xor,
    And,
    Join,
    Equal,
    Unequal,
    Less,
    Greater,
    AtLeast,
    AtMost,
    Sum,
    Difference,
}

#[derive(Clone, Copy, Debug, PartialEq, Eq)]
pub enum Counted {
    Head,
    Tail,
    Extend,
}

#[derive(Clone, Debug)]
pub enum Expression {
    Constant(Constant),
    Reference(Reference),
    Prefix { operator: Prefix, place: Place, operand: Box<Expression> },
    Infix { operator: Infix, place: Place, left: Box<Expression>, right: Box<Expression> },
    Counted { operator: Counted, place: Place, operand: Box<Expression>, count: Constant },
    Conditional(Box<Conditional<Expression>>),
}

#[derive(Clone, Debug)]
pub struct Reference {
    pub name: Name,
    pub subscripts: Vec<Subscript>,
}

/// A part stands only as the last subscript.
#[derive(Clone, Debug)]
pub enum Subscript {
    Single(Expression),
    Part(Constant, Constant),
}

#[derive(Clone, Copy, Debug, PartialEq, Eq)]
pub enum Choice {
    If,
    Case,
}

/// The arms of an IF are those of THEN and, if given, ELSE.
#[derive(Clone, Debug)]
pub struct Conditional<Arm> {
    pub choice: Choice,
    pub place: Place,
    pub condition: Expression,
    pub arms: Vec<Arm>,
}

#[derive(Clone, Debug)]
pub enum Action {
    Store { left: Vec<Reference>, sign: Place, delayed: bool, right: Expression },
    Set { left: Reference, sign: Place },
    Operation(Name),
    Goto(Name),
    Call(Name),
    Return,
    Conditional(Conditional<Vec<Action>>),
}

#[derive(Clone, Debug)]
pub struct Dimension {
    pub first: Option<Constant>,
    pub last: Constant,
}

#[derive(Clone, Debug)]
pub enum Kind {
    Register { sequencing: bool },
    Memory,
    Plain,
    Input,
    Computed { sign: Place, expression: Expression },
}

#[derive(Clone, Debug)]
pub struct Facility {
    pub name: Name,
    pub dimensions: Vec<Dimension>,
    pub kind: Kind,
}

#[derive(Clone, Debug)]
pub struct Operation {
    pub name: Name,
    pub actions: Vec<Action>,
}

#[derive(Clone, Debug)]
pub struct State {
    pub place: Place,
    pub label: Option<Name>,
    pub value: Option<Constant>,
    pub actions: Vec<Action>,
}

/// A text that obeys the grammar, before its names mean anything.
#[derive(Clone, Debug)]
pub struct Outline {
    pub facilities: Vec<Facility>,
    pub operations: Vec<Operation>,
    pub states: Vec<State>,
}

#[derive(Clone, Copy, Debug, PartialEq, Eq)]
pub enum Meaning {
    Facility(usize),
    Operation(usize),
    State(usize),
}

impl Meaning {
    pub fn number(self) -> usize {
        match self {
            Meaning::Facility(number) | Meaning::Operation(number) | Meaning::State(number) => number,
        }
    }
}

/// A legal description: the outline, what its names mean, each facility's
/// shape, the sequencing register and the states' values for it.
#[derive(Clone, Debug)]
pub struct Description {
    pub outline: Outline,
    pub meanings: HashMap<String, Meaning>,
    pub shapes: Vec<Shape>,
    pub sequencing: Option<usize>,
    pub values: Vec<Bits>,
}

impl Description {
    /// The computed terminals have no place in the store.
    pub fn is_stored(&self, facility: usize) -> bool {
        !matches!(self.outline.facilities[facility].kind, Kind::Computed { .. })
    }

    /// Where a facility's first word stands in the store.
    pub fn store_place(&self, facility: usize) -> Option<usize> {
        let before = (0..facility).filter(|&number| self.is_stored(number));
        let place = before.map(|number| self.shapes[number].bytes()).sum();
        self.is_stored(facility).then_some(place)
    }

    /// The number that a name bears among its kind. Where a name stands
    /// says what kind it is of, since the description is legal.
    pub fn number(&self, name: &Name) -> usize {
        self.meanings[&name.text].number()
    }

    /// The numbers of the input terminals, as declared.
    pub fn inputs(&self) -> impl Iterator<Item = usize> + '_ {
        let is_input = |i: &usize| matches!(self.outline.facilities[*i].kind, Kind::Input);
        (0..self.outline.facilities.len()).filter(is_input)
    }
}

/// First and last bound of a dimension, in declared order.
#[derive(Clone, Copy, Debug, PartialEq, Eq)]
pub struct Bounds {
    pub first: usize,
    pub last: usize,
}

impl Bounds {
    pub fn size(self) -> usize {
        self.first.abs_diff(self.last) + 1
    }

    /// How far a subscript stands from the first bound, if it lies within.
    pub fn position(self, subscript: usize) -> Option<usize> {
        let within = subscript >= self.first.min(self.last) && subscript <= self.first.max(self.last);
        within.then(|| subscript.abs_diff(self.first))
    }
}

/// The bounds of a facility's dimensions: none, its bits', or its words' and its bits'.
#[derive(Clone, Debug, PartialEq, Eq)]
pub struct Shape(pub Vec<Bounds>);

impl Shape {
    pub fn words(&self) -> usize {
        if self.0.len() == 2 {
            self.0[0].size()
        } else {
            1
        }
    }

    pub fn bits(&self) -> usize {
        self.0.last().map_or(1, |bounds| bounds.size())
    }

    pub fn bytes(&self) -> usize {
        self.words() * self.bits().div_ceil(8)
    }
}
