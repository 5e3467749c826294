//! Records one in another: what can stand around an expression or an action,
//! what stands innermost, and where the whole chain stands.

use crate::records::{Sketch, A, C, M, T, U, X, Y};

/// What stands around an expression of one bit and is one of one bit again.
/// What comes before the inner expression is written first.
#[derive(Clone, Copy)]
pub struct Level {
    pub name: &'static str,
    before: fn(&mut Sketch) -> u16,
    after: fn(&mut Sketch, u16, u16) -> u16,
}

fn no(_: &mut Sketch) -> u16 {
    0
}

fn operand(sketch: &mut Sketch) -> u16 {
    sketch.whole(A)
}

const fn level(name: &'static str, before: fn(&mut Sketch) -> u16, after: fn(&mut Sketch, u16, u16) -> u16) -> Level {
    Level { name, before, after }
}

/// A record with the inner expression as its only part.
fn around(sketch: &mut Sketch, mark: u8, inner: u16, count: u16) -> u16 {
    sketch.expression(mark, 0, [inner, count, 0])
}

/// The last bit of what is longer; an operator before its operand has no right one.
fn cut(sketch: &mut Sketch, mark: u8, left: u16, right: u16) -> u16 {
    let longer = sketch.expression(mark, 0, [left, right, 0]);
    around(sketch, 192 + 42, longer, 1)
}

/// A CASE of two arms, whose first arm is written.
fn choice(sketch: &mut Sketch, condition: u16, first: u16, last: u16) -> u16 {
    let arms = sketch.expression(9, 0, [first, last, 0]);
    sketch.expression(10, 0, [condition, arms, 2])
}

pub const PREFIXES: [Level; 4] = [
    level("complements", no, |sketch, _, inner| around(sketch, 128 + 10, inner, 0)),
    level("negations", no, |sketch, _, inner| cut(sketch, 128 + 23, inner, 0)),
    level("reductions", no, |sketch, _, inner| around(sketch, 128 + 8, inner, 0)),
    level("counts of ones", no, |sketch, _, inner| cut(sketch, 128 + 22, inner, 0)),
];

pub const CUTS: [Level; 3] = [
    level("EXT", no, |sketch, _, inner| around(sketch, 192 + 40, inner, 1)),
    level("HEAD", no, |sketch, _, inner| around(sketch, 192 + 41, inner, 1)),
    level("TAIL", no, |sketch, _, inner| around(sketch, 192 + 42, inner, 1)),
];

pub const INFIXES: [Level; 6] = [
    level("products to the left", no, |sketch, _, inner| {
        let right = operand(sketch);
        sketch.expression(64 + 7, 0, [inner, right, 0])
    }),
    level("products to the right", operand, |sketch, left, inner| sketch.expression(64 + 7, 0, [left, inner, 0])),
    level("relations to the right", operand, |sketch, left, inner| sketch.expression(64 + 15, 0, [left, inner, 0])),
    level("sums to the left", no, |sketch, _, inner| {
        let right = operand(sketch);
        cut(sketch, 64 + 22, inner, right)
    }),
    level("CON to the left", no, |sketch, _, inner| {
        let right = operand(sketch);
        cut(sketch, 64 + 38, inner, right)
    }),
    level("CON to the right", operand, |sketch, left, inner| cut(sketch, 64 + 38, left, inner)),
];

pub const SUBSCRIPTS: [Level; 4] = [
    level("subscripts", no, |sketch, _, inner| sketch.expression(4, X, [inner, 0, 0])),
    level("subscripts of words", no, |sketch, _, inner| {
        let bit = operand(sketch);
        sketch.expression(6, M, [inner, bit, 0])
    }),
    level("subscripts of bits", operand, |sketch, word, inner| sketch.expression(6, M, [word, inner, 0])),
    level("subscripts before parts", no, |sketch, _, inner| sketch.expression(7, M, [inner, 0, 0])),
];

/// Both arms are of one bit; one chooses the first, zero the last.
pub const CONDITIONALS: [Level; 3] = [
    level(
        "first arms",
        |sketch| sketch.bit(1),
        |sketch, condition, inner| {
            let first = around(sketch, 8, inner, 0);
            let last = operand(sketch);
            choice(sketch, condition, first, last)
        },
    ),
    level(
        "last arms",
        |sketch| {
            sketch.bit(0);
            let other = operand(sketch);
            around(sketch, 8, other, 0)
        },
        |sketch, first, inner| choice(sketch, first - 2, first, inner),
    ),
    level("conditions", no, |sketch, _, inner| {
        let first = operand(sketch);
        let first = around(sketch, 8, first, 0);
        let last = operand(sketch);
        choice(sketch, inner, first, last)
    }),
];

/// Arms where no arm may stand: they do not count, and no image that passes has them so.
pub const ARMS: [Level; 4] = [
    level("arms", no, |sketch, _, inner| around(sketch, 8, inner, 0)),
    level("arms before arms", no, |sketch, _, inner| {
        let own = operand(sketch);
        sketch.expression(9, 0, [inner, own, 0])
    }),
    level("arms in further arms", operand, |sketch, arm, inner| sketch.expression(9, 0, [arm, inner, 0])),
    level("conditionals of no arm", operand, |sketch, condition, inner| {
        sketch.expression(10, 0, [condition, inner, 1])
    }),
];

/// Every level of an image that passes.
pub fn levels() -> Vec<Level> {
    [&PREFIXES[..], &CUTS, &INFIXES, &SUBSCRIPTS, &CONDITIONALS].concat()
}

/// What stands innermost in an expression.
#[derive(Clone, Copy, PartialEq)]
pub enum Leaf {
    /// A facility; there are not 200.
    Whole(u8),
    /// A wide constant, reduced to a bit.
    Wide,
    /// A subscript outside its bounds, which stops the cycle.
    Stops,
    /// More bits than there are.
    TooLong,
}

pub const SOUND: Leaf = Leaf::Whole(A);
pub const UNKNOWN: Leaf = Leaf::Whole(200);

fn leaf(sketch: &mut Sketch, leaf: Leaf) -> u16 {
    match leaf {
        Leaf::Whole(facility) => sketch.whole(facility),
        Leaf::Wide => {
            for _ in 0..5 {
                sketch.expression(2, 0, [0; 3]);
            }
            let constant = sketch.expression(1, 255, [1, 0, 0]);
            around(sketch, 128 + 8, constant, 0)
        }
        Leaf::Stops => {
            let zero = sketch.whole(A);
            sketch.expression(4, Y, [zero, 0, 0])
        }
        Leaf::TooLong => {
            let bit = sketch.whole(A);
            around(sketch, 192 + 41, bit, 5)
        }
    }
}

/// So many levels one in another, taken in turn.
#[derive(Clone, Copy)]
pub struct Chain<'a> {
    pub levels: &'a [Level],
    pub leaf: Leaf,
}

impl Chain<'_> {
    pub fn write(&self, sketch: &mut Sketch, count: usize) -> u16 {
        let taken: Vec<&Level> = self.levels.iter().cycle().take(count).collect();
        let before: Vec<u16> = taken.iter().map(|level| (level.before)(sketch)).collect();
        let mut inner = leaf(sketch, self.leaf);
        for (level, before) in taken.iter().zip(before).rev() {
            inner = (level.after)(sketch, before, inner);
        }
        inner
    }
}

// Actions.

/// What stands around an action.
#[derive(Clone, Copy, PartialEq)]
pub enum Around {
    If,
    FirstArm,
    LastArm,
}

fn set(sketch: &mut Sketch) {
    let left = sketch.whole(T);
    sketch.action(5, [left, 0, 0]);
}

impl Around {
    /// The conditional and the arm that goes on.
    fn open(self, sketch: &mut Sketch) -> [usize; 2] {
        let condition = sketch.bit((self != Around::LastArm) as u16);
        let conditional = match self {
            Around::If => sketch.action(10, [condition, 0, 0]),
            _ => sketch.action(11, [condition, 2, 0]),
        };
        if self == Around::LastArm {
            let first = sketch.action(12, [0; 3]);
            set(sketch);
            sketch.hold(first, 0);
        }
        [conditional, sketch.action(12, [0; 3])]
    }

    fn close(self, sketch: &mut Sketch, [conditional, arm]: [usize; 2]) {
        sketch.hold(arm, 0);
        if self == Around::FirstArm {
            let last = sketch.action(12, [0; 3]);
            set(sketch);
            sketch.hold(last, 0);
        }
        sketch.hold(conditional, if self == Around::If { 1 } else { 2 });
    }

    /// So many around an action.
    pub fn write(self, sketch: &mut Sketch, count: usize, action: impl Fn(&mut Sketch)) {
        let opened: Vec<[usize; 2]> = (0..count).map(|_| self.open(sketch)).collect();
        action(sketch);
        opened.into_iter().rev().for_each(|opened| self.close(sketch, opened));
    }
}

// The place of a chain.

#[derive(Clone, Copy, PartialEq)]
pub enum Stand {
    Right,
    Left,
    SecondLeft,
    Set,
    Condition,
    Terminal,
    Value,
}

pub const STANDS: [(Stand, &str); 6] = [
    (Stand::Right, "on the right"),
    (Stand::Left, "on the left"),
    (Stand::SecondLeft, "second on the left"),
    (Stand::Set, "before @"),
    (Stand::Condition, "in a condition"),
    (Stand::Terminal, "in a terminal"),
];

impl Stand {
    /// The action that has the chain.
    pub fn write(self, sketch: &mut Sketch, chain: Chain, count: usize) {
        match self {
            Stand::Right => {
                let left = sketch.whole(A);
                let right = chain.write(sketch, count);
                sketch.action(1, [left, right, 0]);
            }
            Stand::Left | Stand::SecondLeft => self.left(sketch, chain, count),
            Stand::Set => {
                let inner = chain.write(sketch, count);
                let left = sketch.expression(4, U, [inner, 0, 0]);
                sketch.action(5, [left, 0, 0]);
            }
            Stand::Condition => {
                let condition = chain.write(sketch, count);
                let conditional = sketch.action(10, [condition, 0, 0]);
                let arm = sketch.action(12, [0; 3]);
                set(sketch);
                sketch.hold(arm, 0);
                sketch.hold(conditional, 1);
            }
            Stand::Terminal => {
                let left = sketch.whole(A);
                let right = sketch.whole(C);
                sketch.action(1, [left, right, 0]);
            }
            Stand::Value => set(sketch),
        }
    }

    fn left(self, sketch: &mut Sketch, chain: Chain, count: usize) {
        let other = (self == Stand::SecondLeft).then(|| sketch.whole(A));
        let inner = chain.write(sketch, count);
        let left = sketch.expression(4, X, [inner, 0, 0]);
        let right = sketch.whole(if other.is_some() { X } else { A });
        match other {
            Some(other) => sketch.action(3, [other, left, right]),
            None => sketch.action(1, [left, right, 0]),
        };
    }
}
