//! Legal expressions and references, made level by level of the grammar
//! with their lengths kept.

use crate::description::Bounds;
use crate::trials::generate::{Made, MadeKind, Maker};
use crate::trials::piece::{any_constant, spelled, Piece};

/// How much an expression may still hold.
#[derive(Clone, Copy)]
pub struct Room {
    pub nesting: usize,
    pub terms: usize,
}

impl Room {
    fn inner(self) -> Room {
        Room { nesting: self.nesting.saturating_sub(1), terms: self.terms }
    }

    fn half(self) -> Room {
        Room { nesting: self.nesting, terms: self.terms / 2 }
    }
}

type Level = fn(&mut Maker, Room) -> Piece;

const VALUE: usize = 256;

// Expressions of any length.
impl Maker {
    pub fn expression(&mut self, room: Room) -> Piece {
        self.chain(&["+"], Maker::minterm, room)
    }

    fn minterm(&mut self, room: Room) -> Piece {
        self.chain(&["[+]"], Maker::product, room)
    }

    fn product(&mut self, room: Room) -> Piece {
        self.chain(&["*"], Maker::complement, room)
    }

    /// Operators of one level; a right operand that makes the result too long is dropped.
    fn chain(&mut self, signs: &[&str], level: Level, room: Room) -> Piece {
        let mut left = level(self, room);
        let mut rest = room.half();
        while rest.terms > 0 && self.random.chance(30) {
            let right = level(self, rest);
            let sign = self.random.pick(signs);
            let length = match sign {
                "CON" => left.length + right.length,
                "(+)" | "(-)" => left.length.max(right.length) + 1,
                _ => left.length.max(right.length),
            };
            if length <= VALUE {
                left = left.counting(sign).with(right).long(length);
            }
            rest = rest.half();
        }
        left
    }

    fn complement(&mut self, room: Room) -> Piece {
        if room.nesting == 0 || !self.random.chance(15) {
            return self.chain(&["CON"], Maker::reduction, room);
        }
        let operand = self.chain(&["CON"], Maker::reduction, room.inner());
        let length = operand.length;
        Piece::default().counting("-").with(operand).long(length)
    }

    fn reduction(&mut self, room: Room) -> Piece {
        if room.nesting == 0 || !self.random.chance(10) {
            return self.adjustment(room);
        }
        let sign = self.random.pick(&["+", "*", "[+]", "(+)"]);
        let operand = self.adjustment(room.inner());
        let length = if sign == "(+)" { 16 } else { 1 };
        Piece::default().counting(sign).word("RED").with(operand).long(length)
    }

    fn adjustment(&mut self, room: Room) -> Piece {
        let mut operand = self.relation(room);
        while self.random.chance(15) {
            let length = operand.length;
            let (sign, count, result) = match self.random.below(3) {
                0 => counted("HEAD", self.random.between(1, length)),
                1 => counted("TAIL", self.random.between(1, length)),
                _ => {
                    let times = self.random.between(1, VALUE / length);
                    ("EXT", times, times * length)
                }
            };
            let count = spelled(count, &mut self.random);
            operand = operand.counting(sign).word(&count).long(result);
        }
        operand
    }

    fn relation(&mut self, room: Room) -> Piece {
        let left = self.arithmetic(room);
        if room.terms == 0 || !self.random.chance(15) {
            return left;
        }
        let sign = self.random.pick(&["(=)", "#", "<", ">", ">=", "<="]);
        let right = self.arithmetic(room.half());
        left.counting(sign).with(right).long(1)
    }

    fn arithmetic(&mut self, room: Room) -> Piece {
        if room.nesting > 0 && self.random.chance(10) {
            let operand = self.term(room.inner());
            let length = operand.length + 1;
            return if length <= VALUE { Piece::default().counting("(-)").with(operand).long(length) } else { operand };
        }
        self.chain(&["(+)", "(-)"], Maker::term, room)
    }

    fn term(&mut self, room: Room) -> Piece {
        match self.random.below(8) {
            0 | 1 if room.nesting > 0 && room.terms > 0 => self.expression(room.inner().half()).bracketed(),
            2 if room.nesting > 3 && room.terms > 1 => {
                let length = self.some_length();
                self.conditional(length, room)
            }
            3..=6 if !self.facilities.is_empty() => self.reference(room),
            _ => {
                let length = self.some_length();
                self.constant(length)
            }
        }
    }

    pub fn constant(&mut self, length: usize) -> Piece {
        let word = any_constant(length, &mut self.random);
        Piece::default().counting(&word).long(length)
    }
}

fn counted(sign: &'static str, count: usize) -> (&'static str, usize, usize) {
    (sign, count, count)
}

// Expressions of a given length.
impl Maker {
    pub fn sized(&mut self, length: usize, room: Room) -> Piece {
        if room.nesting < 3 || room.terms == 0 || self.random.chance(10) {
            return self.constant(length);
        }
        if self.random.chance(15) {
            return self.conditional(length, room);
        }
        let piece = self.expression(room.inner());
        self.adapted(piece, length)
    }

    fn adapted(&mut self, piece: Piece, length: usize) -> Piece {
        let has = piece.length;
        if has == length {
            return piece;
        }
        let bracketed = piece.bracketed();
        if has > length {
            let sign = self.random.pick(&["HEAD", "TAIL"]);
            let count = spelled(length, &mut self.random);
            return bracketed.counting(sign).word(&count).long(length);
        }
        if length % has == 0 && self.random.chance(50) {
            let count = spelled(length / has, &mut self.random);
            return bracketed.counting("EXT").word(&count).long(length);
        }
        self.constant(length - has).counting("CON").with(bracketed).long(length)
    }

    fn conditional(&mut self, length: usize, room: Room) -> Piece {
        let inner = room.inner().half();
        let (opened, arms) = self.condition(inner);
        let mut piece = opened;
        for arm in 0..arms.count {
            piece = piece.word(arms.before(arm)).with(self.sized(length, inner.half()));
        }
        piece.word(arms.end).long(length)
    }

    /// IF or CASE with its condition, and the arms that it asks for.
    pub fn condition(&mut self, room: Room) -> (Piece, Arms) {
        if self.random.chance(60) {
            let condition = self.sized(1, room);
            return (
                Piece::default().counting("IF").with(condition),
                Arms { count: 2, first: "THEN", other: "ELSE", end: "ENDIF" },
            );
        }
        let length = self.random.pick(&[1, 1, 1, 2, 2, 3]);
        let condition = self.sized(length, room);
        let arms = Arms { count: 1 << length, first: "DO", other: "DO", end: "ENDCASE" };
        (Piece::default().counting("CASE").with(condition), arms)
    }
}

pub struct Arms {
    pub count: usize,
    first: &'static str,
    other: &'static str,
    pub end: &'static str,
}

impl Arms {
    pub fn before(&self, arm: usize) -> &'static str {
        if arm == 0 {
            self.first
        } else {
            self.other
        }
    }
}

// References.
impl Maker {
    fn reference(&mut self, room: Room) -> Piece {
        let made = self.random.pick(&self.facilities);
        let Some(subscripted) = self.subscripted(&made, room) else {
            return self.constant(1);
        };
        let work = if let MadeKind::Computed { work } = made.kind { work } else { 0 };
        let length = subscripted.length;
        let mut piece = Piece::default().counting(&made.name).with(subscripted).long(length);
        piece.work += work;
        piece
    }

    /// The subscripts of a reference to this facility, with the length it has;
    /// none if it needs a bracket that there is no room for.
    pub fn subscripted(&mut self, made: &Made, room: Room) -> Option<Piece> {
        let whole = made.bounds.last().map_or(1, |bounds| bounds.size());
        let plain = made.bounds.len() < 2 && whole <= VALUE;
        if plain && (made.bounds.is_empty() || room.nesting == 0 || self.random.chance(50)) {
            return Some(Piece::default().long(whole));
        }
        if room.nesting == 0 {
            return None;
        }
        let inner = Room { nesting: room.nesting - 1, terms: room.terms / 3 };
        let mut piece = Piece::default().word("[");
        if made.bounds.len() == 2 {
            piece = piece.with(self.single(made.bounds[0], inner));
            if whole <= VALUE && self.random.chance(50) {
                return Some(piece.word("]").long(whole));
            }
            piece = if self.random.chance(50) { piece.word(",") } else { piece.word("]").word("[") };
        }
        let last = self.bit_or_part(*made.bounds.last()?, inner);
        let length = last.length;
        Some(piece.with(last).word("]").long(length))
    }

    fn bit_or_part(&mut self, bounds: Bounds, room: Room) -> Piece {
        if self.random.chance(50) {
            return self.single(bounds, room).long(1);
        }
        let from = self.random.below(bounds.size());
        let length = self.random.between(1, (bounds.size() - from).min(VALUE));
        let (first, last) = (label(bounds, from), label(bounds, from + length - 1));
        let (first, last) = (spelled(first, &mut self.random), spelled(last, &mut self.random));
        Piece::default().word(&first).word(":").word(&last).long(length)
    }

    /// One subscript: a constant, or an expression that mostly lies within.
    fn single(&mut self, bounds: Bounds, room: Room) -> Piece {
        let low = bounds.first.min(bounds.last);
        let high = bounds.first.max(bounds.last);
        let width = (usize::BITS - (high + 1).leading_zeros() - 1) as usize;
        match self.random.below(10) {
            0..=3 if low == 0 && width > 0 => self.sized(width, room),
            4 | 5 if room.nesting > 3 => self.chosen_subscript(low, high, room),
            6 if room.nesting > 0 && self.random.chance(20) => self.any_subscript(room),
            _ => {
                let constant = self.within(low, high);
                if room.nesting > 0 && self.random.chance(15) {
                    constant.bracketed()
                } else {
                    constant
                }
            }
        }
    }

    /// A computed subscript of any value; a lone constant would have to lie within.
    fn any_subscript(&mut self, room: Room) -> Piece {
        let (left, right) = (self.expression(room.inner()), self.constant(1));
        let sign = if left.length < VALUE { "(-)" } else { "[+]" };
        left.bracketed().counting(sign).with(right)
    }

    fn within(&mut self, low: usize, high: usize) -> Piece {
        let number = self.random.between(low, high);
        let word = spelled(number, &mut self.random);
        Piece::default().counting(&word)
    }

    /// A computed subscript within any bounds: one of two constants.
    fn chosen_subscript(&mut self, low: usize, high: usize, room: Room) -> Piece {
        let mut piece = Piece::default().counting("IF").with(self.sized(1, room.inner()));
        for before in ["THEN", "ELSE"] {
            let number = self.random.between(low, high);
            let word = format!("20D{number}");
            piece = piece.word(before).counting(&word);
        }
        piece.word("ENDIF")
    }
}

fn label(bounds: Bounds, position: usize) -> usize {
    if bounds.first <= bounds.last {
        bounds.first + position
    } else {
        bounds.first - position
    }
}
