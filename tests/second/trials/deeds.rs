//! Legal actions, of operations and of states.

use crate::trials::generate::{Made, MadeKind, Maker};
use crate::trials::phrases::Room;
use crate::trials::piece::{spelled_long, Piece};

const VALUE: usize = 256;

fn list(actions: Vec<Piece>) -> Option<Piece> {
    let join = |left: Piece, right: Piece| left.word(",").with(right);
    actions.into_iter().reduce(join)
}

// In operations.
impl Maker {
    /// Up to `most` actions; none where no facility can be stored to.
    pub fn operation_actions(&mut self, most: usize, nesting: usize) -> Option<Piece> {
        let count = self.random.between(1, most);
        let actions = (0..count).filter_map(|_| self.operation_action(nesting)).collect();
        list(actions)
    }

    fn operation_action(&mut self, nesting: usize) -> Option<Piece> {
        let room = self.room(nesting);
        match self.random.below(10) {
            0 if nesting > 6 => self.conditional_action(nesting, |maker, nesting| maker.operation_actions(2, nesting)),
            1 => self.set_terminal(room),
            2 => self.operation_reference(),
            3 => self.sequencing_store(),
            _ => self.store(room),
        }
    }

    fn conditional_action(&mut self, nesting: usize, arm: fn(&mut Maker, usize) -> Option<Piece>) -> Option<Piece> {
        let inner = self.room(nesting - 1);
        let (mut piece, arms) = self.condition(inner);
        let one_list = arms.end == "ENDIF" && self.random.chance(40);
        for order in 0..if one_list { 1 } else { arms.count } {
            piece = piece.word(arms.before(order)).with(arm(self, nesting - 1)?);
        }
        Some(piece.word(arms.end))
    }

    pub fn operation_reference(&mut self) -> Option<Piece> {
        if self.operations.is_empty() {
            return None;
        }
        let (name, work) = self.random.pick(&self.operations);
        let mut piece = Piece::default().counting(&name);
        piece.work += work;
        Some(piece)
    }

    pub fn set_terminal(&mut self, room: Room) -> Option<Piece> {
        let made = self.any(|made| made.kind == MadeKind::Plain)?;
        let subscripts = self.subscripted(&made, room)?;
        let one_bit = subscripts.length == 1;
        one_bit.then(|| Piece::default().word(&made.name).with(subscripts).counting("@"))
    }

    fn any(&mut self, fits: fn(&Made) -> bool) -> Option<Made> {
        let fitting: Vec<Made> = self.facilities.iter().filter(|made| fits(made)).cloned().collect();
        if fitting.is_empty() {
            None
        } else {
            Some(self.random.pick(&fitting))
        }
    }

    fn store(&mut self, room: Room) -> Option<Piece> {
        let delayed = self.random.chance(50);
        let mut left = self.left_side(delayed, room)?;
        if self.random.chance(20) {
            if let Some(right) = self.left_side(delayed, room).filter(|right| left.length + right.length <= VALUE) {
                let length = left.length + right.length;
                left = left.word("CON").with(right).long(length);
            }
        }
        let sign = if delayed { self.random.pick(&["<-", "<-", "_"]) } else { "=" };
        let length = left.length;
        Some(left.counting(sign).with(self.sized(length, room)))
    }

    fn left_side(&mut self, delayed: bool, room: Room) -> Option<Piece> {
        let made = match delayed {
            true => self.any(|made| made.kind == MadeKind::Register { sequencing: false }),
            false => self.any(|made| {
                matches!(made.kind, MadeKind::Register { sequencing: false } | MadeKind::Memory | MadeKind::Plain)
            }),
        }?;
        let subscripts = self.subscripted(&made, room)?;
        let length = subscripts.length;
        Some(Piece::default().word(&made.name).with(subscripts).long(length))
    }

    /// A state's value, or now and then any other bits.
    fn sequencing_store(&mut self) -> Option<Piece> {
        let made = self.any(|made| made.kind == MadeKind::Register { sequencing: true })?;
        let length = self.sequencing_length()?;
        let room = self.room(20);
        let left = Piece::default().word(&made.name);
        if self.random.chance(30) {
            let subscripts = self.subscripted(&made, room)?;
            let length = subscripts.length;
            return Some(left.with(subscripts).counting("<-").with(self.sized(length, room)));
        }
        let value = self.random.pick(&self.states).value?;
        let constant = spelled_long(value, length, &mut self.random);
        Some(left.counting("<-").counting(&constant))
    }
}

// In states.
impl Maker {
    pub fn state_actions(&mut self) -> Piece {
        let mut actions: Vec<Piece> = (0..self.random.below(4)).filter_map(|_| self.state_action(24)).collect();
        if self.random.chance(85) {
            actions.extend(self.next_state(24));
        }
        list(actions).unwrap_or_default()
    }

    fn state_action(&mut self, nesting: usize) -> Option<Piece> {
        let room = self.room(nesting);
        match self.random.below(6) {
            0 if nesting > 6 => self.conditional_action(nesting, |maker, nesting| maker.state_action(nesting)),
            1 => self.set_terminal(room),
            _ => self.operation_reference(),
        }
    }

    fn next_state(&mut self, nesting: usize) -> Option<Piece> {
        if self.random.chance(self.calls) {
            return list(vec![self.named_state("->")?, self.named_state("=>")?]);
        }
        match self.random.below(10) {
            0 => Some(Piece::default().counting("RETURN")),
            1 => self.named_state("=>"),
            2 | 3 if nesting > 6 => self.conditional_action(nesting, |maker, nesting| maker.next_state(nesting)),
            _ => self.named_state("->"),
        }
    }

    fn named_state(&mut self, sign: &str) -> Option<Piece> {
        let label = self.random.pick(&self.states).label?;
        Some(Piece::default().counting(sign).word(&label))
    }
}
