//! A piece of a legal description under way: its words, its length in bits
//! where it is an expression, what it counts and its work.

use crate::trials::random::Random;

#[derive(Clone, Default)]
pub struct Piece {
    pub words: Vec<String>,
    pub length: usize,
    pub counted: usize,
    pub work: usize,
}

impl Piece {
    /// A word that counts nothing.
    pub fn word(mut self, word: &str) -> Piece {
        self.words.push(word.to_string());
        self
    }

    /// An operator, operand or action.
    pub fn counting(mut self, word: &str) -> Piece {
        self.counted += 1;
        self.work += 1;
        self.word(word)
    }

    pub fn with(mut self, piece: Piece) -> Piece {
        self.words.extend(piece.words);
        self.counted += piece.counted;
        self.work += piece.work;
        self
    }

    pub fn long(mut self, length: usize) -> Piece {
        self.length = length;
        self
    }

    pub fn bracketed(self) -> Piece {
        let length = self.length;
        Piece::default().word("(").with(self).word(")").long(length)
    }

    pub fn size(&self) -> usize {
        self.words.iter().map(|word| word.len() + 1).sum()
    }
}

/// A constant for this number: bare, or of at least as many bits as it needs.
pub fn spelled(number: usize, random: &mut Random) -> String {
    if random.chance(60) && number <= 65_535 {
        return format!("{}{number}", "0".repeat(random.below(2)));
    }
    let needed = (usize::BITS - number.leading_zeros()).max(1) as usize;
    let length = random.pick(&[needed, needed + 1, 64, 256]).max(needed);
    spelled_long(number, length, random)
}

/// A constant of exactly this length for a number that it can hold.
pub fn spelled_long(number: usize, length: usize, random: &mut Random) -> String {
    match random.below(4) {
        0 => format!("{length}B{number:b}"),
        1 => format!("{length}@{number:o}"),
        2 => format!("{length}H{number:X}"),
        _ => format!("{length}D{number}"),
    }
}

/// Any constant of this length.
pub fn any_constant(length: usize, random: &mut Random) -> String {
    if length == 16 && random.chance(40) {
        return random.below(65_536).to_string();
    }
    let (base, digits) =
        random.pick(&[('B', "01"), ('Q', "0123"), ('@', "01234567"), ('H', "0123456789ABCDEF"), ('D', "0123456789")]);
    let period = if base != 'D' && random.chance(25) { "." } else { "" };
    let count = random.pick(&[1, 2, 5, 17, 64, 100]).min(length);
    let digits: String = (0..count).map(|_| random.pick(digits.as_bytes()) as char).collect();
    format!("{length}{base}{period}{digits}")
}
