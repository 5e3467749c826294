//! The stage of words: the text cut into words, with refusals 2, 5 and,
//! for long names, 4.

use crate::refusal::{least, refusal, Place, Refusal};
use crate::value::Bits;

const LINE: usize = 132;
const NAME: usize = 132;

/// The longer signs first, so that the longest match is taken.
const SIGNS: [&str; 28] = [
    "[+]", "(+)", "(-)", "(=)", ">=", "<=", "->", "=>", "<-", "#", "$", "(", ")", "*", "+", ",", "-", ".", "/", ":",
    ";", "<", "=", ">", "@", "[", "]", "_",
];

pub const RESERVED: [&str; 23] = [
    "CASE",
    "DO",
    "ENDCASE",
    "IF",
    "THEN",
    "ELSE",
    "ENDIF",
    "END",
    "CON",
    "RED",
    "EXT",
    "HEAD",
    "TAIL",
    "TIME",
    "INPUT",
    "OUTPUT",
    "LEVEL",
    "RETURN",
    "REGISTER",
    "MEMORY",
    "TERMINAL",
    "OPERATION",
    "CONTROL",
];

#[derive(Clone, Debug, PartialEq, Eq)]
pub enum Word {
    Name(String),
    Constant {
        value: Bits,
        bare: bool,
    },
    /// A reserved word, or a sign of one or more characters.
    Sign(&'static str),
}

#[derive(Clone, Debug)]
pub struct PlacedWord {
    pub word: Word,
    pub place: Place,
}

pub fn words(text: &[u8]) -> Result<Vec<PlacedWord>, Refusal> {
    let mut faults = long_lines(text);
    let mut found = Vec::new();
    let mut place = 0;
    while place < text.len() {
        let (reading, length) = first(&text[place..]);
        match reading {
            Reading::Blank => {}
            Reading::Fault(number) => faults.push(refusal(number, place)),
            Reading::Word(word) => found.push(PlacedWord { word, place }),
        }
        place += length;
    }
    least(faults).map(|()| found)
}

enum Reading {
    Blank,
    Word(Word),
    Fault(u8),
}

/// What the text that starts here begins with, and how many bytes that takes.
fn first(text: &[u8]) -> (Reading, usize) {
    match text[0] {
        b' ' | b'\t' | b'\r' | b'\n' => (Reading::Blank, 1),
        b'"' => (Reading::Blank, comment(text)),
        byte if byte.is_ascii_digit() => constant(text),
        byte if byte.is_ascii_alphabetic() => name(text),
        _ => sign(text),
    }
}

fn run(text: &[u8], belongs: impl Fn(u8) -> bool) -> usize {
    text.iter().take_while(|&&byte| belongs(byte)).count()
}

/// Up to the closing quote or the end of the line.
fn comment(text: &[u8]) -> usize {
    let inside = run(&text[1..], |byte| byte != b'"' && byte != b'\n');
    let closed = text.get(1 + inside) == Some(&b'"');
    1 + inside + closed as usize
}

fn sign(text: &[u8]) -> (Reading, usize) {
    match SIGNS.iter().find(|sign| text.starts_with(sign.as_bytes())) {
        Some(&"_") => (Reading::Word(Word::Sign("<-")), 1),
        Some(sign) => (Reading::Word(Word::Sign(sign)), sign.len()),
        None => (Reading::Fault(2), 1),
    }
}

fn name(text: &[u8]) -> (Reading, usize) {
    let length = run(text, |byte| byte.is_ascii_alphanumeric());
    let capitals = String::from_utf8_lossy(&text[..length]).to_ascii_uppercase();
    let reading = match RESERVED.iter().find(|&&reserved| reserved == capitals) {
        Some(reserved) => Reading::Word(Word::Sign(reserved)),
        None if length > NAME => Reading::Fault(4),
        None => Reading::Word(Word::Name(capitals)),
    };
    (reading, length)
}

fn constant(text: &[u8]) -> (Reading, usize) {
    let front = run(text, |byte| byte.is_ascii_digit());
    let number = decimal(&text[..front]).number();
    let base = text.get(front).map_or(0, u8::to_ascii_uppercase);
    let digit_bits = match base {
        b'B' => 1,
        b'Q' => 2,
        b'@' => 3,
        b'H' => 4,
        b'D' => 0,
        _ => return (bare(number), front),
    };
    let left = base != b'D' && text.get(front + 1) == Some(&b'.');
    let start = front + 1 + left as usize;
    let radix = if base == b'D' { 10 } else { 1 << digit_bits };
    let count = run(&text[start..], |byte| char::from(byte).is_digit(radix));
    let digits = &text[start..start + count];
    let value = if base == b'D' { decimal(digits) } else { grouped(digits, digit_bits) };
    (based(number, value, left), start + count)
}

fn bare(number: usize) -> Reading {
    match number {
        0..=65_535 => Reading::Word(Word::Constant { value: Bits::from_number(number, 16), bare: true }),
        _ => Reading::Fault(5),
    }
}

/// Left-justified: padded or cut on the right; otherwise on the left.
/// A value of no bits comes from a constant without digits.
fn based(length: usize, value: Bits, left: bool) -> Reading {
    if value.is_empty() || !(1..=256).contains(&length) {
        return Reading::Fault(5);
    }
    let value = if left { value.join(&Bits::zero(length)).head(length) } else { value.fitted(length) };
    Reading::Word(Word::Constant { value, bare: false })
}

/// The digits' bits side by side.
fn grouped(digits: &[u8], digit_bits: usize) -> Bits {
    let group = |&byte: &u8| {
        let digit = char::from(byte).to_digit(16).unwrap_or(0);
        Bits::from_number(digit as usize, digit_bits).0
    };
    Bits(digits.iter().flat_map(group).collect())
}

/// The decimal number; it grows as it must, so no digit is lost.
fn decimal(digits: &[u8]) -> Bits {
    let mut bytes: Vec<u8> = Vec::new();
    for digit in digits {
        let mut carry = (digit - b'0') as u32;
        for byte in &mut bytes {
            let product = *byte as u32 * 10 + carry;
            *byte = product as u8;
            carry = product >> 8;
        }
        if carry > 0 || bytes.is_empty() {
            bytes.push(carry as u8);
        }
    }
    bytes.reverse();
    Bits::from_bytes(&bytes, bytes.len() * 8).unwrap_or(Bits::zero(0))
}

/// The first byte of each line after which it is more than 132 columns wide.
fn long_lines(text: &[u8]) -> Vec<Refusal> {
    let mut faults = Vec::new();
    let mut width = 0;
    for (place, &byte) in text.iter().enumerate() {
        let before = width;
        width = match byte {
            b'\n' => 0,
            b'\r' if text.get(place + 1) == Some(&b'\n') => width,
            b'\t' => (width / 8 + 1) * 8,
            _ => width + 1,
        };
        if before <= LINE && width > LINE {
            faults.push(refusal(2, place));
        }
    }
    faults
}
