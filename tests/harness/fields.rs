//! Images forged by a reader of docs/IMAGE.md: a field is given another value
//! that it could have elsewhere, so that one rule alone is broken, or none.

use second::image::{ACTION, EXPRESSION, FACILITY, OPERATION, STATE};
use second::trials::random::Random;
use second::words::RESERVED;

/// The sections by their numbers in the header, and the sizes of their records.
pub const SIZES: [usize; 6] = [FACILITY, OPERATION, EXPRESSION, ACTION, STATE, 1];
const FACILITIES: usize = 0;
const OPERATIONS: usize = 1;
const EXPRESSIONS: usize = 2;
const ACTIONS: usize = 3;
const STATES: usize = 4;
const NAMES: usize = 5;

pub fn four(image: &[u8], field: usize) -> u32 {
    image[4 * field..4 * field + 4].iter().rev().fold(0, |number, &byte| number << 8 | byte as u32)
}

pub fn set_four(image: &mut [u8], field: usize, number: u32) {
    image[4 * field..4 * field + 4].copy_from_slice(&number.to_le_bytes());
}

pub fn count(image: &[u8], section: usize) -> usize {
    four(image, 1 + 2 * section) as usize
}

pub fn start(image: &[u8], section: usize) -> usize {
    four(image, 2 + 2 * section) as usize
}

fn two(image: &[u8], at: usize) -> u16 {
    u16::from_le_bytes([image[at], image[at + 1]])
}

fn set_two(image: &mut [u8], at: usize, number: u16) {
    image[at..at + 2].copy_from_slice(&number.to_le_bytes());
}

/// The first bytes of the records of this section.
fn records(image: &[u8], section: usize) -> impl Iterator<Item = usize> + '_ {
    (0..count(image, section)).map(move |number| start(image, section) + number * SIZES[section])
}

/// The first byte of a random record of this section whose mark fits.
fn some_record(image: &[u8], section: usize, random: &mut Random, fits: impl Fn(u8) -> bool) -> Option<usize> {
    let fitting: Vec<usize> = records(image, section).filter(|&at| fits(image[at])).collect();
    (!fitting.is_empty()).then(|| random.pick(&fitting))
}

/// Bytes put in or taken out, with a header that says so.
pub fn resize(image: &mut Vec<u8>, section: usize, at: usize, removed: usize, added: &[u8]) {
    image.splice(at..at + removed, added.iter().copied());
    let size = SIZES[section];
    let later = (section + 1..6).map(|later| (2 + 2 * later, 1));
    for (field, unit) in [(0, 1), (1 + 2 * section, size)].into_iter().chain(later) {
        let number = four(image, field) as usize + added.len() / unit - removed / unit;
        set_four(image, field, number as u32);
    }
}

/// Changes one field of some record; nothing where none is of the kind looked for.
pub fn forge(image: &mut Vec<u8>, random: &mut Random) -> Option<&'static str> {
    match random.below(15) {
        0 => kind(image, random),
        1 => dimensions(image, random),
        2 => operator(image, random),
        3 => direction(image, random),
        4 => cut(image, random),
        5 => constant(image, random),
        6 => referred(image, random),
        7 => store_sign(image, random),
        8 => conditional(image, random),
        9 => named_record(image, random),
        10 => state_value(image, random),
        11 => reserved(image, random),
        12 => name_for_another(image, random),
        13 => label_taken_away(image, random),
        _ => name_length(image, random),
    }
}

fn kind(image: &mut [u8], random: &mut Random) -> Option<&'static str> {
    let at = some_record(image, FACILITIES, random, |kind| kind < 5)?;
    image[at] = random.below(5) as u8;
    Some("with another kind")
}

fn dimensions(image: &mut [u8], random: &mut Random) -> Option<&'static str> {
    let at = some_record(image, FACILITIES, random, |_| true)?;
    match random.below(3) {
        0 => image[at + 1] = random.below(4) as u8,
        1 => {
            let (first, last) = (two(image, at + 7), two(image, at + 9));
            set_two(image, at + 7, last);
            set_two(image, at + 9, first);
        }
        _ => {
            let field = at + random.pick(&[3, 5, 7, 9]);
            let bound = two(image, field);
            set_two(image, field, random.pick(&[bound ^ 1, bound.wrapping_add(1), 0, 65_535]));
        }
    }
    Some("with other bounds")
}

/// Another operator of its class, or a word that is none.
fn operator(image: &mut [u8], random: &mut Random) -> Option<&'static str> {
    let at = some_record(image, EXPRESSIONS, random, |mark| mark >= 64)?;
    let word = random.pick(&[7, 8, 10, 3, 15, 17, 21, 22, 23, 24, 25, 26, 38, 40, 41, 42, 0, 9, 39, 63]);
    image[at] = image[at] & 0xC0 | word;
    Some("with another operator")
}

/// The two ends of a part, or of their constants one.
fn direction(image: &mut [u8], random: &mut Random) -> Option<&'static str> {
    let at = some_record(image, EXPRESSIONS, random, |mark| mark == 5 || mark == 7)?;
    let field = at + if image[at] == 5 { 2 } else { 4 };
    let (first, last) = (two(image, field), two(image, field + 2));
    let (first, last) = random.pick(&[(last, first), (first, last.wrapping_add(1)), (first.wrapping_sub(1), last)]);
    set_two(image, field, first);
    set_two(image, field + 2, last);
    Some("with another part")
}

fn cut(image: &mut [u8], random: &mut Random) -> Option<&'static str> {
    let at = some_record(image, EXPRESSIONS, random, |mark| mark >= 192)?;
    let length = two(image, at + 4);
    set_two(image, at + 4, random.pick(&[0, 1, length.wrapping_add(1), 256, 257, 65_535]));
    Some("with another count")
}

/// Another length of a constant, a bit above its length, or other bits.
fn constant(image: &mut [u8], random: &mut Random) -> Option<&'static str> {
    let at = some_record(image, EXPRESSIONS, random, |mark| mark == 1 || mark == 2)?;
    let length = image[at + 1];
    match random.below(3) {
        0 => image[at + 1] = random.pick(&[length.wrapping_add(1), length.wrapping_sub(1), 255, 0]),
        1 => image[at + 2 + (length as usize % 48) / 8] |= 0x80,
        _ => image[at + random.between(2, 7)] ^= 1 << random.below(8),
    }
    Some("with another constant")
}

/// Another facility in the place of one that is referred to.
fn referred(image: &mut [u8], random: &mut Random) -> Option<&'static str> {
    let at = some_record(image, EXPRESSIONS, random, |mark| (3..=7).contains(&mark))?;
    image[at + 1] = random.below(count(image, FACILITIES) + 1) as u8;
    Some("with another reference")
}

/// A delayed store made immediate or the other way round.
fn store_sign(image: &mut [u8], random: &mut Random) -> Option<&'static str> {
    let at = some_record(image, ACTIONS, random, |mark| (1..=4).contains(&mark))?;
    // 1 and 2, 3 and 4 are each other's.
    image[at] = ((image[at] - 1) ^ 1) + 1;
    Some("with another store sign")
}

/// An IF as a CASE of one arm, a CASE as an IF, or another number of arms.
fn conditional(image: &mut [u8], random: &mut Random) -> Option<&'static str> {
    let at = some_record(image, ACTIONS, random, |mark| mark == 10 || mark == 11)?;
    let (second, third) = (two(image, at + 3), two(image, at + 5));
    let (mark, second, third) = match (image[at], random.below(2)) {
        (10, _) => (11, 1, second),
        (_, 0) => (10, third, 0),
        _ => (11, random.pick(&[second + 1, second / 2, second * 2]), third),
    };
    image[at] = mark;
    set_two(image, at + 3, second);
    set_two(image, at + 5, third);
    Some("with another conditional")
}

/// For each conditional of several arms the image in which it has one less.
pub fn forge_conditionals(image: &[u8]) -> Vec<Vec<u8>> {
    let choices = records(image, EXPRESSIONS).filter(|&at| image[at] == 10).map(|at| at + 6);
    let chooses = records(image, ACTIONS).filter(|&at| image[at] == 11).map(|at| at + 3);
    let one_less = |at: usize| {
        let mut forged = image.to_vec();
        set_two(&mut forged, at, two(image, at) - 1);
        forged
    };
    choices.chain(chooses).map(one_less).collect()
}

/// The image with a bit more in its last facility.
pub fn forge_last_bound(image: &[u8]) -> Vec<u8> {
    let mut forged = image.to_vec();
    let at = start(image, FACILITIES) + (count(image, FACILITIES) - 1) * FACILITY + 9;
    set_two(&mut forged, at, two(image, at) + 1);
    forged
}

/// Another operation or state in the place of one that is named.
fn named_record(image: &mut [u8], random: &mut Random) -> Option<&'static str> {
    let at = some_record(image, ACTIONS, random, |mark| (6..=8).contains(&mark))?;
    let most = count(image, if image[at] == 6 { OPERATIONS } else { STATES });
    set_two(image, at + 1, random.below(most + 1) as u16);
    Some("with another operation or state")
}

/// A state's value: none, another record's number, or the bits of another state's.
fn state_value(image: &mut [u8], random: &mut Random) -> Option<&'static str> {
    let at = some_record(image, STATES, random, |_| true)?;
    let other = some_record(image, STATES, random, |_| true)?;
    let (value, from) = (two(image, at + 1) as usize, two(image, other + 1) as usize);
    let both = value < count(image, EXPRESSIONS) && from < count(image, EXPRESSIONS);
    if both && random.chance(60) {
        let record = |number: usize| start(image, EXPRESSIONS) + number * EXPRESSION;
        let (value, from) = (record(value), record(from));
        image.copy_within(from..from + EXPRESSION, value);
    } else {
        let number = random.pick(&[65_535, 0, value.wrapping_sub(1), value + 1, from]);
        set_two(image, at + 1, number as u16);
    }
    Some("with another state value")
}

/// Where each name stands: its place, its length, and where that length is kept.
fn names(image: &[u8]) -> Vec<(usize, usize, usize)> {
    let lengths = [(FACILITIES, 2), (OPERATIONS, 0), (STATES, 0)].into_iter().flat_map(|(section, field)| {
        let first = start(image, section) + field;
        (0..count(image, section)).map(move |number| first + number * SIZES[section])
    });
    let mut place = start(image, NAMES);
    let mut found = Vec::new();
    for field in lengths {
        let length = image[field] as usize;
        found.push((place, length, field));
        place += length;
    }
    found
}

fn reserved(image: &mut [u8], random: &mut Random) -> Option<&'static str> {
    let (place, length, _) = random.pick(&names(image));
    let words: Vec<&str> = RESERVED.into_iter().filter(|word| word.len() == length).collect();
    if words.is_empty() {
        return None;
    }
    image[place..place + length].copy_from_slice(random.pick(&words).as_bytes());
    Some("with a reserved word for a name")
}

/// One name written over another of its length.
fn name_for_another(image: &mut [u8], random: &mut Random) -> Option<&'static str> {
    let names = names(image);
    let (place, length, _) = random.pick(&names);
    let same: Vec<usize> = names.iter().filter(|name| name.1 == length).map(|name| name.0).collect();
    let from = random.pick(&same);
    image.copy_within(from..from + length, place);
    Some("with a name for another")
}

/// The bytes of a name, and the length that its record says.
fn rename(image: &mut Vec<u8>, (place, length, field): (usize, usize, usize), name: &[u8]) {
    image[field] = name.len() as u8;
    resize(image, NAMES, place, length, name);
}

/// A state without its label, which may have a value or be gone to.
fn label_taken_away(image: &mut Vec<u8>, random: &mut Random) -> Option<&'static str> {
    let names = names(image);
    let states = names.len() - count(image, STATES);
    let label = random.pick(&names[states..]);
    rename(image, label, &[]);
    Some("with a label taken away")
}

/// A name taken away, made longer than 132, or a letter shorter or longer.
fn name_length(image: &mut Vec<u8>, random: &mut Random) -> Option<&'static str> {
    let name = random.pick(&names(image));
    let (place, length, _) = name;
    let wanted = random.pick(&[0, 132, 133, length.saturating_sub(1), length + 1]);
    let other: Vec<u8> = image[place..place + length].iter().copied().chain([b'Z'; 133]).take(wanted).collect();
    rename(image, name, &other);
    Some("with a name of another length")
}
