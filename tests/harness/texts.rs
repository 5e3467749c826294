//! Texts of all kinds: legal, at a ceiling, broken, or obeying the grammar
//! alone; each with a buffer that is short, exact or long.

use crate::{held, Failure, Harness};
use second::image::image;
use second::trials::supply;

const LARGEST_IMAGE: usize = 165_556;

pub fn any_text(harness: &mut Harness) -> Result<(), Failure> {
    let text = match harness.random.below(40) {
        0 => any_bytes(harness),
        _ => supply::text(harness.random.below(1 << 48) as u64),
    };
    let needed = second::read(&text).map_or(0, |description| image(&description).len());
    let (kind, room) = room(harness, needed);
    held::read(harness, kind, &text, room).map(|_| ())
}

fn any_bytes(harness: &mut Harness) -> Vec<u8> {
    let length = harness.random.pick(&[0, 1, 2, 10, 100]);
    harness.random.bytes(length)
}

fn room(harness: &mut Harness, needed: usize) -> (&'static str, usize) {
    let random = &mut harness.random;
    match random.below(10) {
        0 => ("into no room", 0),
        1 => ("into a byte too few", needed.saturating_sub(1)),
        2 => ("into too few bytes", random.below(needed.max(1))),
        3 => ("into the largest image", LARGEST_IMAGE),
        4..=6 => ("into exact room", needed),
        _ => ("into more room", needed + random.between(1, 300)),
    }
}
