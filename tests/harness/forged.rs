//! Forged images: any bytes changed, fields given other values, records
//! moved, descriptions that no text can tell. Those that pass are run.

use crate::fields::{count, four, resize, set_four, start, SIZES};
use crate::runs::{legal_image, some_loan};
use crate::untold::untold;
use crate::{fields, held, Failure, Harness};
use second::bytes::stimulus_bytes;
use second::image::HEADER;
use second::trials::random::Random;
use second::trials::supply;
use second::Description;

pub fn some_forged(harness: &mut Harness) -> Result<(), Failure> {
    let (description, image) = legal_image(harness)?;
    if harness.random.chance(10) {
        return every_header_field(harness, &image);
    }
    let loan = some_loan(harness, &description, image)?;
    let stimulus = stimulus_bytes(&supply::stimulus(&description, &mut harness.random));
    for _ in 0..8 {
        let mut forged = loan.clone();
        let kind = forge(&mut forged.image, &description, &mut harness.random);
        held::cycle(harness, kind, &mut forged, &stimulus)?;
        let kind = "of a forged image";
        match harness.random.below(3) {
            0 => {
                let rooms = [forged.store.len(), forged.record.len()];
                held::open(harness, kind, &forged.image, rooms)?;
            }
            1 => {
                held::run(harness, kind, &mut forged, &stimulus, 1)?;
            }
            _ => {
                let number = harness.random.below(4) as u32;
                held::lookups(harness, kind, &forged.image, number)?;
            }
        }
    }
    Ok(())
}

/// Each number of the header, changed in each way.
fn every_header_field(harness: &mut Harness, image: &[u8]) -> Result<(), Failure> {
    for field in 0..HEADER / 4 {
        for number in near(four(image, field)) {
            let mut forged = image.to_vec();
            set_four(&mut forged, field, number);
            held::open(harness, "of each forged header", &forged, [20, 80])?;
        }
    }
    Ok(())
}

/// Changes the image; says how.
fn forge(image: &mut Vec<u8>, description: &Description, random: &mut Random) -> &'static str {
    match random.below(20) {
        0 | 1 => header(image, random),
        2 | 3 => record_byte(image, random),
        4 => record_field(image, random),
        5 => swapped(image, random),
        6 => resized(image, random),
        7 => name(image, random),
        8 => any_bytes(image, random),
        _ => by_meaning(image, description, random),
    }
}

/// A field or a tree changed; not every description has one of each kind.
fn by_meaning(image: &mut Vec<u8>, description: &Description, random: &mut Random) -> &'static str {
    for _ in 0..10 {
        let untold = untold(description, random).filter(|_| random.chance(40));
        let kind = match untold {
            Some((kind, untold)) => {
                *image = untold;
                Some(kind)
            }
            None => fields::forge(image, random),
        };
        if let Some(kind) = kind {
            return kind;
        }
    }
    "as it was"
}

/// Numbers that are off by one, or far off.
fn near(number: u32) -> [u32; 7] {
    [number.wrapping_add(1), number.wrapping_sub(1), number ^ 0x0100_0000, 0, u32::MAX, 1 << 31, 65_536]
}

fn header(image: &mut [u8], random: &mut Random) -> &'static str {
    let field = random.below(HEADER / 4);
    let number = random.pick(&near(four(image, field)));
    set_four(image, field, number);
    "forged in its header"
}

/// A section with records: its number, its first byte, and how many records.
fn some_section(image: &[u8], random: &mut Random) -> (usize, usize, usize) {
    let sections: Vec<usize> = (0..6).filter(|&section| count(image, section) > 0).collect();
    let section = random.pick(&sections);
    (section, start(image, section), count(image, section))
}

fn record_byte(image: &mut [u8], random: &mut Random) -> &'static str {
    for _ in 0..random.pick(&[1, 1, 1, 2]) {
        let (section, start, count) = some_section(image, random);
        let at = start + random.below(count * SIZES[section]);
        let byte = image[at];
        image[at] = random.pick(&[byte.wrapping_add(1), byte.wrapping_sub(1), byte ^ 0x80, byte ^ 1, 0, 255]);
    }
    "forged in a record's byte"
}

/// A number of a record that would still be in range.
fn record_field(image: &mut [u8], random: &mut Random) -> &'static str {
    let (section, start, count) = some_section(image, random);
    let at = start + random.below(count * SIZES[section]);
    image[at] = random.below(count.min(255) + 1) as u8;
    "forged in a record's number"
}

fn swapped(image: &mut [u8], random: &mut Random) -> &'static str {
    let (section, start, count) = some_section(image, random);
    let size = SIZES[section];
    let (one, other) = (random.below(count), random.below(count));
    for byte in 0..size {
        image.swap(start + one * size + byte, start + other * size + byte);
    }
    "with two records swapped"
}

/// A record taken out or doubled, with a header that says so.
fn resized(image: &mut Vec<u8>, random: &mut Random) -> &'static str {
    let (section, start, count) = some_section(image, random);
    let size = SIZES[section];
    let at = start + random.below(count) * size;
    let record = image[at..at + size].to_vec();
    if random.chance(50) {
        resize(image, section, at, 0, &record);
        return "with a record doubled";
    }
    resize(image, section, at, size, &[]);
    "with a record taken out"
}

/// A name that no text has, or another that one has.
fn name(image: &mut [u8], random: &mut Random) -> &'static str {
    let at = start(image, 5) + random.below(count(image, 5));
    image[at] = random.pick(b"ABZ09az_@[/: \0\xff");
    "forged in a name"
}

/// Bytes cut off, or nothing of an image at all.
fn any_bytes(image: &mut Vec<u8>, random: &mut Random) -> &'static str {
    let total = four(image, 0) as usize;
    match random.below(3) {
        0 => image.truncate(total - 1),
        1 => image.truncate(random.below(total)),
        _ => {
            let length = random.pick(&[0, 3, 4, HEADER - 1, HEADER, HEADER + 1, 200]);
            *image = random.bytes(length);
        }
    }
    "cut short or of any bytes"
}
