//! Sound loans spoiled in one place or in several: stores, records, rooms,
//! stimuli and the image. Which refusal comes first is then to be seen.

use crate::held::{self, Loan};
use crate::runs::{legal_image, some_loan};
use crate::{Failure, Harness};
use second::bytes::stimulus_bytes;
use second::calls::{stimulus_size, store_size};
use second::record::RECORD;
use second::trials::random::Random;
use second::trials::supply;
use second::Description;

/// A loan, and what the cycles are fed.
#[derive(Clone)]
pub struct Fed {
    pub loan: Loan,
    pub stimuli: Vec<u8>,
    pub cycles: u32,
}

pub fn some_spoiled(harness: &mut Harness) -> Result<(), Failure> {
    let (description, image) = legal_image(harness)?;
    let loan = some_loan(harness, &description, image)?;
    let size = store_size(&description);
    let rooms = [some_room(size, &mut harness.random), some_room(RECORD, &mut harness.random)];
    held::open(harness, "into any room", &loan.image, rooms)?;
    for _ in 0..4 {
        let cycles = harness.random.pick(&[0, 1, 2, 5]);
        let trace = harness.random.pick(&[0, 0, 1]) * cycles as usize * size;
        let mut one = Fed { loan: Loan { trace, ..loan.clone() }, stimuli: Vec::new(), cycles };
        for _ in 0..cycles {
            one.stimuli.extend(stimulus_bytes(&supply::stimulus(&description, &mut harness.random)));
        }
        for _ in 0..harness.random.pick(&[1, 1, 2, 3]) {
            spoil(&mut one, &description, &mut harness.random);
        }
        let first = &one.stimuli[..one.stimuli.len().min(stimulus_size(&description))];
        held::cycle(harness, "spoiled", &mut one.loan.clone(), first)?;
        let whole = one.stimuli.clone();
        held::cycle(harness, "spoiled", &mut one.loan.clone(), &whole)?;
        held::run(harness, "spoiled", &mut one.loan, &one.stimuli, one.cycles)?;
    }
    Ok(())
}

fn spoil(one: &mut Fed, description: &Description, random: &mut Random) {
    match random.below(12) {
        0 => change(&mut one.loan.store, random),
        1 => spare_bit(&mut one.loan.store, description, random),
        2 => change(&mut one.loan.record, random),
        3 | 4 => field(&mut one.loan.record, description, random),
        5 => shorten(&mut one.loan.store, store_size(description), random),
        6 => shorten(&mut one.loan.record, RECORD, random),
        7 => one.loan.scratch = random.pick(&[0, 1, 4 * store_size(description)]).saturating_sub(1),
        8 => change(&mut one.stimuli, random),
        9 => stimuli(one, random),
        10 => one.loan.trace = one.loan.trace.saturating_sub(random.pick(&[0, 1])) + random.pick(&[0, 0, 1]),
        _ => cycles(one, description, random),
    }
}

fn change(bytes: &mut [u8], random: &mut Random) {
    if !bytes.is_empty() {
        let at = random.below(bytes.len());
        bytes[at] ^= 1 << random.below(8);
    }
}

/// The highest bit of a facility's first word, which mostly is a spare one.
fn spare_bit(store: &mut [u8], description: &Description, random: &mut Random) {
    let facility = random.below(description.shapes.len());
    let place = description.store_place(facility).and_then(|place| store.get_mut(place));
    if let Some(byte) = place {
        *byte |= 0x80;
    }
}

/// One number of the record.
fn field(record: &mut [u8], description: &Description, random: &mut Random) {
    let states = description.outline.states.len() as u32;
    let number = random.pick(&[0, 1, 2, 15, 16, 17, states - 1, states, u32::MAX, u32::MAX - 1, 0x504c_4444]);
    let at = 4 * random.pick(&[0, 1, 1, 2, 2, 3, 3, 4, 5, 19]);
    if let Some(place) = record.get_mut(at..at + 4) {
        place.copy_from_slice(&number.to_le_bytes());
    }
}

/// None, a byte too few, exact, a byte too many, or any.
fn some_room(needed: usize, random: &mut Random) -> usize {
    let any = random.below(2 * needed + 1);
    random.pick(&[0, needed.saturating_sub(1), needed, needed, needed + 1, any])
}

fn shorten(bytes: &mut Vec<u8>, needed: usize, random: &mut Random) {
    bytes.truncate(some_room(needed, random));
}

/// Stimuli too long or too short, or with a high bit set.
fn stimuli(one: &mut Fed, random: &mut Random) {
    match random.below(3) {
        0 => one.stimuli.extend(random.bytes(1)),
        1 => drop(one.stimuli.pop()),
        _ if one.stimuli.is_empty() => {}
        _ => {
            let at = random.below(one.stimuli.len());
            one.stimuli[at] |= 0x80;
        }
    }
}

/// Another count of cycles. A huge one only where stimuli are due, so that it cannot be run.
fn cycles(one: &mut Fed, description: &Description, random: &mut Random) {
    let huge = if stimulus_size(description) > 0 { u32::MAX } else { 3 };
    one.cycles = random.pick(&[0, 1, one.cycles.saturating_add(1), huge, huge / 2 + 1]);
}
