//! Runs of legal descriptions: from the opening, or from any sound store and
//! record; cycle by cycle, then the same cycles by one run; and lookups.

use crate::held::{self, Loan};
use crate::{Failure, Harness};
use second::bytes::{stimulus_bytes, store_bytes};
use second::calls::{store_size, RunAnswer};
use second::image::image as image_of;
use second::load::load;
use second::record::{record_bytes, RECORD};
use second::trials::generate::legal;
use second::trials::layout::lay_out;
use second::trials::random::Random;
use second::trials::running::some_run;
use second::trials::supply;
use second::Description;

/// A legal description, and its image with some bytes beyond.
pub fn legal_image(harness: &mut Harness) -> Result<(Description, Vec<u8>), Failure> {
    let words = legal(Random::new(harness.random.below(1 << 48) as u64));
    let text = lay_out(&words, false, &mut harness.random).bytes;
    let room = second::read(&text).map_or(0, |description| image_of(&description).len() + 20);
    let (answer, mut image) = held::read(harness, "legal", &text, room)?;
    image.truncate(answer.length as usize);
    let beyond = harness.random.pick(&[0, 0, 1, 9]);
    image.extend(harness.random.bytes(beyond));
    let loaded = load(&image).ok_or(format!("a legal text's image does not pass: {answer:?}"))?;
    Ok((loaded.description, image))
}

/// What a run of this image is lent: opened, or any sound store and record.
pub fn some_loan(harness: &mut Harness, description: &Description, image: Vec<u8>) -> Result<Loan, Failure> {
    let size = store_size(description);
    let mut room = |needed: usize| needed + harness.random.pick(&[0, 0, 1, 7]);
    let (stored, recorded, scratch) = (room(size), room(RECORD), room(4 * size));
    let (_, mut store, mut record) = held::open(harness, "legal", &image, [stored, recorded])?;
    if harness.random.chance(50) {
        let run = some_run(description, &mut harness.random)?;
        store[..size].copy_from_slice(&store_bytes(&run));
        record[..RECORD].copy_from_slice(&record_bytes(&run));
    }
    // What lies beyond is kept, so it is to be seen.
    let beyond = harness.random.bytes(stored - size);
    store[size..].copy_from_slice(&beyond);
    let beyond = harness.random.bytes(recorded - RECORD);
    record[RECORD..].copy_from_slice(&beyond);
    Ok(Loan { image, store, record, scratch, trace: 0 })
}

pub fn some_cycles(harness: &mut Harness) -> Result<(), Failure> {
    let (description, image) = legal_image(harness)?;
    let mut loan = some_loan(harness, &description, image)?;
    let mut start = loan.clone();
    let cycles = harness.random.pick(&[1, 3, 8, 20]);
    let stimuli: Vec<Vec<u8>> =
        (0..cycles).map(|_| stimulus_bytes(&supply::stimulus(&description, &mut harness.random))).collect();
    let mut expected = RunAnswer::default();
    let mut trace = Vec::new();
    for stimulus in &stimuli {
        let answer = held::cycle(harness, "legal", &mut loan, stimulus)?;
        expected.stop = answer.stop;
        if answer.stop > 0 || answer.refusal > 0 {
            break;
        }
        expected.cycles += 1;
        expected.conflicts += answer.conflicts as u64;
        trace.extend_from_slice(&loan.store[..store_size(&description)]);
    }
    start.trace = harness.random.pick(&[0, 1, 1, 2]) * (cycles as usize * store_size(&description));
    trace.resize(start.trace, 0);
    let (answer, traced) = held::run(harness, "legal", &mut start, &stimuli.concat(), cycles)?;
    let alike = answer == expected && start.store == loan.store && start.record == loan.record;
    if !alike || (start.trace > 0 && traced != trace) {
        return Err(format!("a run and its cycles differ: {answer:?} and {expected:?}"));
    }
    Ok(())
}

/// Every number of a facility or state, and numbers past them.
pub fn all_lookups(harness: &mut Harness) -> Result<(), Failure> {
    let (description, image) = legal_image(harness)?;
    let facilities = description.outline.facilities.len();
    let most = facilities.max(description.outline.states.len()) as u32;
    for number in (0..most + 2).chain([255, 256, 65_535, 65_536, u32::MAX]) {
        held::lookups(harness, "legal", &image, number)?;
    }
    Ok(())
}
