//! The run record in bytes: twenty 32-bit little-endian numbers.

use crate::description::Description;
use crate::sound::resume;
use crate::step::{Run, RETURNS};

pub const RECORD: usize = 80;
/// The letters DDLP.
pub const MARK: u32 = 0x504c_4444;

pub fn record_bytes(run: &Run) -> [u8; RECORD] {
    let mut numbers = [0; RECORD / 4];
    numbers[..4].copy_from_slice(&[MARK, run.state as u32, run.cycle, run.returns.len() as u32]);
    for (place, state) in numbers[4..].iter_mut().zip(&run.returns) {
        *place = *state as u32;
    }
    let mut bytes = [0; RECORD];
    for (place, number) in bytes.chunks_mut(4).zip(numbers) {
        place.copy_from_slice(&number.to_le_bytes());
    }
    bytes
}

/// The run that the store and at least 80 bytes of a record hold, if they are sound.
pub fn resumed(description: &Description, store: &[u8], record: &[u8]) -> Option<Run> {
    let number = |bytes: &[u8]| bytes.iter().rev().fold(0, |number, &byte| number << 8 | byte as u32);
    let numbers: Vec<u32> = record[..RECORD].chunks(4).map(number).collect();
    let held = numbers[3] as usize;
    if numbers[0] != MARK || held > RETURNS || numbers[4 + held..].iter().any(|&unused| unused != 0) {
        return None;
    }
    let returns: Vec<usize> = numbers[4..4 + held].iter().map(|&state| state as usize).collect();
    resume(description, store, numbers[1] as usize, numbers[2], &returns).ok()
}
