//! A run taken up from a store and a record, if they are sound.

use crate::bytes;
use crate::description::Description;
use crate::step::{Run, RETURNS};

/// The run, or 14 where store and record do not fit the description or each other.
pub fn resume(description: &Description, store: &[u8], state: usize, cycle: u32, returns: &[usize]) -> Result<Run, u8> {
    let states = description.outline.states.len();
    let known = state < states && returns.iter().all(|&held| held < states);
    let store = bytes::store(description, store).filter(|_| known && returns.len() <= RETURNS).ok_or(14)?;
    let bears = description.sequencing.is_none_or(|register| store[register][0] == description.values[state]);
    if bears {
        Ok(Run { store, state, cycle, returns: returns.to_vec() })
    } else {
        Err(14)
    }
}
