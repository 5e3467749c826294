//! Store and stimulus as bytes: facilities in order of declaration, word by
//! word, each in the fewest whole bytes, most significant first.

use crate::description::Description;
use crate::evaluate::Store;
use crate::step::Run;
use crate::value::Bits;

pub fn store_bytes(run: &Run) -> Vec<u8> {
    run.store.iter().flatten().flat_map(Bits::bytes).collect()
}

/// The store in these bytes; none if the length is wrong or a spare bit set.
pub fn store(description: &Description, bytes: &[u8]) -> Option<Store> {
    let mut rest = bytes;
    let mut store = Store::new();
    for (number, shape) in description.shapes.iter().enumerate() {
        let count = if description.is_stored(number) { shape.words() } else { 0 };
        let words = (0..count).map(|_| word(&mut rest, shape.bits()));
        store.push(words.collect::<Option<_>>()?);
    }
    rest.is_empty().then_some(store)
}

/// The bits of each input terminal; none if the length is wrong or a spare bit set.
pub fn stimulus(description: &Description, bytes: &[u8]) -> Option<Vec<Bits>> {
    let mut rest = bytes;
    let words = description.inputs().map(|number| word(&mut rest, description.shapes[number].bits()));
    let words = words.collect::<Option<_>>()?;
    rest.is_empty().then_some(words)
}

/// Takes one word off the bytes.
fn word(rest: &mut &[u8], length: usize) -> Option<Bits> {
    let (word, after) = rest.split_at_checked(length.div_ceil(8))?;
    *rest = after;
    Bits::from_bytes(word, length)
}

pub fn stimulus_bytes(stimulus: &[Bits]) -> Vec<u8> {
    stimulus.iter().flat_map(Bits::bytes).collect()
}
