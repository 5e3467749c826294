//! Texts and input lines from a seed, for holding another simulator against
//! this one.

use crate::description::Description;
use crate::read;
use crate::trials::bnf::derived;
use crate::trials::edges::edge;
use crate::trials::faults::fault;
use crate::trials::generate::legal;
use crate::trials::layout::lay_out;
use crate::trials::mutate::{mutate, mutate_bytes};
use crate::trials::random::Random;
use crate::value::Bits;

/// A text of any kind: legal, at a ceiling, broken, or obeying the grammar alone.
pub fn text(seed: u64) -> Vec<u8> {
    let random = &mut Random::new(seed);
    let kind = random.below(10);
    match kind {
        0 => return edge(random).text,
        1 => return lay_out(&derived(random), false, random).bytes,
        _ => {}
    }
    let mut words = legal(Random::new(random.below(1 << 40) as u64));
    match kind {
        2 | 3 => drop(mutate(&mut words, random)),
        4 => drop(fault(&mut words, random)),
        _ => {}
    }
    let mut text = lay_out(&words, kind < 5, random).bytes;
    if kind == 5 {
        mutate_bytes(&mut text, random);
    }
    text
}

/// Input lines for a text; a few are ill-formed, and for a refused text all are empty.
pub fn input(text: &[u8], seed: u64, lines: usize) -> Vec<u8> {
    let random = &mut Random::new(seed);
    let description = read(text).ok();
    let mut input = Vec::new();
    for _ in 0..lines {
        let stimulus = description.as_ref().map_or(Vec::new(), |description| stimulus(description, random));
        input.extend(stimulus.iter().flat_map(|word| word.to_string().into_bytes()));
        if random.chance(1) {
            input.push(random.pick(b"01 2\r"));
        }
        input.extend(random.pick(&["\n", "\n", "\n", "\r\n"]).bytes());
    }
    input
}

/// The bits of each input terminal, few, half or most of them ones.
pub fn stimulus(description: &Description, random: &mut Random) -> Vec<Bits> {
    let ones = random.pick(&[0, 10, 50, 90, 100]);
    let mut word = |number: usize| Bits((0..description.shapes[number].bits()).map(|_| random.chance(ones)).collect());
    description.inputs().map(&mut word).collect()
}
