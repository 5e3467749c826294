//! Runs: the store, the record and the scratch of an opened image.

use crate::bytes::four;
use crate::calls::{self, Lent};
use crate::facility::Facility;
use crate::image::Image;
use crate::refusal::{Halt, Refusal, Stop};
use crate::word::{parsed, Word};

const RECORD: usize = 80;
/// Scratch is so many times the store.
const SCRATCH_STORES: usize = 4;
/// Where the record has its state and its cycle number.
const STATE: usize = 4;
const CYCLE: usize = 8;

/// A run of an image. It owns all that its cycles need.
#[derive(Clone, Debug)]
pub struct Run<'a> {
    image: &'a Image,
    store: Vec<u8>,
    record: [u8; RECORD],
    scratch: Vec<u8>,
}

/// What many cycles came to.
#[derive(Clone, Copy, Debug, PartialEq, Eq, Hash)]
pub struct Ran {
    /// Completed cycles.
    pub cycles: u64,
    /// The conflicts of all of them.
    pub conflicts: u64,
    /// What ended the run before its last cycle.
    pub stop: Option<Stop>,
}

impl<'a> Run<'a> {
    /// Everything zero, memories too; the first state; cycle 0.
    pub fn open(image: &'a Image) -> Result<Run<'a>, Refusal> {
        let size = image.store_size();
        let scratch = vec![0; size.saturating_mul(SCRATCH_STORES)];
        let mut run = Run { image, store: vec![0; size], record: [0; RECORD], scratch };
        run.open_again()?;
        Ok(run)
    }

    /// Back to the beginning.
    pub fn open_again(&mut self) -> Result<(), Refusal> {
        Refusal::answered(calls::open(self.image.as_bytes(), &mut self.store, &mut self.record))
    }

    fn lent(&mut self) -> Lent<'_> {
        Lent { store: &mut self.store, record: &mut self.record, scratch: &mut self.scratch }
    }

    /// One cycle; answers its conflict count.
    pub fn cycle(&mut self, stimulus: impl AsRef<[u8]>) -> Result<u32, Halt> {
        let answer = calls::cycle(self.image.as_bytes(), self.lent(), stimulus.as_ref());
        Refusal::answered(answer.refusal)?;
        match Stop::answered(answer.stop) {
            Some(stop) => Err(Halt::Stopped(stop)),
            None => Ok(answer.conflicts),
        }
    }

    /// Many cycles after one check of the image. The stimuli stand one after
    /// the other; the trace is empty, or takes the store after each cycle.
    /// No run is longer: cycle numbers have 32 bits.
    pub fn run(&mut self, stimuli: &[u8], cycles: u32, trace: &mut [u8]) -> Result<Ran, Refusal> {
        let answer = calls::run(self.image.as_bytes(), self.lent(), stimuli, cycles, trace);
        Refusal::answered(answer.refusal)?;
        Ok(Ran { cycles: answer.cycles, conflicts: answer.conflicts, stop: Stop::answered(answer.stop) })
    }

    /// The image that is run.
    pub fn image(&self) -> &'a Image {
        self.image
    }

    /// The number of the state that the next cycle carries out.
    pub fn state(&self) -> u32 {
        four(&self.record, STATE).unwrap_or_default()
    }

    /// How many cycles were completed.
    pub fn cycles(&self) -> u32 {
        four(&self.record, CYCLE).unwrap_or_default()
    }

    /// The bytes of docs/STORE.md.
    pub fn store(&self) -> &[u8] {
        &self.store
    }

    /// The bytes of docs/RECORD.md.
    pub fn record(&self) -> &[u8] {
        &self.record
    }

    /// A word of a facility, by its subscript where it has many.
    pub fn word(&self, facility: &Facility, subscript: u32) -> Option<Word<'_>> {
        let bytes = self.store.get(facility.word_part(subscript)?)?;
        Some(Word::new(bytes, facility.word_length()))
    }

    /// The word of a facility of at most one dimension, by its name.
    pub fn word_named(&self, name: &str) -> Option<Word<'_>> {
        let facility = self.image.facility_named(name).filter(|facility| facility.words.is_none())?;
        self.word(&facility, 0)
    }

    /// Puts bits such as `0110` into a word, as a bench loads a memory. False
    /// where there is no such word, or the bits are not as many as it has.
    /// A sequencing register must keep the value of its state.
    pub fn set_word(&mut self, facility: &Facility, subscript: u32, bits: &str) -> bool {
        let place = facility.word_part(subscript).and_then(|part| self.store.get_mut(part));
        let Some((place, word)) = place.zip(parsed(bits, facility.word_length())) else {
            return false;
        };
        place.iter_mut().zip(word).for_each(|(place, byte)| *place = byte);
        true
    }
}
