//! The calls that a bench makes, over lent bytes: the whole answer and every
//! byte left, as docs/CALLS.md says. The answers are laid out as in C.

use crate::bytes::{self, store_bytes};
use crate::description::{Description, Kind, Name};
use crate::image::image as image_of;
use crate::load::{load, Loaded};
use crate::record::{record_bytes, resumed, RECORD};
use crate::step::{cycle as step, cycle_bytes, open as opened, Outcome, Run};
use crate::value::Bits;

#[repr(C)]
#[derive(Clone, Copy, Debug, Default, PartialEq, Eq)]
pub struct ReadAnswer {
    pub refusal: u32,
    pub place: u32,
    pub length: u32,
}

#[repr(C)]
#[derive(Clone, Copy, Debug, Default, PartialEq, Eq)]
pub struct CycleAnswer {
    pub refusal: u32,
    pub stop: u32,
    pub conflicts: u32,
}

#[repr(C)]
#[derive(Clone, Copy, Debug, Default, PartialEq, Eq)]
pub struct RunAnswer {
    pub refusal: u32,
    pub stop: u32,
    pub cycles: u64,
    pub conflicts: u64,
}

#[repr(C)]
#[derive(Clone, Copy, Debug, Default, PartialEq, Eq)]
pub struct NameAnswer {
    pub refusal: u32,
    pub offset: u32,
    pub length: u32,
}

#[repr(C)]
#[derive(Clone, Copy, Debug, Default, PartialEq, Eq)]
pub struct FacilityAnswer {
    pub refusal: u32,
    pub kind: u32,
    pub dimensions: u32,
    pub words_first: u32,
    pub words_last: u32,
    pub bits_first: u32,
    pub bits_last: u32,
    pub stored: u32,
    pub place: u32,
}

/// A buffer that begins with these bytes and is zero beyond them.
fn fill(buffer: &mut [u8], bytes: &[u8]) {
    let (front, beyond) = buffer.split_at_mut(bytes.len());
    front.copy_from_slice(bytes);
    beyond.fill(0);
}

pub fn read(text: &[u8], image: &mut [u8]) -> ReadAnswer {
    let (refusal, place) = match crate::read(text) {
        Ok(description) => {
            let bytes = image_of(&description);
            if bytes.len() <= image.len() {
                fill(image, &bytes);
                return ReadAnswer { length: bytes.len() as u32, ..ReadAnswer::default() };
            }
            (12, 0)
        }
        Err(refusal) => (refusal.number as u32, refusal.place as u32),
    };
    image.fill(0);
    ReadAnswer { refusal, place, length: 0 }
}

/// The bytes that the store takes.
pub fn store_size(description: &Description) -> usize {
    let stored = (0..description.shapes.len()).filter(|&number| description.is_stored(number));
    stored.map(|number| description.shapes[number].bytes()).sum()
}

/// The bytes that the stimulus of a cycle takes.
pub fn stimulus_size(description: &Description) -> usize {
    description.inputs().map(|number| description.shapes[number].bytes()).sum()
}

pub fn open(image: &[u8], store: &mut [u8], record: &mut [u8]) -> u32 {
    store.fill(0);
    record.fill(0);
    let Some(Loaded { description, .. }) = load(image) else {
        return 13;
    };
    if store.len() < store_size(&description) || record.len() < RECORD {
        return 12;
    }
    let run = opened(&description);
    fill(store, &store_bytes(&run));
    fill(record, &record_bytes(&run));
    0
}

// Cycles.

/// What a cycle or a run is lent besides its image; the trace may be empty.
pub struct Lent<'a> {
    pub store: &'a mut [u8],
    pub record: &'a mut [u8],
    pub scratch: &'a mut [u8],
    pub trace: &'a mut [u8],
}

impl Lent<'_> {
    fn is_roomy(&self, size: usize, cycles: u32) -> bool {
        let traced = self.trace.is_empty() || cycles as usize * size <= self.trace.len();
        self.store.len() >= size && self.record.len() >= RECORD && self.scratch.len() >= 4 * size && traced
    }

    /// 13, 12 and 14 in this order; then what the cycles start from.
    fn started(&self, image: &[u8], cycles: u32) -> Result<(Description, Run), u32> {
        let description = load(image).ok_or(13u32)?.description;
        let size = store_size(&description);
        if !self.is_roomy(size, cycles) {
            return Err(12);
        }
        let run = resumed(&description, &self.store[..size], self.record).ok_or(14u32)?;
        Ok((description, run))
    }

    /// The bytes beyond store and record are kept.
    fn advance(&mut self, run: &Run) {
        let bytes = store_bytes(run);
        self.store[..bytes.len()].copy_from_slice(&bytes);
        self.record[..RECORD].copy_from_slice(&record_bytes(run));
    }
}

pub fn cycle(image: &[u8], mut lent: Lent, stimulus: &[u8]) -> CycleAnswer {
    lent.scratch.fill(0);
    match one_cycle(image, &mut lent, stimulus) {
        Ok(Outcome::Completed { conflicts }) => CycleAnswer { conflicts: conflicts as u32, ..CycleAnswer::default() },
        Ok(Outcome::Stop(stop)) => CycleAnswer { stop: stop as u32, ..CycleAnswer::default() },
        Ok(Outcome::Refused(number)) => CycleAnswer { refusal: number as u32, ..CycleAnswer::default() },
        Err(refusal) => CycleAnswer { refusal, ..CycleAnswer::default() },
    }
}

fn one_cycle(image: &[u8], lent: &mut Lent, stimulus: &[u8]) -> Result<Outcome, u32> {
    let (description, mut run) = lent.started(image, 1)?;
    let outcome = cycle_bytes(&description, &mut run, stimulus);
    if let Outcome::Completed { .. } = outcome {
        lent.advance(&run);
    }
    Ok(outcome)
}

pub fn run(image: &[u8], mut lent: Lent, stimuli: &[u8], cycles: u32) -> RunAnswer {
    lent.scratch.fill(0);
    lent.trace.fill(0);
    match many_cycles(image, &mut lent, stimuli, cycles) {
        Ok(answer) => answer,
        Err(refusal) => RunAnswer { refusal, ..RunAnswer::default() },
    }
}

fn many_cycles(image: &[u8], lent: &mut Lent, stimuli: &[u8], cycles: u32) -> Result<RunAnswer, u32> {
    let (description, mut run) = lent.started(image, cycles)?;
    let stimuli = all_stimuli(&description, stimuli, cycles).ok_or(15u32)?;
    let size = store_size(&description);
    let mut answer = RunAnswer::default();
    while answer.cycles < cycles as u64 {
        let stimulus = stimuli.get(answer.cycles as usize).map_or(&[][..], |stimulus| stimulus);
        match step(&description, &mut run, stimulus) {
            Outcome::Completed { conflicts } => answer.conflicts += conflicts as u64,
            Outcome::Stop(stop) => {
                answer.stop = stop as u32;
                break;
            }
            Outcome::Refused(refusal) => return Err(refusal as u32),
        }
        if !lent.trace.is_empty() {
            let at = answer.cycles as usize * size;
            lent.trace[at..at + size].copy_from_slice(&store_bytes(&run));
        }
        answer.cycles += 1;
    }
    lent.advance(&run);
    Ok(answer)
}

/// The stimulus of each cycle; none are listed where a cycle takes no bytes.
fn all_stimuli(description: &Description, bytes: &[u8], cycles: u32) -> Option<Vec<Vec<Bits>>> {
    let size = stimulus_size(description);
    if bytes.len() != cycles as usize * size {
        return None;
    }
    bytes.chunks(size.max(1)).map(|stimulus| bytes::stimulus(description, stimulus)).collect()
}

// Lookups.

/// Where a name stands among all names, which follow each other at the image's end.
fn named(loaded: &Loaded, skipped: usize) -> NameAnswer {
    let outline = &loaded.description.outline;
    let facilities = outline.facilities.iter().map(|facility| Some(&facility.name));
    let operations = outline.operations.iter().map(|operation| Some(&operation.name));
    let states = outline.states.iter().map(|state| state.label.as_ref());
    let length = |name: Option<&Name>| name.map_or(0, |name| name.text.len());
    let lengths: Vec<usize> = facilities.chain(operations).chain(states).map(length).collect();
    let offset = loaded.total - lengths[skipped..].iter().sum::<usize>();
    NameAnswer { refusal: 0, offset: offset as u32, length: lengths[skipped] as u32 }
}

pub fn facility_name(image: &[u8], number: u32) -> NameAnswer {
    match load(image) {
        None => NameAnswer { refusal: 13, ..NameAnswer::default() },
        Some(loaded) if (number as usize) < loaded.description.shapes.len() => named(&loaded, number as usize),
        Some(_) => NameAnswer { refusal: 6, ..NameAnswer::default() },
    }
}

pub fn state_name(image: &[u8], number: u32) -> NameAnswer {
    let Some(loaded) = load(image) else {
        return NameAnswer { refusal: 13, ..NameAnswer::default() };
    };
    let outline = &loaded.description.outline;
    if number as usize >= outline.states.len() {
        return NameAnswer { refusal: 6, ..NameAnswer::default() };
    }
    named(&loaded, outline.facilities.len() + outline.operations.len() + number as usize)
}

pub fn facility(image: &[u8], number: u32) -> FacilityAnswer {
    let Some(Loaded { description, .. }) = load(image) else {
        return FacilityAnswer { refusal: 13, ..FacilityAnswer::default() };
    };
    let number = number as usize;
    let Some(facility) = description.outline.facilities.get(number) else {
        return FacilityAnswer { refusal: 6, ..FacilityAnswer::default() };
    };
    let bounds = &description.shapes[number].0;
    let both = |order: usize| bounds.get(order).map_or([0; 2], |bounds| [bounds.first as u32, bounds.last as u32]);
    let words = if bounds.len() == 2 { both(0) } else { [0; 2] };
    let bits = if bounds.is_empty() { [0; 2] } else { both(bounds.len() - 1) };
    let place = description.store_place(number);
    FacilityAnswer {
        refusal: 0,
        kind: kind_number(&facility.kind),
        dimensions: bounds.len() as u32,
        words_first: words[0],
        words_last: words[1],
        bits_first: bits[0],
        bits_last: bits[1],
        stored: place.is_some() as u32,
        place: place.unwrap_or(0) as u32,
    }
}

fn kind_number(kind: &Kind) -> u32 {
    match kind {
        Kind::Register { sequencing } => *sequencing as u32,
        Kind::Memory => 2,
        Kind::Plain => 3,
        Kind::Input => 4,
        Kind::Computed { .. } => 5,
    }
}
