//! The stand-in's faults. Without one it does what the second simulator does.

use second::bytes;
use second::calls::{self, store_size, CycleAnswer, Lent, ReadAnswer, RunAnswer};
use second::description::{Action, Choice, Counted, Description, Expression, Infix, Kind, Prefix};
use second::image::{image as image_of, FACILITY, HEADER};
use second::load::{load, Loaded};
use second::record::RECORD;
use std::env;
use std::sync::{Mutex, OnceLock};

#[derive(Clone, Copy, PartialEq)]
pub enum Fault {
    /// A refusal is that of the last place at fault, not the first.
    LastPlace,
    /// A length or a bare constant is taken without the 2 to the 256 that it passes.
    DecimalsWrap,
    /// The bytes beyond the image are left as they were.
    ImageTail,
    /// Opening leaves memories as the last run had them.
    MemoriesKept,
    /// Each delayed store lands at once, so that a swap copies.
    LandsAtOnce,
    /// The arms of a CASE are counted from zero.
    ArmsFromZero,
    /// The first bit of a difference is one where there is no borrow.
    NoBorrow,
    /// A cycle that stops leaves its inputs in the store.
    StopLands,
    /// A store in conflict counts twice.
    ConflictTwice,
    /// A byte is left in scratch.
    ScratchByte,
    /// A cycle zeroes what lies beyond the store.
    BeyondStore,
    /// A return that is taken off stays in the record.
    ReturnStays,
    /// Soundness is tested before room.
    SoundnessFirst,
    /// A stimulus may have spare bits.
    SpareBits,
    /// An image that was taken once is not looked at again.
    ImageOnce,
    /// A facility's place in the store is not held against the layout.
    PlaceForged,
    /// A run counts the cycle that stopped.
    StopCounted,
    /// A run judges stimuli only as it comes to them.
    LateStimulus,
    /// A lookup of a state that is not there answers 13.
    LookupOrder,
    /// A lookup answers last bound and first.
    BoundsSwapped,
}

const FAULTS: [(Fault, &str); 20] = [
    (Fault::LastPlace, "last-place"),
    (Fault::DecimalsWrap, "decimals-wrap"),
    (Fault::ImageTail, "image-tail"),
    (Fault::MemoriesKept, "memories-kept"),
    (Fault::LandsAtOnce, "lands-at-once"),
    (Fault::ArmsFromZero, "arms-from-zero"),
    (Fault::NoBorrow, "no-borrow"),
    (Fault::StopLands, "stop-lands"),
    (Fault::ConflictTwice, "conflict-twice"),
    (Fault::ScratchByte, "scratch-byte"),
    (Fault::BeyondStore, "beyond-store"),
    (Fault::ReturnStays, "return-stays"),
    (Fault::SoundnessFirst, "soundness-first"),
    (Fault::SpareBits, "spare-bits"),
    (Fault::ImageOnce, "image-once"),
    (Fault::PlaceForged, "place-forged"),
    (Fault::StopCounted, "stop-counted"),
    (Fault::LateStimulus, "late-stimulus"),
    (Fault::LookupOrder, "lookup-order"),
    (Fault::BoundsSwapped, "bounds-swapped"),
];

impl Fault {
    pub fn is_on(self) -> bool {
        static CHOSEN: OnceLock<Option<Fault>> = OnceLock::new();
        *CHOSEN.get_or_init(chosen) == Some(self)
    }
}

/// A fault that is not known ends the program: a test of it would show nothing.
fn chosen() -> Option<Fault> {
    let wanted = env::var("STANDIN_FAULT").ok()?;
    let known = FAULTS.iter().find(|(_, name)| *name == wanted);
    if known.is_none() {
        let names: Vec<&str> = FAULTS.iter().map(|(_, name)| *name).collect();
        eprintln!("standin: no fault {wanted}; there are {}", names.join(" "));
        std::process::exit(2);
    }
    known.map(|(fault, _)| *fault)
}

// Reading and opening.

/// 2 to the 256.
const PASSED: &[u8] = b"115792089237316195423570985008687907853269984665640564039457584007913129639936";

/// The text that is read for the one lent.
pub fn text(lent: &[u8]) -> Vec<u8> {
    let mut text = lent.to_vec();
    if Fault::DecimalsWrap.is_on() {
        text.chunk_by_mut(|&byte, &next| byte.is_ascii_digit() == next.is_ascii_digit()).for_each(wrap);
    }
    text
}

/// Takes 2 to the 256 off digits that are as many as it has and no less.
fn wrap(digits: &mut [u8]) {
    if digits.len() != PASSED.len() || !digits[0].is_ascii_digit() || &*digits < PASSED {
        return;
    }
    let mut borrow = 0;
    for (digit, passed) in digits.iter_mut().zip(PASSED).rev() {
        let taken = passed - b'0' + borrow;
        borrow = (*digit - b'0' < taken) as u8;
        *digit = *digit + 10 * borrow - taken;
    }
}

pub fn after_reading(text: &[u8], found: &[u8], image: &mut [u8], mut answer: ReadAnswer) -> ReadAnswer {
    if Fault::ImageTail.is_on() && answer.refusal == 0 {
        let length = answer.length as usize;
        image[length..].copy_from_slice(&found[length..]);
    }
    if Fault::LastPlace.is_on() {
        if let Some(last) = second::faults(text).into_iter().max() {
            (answer.refusal, answer.place) = (last.number as u32, last.place as u32);
        }
    }
    answer
}

pub fn after_opening(image: &[u8], found: &[u8], store: &mut [u8], refusal: u32) {
    let Some(Loaded { description, .. }) = load(image).filter(|_| refusal == 0 && Fault::MemoriesKept.is_on()) else {
        return;
    };
    for (number, facility) in description.outline.facilities.iter().enumerate() {
        if let (Kind::Memory, Some(place)) = (&facility.kind, description.store_place(number)) {
            let end = place + description.shapes[number].bytes();
            store[place..end].copy_from_slice(&found[place..end]);
        }
    }
}

// Images.

/// The image that the calls are given for the one lent.
pub fn image(lent: &[u8]) -> Vec<u8> {
    if Fault::ImageOnce.is_on() {
        return remembered(lent);
    }
    if Fault::PlaceForged.is_on() {
        return placed_anew(lent);
    }
    lent.to_vec()
}

/// The last image that passed, where this one has its header.
fn remembered(lent: &[u8]) -> Vec<u8> {
    static LAST: Mutex<Vec<u8>> = Mutex::new(Vec::new());
    let Ok(mut last) = LAST.lock() else {
        return lent.to_vec();
    };
    if load(lent).is_some() {
        *last = lent.to_vec();
    } else if lent.len() == last.len() && lent.get(..52) == last.get(..52) {
        return last.clone();
    }
    lent.to_vec()
}

/// The facilities' places as they should be, if that makes the image pass.
fn placed_anew(lent: &[u8]) -> Vec<u8> {
    let mut other = lent.to_vec();
    let count = lent.get(4..8).map_or(0, |count| count[0] as usize + count[1] as usize * 256);
    let facilities = other.get_mut(HEADER..).unwrap_or(&mut []).chunks_exact_mut(FACILITY).take(count);
    let mut place = 0;
    for record in facilities.filter(|record| record[0] != 5) {
        record[11..].copy_from_slice(&(place as u16).to_le_bytes());
        place += facility_bytes(record);
    }
    if load(&other).is_some() {
        other
    } else {
        lent.to_vec()
    }
}

fn facility_bytes(record: &[u8]) -> usize {
    let number = |at: usize| record[at] as usize + record[at + 1] as usize * 256;
    let span = |at: usize| number(at).abs_diff(number(at + 2)) + 1;
    span(3) * span(7).div_ceil(8)
}

// Cycles.

/// Changes an action of an operation; the name is that of the sequencing register.
type Change = fn(&mut Action, Option<&str>);

/// The same description with its actions changed.
fn changed(image: &[u8], change: Change) -> Option<Vec<u8>> {
    let mut description: Description = load(image)?.description;
    let sequencing = description.sequencing.map(|number| description.outline.facilities[number].name.text.clone());
    for operation in &mut description.outline.operations {
        operation.actions.iter_mut().for_each(|action| change(action, sequencing.as_deref()));
    }
    Some(image_of(&description))
}

fn count_from_zero(action: &mut Action, _: Option<&str>) {
    let Action::Conditional(conditional) = action else {
        return;
    };
    if conditional.choice == Choice::Case {
        conditional.arms.rotate_left(1);
    }
    conditional.arms.iter_mut().flatten().for_each(|action| count_from_zero(action, None));
}

fn turn_borrow(action: &mut Action, _: Option<&str>) {
    let Action::Store { right, .. } = action else {
        return;
    };
    let Expression::Counted { operator: Counted::Head, operand, .. } = right else {
        return;
    };
    if let Expression::Infix { operator: Infix::Difference, .. } = **operand {
        *right = Expression::Prefix { operator: Prefix::Complement, place: 0, operand: Box::new(right.clone()) };
    }
}

fn land_at_once(action: &mut Action, sequencing: Option<&str>) {
    match action {
        Action::Store { left, delayed, .. } => {
            let sequences = left.iter().any(|reference| Some(&reference.name.text[..]) == sequencing);
            *delayed &= sequences;
        }
        Action::Conditional(conditional) => {
            let arms = conditional.arms.iter_mut().flatten();
            arms.for_each(|action| land_at_once(action, sequencing));
        }
        _ => {}
    }
}

/// The spare bits of the stimuli taken away.
fn without_spare_bits(image: &[u8], stimuli: &[u8]) -> Vec<u8> {
    let mut stimuli = stimuli.to_vec();
    let Some(Loaded { description, .. }) = load(image) else {
        return stimuli;
    };
    let size = calls::stimulus_size(&description);
    for stimulus in stimuli.chunks_mut(size.max(1)) {
        let mut at = 0;
        for number in description.inputs() {
            let spare = description.shapes[number].bytes() * 8 - description.shapes[number].bits();
            if let Some(first) = stimulus.get_mut(at) {
                *first &= 0xFF >> spare;
            }
            at += description.shapes[number].bytes();
        }
    }
    stimuli
}

/// How many stimuli stand before the first ill-formed one, and their bytes.
fn well_formed<'a>(image: &[u8], stimuli: &'a [u8]) -> (u32, &'a [u8]) {
    let Some(Loaded { description, .. }) = load(image).filter(|_| Fault::LateStimulus.is_on()) else {
        return (u32::MAX, stimuli);
    };
    let size = calls::stimulus_size(&description);
    let sound = |stimulus: &&[u8]| bytes::stimulus(&description, stimulus).is_some();
    let count = stimuli.chunks(size.max(1)).take_while(sound).count();
    (if size == 0 { u32::MAX } else { count as u32 }, &stimuli[..count * size])
}

/// The refusal that soundness, tested first, would give for a short scratch.
fn unsound_first(image: &[u8], lent: &Lent, answer: u32) -> u32 {
    let size = load(image).map_or(0, |loaded| store_size(&loaded.description));
    if answer != 12 || lent.store.len() < size || lent.record.len() < RECORD {
        return answer;
    }
    let (mut store, mut record) = (lent.store.to_vec(), lent.record.to_vec());
    let mut scratch = vec![0; 4 * size];
    let roomy = Lent { store: &mut store, record: &mut record, scratch: &mut scratch, trace: &mut [] };
    match calls::cycle(image, roomy, &[]).refusal {
        14 => 14,
        _ => answer,
    }
}

/// The inputs of a stimulus put into the store.
fn land_inputs(image: &[u8], store: &mut [u8], stimulus: &[u8]) {
    let Some(Loaded { description, .. }) = load(image) else {
        return;
    };
    let mut at = 0;
    for number in description.inputs() {
        let (place, bytes) = (description.store_place(number).unwrap_or(0), description.shapes[number].bytes());
        store[place..place + bytes].copy_from_slice(&stimulus[at..at + bytes]);
        at += bytes;
    }
}

fn held(record: &[u8]) -> usize {
    record.get(12).map_or(0, |&held| held as usize)
}

pub fn cycle(image: &[u8], lent: Lent, stimulus: &[u8]) -> CycleAnswer {
    let changes = [
        (Fault::LandsAtOnce, land_at_once as Change),
        (Fault::ArmsFromZero, count_from_zero),
        (Fault::NoBorrow, turn_borrow),
    ];
    let change = changes.into_iter().find(|(fault, _)| fault.is_on());
    let other = change.and_then(|(_, change)| changed(image, change));
    let image = other.as_deref().unwrap_or(image);
    let narrow = Fault::SpareBits.is_on().then(|| without_spare_bits(image, stimulus));
    let stimulus = narrow.as_deref().unwrap_or(stimulus);
    let Lent { store, record, scratch, .. } = lent;
    let before = record.to_vec();
    let again = Lent { store, record, scratch, trace: &mut [] };
    let mut answer = calls::cycle(image, again, stimulus);
    let completed = answer.refusal == 0 && answer.stop == 0;
    if Fault::SoundnessFirst.is_on() {
        let again = Lent { store, record, scratch, trace: &mut [] };
        answer.refusal = unsound_first(image, &again, answer.refusal);
    }
    if Fault::ConflictTwice.is_on() {
        answer.conflicts *= 2;
    }
    if Fault::StopLands.is_on() && answer.stop != 0 {
        land_inputs(image, store, stimulus);
    }
    if completed {
        after_completing(image, &before, store, record, scratch);
    }
    answer
}

/// Faults in what a completed cycle leaves.
fn after_completing(image: &[u8], before: &[u8], store: &mut [u8], record: &mut [u8], scratch: &mut [u8]) {
    if let Some(last) = scratch.last_mut().filter(|_| Fault::ScratchByte.is_on()) {
        *last = 1;
    }
    if Fault::BeyondStore.is_on() {
        let size = load(image).map_or(0, |loaded| store_size(&loaded.description));
        store[size..].fill(0);
    }
    if Fault::ReturnStays.is_on() && held(record) < held(before) {
        let at = 16 + 4 * held(record);
        record[at..at + 4].copy_from_slice(&before[at..at + 4]);
    }
}

pub fn run(image: &[u8], lent: Lent, stimuli: &[u8], cycles: u32) -> RunAnswer {
    let narrow = Fault::SpareBits.is_on().then(|| without_spare_bits(image, stimuli));
    let stimuli = narrow.as_deref().unwrap_or(stimuli);
    let sound = well_formed(image, stimuli);
    if Fault::LateStimulus.is_on() && sound.0 < cycles {
        let answer = calls::run(image, lent, sound.1, sound.0);
        let refusal = if answer.refusal == 0 { 15 } else { answer.refusal };
        return RunAnswer { refusal, ..RunAnswer::default() };
    }
    let mut answer = calls::run(image, lent, stimuli, cycles);
    if Fault::ConflictTwice.is_on() {
        answer.conflicts *= 2;
    }
    if Fault::StopCounted.is_on() && answer.stop != 0 {
        answer.cycles += 1;
    }
    answer
}
