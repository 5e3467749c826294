//! Cycles and runs with each fault that there is, and with several, so that
//! every refusal is met, and which of them comes first; and the last numbers
//! that a cycle can have.

use crate::held;
use crate::runs::some_loan;
use crate::spoiled::Fed;
use crate::{Failure, Harness};
use second::bytes::stimulus_bytes;
use second::calls::{stimulus_size, store_size};
use second::image::image;
use second::load::load;
use second::record::{MARK, RECORD};
use second::trials::generate::legal;
use second::trials::layout::lay_out;
use second::trials::random::Random;
use second::trials::supply;
use second::Description;

type Fault = fn(&mut Fed, &Description);

/// Every kind of facility and of next state; spare bits in most words.
const TEXT: &[u8] = b"REGISTER #S[2], A[4], B[11]. MEMORY M[0:3,5].
TERMINAL T, I[3] = INPUT(1,I), J[9] = INPUT(1,J), C[5] = M[I[2:3]].
OPERATION O = [M[A[1:2]] = C, B <- J CON I[1:2], T @, A <- I CON T], U = [A = 4D9, B[1:4] <- A, B[3:4] <- 2D1].
CONTROL P(0): O, IF I[1] THEN =>R ENDIF/ Q(1): U, ->P/ R(3): O, IF J[9] THEN RETURN ELSE =>R ENDIF/ V(2): ->V/.";

/// How many texts are made beside it, and the bytes of their stores at most.
const MADE: usize = 7;
const STORE: usize = 200;

/// The text above, and others from the seed that have a store and inputs.
pub fn texts(random: &mut Random) -> Vec<Vec<u8>> {
    let mut texts = vec![TEXT.to_vec()];
    while texts.len() <= MADE {
        let words = legal(Random::new(random.below(1 << 48) as u64));
        let text = lay_out(&words, false, random).bytes;
        let small = |made: &Description| (1..=STORE).contains(&store_size(made)) && stimulus_size(made) > 0;
        if second::read(&text).is_ok_and(|made| small(&made)) {
            texts.push(text);
        }
    }
    texts
}

/// 12: each part a byte short; the trace is a run's alone.
const SHORT: [Fault; 4] = [
    |fed, _| fed.loan.record.truncate(RECORD - 1),
    |fed, description| fed.loan.store.truncate(store_size(description) - 1),
    |fed, description| fed.loan.scratch = 4 * store_size(description) - 1,
    |fed, _| fed.loan.trace -= 1,
];

/// 14: the open mark, the state, the returns, the store.
const UNSOUND: [Fault; 14] = [
    |fed, _| field(fed, 0, 0),
    |fed, _| field(fed, 0, u32::MAX),
    |fed, _| field(fed, 0, MARK ^ 1 << 31),
    |fed, description| field(fed, 1, states(description)),
    |fed, _| field(fed, 1, u32::MAX),
    |fed, _| field(fed, 1, 1 << 8),
    |fed, _| field(fed, 3, 17),
    |fed, _| field(fed, 3, u32::MAX),
    |fed, description| returns(fed, 1, states(description)),
    |fed, description| returns(fed, 16, states(description)),
    |fed, _| behind(fed, 0),
    |fed, _| behind(fed, 15),
    spare_bit,
    other_value,
];

/// 15: too long, too short, a spare bit.
const STIMULI: [Fault; 3] =
    [|fed, _| fed.stimuli.push(0), |fed, _| fed.stimuli.truncate(fed.stimuli.len() - 1), stimulus_bit];

/// No fault, but few cycles or none are left; or all returns are held.
const LAST: [Fault; 4] = [
    |fed, _| field(fed, 2, u32::MAX),
    |fed, _| field(fed, 2, u32::MAX - 1),
    |fed, _| field(fed, 2, u32::MAX - 2),
    |fed, _| returns(fed, 16, 0),
];

/// A number of the record.
fn field(fed: &mut Fed, order: usize, number: u32) {
    if let Some(place) = fed.loan.record.get_mut(4 * order..4 * order + 4) {
        place.copy_from_slice(&number.to_le_bytes());
    }
}

/// So many returns held, the last of them this one, the others 0.
fn returns(fed: &mut Fed, held: usize, last: u32) {
    (4..20).for_each(|order| field(fed, order, 0));
    field(fed, 3 + held, last);
    field(fed, 3, held as u32);
}

/// So many returns held, and a number behind them.
fn behind(fed: &mut Fed, held: usize) {
    returns(fed, held, 0);
    field(fed, 4 + held, 1);
}

fn states(description: &Description) -> u32 {
    description.outline.states.len() as u32
}

/// Sets the lowest spare bit of a word that has one and begins here.
fn spare(bytes: &mut [u8], place: usize, bits: usize) {
    if let Some(byte) = bytes.get_mut(place).filter(|_| bits % 8 != 0) {
        *byte |= 1 << (bits % 8);
    }
}

/// In the last facility that has spare bits.
fn spare_bit(fed: &mut Fed, description: &Description) {
    let shapes = description.shapes.iter().enumerate().rev();
    let mut places = shapes.filter_map(|(number, shape)| Some((description.store_place(number)?, shape.bits())));
    if let Some((place, bits)) = places.find(|(_, bits)| bits % 8 != 0) {
        spare(&mut fed.loan.store, place, bits);
    }
}

/// The sequencing register with another value than the state's.
fn other_value(fed: &mut Fed, description: &Description) {
    let place = description.sequencing.and_then(|register| description.store_place(register));
    if let Some(byte) = place.and_then(|place| fed.loan.store.get_mut(place)) {
        *byte ^= 1;
    }
}

/// In the last stimulus.
fn stimulus_bit(fed: &mut Fed, description: &Description) {
    let mut place = fed.stimuli.len().saturating_sub(stimulus_size(description));
    for shape in description.inputs().map(|number| &description.shapes[number]) {
        spare(&mut fed.stimuli, place, shape.bits());
        place += shape.bytes();
    }
}

/// A cycle and a run with these faults.
fn both(harness: &mut Harness, sound: &Fed, description: &Description, faults: &[Fault]) -> Result<(), Failure> {
    let one = sound.stimuli[..stimulus_size(description)].to_vec();
    let mut calls = [Fed { stimuli: one, ..sound.clone() }, sound.clone()];
    for call in &mut calls {
        faults.iter().for_each(|fault| fault(call, description));
    }
    let [mut cycle, mut run] = calls;
    held::cycle(harness, "with faults", &mut cycle.loan, &cycle.stimuli)?;
    held::run(harness, "with faults", &mut run.loan, &run.stimuli, run.cycles).map(|_| ())
}

/// Any of the three refusals together, or none: scratch too short, so that store and record can be judged.
fn together(harness: &mut Harness, sound: &Fed, description: &Description) -> Result<(), Failure> {
    let faults = [SHORT[2], UNSOUND[0], STIMULI[0]];
    for chosen in 0..8 {
        let faults: Vec<Fault> = (0..3).filter(|order| chosen >> order & 1 == 1).map(|order| faults[order]).collect();
        both(harness, sound, description, &faults)?;
    }
    Ok(())
}

/// Each fault alone, then those that meet, then with images that do not pass or are longer.
pub fn each_fault(harness: &mut Harness, text: &[u8]) -> Result<(), Failure> {
    let description = second::read(text).map_err(|refusal| format!("the text is refused: {refusal:?}"))?;
    let sound = sound(harness, &description)?;
    for fault in SHORT.iter().chain(&UNSOUND).chain(&STIMULI).chain(&LAST) {
        both(harness, &sound, &description, &[*fault])?;
    }
    together(harness, &sound, &description)?;
    let image = &sound.loan.image;
    let longer = [image, &[1, 2, 3][..]].concat();
    for image in [image[..image.len() - 1].to_vec(), changed(image, &mut harness.random), longer] {
        let mut other = sound.clone();
        other.loan.image = image;
        together(harness, &other, &description)?;
        held::open(harness, "with faults", &other.loan.image, [other.loan.store.len(), RECORD])?;
        held::open(harness, "with faults", &other.loan.image, [0, 0])?;
    }
    Ok(())
}

/// Two cycles from any sound store and record.
fn sound(harness: &mut Harness, description: &Description) -> Result<Fed, Failure> {
    let mut loan = some_loan(harness, description, image(description))?;
    loan.trace = 2 * store_size(description);
    let mut stimulus = || stimulus_bytes(&supply::stimulus(description, &mut harness.random));
    Ok(Fed { loan, stimuli: [stimulus(), stimulus()].concat(), cycles: 2 })
}

/// With one bit changed, so that it does not pass.
fn changed(image: &[u8], random: &mut Random) -> Vec<u8> {
    loop {
        let mut changed = image.to_vec();
        changed[random.below(image.len())] ^= 1 << random.below(8);
        if load(&changed).is_none() {
            return changed;
        }
    }
}
