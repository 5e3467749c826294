//! Trials of the running side: cycles from the opening or from any sound
//! store and record, and the operators against the machine's own numbers.

use crate::bytes::{stimulus_bytes, store_bytes};
use crate::description::Description;
use crate::sound::resume;
use crate::step::{cycle, cycle_bytes, open, Outcome, Run, RETURNS};
use crate::trials::check::{agree, note, Failure, Tally};
use crate::trials::random::Random;
use crate::trials::supply;
use crate::value::Bits;

/// Values of up to 100 bits against the machine's own numbers.
pub fn try_values(random: &mut Random, tally: &mut Tally) -> Result<(), Failure> {
    note(tally, "values".to_string());
    let ((left, x), (right, y)) = (some_value(100, random), some_value(100, random));
    let length = left.len().max(right.len());
    let low = |number: u128, length: usize| number & ((1 << length) - 1);
    agree(number(&left.sum(&right)), x + y, "a sum")?;
    let difference = left.difference(&right);
    agree(number(&difference), low(x.wrapping_sub(y), length + 1), "a difference")?;
    agree(difference.head(1), Bits::bit(x < y), "a borrow")?;
    agree(difference.ones() == 0, x == y, "a difference of equals")?;
    agree(number(&left.complement()), low(!x, left.len()), "a complement")?;
    agree(number(&left.bitwise(&right, |a, b| a ^ b)), x ^ y, "an exclusive or")?;
    agree(number(&left.join(&right.tail(1))), x << 1 | (y & 1), "a join")?;
    agree(left.compare(&right), x.cmp(&y), "a comparison")?;
    agree(left.ones(), x.count_ones() as usize, "a count of ones")?;
    agree(Bits::from_bytes(&left.bytes(), left.len()).as_ref(), Some(&left), "bytes and back")?;
    // Longer values against themselves.
    let ((left, _), (right, _)) = (some_value(255, random), some_value(255, random));
    let sum = left.sum(&right);
    agree(sum.difference(&right), left.fitted(sum.len() + 1), "a sum and back")?;
    agree(sum.compare(&left).is_lt(), false, "a sum below its operand")
}

/// A value, and its last 128 bits as a number.
fn some_value(longest: usize, random: &mut Random) -> (Bits, u128) {
    let (length, ones) = (random.between(1, longest), random.pick(&[0, 5, 50, 95, 100]));
    let value = Bits((0..length).map(|_| random.chance(ones)).collect());
    let plain = number(&value);
    (value, plain)
}

fn number(value: &Bits) -> u128 {
    value.0.iter().fold(0, |number, &bit| number << 1 | bit as u128)
}

pub fn run_some(description: &Description, random: &mut Random, tally: &mut Tally) -> Result<(), Failure> {
    let mut run = if random.chance(50) { open(description) } else { some_run(description, random)? };
    for _ in 0..random.pick(&[3, 12, 60]) {
        let stimulus = supply::stimulus(description, random);
        let before = run.clone();
        let outcome = cycle(description, &mut run, &stimulus);
        agree(outcome_of_bytes(description, &before, &stimulus), (outcome, run.clone()), "stimulus as bytes")?;
        note_outcome(tally, outcome);
        if let Outcome::Completed { .. } = outcome {
            sound(description, &run)?;
        } else {
            return agree(before, run, "a stop left its mark");
        }
    }
    refused_stimuli(description, &run)?;
    last_cycle(description, &run)
}

/// No cycle follows the last number that a cycle can have.
fn last_cycle(description: &Description, run: &Run) -> Result<(), Failure> {
    let mut last = Run { cycle: u32::MAX, ..run.clone() };
    let before = last.clone();
    let outcome = cycle(description, &mut last, &zero_stimulus(description));
    agree((outcome, last), (Outcome::Stop(7), before), "the last cycle")
}

fn zero_stimulus(description: &Description) -> Vec<Bits> {
    description.inputs().map(|number| Bits::zero(description.shapes[number].bits())).collect()
}

/// Any sound store and record; they come back from their bytes as they were.
pub fn some_run(description: &Description, random: &mut Random) -> Result<Run, Failure> {
    let mut run = open(description);
    let ones = random.pick(&[0, 10, 50, 90, 100, 100]);
    for bit in run.store.iter_mut().flatten().flat_map(|word| &mut word.0) {
        *bit = random.chance(ones);
    }
    let states = description.outline.states.len();
    run.state = random.below(states);
    run.cycle = random.below(1 << 31) as u32;
    run.returns = (0..random.below(RETURNS + 1)).map(|_| random.below(states)).collect();
    if let Some(register) = description.sequencing {
        run.store[register][0] = description.values[run.state].clone();
    }
    let resumed = resume(description, &store_bytes(&run), run.state, run.cycle, &run.returns);
    agree(resumed, Ok(run.clone()), "a sound store")?;
    agree(resume(description, &store_bytes(&run), states, 0, &[]), Err(14), "a state that is not there")?;
    Ok(run)
}

fn outcome_of_bytes(description: &Description, before: &Run, stimulus: &[Bits]) -> (Outcome, Run) {
    let mut run = before.clone();
    let outcome = cycle_bytes(description, &mut run, &stimulus_bytes(stimulus));
    (outcome, run)
}

fn note_outcome(tally: &mut Tally, outcome: Outcome) {
    let what = match outcome {
        Outcome::Completed { conflicts: 0 } => "completed".to_string(),
        Outcome::Completed { .. } => "completed with conflicts".to_string(),
        Outcome::Stop(digit) => format!("stop {digit}"),
        Outcome::Refused(number) => format!("refused {number}"),
    };
    note(tally, format!("cycle: {what}"));
}

/// The store has its size, and the sequencing register the state's value.
fn sound(description: &Description, run: &Run) -> Result<(), Failure> {
    let stored = (0..description.shapes.len()).filter(|&number| description.is_stored(number));
    let bytes: usize = stored.map(|number| description.shapes[number].bytes()).sum();
    agree(store_bytes(run).len(), bytes, "the store's size")?;
    let last = description.shapes.len() - 1;
    let place = description.store_place(last).map(|place| place + description.shapes[last].bytes());
    agree(place.is_none_or(|place| place == bytes), true, "the last facility's place")?;
    agree(run.returns.len() <= 16 && run.state < description.outline.states.len(), true, "the record")?;
    match description.sequencing {
        Some(register) => agree(&run.store[register][0], &description.values[run.state], "the sequencing register"),
        None => Ok(()),
    }
}

/// A stimulus with a byte more, or with a spare bit set, is refused.
fn refused_stimuli(description: &Description, run: &Run) -> Result<(), Failure> {
    let mut long = stimulus_bytes(&zero_stimulus(description));
    let mut spare = long.clone();
    long.push(0);
    agree(cycle_bytes(description, &mut run.clone(), &long), Outcome::Refused(15), "a long stimulus")?;
    let first = description.inputs().next().map_or(0, |number| description.shapes[number].bits() % 8);
    if first != 0 {
        spare[0] = 1 << first;
        agree(cycle_bytes(description, &mut run.clone(), &spare), Outcome::Refused(15), "a spare bit")?;
    }
    Ok(())
}
