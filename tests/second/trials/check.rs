//! The self-check: legal texts must be read and run, broken ones must be
//! refused where that is certain, and the same words laid out anew must
//! have the same meaning or the same refusal.

use crate::description::Description;
use crate::grammar::outline;
use crate::read;
use crate::refusal::Refusal;
use crate::trials::bnf::{derived, first_misplaced};
use crate::trials::by_hand::all_agree;
use crate::trials::edges::edge;
use crate::trials::faults::fault;
use crate::trials::generate::legal;
use crate::trials::images::{try_image, worked_image_agrees};
use crate::trials::layout::{lay_out, Text};
use crate::trials::mutate::{mutate, mutate_bytes};
use crate::trials::random::Random;
use crate::trials::running::{run_some, try_values};
use crate::words::words;
use std::collections::BTreeMap;
use std::panic::{catch_unwind, AssertUnwindSafe};

/// The table is slow; longer texts are not held against it.
const OPINION: usize = 400;

/// How often each thing was tried and came out.
pub type Tally = BTreeMap<String, usize>;

/// Why a try failed.
pub type Failure = String;

/// Makes `count` tries from the seed; prints failures and the tally.
pub fn check(seed: u64, count: u64) -> bool {
    let mut tally = Tally::new();
    let mut failures = 0;
    if let Err(failure) = all_agree().and_then(|()| worked_image_agrees()) {
        failures += 1;
        println!("by hand: {failure}");
    }
    for number in 0..count {
        let random = Random::new(seed.wrapping_add(number));
        let tried = catch_unwind(AssertUnwindSafe(|| attempt(random, &mut tally)));
        if let Err(failure) = tried.unwrap_or(Err("panicked".to_string())) {
            failures += 1;
            println!("seed {}: {failure}", seed.wrapping_add(number));
        }
    }
    for (what, times) in &tally {
        println!("{times:8} {what}");
    }
    println!("random: {count} tried, {failures} failed");
    failures == 0
}

fn attempt(mut random: Random, tally: &mut Tally) -> Result<(), Failure> {
    match random.below(12) {
        0 => try_edge(&mut random, tally),
        1 => try_values(&mut random, tally),
        2 => try_derived(&mut random, tally),
        3..=6 => try_legal(&mut random, tally),
        _ => try_broken(&mut random, tally),
    }
}

pub fn note(tally: &mut Tally, what: String) {
    *tally.entry(what).or_default() += 1;
}

fn note_reading(tally: &mut Tally, from: &str, reading: &Result<Description, Refusal>, text: &[u8]) {
    let outcome = match reading {
        Ok(_) => "accepted".to_string(),
        Err(refusal) => format!("refused {:2} {}", refusal.number, place_class(refusal, text)),
    };
    note(tally, format!("{from}: {outcome}"));
}

fn place_class(refusal: &Refusal, text: &[u8]) -> &'static str {
    match refusal.place {
        0 => "at the start",
        place if place == text.len() => "at the end",
        _ => "within",
    }
}

pub fn agree<T: PartialEq>(left: T, right: T, what: &str) -> Result<(), Failure> {
    if left == right {
        Ok(())
    } else {
        Err(what.to_string())
    }
}

fn try_edge(random: &mut Random, tally: &mut Tally) -> Result<(), Failure> {
    let edge = edge(random);
    let reading = read(&edge.text);
    note_reading(tally, &format!("edge of {}", edge.ceiling), &reading, &edge.text);
    let found = reading.as_ref().map(|_| ()).map_err(|refusal| *refusal);
    agree(found, edge.expected, &format!("edge of {}: {found:?}", edge.ceiling))
}

// Legal texts.

fn try_legal(random: &mut Random, tally: &mut Tally) -> Result<(), Failure> {
    let words = legal(Random::new(random.below(usize::MAX) as u64));
    let (one, other) = (lay_out(&words, false, random), lay_out(&words, false, random));
    let reading = read(&one.bytes);
    note_reading(tally, "legal", &reading, &one.bytes);
    let description = reading.map_err(|refusal| format!("legal text: {refusal:?}"))?;
    let again = read(&other.bytes).map_err(|refusal| format!("legal text laid out anew: {refusal:?}"))?;
    agree(placeless(&description), placeless(&again), "two layouts, two meanings")?;
    second_opinion(&other.bytes)?;
    try_image(&description, random, tally)?;
    run_some(&description, random, tally)
}

/// The description without its places.
fn placeless(description: &Description) -> String {
    let Description { outline, shapes, sequencing, values, .. } = description;
    let all = format!("{outline:?} {shapes:?} {sequencing:?} {values:?}");
    let mut parts = Vec::new();
    for (order, part) in all.split("place: ").flat_map(|part| part.split("sign: ")).enumerate() {
        let after = if order == 0 { part } else { part.trim_start_matches(|byte: char| byte.is_ascii_digit()) };
        parts.push(after);
    }
    parts.concat()
}

/// Words made from the table obey the grammar, whatever the last stage says.
fn try_derived(random: &mut Random, tally: &mut Tally) -> Result<(), Failure> {
    let words = derived(random);
    let (one, other) = (lay_out(&words, false, random), lay_out(&words, true, random));
    let (reading, again) = (read(&one.bytes), read(&other.bytes));
    note_reading(tally, "derived", &reading, &one.bytes);
    let found = word_refused(&one, &reading)?;
    agree(found, word_refused(&other, &again)?, "two layouts, two answers of a derived text")?;
    agree(found.is_some_and(|(number, _)| number == 3), false, "a derived text is no fault of grammar")?;
    second_opinion(&one.bytes)?;
    run_read(reading, random, tally)
}

// Broken texts.

fn try_broken(random: &mut Random, tally: &mut Tally) -> Result<(), Failure> {
    let mut words = legal(Random::new(random.below(usize::MAX) as u64));
    if random.chance(20) {
        return try_broken_bytes(&words, random, tally);
    }
    let mutation = if random.chance(30) { fault(&mut words, random) } else { mutate(&mut words, random) };
    let (one, other) = (lay_out(&words, true, random), lay_out(&words, true, random));
    let (reading, again) = (read(&one.bytes), read(&other.bytes));
    note_reading(tally, &format!("broken by {}", mutation.kind), &reading, &one.bytes);
    let found = word_refused(&one, &reading)?;
    agree(found, word_refused(&other, &again)?, &format!("two layouts, two answers after {}", mutation.kind))?;
    if let Some(expected) = mutation.expected {
        agree(found, Some(expected), &format!("{}: {found:?} for {expected:?}", mutation.kind))?;
    }
    second_opinion(&one.bytes)?;
    run_read(reading, random, tally)
}

/// What was broken or derived may be legal all the same.
fn run_read(reading: Result<Description, Refusal>, random: &mut Random, tally: &mut Tally) -> Result<(), Failure> {
    match reading {
        Ok(description) => run_some(&description, random, tally),
        Err(_) => Ok(()),
    }
}

/// The grammar's answer against the table's. A ceiling must be passed at an
/// earlier word than the first that cannot stand.
fn second_opinion(text: &[u8]) -> Result<(), Failure> {
    let Ok(words) = words(text) else {
        return Ok(());
    };
    if words.len() > OPINION {
        return Ok(());
    }
    let place = |number: usize| words.get(number).map_or(text.len(), |placed| placed.place);
    let misplaced = first_misplaced(&words).map(place);
    let agreed = match (outline(&words, text.len()), misplaced) {
        (Ok(_), None) => true,
        (Err(Refusal { number: 3, place }), Some(misplaced)) => place == misplaced,
        (Err(Refusal { number: 10, place }), misplaced) => misplaced.is_none_or(|misplaced| place < misplaced),
        _ => false,
    };
    agree(agreed, true, &format!("the table has its first fault at {misplaced:?}"))
}

/// The number and the word refused; a place between words would be a fault here.
fn word_refused(text: &Text, reading: &Result<Description, Refusal>) -> Result<Option<(u8, usize)>, Failure> {
    match reading {
        Ok(_) => Ok(None),
        Err(refusal) => match text.word_at(refusal.place) {
            Some(word) => Ok(Some((refusal.number, word))),
            None => Err(format!("{refusal:?} at no word")),
        },
    }
}

fn try_broken_bytes(words: &[String], random: &mut Random, tally: &mut Tally) -> Result<(), Failure> {
    let mut text = lay_out(words, false, random).bytes;
    mutate_bytes(&mut text, random);
    let reading = read(&text);
    note_reading(tally, "broken by bytes", &reading, &text);
    let place = reading.as_ref().map_or_else(|refusal| refusal.place, |_| 0);
    agree(place <= text.len(), true, "a place past the end")?;
    run_read(reading, random, tally)
}
