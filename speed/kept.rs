//! How long the wrapper takes to take up a kept image: beside one lookup,
//! nearly all of which is the check of the image, and beside the lookups of
//! every facility and state, each of which checks it anew.

use crate::measure::{measured, Counter, Measured};
use crate::module;
use crate::reading::text_at_the_ceilings;
use ddlp::Image;
use std::fs;
use std::time::Duration;

/// What takes longer than so many lookups makes more than a few checks.
const MOST: f64 = 3.0;

type Way = fn(&Image);

const WAYS: [(&str, Way); 3] = [("a lookup", lookup), ("Image::from_bytes", taken_up), ("every lookup", every_lookup)];

fn lookup(image: &Image) {
    module::facility_name(image.as_bytes(), 0);
}

fn taken_up(image: &Image) {
    let _ = Image::from_bytes(image.as_bytes().to_vec());
}

fn every_lookup(image: &Image) {
    for number in 0..image.facility_count() {
        module::facility(image.as_bytes(), number);
        module::facility_name(image.as_bytes(), number);
    }
    for number in 0..image.state_count() {
        module::state_name(image.as_bytes(), number);
    }
}

fn row(name: &str, one: &Measured, beside: &Measured) -> f64 {
    let microseconds = 1e6 / one.a_second();
    let instructions = one.instructions_each().map_or("-".to_string(), |count| format!("{count:.0}"));
    let ratio = beside.a_second() / one.a_second();
    println!("  {name:22} {microseconds:>14.1} {instructions:>14} {ratio:>14.2}");
    ratio
}

fn compared(name: &str, text: &[u8], time: Duration, counter: Option<&Counter>) -> Result<(), String> {
    let image = Image::read(text).map_err(|error| format!("{name}: {error}"))?;
    let (facilities, states) = (image.facility_count(), image.state_count());
    println!("{name}: image {} bytes, {facilities} facilities, {states} states", image.as_bytes().len());
    let of = |(_, way): (&str, Way)| {
        measured(time, counter, || {
            way(&image);
            1
        })
    };
    let measured = WAYS.map(of);
    let ratios: Vec<f64> = WAYS.iter().zip(&measured).map(|((name, _), one)| row(name, one, &measured[0])).collect();
    match ratios[1] > MOST {
        true => Err(format!("{name}: {} takes {:.2} lookups", WAYS[1].0, ratios[1])),
        false => Ok(()),
    }
}

pub fn table(folder: &str, names: &[&str], time: Duration) -> Result<(), String> {
    let counter = Counter::open();
    println!("  {:22} {:>14} {:>14} {:>14}", "", "microseconds", "instructions", "times a lookup");
    for name in names {
        let text = fs::read(format!("{folder}/{name}.ddl")).map_err(|error| format!("{name}: {error}"))?;
        compared(name, &text, time, counter.as_ref())?;
    }
    compared("a text at the ceilings", text_at_the_ceilings().as_bytes(), time, counter.as_ref())
}
