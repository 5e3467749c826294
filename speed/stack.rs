//! The stack that calls need, against what the wrapper and the header say of
//! it: by class of what they are given, the most that any call took, and what
//! it was given.

use crate::calls::{self, Case, Outcome};
use crate::deep::{self, Ceilings};
use crate::forged;
use crate::painted::Stacks;
use crate::texts::{texts, Text};
use ddlp::{SMALL_RECORDS, STACK_MOST, STACK_READ, STACK_SMALL, STACK_TEXT};
use std::fs;

/// What is given to a call, and what it may take.
#[derive(Clone, Copy, PartialEq)]
struct Class {
    name: &'static str,
    limit: usize,
}

const READING: Class = Class { name: "texts", limit: STACK_READ };
const SMALL: Class = Class { name: "images of few records", limit: STACK_SMALL };
const OF_TEXTS: Class = Class { name: "images of texts", limit: STACK_TEXT };
const PASSING: Class = Class { name: "images that pass", limit: STACK_MOST };
const FORGED: Class = Class { name: "forged images", limit: STACK_MOST };
const CLASSES: [Class; 5] = [READING, SMALL, OF_TEXTS, PASSING, FORGED];
const CALLS: [&str; 5] = ["read", "open", "cycle", "run", "lookup"];

/// One call's stack.
struct Row {
    class: Class,
    call: &'static str,
    given: String,
    bytes: usize,
}

fn kibibytes(bytes: usize) -> String {
    format!("{:.1}", bytes as f64 / 1024.0)
}

// What is measured.

fn on_image(stacks: &Stacks, class: Class, case: &Case, rows: &mut Vec<Row>) -> Result<(), String> {
    let taken = calls::taken(stacks, case)?;
    rows.extend(taken.into_iter().map(|taken| Row {
        class,
        call: taken.call,
        given: case.name.clone(),
        bytes: taken.bytes,
    }));
    Ok(())
}

/// Expression and action records, as the header has them.
fn records(image: &[u8]) -> usize {
    let four = |at: usize| image[at..at + 4].iter().rev().fold(0, |number, &byte| number << 8 | byte as usize);
    four(20) + four(28)
}

/// Reading, and where the text is accepted every call on its image.
fn on_text(stacks: &Stacks, text: &Text, rows: &mut Vec<Row>) -> Result<(), String> {
    let (bytes, image) = text.taken(stacks)?;
    rows.push(Row { class: READING, call: "read", given: text.name.clone(), bytes });
    if image.is_empty() {
        return Ok(());
    }
    let class = if records(&image) <= SMALL_RECORDS { SMALL } else { OF_TEXTS };
    on_image(stacks, class, &Case { name: text.name.clone(), image, outcome: Outcome::Completes }, rows)
}

/// The descriptions' texts and those made for it.
fn all_texts(folder: &str, names: &[&str], most: usize) -> Result<Vec<Text>, String> {
    let read = |name: &&str| {
        let text = fs::read(format!("{folder}/{name}.ddl")).map_err(|error| format!("{name}: {error}"))?;
        Ok(Text::legal(name, text))
    };
    let descriptions: Result<Vec<Text>, String> = names.iter().map(read).collect();
    Ok(descriptions?.into_iter().chain(texts(most)).collect())
}

/// Every call, on so many texts, each with its faults, and so many images of each kind.
fn measured(folder: &str, names: &[&str], most: usize) -> Result<Vec<Row>, String> {
    let stacks = Stacks::new()?;
    let mut rows = Vec::new();
    let few = Ceilings::few(SMALL_RECORDS);
    for text in all_texts(folder, names, most)? {
        on_text(&stacks, &text, &mut rows)?;
    }
    let images = [
        (SMALL, deep::cases(few)),
        (SMALL, forged::few(few)),
        (PASSING, deep::cases(Ceilings::ALL)),
        (FORGED, forged::cases()),
    ];
    for (class, cases) in &images {
        for case in cases.iter().take(most) {
            on_image(&stacks, *class, case, &mut rows)?;
        }
    }
    Ok(rows)
}

// What is made of it.

/// Of each call the one that took most on this class.
fn largest(rows: &[Row], class: Class) -> Vec<&Row> {
    let on =
        |call: &&str| rows.iter().filter(|row| row.class == class && row.call == *call).max_by_key(|row| row.bytes);
    CALLS.iter().filter_map(|call| on(call)).collect()
}

fn print(rows: &[Row]) {
    println!("stack in KiB, the thread's own with it: the most that a call took, what it may take, what it was given");
    for class in CLASSES {
        let count = rows.iter().filter(|row| row.class == class).count();
        println!("{}: {count} calls", class.name);
        for row in largest(rows, class) {
            println!("  {:8} {:>9} {:>9}  {}", row.call, kibibytes(row.bytes), kibibytes(class.limit), row.given);
        }
    }
}

/// The calls that take more on a class than they may.
fn beyond(rows: &[Row], limit: impl Fn(Class) -> usize) -> Vec<String> {
    let all = CLASSES.iter().flat_map(|&class| largest(rows, class));
    let beyond = all.filter(|row| row.bytes > limit(row.class));
    let told =
        |row: &Row| format!("{}: {} takes {} KiB: {}", row.class.name, row.call, kibibytes(row.bytes), row.given);
    beyond.map(told).collect()
}

pub fn table(folder: &str, names: &[&str], each: bool) -> Result<(), String> {
    let rows = measured(folder, names, usize::MAX)?;
    for row in rows.iter().filter(|_| each) {
        println!("{:24} {:8} {:>9}  {}", row.class.name, row.call, kibibytes(row.bytes), row.given);
    }
    print(&rows);
    match &beyond(&rows, |class| class.limit)[..] {
        [] => Ok(()),
        beyond => Err(format!("more stack than is said\n  {}", beyond.join("\n  "))),
    }
}

/// With limits a byte below what was measured every call on every class is told, and with that limit none.
pub fn wrong(folder: &str, names: &[&str]) -> Result<(), String> {
    Stacks::new()?.right()?;
    let rows = measured(folder, names, 1)?;
    let of_class = |class: Class| largest(&rows, class).into_iter().map(|row| row.bytes);
    let told = beyond(&rows, |class| of_class(class).min().unwrap_or(1) - 1).len();
    let not_told = beyond(&rows, |class| of_class(class).max().unwrap_or(0)).len();
    // Reading on texts, and every other call on every other class.
    let calls = 1 + (CLASSES.len() - 1) * (CALLS.len() - 1);
    println!("stack: {told} of {calls} limits that are a byte too low are told");
    match (told == calls, not_told) {
        (true, 0) => Ok(()),
        _ => Err("a limit that is too low is not told".to_string()),
    }
}
