//! How long reading takes, beside the second simulator: over the texts of the
//! corpus, and over one that comes to nearly every ceiling at once, with a half
//! and a quarter of it.

use crate::measure::{measured, Counter, Measured};
use crate::module;
use second::calls::{self, ReadAnswer};
use std::fs;
use std::time::Duration;

const LARGEST_IMAGE: usize = 165_556;

/// A quarter of the ceilings, so many times: registers, operations, states and
/// counted words, all with long names that differ only at their ends.
fn quarters(times: usize) -> String {
    let (registers, operations, states) = (64 * times, 32 * times, 64 * times);
    let name = |letter: char, number: usize| format!("{letter}ADDRESS{number:03}");
    let register = |number: usize| name('R', number % registers);
    let sum = |n: usize| format!("{}<-\n{}+{}+{}", register(n), register(n + 1), register(n + 2), register(n + 3));
    let operation = |n: usize| {
        format!("{}=[{},\n{}]", name('O', n), sum(2 * operations - 6 - n), sum(2 * operations - 5 - n))
    };
    let state = |n: usize| {
        let (last, performed) = (states - 1, operations - 1 - n % operations);
        format!("{}: {}, ->{}/", name('S', n), name('O', performed), name('S', last - n))
    };
    let listed = |count: usize, one: &dyn Fn(usize) -> String| (0..count).map(one).collect::<Vec<String>>();
    format!(
        "REGISTER {}.\nOPERATION {}.\nCONTROL {}\n.",
        listed(registers, &register).join(",\n"),
        listed(operations, &operation).join(",\n"),
        listed(states, &state).join("\n")
    )
}

/// 256 registers, 128 operations, 256 states and 2,048 counted words.
pub fn text_at_the_ceilings() -> String {
    quarters(4)
}

fn texts(corpus: &str) -> Result<Vec<Vec<u8>>, String> {
    let folders = fs::read_dir(corpus).map_err(|error| format!("{corpus}: {error}"))?;
    let texts = folders.flatten().filter_map(|folder| fs::read(folder.path().join("run.ddl")).ok());
    Ok(texts.collect())
}

fn made(times: usize) -> Result<Vec<Vec<u8>>, String> {
    let text = quarters(times).into_bytes();
    match module::read(&text, &mut [0; LARGEST_IMAGE]) {
        answer if answer.refusal > 0 => Err(format!("a text of {times} quarters is refused: {answer:?}")),
        _ => Ok(vec![text]),
    }
}

type Reader = fn(&[u8], &mut [u8]) -> ReadAnswer;

const READERS: [(&str, Reader); 2] = [("ddlp_read", module::read), ("second simulator", calls::read)];

/// Both must give the same answers and images.
fn agree(texts: &[Vec<u8>]) -> Result<(), String> {
    let [mut own, mut other] = [vec![1; LARGEST_IMAGE], vec![2; LARGEST_IMAGE]];
    for text in texts {
        if module::read(text, &mut own) != calls::read(text, &mut other) || own != other {
            return Err(format!("reading differs: {}", String::from_utf8_lossy(text)));
        }
    }
    Ok(())
}

fn row(name: &str, texts: &[Vec<u8>], one: &Measured, beside: &Measured) {
    let bytes = texts.iter().map(Vec::len).sum::<usize>() as f64 / texts.len() as f64;
    let microseconds = 1e6 / one.a_second();
    let instructions = one.instructions_each().map_or("-".to_string(), |count| format!("{:.0}", count / bytes));
    let ratio = beside.a_second() / one.a_second();
    println!("  {name:22} {microseconds:>18.1} {instructions:>18} {ratio:>10.2}");
}

pub fn table(corpus: &str, time: Duration) -> Result<(), String> {
    let kinds = [
        ("the corpus", texts(corpus)?),
        ("a text at the ceilings", made(4)?),
        ("one of half as much", made(2)?),
        ("one of a quarter", made(1)?),
    ];
    let counter = Counter::open();
    println!("  {:22} {:>18} {:>18} {:>10}", "", "microseconds/text", "instructions/byte", "times");
    for (name, texts) in kinds {
        agree(&texts)?;
        let bytes: usize = texts.iter().map(Vec::len).sum();
        println!("{name}: {} texts, {bytes} bytes", texts.len());
        let mut image = vec![0; LARGEST_IMAGE];
        let of = |read: Reader| {
            measured(time, counter.as_ref(), || {
                for text in &texts {
                    read(text, &mut image);
                }
                texts.len() as u64
            })
        };
        let measured = READERS.map(|(_, read)| read).map(of);
        for ((name, _), one) in READERS.iter().zip(&measured) {
            row(name, &texts, one, &measured[1]);
        }
    }
    Ok(())
}
