//! Turns the output of the trace program into a VCD file, which waveform
//! viewers open.
//!
//!     trace < inputs | vcd > waves.vcd
//!
//! A cycle takes one unit of time, from its number on. Each facility is a
//! vector of its bits; the label of the state carried out is the vector
//! STATE_LABEL, its letters in ASCII. How the trace ended stands in a comment
//! at the end. Ends with status 1 where the input is no trace of a cycle.

use std::io::{self, Read, Write};
use std::process::ExitCode;

const LABEL: &str = "STATE_LABEL";

/// A line of the trace: what each facility holds after this cycle.
struct Cycle<'a> {
    number: &'a str,
    label: &'a str,
    words: Vec<(&'a str, &'a str)>,
}

fn cycle(line: &str) -> Option<Cycle<'_>> {
    let mut items = line.split(' ');
    let number = items.next().filter(|number| number.parse::<u32>().is_ok())?;
    let label = items.next()?;
    let words: Option<Vec<_>> = items.map(|item| item.split_once('=')).collect();
    let words = words?;
    let is_bits = |bits: &str| !bits.is_empty() && bits.bytes().all(|bit| matches!(bit, b'0' | b'1'));
    words.iter().all(|(_, bits)| is_bits(bits)).then_some(Cycle { number, label, words })
}

/// The short name of a variable, in printable characters.
fn code(number: usize) -> String {
    let mut rest = number;
    let mut code = String::new();
    loop {
        code.push(char::from(b'!' + (rest % 94) as u8));
        rest /= 94;
        if rest == 0 {
            return code;
        }
    }
}

/// The label's letters as bits, as many as the longest label has.
fn label_bits(label: &str, letters: usize) -> String {
    let bytes = label.bytes().chain(std::iter::repeat(0)).take(letters);
    bytes.map(|byte| format!("{byte:08b}")).collect()
}

fn change(bits: &str, number: usize) -> String {
    match bits.len() {
        1 => format!("{bits}{}\n", code(number)),
        _ => format!("b{bits} {}\n", code(number)),
    }
}

/// All variables of a cycle: the label first, then the facilities as declared.
fn variables<'a>(cycle: &Cycle<'a>, letters: usize) -> Vec<(&'a str, String)> {
    let words = cycle.words.iter().map(|(name, bits)| (*name, bits.to_string()));
    std::iter::once((LABEL, label_bits(cycle.label, letters))).chain(words).collect()
}

fn header(first: &[(&str, String)]) -> String {
    let mut out =
        "$version trace of a DDL-P description $end\n$timescale 1 us $end\n$scope module ddlp $end\n".to_string();
    for (number, (name, bits)) in first.iter().enumerate() {
        let range = if bits.len() == 1 { String::new() } else { format!(" [{}:0]", bits.len() - 1) };
        out += &format!("$var wire {} {} {name}{range} $end\n", bits.len(), code(number));
    }
    out + "$upscope $end\n$enddefinitions $end\n"
}

fn waves(cycles: &[Cycle], ending: &str) -> Option<String> {
    let letters = cycles.iter().map(|cycle| cycle.label.len()).max()?;
    let mut before = variables(cycles.first()?, letters);
    let mut out = header(&before);
    for (order, cycle) in cycles.iter().enumerate() {
        let now = variables(cycle, letters);
        let mut changes = String::new();
        for (number, (one, other)) in now.iter().zip(&before).enumerate() {
            if order == 0 || one != other {
                changes += &change(&one.1, number);
            }
        }
        out += &match order {
            0 => format!("#{}\n$dumpvars\n{changes}$end\n", cycle.number),
            _ => format!("#{}\n{changes}", cycle.number),
        };
        before = now;
    }
    let last: u64 = cycles.last()?.number.parse().ok()?;
    Some(format!("{out}#{}\n$comment {ending} $end\n", last + 1))
}

fn converted(trace: &str) -> Option<String> {
    let lines: Vec<&str> = trace.lines().collect();
    let (ending, lines) = lines.split_last()?;
    let cycles: Option<Vec<Cycle>> = lines.iter().map(|line| cycle(line)).collect();
    let ended = ["end", "stop", "refused"].contains(&ending.split(' ').next()?);
    waves(&cycles.filter(|_| ended)?, ending)
}

fn main() -> ExitCode {
    let mut trace = String::new();
    let read = io::stdin().read_to_string(&mut trace);
    let waves = read.ok().and_then(|_| converted(&trace));
    match waves.map(|waves| io::stdout().write_all(waves.as_bytes())) {
        Some(Ok(())) => ExitCode::SUCCESS,
        Some(Err(error)) => {
            eprintln!("vcd: {error}");
            ExitCode::FAILURE
        }
        None => {
            eprintln!("vcd: this is no trace of a cycle");
            ExitCode::FAILURE
        }
    }
}
