//! The trace program: a text and lines of input bits give lines of values.

use crate::description::Description;
use crate::read;
use crate::step::{cycle, open, Outcome, Run};
use crate::value::Bits;

/// Hands each line to `print`; the last one says how the run ended.
pub fn trace(text: &[u8], input: &[u8], mut print: impl FnMut(&str)) {
    let description = match read(text) {
        Ok(description) => description,
        Err(refusal) => return print(&format!("refused {} {}", refusal.number, refusal.place)),
    };
    let mut run = open(&description);
    for line in lines(input) {
        let state = run.state;
        let outcome = match stimulus(&description, line) {
            Some(stimulus) => cycle(&description, &mut run, &stimulus),
            None => Outcome::Refused(15),
        };
        match outcome {
            Outcome::Completed { .. } => print(&report(&description, &run, state)),
            Outcome::Stop(digit) => return print(&format!("stop {digit}")),
            Outcome::Refused(number) => return print(&format!("refused {number}")),
        }
    }
    print(&format!("end {}", run.cycle));
}

/// One CR right before an LF belongs to the line's end; a last line needs no LF.
pub fn lines(input: &[u8]) -> impl Iterator<Item = &[u8]> {
    input.split_inclusive(|&byte| byte == b'\n').map(|line| {
        let Some(line) = line.strip_suffix(b"\n") else {
            return line;
        };
        line.strip_suffix(b"\r").unwrap_or(line)
    })
}

/// The line's bits, handed out to the input terminals as declared.
pub fn stimulus(description: &Description, line: &[u8]) -> Option<Vec<Bits>> {
    let mut rest = line;
    let mut values = Vec::new();
    for number in description.inputs() {
        let (word, after) = rest.split_at_checked(description.shapes[number].bits())?;
        values.push(Bits(word.iter().map(bit).collect::<Option<_>>()?));
        rest = after;
    }
    rest.is_empty().then_some(values)
}

fn bit(byte: &u8) -> Option<bool> {
    match byte {
        b'0' => Some(false),
        b'1' => Some(true),
        _ => None,
    }
}

/// Cycle, label of the state carried out, and the facilities of at most one dimension.
fn report(description: &Description, run: &Run, state: usize) -> String {
    let label = &description.outline.states[state].label;
    let label = label.as_ref().map_or("-", |label| &label.text);
    let mut line = format!("{} {}", run.cycle, label);
    for (number, facility) in description.outline.facilities.iter().enumerate() {
        if description.is_stored(number) && description.shapes[number].0.len() < 2 {
            line += &format!(" {}={}", facility.name.text, run.store[number][0]);
        }
    }
    line
}
