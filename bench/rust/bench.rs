//! A bench in Rust: runs a description cycle by cycle and compares its
//! registers with those of a real board.
//!
//!     bench DESCRIPTION CASES
//!
//! DESCRIPTION is a DDL-P text. CASES has a line for each cycle: inputs
//! before the bar, what the board showed after the cycle behind it. Bits are
//! written as declared, the most significant first.
//!
//!     # a remark
//!     set M[3]=00001111            a word put into the store before the next cycle
//!     GO=1 N=101 | A=0000 M[3]=00001111
//!     | A=01--                     inputs left out are zero; - stands for a bit that is not compared
//!
//! Ends with status 0 where all cycles agree, 1 at the first difference,
//! stop or refusal, 2 for a file at fault.

use ddlp::{Facility, Image, Run};
use std::fmt::Display;
use std::process::ExitCode;
use std::{env, fs};

/// Why the bench ended before the last line.
enum End {
    Differs(String),
    FileAtFault(String),
}

fn at_fault(line: usize, item: &str, what: impl Display) -> End {
    End::FileAtFault(format!("line {line}: {item}: {what}"))
}

/// NAME=bits or NAME[n]=bits: the facility, the subscript and the bits.
fn item<'a, 'b>(image: &'a Image, item: &'b str) -> Option<(Facility<'a>, u32, &'b str)> {
    let (word, bits) = item.split_once('=')?;
    let (name, subscript) = match word.split_once('[') {
        Some((name, subscript)) => (name, Some(subscript.strip_suffix(']')?.parse().ok()?)),
        None => (word, None),
    };
    let facility = image.facility_named(name)?;
    let sound = facility.words().is_some() == subscript.is_some();
    sound.then_some((facility, subscript.unwrap_or(0), bits))
}

struct Bench<'a> {
    run: Run<'a>,
    /// The line under way, from 1.
    line: usize,
    conflicts: u64,
}

impl<'a> Bench<'a> {
    fn image(&self) -> &'a Image {
        self.run.image()
    }

    fn set_words(&mut self, items: &str) -> Result<(), End> {
        for text in items.split_whitespace() {
            let (facility, subscript, bits) =
                item(self.image(), text).ok_or_else(|| at_fault(self.line, text, "no such word"))?;
            if !self.run.set_word(&facility, subscript, bits) {
                return Err(at_fault(self.line, text, "not as many bits as it has"));
            }
        }
        Ok(())
    }

    fn one_cycle(&mut self, line: &str) -> Result<(), End> {
        let (inputs, expected) = line.split_once('|').unwrap_or((line, ""));
        let mut stimulus = self.image().stimulus();
        for text in inputs.split_whitespace() {
            let (name, bits) = text.split_once('=').ok_or_else(|| at_fault(self.line, text, "is not NAME=bits"))?;
            stimulus.set(name, bits).map_err(|error| at_fault(self.line, text, error))?;
        }
        let cycle = self.run.cycles() as u64 + 1;
        let done = self.run.cycle(&stimulus);
        let conflicts = done.map_err(|halt| End::Differs(format!("line {}, cycle {cycle}: {halt}", self.line)))?;
        self.conflicts += conflicts as u64;
        expected.split_whitespace().try_for_each(|text| self.compare(text))
    }

    fn compare(&self, text: &str) -> Result<(), End> {
        let found = item(self.image(), text);
        let found = found.and_then(|(facility, at, bits)| Some((self.run.word(&facility, at)?, bits)));
        let (word, bits) = found.ok_or_else(|| at_fault(self.line, text, "no such word"))?;
        if bits.len() != word.length() || !bits.bytes().all(|bit| b"01-".contains(&bit)) {
            return Err(at_fault(self.line, text, "not as many bits as it has"));
        }
        let found = word.to_string();
        if found.bytes().zip(bits.bytes()).all(|(found, bit)| bit == b'-' || bit == found) {
            return Ok(());
        }
        let name = text.split('=').next().unwrap_or(text);
        let (line, cycle) = (self.line, self.run.cycles());
        Err(End::Differs(format!("line {line}, cycle {cycle}: {name} is {found} and not {bits}")))
    }

    fn cases(&mut self, cases: &str) -> Result<(), End> {
        for (number, line) in cases.lines().enumerate() {
            self.line = number + 1;
            let line = line.trim();
            match line.strip_prefix("set ") {
                _ if line.is_empty() || line.starts_with('#') => {}
                Some(items) => self.set_words(items)?,
                None => self.one_cycle(line)?,
            }
        }
        Ok(())
    }
}

fn bench(description: &str, cases: &str) -> Result<String, End> {
    let file = |path: &str, error: &dyn Display| End::FileAtFault(format!("{path}: {error}"));
    let text = fs::read(description).map_err(|error| file(description, &error))?;
    let lines = fs::read_to_string(cases).map_err(|error| file(cases, &error))?;
    let image = Image::read(&text).map_err(|error| file(description, &error))?;
    let run = Run::open(&image).map_err(|error| file(description, &error))?;
    let mut bench = Bench { run, line: 0, conflicts: 0 };
    bench.cases(&lines)?;
    Ok(format!("{} cycles agree, {} conflicts", bench.run.cycles(), bench.conflicts))
}

fn main() -> ExitCode {
    let arguments: Vec<String> = env::args().skip(1).collect();
    let [description, cases] = &arguments[..] else {
        eprintln!("usage: bench DESCRIPTION CASES");
        return ExitCode::from(2);
    };
    match bench(description, cases) {
        Ok(done) => {
            println!("{done}");
            ExitCode::SUCCESS
        }
        Err(End::Differs(what)) => {
            println!("{what}");
            ExitCode::FAILURE
        }
        Err(End::FileAtFault(what)) => {
            eprintln!("bench: {what}");
            ExitCode::from(2)
        }
    }
}
