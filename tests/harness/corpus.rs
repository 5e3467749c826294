//! The cases of the corpus through the module's calls: each text into every
//! kind of room; where it is accepted, opened into every kind of room, its
//! input lines cycle by cycle, and those of the right form by runs.

use crate::held::{self, Loan};
use crate::{Failure, Harness};
use second::bytes::stimulus_bytes;
use second::calls::{stimulus_size, store_size};
use second::image::image;
use second::record::RECORD;
use second::trace::{lines, stimulus};
use second::Description;
use std::fs;
use std::path::Path;

/// The bytes of the largest trace that is needed.
const TRACE: usize = 16_384;

/// The text `run.ddl` and the lines `stdin` in this folder.
pub fn one_case(harness: &mut Harness, folder: &Path) -> Result<(), Failure> {
    let file = |name: &str| fs::read(folder.join(name)).map_err(|error| format!("{name}: {error}"));
    let (text, input) = (file("run.ddl")?, file("stdin")?);
    let Ok(description) = second::read(&text) else {
        held::read(harness, "corpus", &text, 0)?;
        return held::read(harness, "corpus", &text, 300).map(|_| ());
    };
    let needed = image(&description).len();
    for room in [0, needed - 1, needed + harness.random.between(1, 300)] {
        held::read(harness, "corpus", &text, room)?;
    }
    let (_, image) = held::read(harness, "corpus", &text, needed)?;
    let loan = opened(harness, &description, image)?;
    cycles(harness, &description, loan.clone(), &input)?;
    runs(harness, &description, &loan, &input)
}

/// Into rooms that are long, short and exact, the last of which is lent to the cycles.
fn opened(harness: &mut Harness, description: &Description, image: Vec<u8>) -> Result<Loan, Failure> {
    let size = store_size(description);
    for rooms in [[size + 7, RECORD + 9], [size.saturating_sub(1), RECORD], [size, RECORD - 1], [size, 0]] {
        held::open(harness, "corpus", &image, rooms)?;
    }
    let (_, store, record) = held::open(harness, "corpus", &image, [size, RECORD])?;
    Ok(Loan { image, store, record, scratch: 4 * size, trace: 0 })
}

/// Until one stops or is refused. An ill-formed line is given as one byte too many.
fn cycles(harness: &mut Harness, description: &Description, mut loan: Loan, input: &[u8]) -> Result<(), Failure> {
    for line in lines(input) {
        let bytes = stimulus(description, line).map(|words| stimulus_bytes(&words));
        let bytes = bytes.unwrap_or_else(|| vec![0; stimulus_size(description) + 1]);
        let answer = held::cycle(harness, "corpus", &mut loan, &bytes)?;
        if answer.stop > 0 || answer.refusal > 0 {
            break;
        }
    }
    Ok(())
}

/// None, one and all, each with traces that are none, exact, long and short.
fn runs(harness: &mut Harness, description: &Description, start: &Loan, input: &[u8]) -> Result<(), Failure> {
    let size = store_size(description);
    let words = lines(input).map_while(|line| stimulus(description, line));
    let stimuli: Vec<Vec<u8>> = words.take(TRACE / size.max(1)).map(|words| stimulus_bytes(&words)).collect();
    for cycles in [0, 1, stimuli.len()] {
        let fed = stimuli[..cycles.min(stimuli.len())].concat();
        let exact = cycles * size;
        for trace in [0, exact, exact + 13, exact.saturating_sub(1)] {
            held::run(harness, "corpus", &mut Loan { trace, ..start.clone() }, &fed, cycles as u32)?;
        }
    }
    Ok(())
}
