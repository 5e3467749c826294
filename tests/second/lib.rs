//! A second simulator for DDL-P, written from the papers alone: reading a
//! text in its stages, opening a run, carrying out cycles; and the calls
//! that a bench makes, over lent bytes.

mod actions;
pub mod bytes;
pub mod calls;
pub mod description;
pub mod evaluate;
mod expressions;
mod grammar;
pub mod image;
mod lengths;
pub mod load;
mod load_actions;
mod load_expressions;
pub mod record;
pub mod refusal;
mod rules;
pub mod sound;
pub mod step;
pub mod trace;
pub mod trials;
pub mod value;
pub mod words;
mod work;

pub use bytes::store_bytes;
pub use description::Description;
pub use refusal::Refusal;
pub use rules::description as judged;
pub use sound::resume;
pub use step::{cycle, cycle_bytes, open, Outcome, Run};

const TEXT: usize = 32_768;

/// The stages in turn; the earliest with a fault answers.
pub fn read(text: &[u8]) -> Result<Description, Refusal> {
    if text.len() > TEXT {
        return Err(refusal::refusal(1, 0));
    }
    let words = words::words(text)?;
    let outline = grammar::outline(&words, text.len())?;
    rules::description(outline)
}

/// All faults of a text's last stage, if it gets there.
pub fn faults(text: &[u8]) -> Vec<Refusal> {
    let words = words::words(text).unwrap_or_default();
    let outline = grammar::outline(&words, text.len());
    outline.map_or(Vec::new(), |outline| rules::faults(&outline))
}
