//! A safe wrapper over the proved simulator for DDL-P, for benches in Rust.
//!
//! A text becomes an [`Image`]; an image is opened as a [`Run`], which owns
//! store, record and scratch; a run is fed a [`Stimulus`] a cycle, and its
//! registers are read as [`Word`]s.
//!
//! ```
//! use ddlp::{Image, Run};
//!
//! # fn main() -> Result<(), Box<dyn std::error::Error>> {
//! let image = Image::read(b"REGISTER A[4]. OPERATION O = [A <- (A (+) 4D1) TAIL 4]. CONTROL P: O, ->P/.")?;
//! let mut run = Run::open(&image)?;
//! run.cycle(&image.stimulus())?;
//! assert_eq!(run.word_named("A").map(|word| word.to_string()), Some("0001".to_string()));
//! # Ok(())
//! # }
//! ```
//!
//! Nothing here panics. The archive is linked statically: with Cargo from
//! the folder that the variable DDLP_ARCHIVE names, with rustc from the one
//! that `-L native=` names.

#![warn(missing_docs)]
#![deny(unsafe_code)]
// What could panic, or cut a number silently.
#![deny(clippy::arithmetic_side_effects, clippy::cast_possible_truncation)]
#![deny(clippy::indexing_slicing, clippy::string_slice)]
#![deny(clippy::unwrap_used, clippy::expect_used, clippy::panic, clippy::unreachable)]

mod bytes;
#[allow(unsafe_code)]
mod calls;
mod facility;
mod image;
mod records;
mod refusal;
mod run;
mod stack;
mod stimulus;
#[cfg(test)]
mod tests;
mod word;

pub use facility::{Bounds, Facility, Kind};
pub use image::{Image, ReadError};
pub use refusal::{Halt, Refusal, Stop};
pub use run::{Ran, Run};
pub use stack::{SMALL_RECORDS, STACK_MOST, STACK_READ, STACK_SMALL, STACK_TEXT};
pub use stimulus::{Stimulus, StimulusError};
pub use word::Word;
