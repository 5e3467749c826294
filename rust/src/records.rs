//! Facilities and labels, read where docs/IMAGE.md has them in the bytes of an
//! image, so that none of them costs a check. Every byte is asked for: bytes
//! that are no image have no facilities and no labels.

use crate::bytes::{four, two};
use crate::facility::{Bounds, Facility, Kind};
use std::slice::ChunksExact;
use std::str;

/// A section of records with names.
pub struct Section {
    /// Where the header has the number of its records, and their offset.
    count_at: usize,
    offset_at: usize,
    /// The bytes of a record, and where in it the length of its name is.
    size: usize,
    name_at: usize,
}

pub const FACILITIES: Section = Section { count_at: 4, offset_at: 8, size: 13, name_at: 2 };
const OPERATIONS: Section = Section { count_at: 12, offset_at: 16, size: 5, name_at: 0 };
pub const STATES: Section = Section { count_at: 36, offset_at: 40, size: 7, name_at: 0 };
/// Where the header has the image's length, and the offset of the names.
const TOTAL: usize = 0;
const NAMES: usize = 48;

impl Section {
    /// How many records it has.
    pub fn count(&self, image: &[u8]) -> u32 {
        four(image, self.count_at).unwrap_or_default()
    }

    fn records<'a>(&self, image: &'a [u8]) -> ChunksExact<'a, u8> {
        let length = (self.count(image) as usize).saturating_mul(self.size);
        let records = from(image, self.offset_at).get(..length).unwrap_or_default();
        records.chunks_exact(self.size)
    }
}

/// The image's bytes from an offset on that its header has.
fn from(image: &[u8], offset_at: usize) -> &[u8] {
    four(image, offset_at).and_then(|offset| image.get(offset as usize..)).unwrap_or_default()
}

/// How many bytes belong to the image.
pub fn total(image: &[u8]) -> usize {
    four(image, TOTAL).unwrap_or_default() as usize
}

/// All names in their order, each cut from the front of those left.
fn names(image: &[u8]) -> impl Iterator<Item = &str> {
    let lengths = [FACILITIES, OPERATIONS, STATES].into_iter().flat_map(|section| {
        let records = section.records(image);
        records.filter_map(move |record| record.get(section.name_at).copied())
    });
    let mut left = from(image, NAMES);
    lengths.map_while(move |length| {
        let (name, after) = left.split_at_checked(length.into())?;
        left = after;
        str::from_utf8(name).ok()
    })
}

/// As declared.
pub fn facilities(image: &[u8]) -> impl Iterator<Item = Facility<'_>> {
    let named = FACILITIES.records(image).zip(names(image)).zip(0..);
    named.filter_map(|((record, name), number)| facility(record, name, number))
}

fn facility<'a>(record: &[u8], name: &'a str, number: u32) -> Option<Facility<'a>> {
    let &[kind, dimensions, ..] = record else {
        return None;
    };
    let kind = Kind::of(kind)?;
    let words = bounds(record, 3, 5).filter(|_| dimensions == 2);
    let bits = bounds(record, 7, 9).filter(|_| dimensions >= 1);
    let place = two(record, 11).filter(|_| kind != Kind::ComputedTerminal);
    Some(Facility { number, name, kind, words, bits, place })
}

fn bounds(record: &[u8], first: usize, last: usize) -> Option<Bounds> {
    Some(Bounds { first: two(record, first)?, last: two(record, last)? })
}

/// The label of each state; empty for a state without one.
pub fn labels(image: &[u8]) -> impl Iterator<Item = &str> {
    let [facilities, operations] = [FACILITIES, OPERATIONS].map(|section| section.records(image).len());
    names(image).skip(facilities).skip(operations)
}
