//! What is read from the bytes of an image, held against the module's lookups;
//! and read from bytes that are no image.

use crate::calls::lookups::{self, FacilityAnswer};
use crate::calls::{self, NameAnswer};
use crate::{records, Bounds, Facility, Image, Refusal};
use std::fs;
use std::path::Path;

/// Of every legal text of the corpus, which has texts at each ceiling.
fn images() -> Vec<Image> {
    let corpus = Path::new(file!()).with_file_name("../../tests/corpus");
    let folders = fs::read_dir(corpus).expect("the corpus is there");
    let texts = folders.flatten().filter_map(|folder| fs::read(folder.path().join("run.ddl")).ok());
    let images: Vec<Image> = texts.filter_map(|text| Image::read(&text).ok()).collect();
    assert!(images.len() > 200);
    images
}

fn answer(facility: &Facility) -> FacilityAnswer {
    let [words, bits] = [facility.words(), facility.bits()];
    let both = |bounds: Option<Bounds>| bounds.map_or((0, 0), |bounds| (bounds.first.into(), bounds.last.into()));
    let ((words_first, words_last), (bits_first, bits_last)) = (both(words), both(bits));
    FacilityAnswer {
        refusal: 0,
        kind: facility.kind() as u32,
        dimensions: [words, bits].into_iter().flatten().count() as u32,
        words_first,
        words_last,
        bits_first,
        bits_last,
        stored: facility.place().is_some() as u32,
        place: facility.place().unwrap_or(0) as u32,
    }
}

/// Where a name stands in the image.
fn part(image: &Image, name: &str) -> NameAnswer {
    let offset = name.as_ptr() as usize - image.as_bytes().as_ptr() as usize;
    NameAnswer { refusal: 0, offset: offset as u32, length: name.len() as u32 }
}

#[test]
fn facilities_are_what_the_lookups_answer() {
    for image in images() {
        let bytes = image.as_bytes();
        for (number, facility) in (0..).zip(image.facilities()) {
            assert_eq!(facility.number(), number);
            assert_eq!(answer(&facility), lookups::facility(bytes, number));
            assert_eq!(part(&image, facility.name()), calls::facility_name(bytes, number));
        }
        assert_eq!(image.facilities().count(), image.facility_count() as usize);
        assert_eq!(lookups::facility(bytes, image.facility_count()).refusal, Refusal::Subscript.number());
    }
}

#[test]
fn labels_are_what_the_lookups_answer() {
    for image in images() {
        let bytes = image.as_bytes();
        for (number, label) in (0..).zip(records::labels(bytes)) {
            assert_eq!(part(&image, label), lookups::state_name(bytes, number));
        }
        assert_eq!(records::labels(bytes).count(), image.state_count() as usize);
        assert_eq!(lookups::state_name(bytes, image.state_count()).refusal, Refusal::Subscript.number());
    }
}

/// As many facilities and labels as there are records and names for, whatever the bytes say.
fn is_read_to_an_end(bytes: &[u8]) {
    assert!(records::facilities(bytes).count() * 13 <= bytes.len());
    assert!(records::labels(bytes).count() * 7 <= bytes.len());
    for facility in records::facilities(bytes) {
        assert!(facility.bytes() <= 1 << 29);
        facility.word_place(facility.words().map_or(0, |words| words.last.into()));
    }
}

#[test]
fn bytes_that_are_no_image_are_read_to_an_end() {
    let image = Image::read(include_bytes!("../../bench/c/blackjack.ddl")).expect("the text is legal");
    for length in 0..image.as_bytes().len() {
        let cut = image.as_bytes()[..length].to_vec();
        is_read_to_an_end(&cut);
        assert_eq!(Image::from_bytes(cut), Err(Refusal::Image));
    }
    for field in (0..52).step_by(4) {
        for number in [0, 1, 51, 1 << 16, u32::MAX / 13, u32::MAX - 3, u32::MAX] {
            let mut forged = image.as_bytes().to_vec();
            forged[field..field + 4].copy_from_slice(&number.to_le_bytes());
            is_read_to_an_end(&forged);
            assert_eq!(Image::from_bytes(forged), Err(Refusal::Image));
        }
    }
    for at in 52..image.as_bytes().len() {
        let mut forged = image.as_bytes().to_vec();
        forged[at] = 0xFF;
        is_read_to_an_end(&forged);
    }
}
