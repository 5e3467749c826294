//! Images for holding another check against this one: those of given texts,
//! and images forged from texts that together have every kind of record.

use crate::image::{image, ACTION, EXPRESSION, FACILITY, HEADER, OPERATION, STATE};
use crate::load::load;
use crate::read;
use crate::trials::random::Random;

const FORGED: [&[u8]; 3] = [
    b"REGISTER #S[2], A[2], B[0:2]. OPERATION O = [A CON S[1] <- A (+) 2D1, B[1:2] = - A].
    CONTROL P(0): O, IF A[1] THEN ->Q ELSE =>P ENDIF/ Q(3): RETURN/.",
    b"REGISTER A[2], W[50]. MEMORY M[0:3,2:1], N[2,4]. TERMINAL I[2] = INPUT(1,I), C[2] = M[I].
    OPERATION O = [M[I] = C, A <- M[A,1] CON N[2,3], W <- 50H2000000000001, M[1,1] = A[2], A = N[A,3:4]]. CONTROL /.",
    b"REGISTER A[2]. TERMINAL T, I[2] = INPUT(1,I), C = CASE I DO T DO A[1] DO + RED A DO I<A ENDCASE.
    OPERATION K = [A <- (A EXT 2) HEAD 2], L = [K, CASE A DO T @ DO K DO K, T @ DO A = I TAIL 2 ENDCASE].
    CONTROL IF C THEN L ENDIF/ K, T @/.",
];

/// The bytes of each field of a record.
const RECORDS: [(usize, &[usize]); 6] = [
    (FACILITY, &[1, 1, 1, 2, 2, 2, 2, 2]),
    (OPERATION, &[1, 2, 2]),
    (EXPRESSION, &[1, 1, 2, 2, 2]),
    (ACTION, &[1, 2, 2, 2]),
    (STATE, &[1, 2, 2, 2]),
    (1, &[1]),
];

/// A case is its image's length in four bytes, a byte that says whether it passes, and the image.
#[derive(Default)]
pub struct Cases {
    pub bytes: Vec<u8>,
}

impl Cases {
    fn add(&mut self, image: &[u8]) {
        self.bytes.extend((image.len() as u32).to_le_bytes());
        self.bytes.push(load(image).is_some() as u8);
        self.bytes.extend(image);
    }
}

/// The images of the texts that have small ones, then the forged ones.
pub fn cases(seed: u64, most: usize, texts: &[Vec<u8>]) -> Vec<u8> {
    let (mut cases, mut random) = (Cases::default(), Random::new(seed));
    let images = texts.iter().filter_map(|text| read(text).ok()).map(|description| image(&description));
    images.filter(|image| image.len() <= most).for_each(|image| cases.add(&image));
    for text in FORGED {
        let image = read(text).map_or(Vec::new(), |description| image(&description));
        cut(&mut cases, &image, &mut random);
        fields(&image).iter().for_each(|field| forged(&mut cases, &image, *field, &mut random));
        records(&image).iter().for_each(|record| moved(&mut cases, &image, *record));
    }
    cases.bytes
}

fn number(image: &[u8], at: usize, size: usize) -> usize {
    image[at..at + size].iter().rev().fold(0, |number, byte| number * 256 + *byte as usize)
}

fn put(image: &mut [u8], at: usize, size: usize, number: usize) {
    image[at..at + size].copy_from_slice(&number.to_le_bytes()[..size]);
}

/// Where each field begins, and its bytes.
fn fields(image: &[u8]) -> Vec<(usize, usize)> {
    let mut fields: Vec<(usize, usize)> = (0..HEADER / 4).map(|order| (4 * order, 4)).collect();
    let mut at = HEADER;
    for (section, (_, sizes)) in RECORDS.iter().enumerate() {
        for _ in 0..number(image, 4 + 8 * section, 4) {
            for size in *sizes {
                fields.push((at, *size));
                at += size;
            }
        }
    }
    fields
}

/// Cut short, and with bytes of the buffer behind it.
fn cut(cases: &mut Cases, image: &[u8], random: &mut Random) {
    for length in [0, 3, 4, HEADER - 1, HEADER, image.len() / 2, image.len() - 1] {
        cases.add(&image[..length]);
    }
    for more in [1, 2, 9] {
        let behind: Vec<u8> = (0..more).map(|_| random.below(256) as u8).collect();
        cases.add(&[image, &behind].concat());
    }
}

/// A field with another number: one with which the image still passes, if one is found, and one with which it does not.
fn forged(cases: &mut Cases, image: &[u8], (at, size): (usize, usize), random: &mut Random) {
    let (own, most) = (number(image, at, size), (1 << (8 * size)) - 1);
    let mut tried = vec![own + 1, own.wrapping_sub(1), own ^ 1 << random.below(8 * size), most, 0];
    tried.extend((0..16).map(|_| random.below(most.min(255) + 1)));
    tried.extend(0..13);
    let images = tried.into_iter().filter(|number| *number != own && *number <= most).map(|number| {
        let mut image = image.to_vec();
        put(&mut image, at, size, number);
        image
    });
    let (passing, others): (Vec<_>, Vec<_>) = images.partition(|image| load(image).is_some());
    passing.first().into_iter().for_each(|image| cases.add(image));
    let near = random.below(3.min(others.len()));
    others.get(near).into_iter().for_each(|image| cases.add(image));
}

/// Each record: its section, where it begins, and its bytes.
fn records(image: &[u8]) -> Vec<(usize, usize, usize)> {
    let mut records = Vec::new();
    for (section, (size, _)) in RECORDS.iter().enumerate() {
        let (count, offset) = (number(image, 4 + 8 * section, 4), number(image, 8 + 8 * section, 4));
        records.extend((0..count).map(|order| (section, offset + order * size, *size)));
    }
    records
}

/// Without a record, and with a record twice; the header is right all the same.
fn moved(cases: &mut Cases, image: &[u8], (section, at, size): (usize, usize, usize)) {
    let (before, own, after) = (&image[..at], &image[at..at + size], &image[at + size..]);
    if at % 3 == 0 {
        cases.add(&headed([before, after].concat(), section, |count| count - 1));
    }
    if at % 3 == 1 {
        cases.add(&headed([before, own, own, after].concat(), section, |count| count + 1));
    }
}

/// With another count of one section, and offsets and length to match.
fn headed(mut image: Vec<u8>, changed: usize, count: impl Fn(usize) -> usize) -> Vec<u8> {
    let mut offset = HEADER;
    for (section, (size, _)) in RECORDS.iter().enumerate() {
        let at = 4 + 8 * section;
        let own = number(&image, at, 4);
        let count = if section == changed { count(own) } else { own };
        put(&mut image, at, 4, count);
        put(&mut image, at + 4, 4, offset);
        offset += count * size;
    }
    put(&mut image, 0, 4, offset);
    image
}
