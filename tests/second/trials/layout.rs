//! Words written out as a text: blanks, comments, line ends and the case of
//! letters are free, so the same words have many texts.

use crate::refusal::Place;
use crate::trials::random::Random;

const LINE: usize = 132;
const TEXT: usize = 32_768;

pub struct Text {
    pub bytes: Vec<u8>,
    /// The place of each word, and after them the text's length.
    pub places: Vec<Place>,
}

impl Text {
    /// Which word a place belongs to; the number of words for the end.
    pub fn word_at(&self, place: Place) -> Option<usize> {
        self.places.iter().position(|&start| start == place)
    }
}

/// With free gaps, unless the text would grow too long for them. The words of
/// a legal text stay apart where a letter or digit would meet another; other
/// words are to be set apart everywhere.
pub fn lay_out(words: &[String], apart: bool, random: &mut Random) -> Text {
    let gaps = random.pick(&[10, 40, 90]);
    let free = written(words, apart, gaps, random);
    if free.bytes.len() <= TEXT {
        free
    } else {
        written(words, apart, 0, random)
    }
}

fn written(words: &[String], apart: bool, gaps: usize, random: &mut Random) -> Text {
    let mut page = Page { bytes: Vec::new(), width: 0 };
    let mut places = Vec::new();
    for word in words {
        let meets = |byte: &u8| byte.is_ascii_alphanumeric();
        let joined = |last: &u8| apart || meets(last) && word.as_bytes().first().is_some_and(meets);
        if page.bytes.last().is_some_and(joined) {
            page.put(b" ");
        }
        if random.chance(gaps) {
            page.put(&gap(random));
        }
        page.make_room(word.len());
        places.push(page.bytes.len());
        page.put(&cased(word, random));
    }
    if random.chance(gaps) {
        page.put(&gap(random));
    }
    places.push(page.bytes.len());
    Text { bytes: page.bytes, places }
}

fn gap(random: &mut Random) -> Vec<u8> {
    match random.below(8) {
        0 => b"\n".to_vec(),
        1 => b"\r\n".to_vec(),
        2 => b"\t".to_vec(),
        3 => b"\r".to_vec(),
        4 => comment(random, b"\""),
        5 => comment(random, b"\n"),
        _ => vec![b' '; random.between(1, 3)],
    }
}

/// Any bytes at all, but none that ends the comment.
fn comment(random: &mut Random, end: &[u8]) -> Vec<u8> {
    let mut bytes = vec![b'"'];
    for _ in 0..random.below(8) {
        let byte = random.below(256) as u8;
        bytes.push(if byte == b'"' || byte == b'\n' { b'!' } else { byte });
    }
    bytes.extend(end);
    bytes
}

fn cased(word: &str, random: &mut Random) -> Vec<u8> {
    let lower = random.chance(30);
    let case = |byte: u8| if lower { byte.to_ascii_lowercase() } else { byte };
    word.bytes().map(case).collect()
}

struct Page {
    bytes: Vec<u8>,
    width: usize,
}

impl Page {
    fn make_room(&mut self, columns: usize) {
        if self.width > 0 && self.width + columns > LINE {
            self.bytes.push(b'\n');
            self.width = 0;
        }
    }

    /// A tab is taken as eight columns, which is the most it can be.
    fn put(&mut self, bytes: &[u8]) {
        let columns = |&byte: &u8| if byte == b'\t' { 8 } else { 1 };
        self.make_room(bytes.iter().map(columns).sum());
        for byte in bytes {
            self.width = if *byte == b'\n' { 0 } else { self.width + columns(byte) };
            self.bytes.push(*byte);
        }
    }
}
