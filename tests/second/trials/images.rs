//! Trials of the image: the worked one of docs/IMAGE.md, images and back,
//! and that one changed byte seldom leaves an image that passes.

use crate::calls::{self, Lent, RunAnswer};
use crate::description::Description;
use crate::image::image;
use crate::load::load;
use crate::read;
use crate::record::{record_bytes, RECORD};
use crate::step::{cycle, open, Outcome};
use crate::trials::check::{agree, note, Failure, Tally};
use crate::trials::random::Random;
use crate::trials::supply;

const PAGE: &str = include_str!("../../../docs/IMAGE.md");
const EXAMPLE: &[u8] = include_bytes!("../../corpus/trace-example-as-printed/run.ddl");

/// The bytes of the page's worked image: lines of a place, bytes and a remark.
fn worked_image() -> Vec<u8> {
    let lines = PAGE.lines().skip_while(|line| *line != "## A worked image");
    let is_dump = |line: &&str| line.len() > 4 && u16::from_str_radix(&line[..4], 16).is_ok();
    let bytes = |line: &str| -> Vec<u8> {
        let dump = line[6..].split("   ").next().unwrap_or("");
        dump.split(' ').filter_map(|byte| u8::from_str_radix(byte, 16).ok()).collect()
    };
    lines.filter(is_dump).flat_map(bytes).collect()
}

/// Bytes of the worked image that spoil it, and why.
const SPOILED: [(usize, u8, &str); 11] = [
    (0, 33, "a byte more than there is"),
    (8, 53, "a gap before the facilities"),
    (52, 6, "a kind that is not there"),
    (53, 3, "three dimensions"),
    (76, 2, "another place in the store"),
    (79, 2, "an input terminal with two dimensions"),
    (102, 3, "a facility that is not there"),
    (175, 11, "a part that is not before its owner"),
    (185, 6, "TAIL 6 of five bits"),
    (239, 12, "an arm in the place of an action"),
    (274, 97, "a letter in lower case"),
];

/// Bytes that make another image of it: `B <- B`, 4D8, `=> P`, and another name.
const OTHERWISE: [(usize, u8); 4] = [(102, 1), (143, 8), (253, 8), (274, b'X')];

pub fn worked_image_agrees() -> Result<(), Failure> {
    let description = read(EXAMPLE).map_err(|refusal| format!("the example: {refusal:?}"))?;
    let worked = worked_image();
    agree(worked.len(), 288, "the worked image's length")?;
    agree(&image(&description), &worked, "the worked image")?;
    let passes = |at: usize, byte: u8| {
        let mut changed = worked.clone();
        changed[at] = byte;
        load(&changed).is_some()
    };
    for (at, byte, why) in SPOILED {
        agree(passes(at, byte), false, why)?;
    }
    for (at, byte) in OTHERWISE {
        agree(passes(at, byte), true, &format!("byte {at} of the worked image may be {byte}"))?;
    }
    refusals_in_order(&worked)
}

/// 13, 12, 14, 15: a call with several faults answers the first of them.
fn refusals_in_order(image: &[u8]) -> Result<(), Failure> {
    let (mut store, mut record) = (vec![9; 3], vec![9; RECORD]);
    agree(calls::open(image, &mut store, &mut record), 0, "opening the worked image")?;
    let mut unsound = record.clone();
    unsound[4] = 2;
    let answer = |image: &[u8], record: &[u8], stimulus: &[u8], scratch: usize| {
        let (mut store, mut record, mut scratch) = (store.clone(), record.to_vec(), vec![1; scratch]);
        let lent = Lent { store: &mut store, record: &mut record, scratch: &mut scratch, trace: &mut [] };
        calls::cycle(image, lent, stimulus).refusal
    };
    agree(answer(&image[..287], &unsound, &[2], 11), 13, "13 comes first")?;
    agree(answer(image, &unsound, &[2], 11), 12, "then 12")?;
    agree(answer(image, &unsound, &[2], 12), 14, "then 14")?;
    agree(answer(image, &record, &[2], 12), 15, "then 15")?;
    agree(answer(image, &record, &[1], 12), 0, "and then none")
}

/// An image describes what it was made of, and runs alike.
pub fn try_image(description: &Description, random: &mut Random, tally: &mut Tally) -> Result<(), Failure> {
    let mut bytes = image(description);
    let total = bytes.len();
    bytes.extend((0..random.below(3)).map(|_| random.below(256) as u8));
    let loaded = load(&bytes).ok_or("an image of a legal text does not pass")?;
    agree(loaded.total, total, "an image's length")?;
    agree(load(&bytes[..total - 1]).is_none(), true, "an image cut short passes")?;
    runs_alike(description, &bytes, random)?;
    let at = random.below(total);
    bytes[at] ^= 1 << random.below(8);
    let passes = if load(&bytes).is_some() { "passes" } else { "does not pass" };
    note(tally, format!("image with a bit changed: {passes}"));
    Ok(())
}

/// A run from the image's bytes against cycles of the description.
fn runs_alike(description: &Description, bytes: &[u8], random: &mut Random) -> Result<(), Failure> {
    let size = calls::store_size(description);
    let (mut store, mut record) = (vec![1; size + 1], vec![1; RECORD]);
    let (mut scratch, mut trace) = (vec![1; 4 * size], vec![1; 3 * size]);
    agree(calls::open(bytes, &mut store, &mut record), 0, "opening an image")?;
    let stimuli: Vec<_> = (0..3).map(|_| supply::stimulus(description, random)).collect();
    let flat: Vec<u8> = stimuli.iter().flatten().flat_map(|word| word.bytes()).collect();
    let lent = Lent { store: &mut store, record: &mut record, scratch: &mut scratch, trace: &mut trace };
    let answer = calls::run(bytes, lent, &flat, 3);
    let (mut run, mut expected) = (open(description), RunAnswer::default());
    for stimulus in &stimuli {
        match cycle(description, &mut run, stimulus) {
            Outcome::Completed { conflicts } => expected.conflicts += conflicts as u64,
            Outcome::Stop(stop) => {
                expected.stop = stop as u32;
                break;
            }
            Outcome::Refused(number) => return Err(format!("refused {number}")),
        }
        expected.cycles += 1;
    }
    agree(answer, expected, "a run from an image")?;
    agree(&record[..], &record_bytes(&run)[..], "the record after it")?;
    agree(&store[..size], &crate::bytes::store_bytes(&run)[..], "the store after it")
}
