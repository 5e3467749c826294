//! One call of the module held against the second simulator: the answer and
//! every byte of every part lent, with two fillings of garbage.

use crate::module;
use crate::walls::Walled;
use crate::{Failure, Harness};
use second::calls::{self, CycleAnswer, Lent, NameAnswer, ReadAnswer, RunAnswer};
use std::fmt::Debug;

/// What a cycle or a run is lent; scratch and trace are garbage of these lengths.
#[derive(Clone)]
pub struct Loan {
    pub image: Vec<u8>,
    pub store: Vec<u8>,
    pub record: Vec<u8>,
    pub scratch: usize,
    pub trace: usize,
}

fn same<T: PartialEq + Debug>(what: &str, found: T, expected: T) -> Result<(), Failure> {
    if found == expected {
        Ok(())
    } else {
        Err(format!("{what}: {found:?} and not {expected:?}"))
    }
}

/// The stops end at S7.
const LAST_STOP: u32 = 7;

fn outcome(refusal: u32, stop: u32) -> String {
    assert!(stop <= LAST_STOP, "stop {stop}");
    match (refusal, stop) {
        (0, 0) => "done".to_string(),
        (0, stop) => format!("stop {stop}"),
        (refusal, _) => format!("refused {refusal:2}"),
    }
}

/// The text and the image's room; answers what the buffer then holds.
pub fn read(harness: &mut Harness, kind: &str, text: &[u8], room: usize) -> Result<(ReadAnswer, Vec<u8>), Failure> {
    let mut expected = vec![0; room];
    let answer = calls::read(text, &mut expected);
    harness.note(format!("read {kind}: {}", outcome(answer.refusal, 0)));
    for _ in 0..2 {
        let random = &mut harness.random;
        let mut lent_text = Walled::around(text, random);
        let mut image = Walled::around(&random.bytes(room), random);
        same("read", module::read(lent_text.part(), image.part()), answer)?;
        image.holds("read: image", &expected)?;
        lent_text.holds("read: text", text)?;
    }
    Ok((answer, expected))
}

/// The rooms of store and record; answers what they then hold.
pub fn open(
    harness: &mut Harness,
    kind: &str,
    image: &[u8],
    rooms: [usize; 2],
) -> Result<(u32, Vec<u8>, Vec<u8>), Failure> {
    let (mut store, mut record) = (vec![0; rooms[0]], vec![0; rooms[1]]);
    let refusal = calls::open(image, &mut store, &mut record);
    harness.note(format!("open {kind}: {}", outcome(refusal, 0)));
    for _ in 0..2 {
        let random = &mut harness.random;
        let mut lent_image = Walled::around(image, random);
        let mut lent_store = Walled::around(&random.bytes(rooms[0]), random);
        let mut lent_record = Walled::around(&random.bytes(rooms[1]), random);
        same("open", module::open(lent_image.part(), lent_store.part(), lent_record.part()), refusal)?;
        lent_store.holds("open: store", &store)?;
        lent_record.holds("open: record", &record)?;
        lent_image.holds("open: image", image)?;
    }
    Ok((refusal, store, record))
}

/// Advances the loan's store and record as a cycle does.
pub fn cycle(harness: &mut Harness, kind: &str, loan: &mut Loan, stimulus: &[u8]) -> Result<CycleAnswer, Failure> {
    let found = Loan { trace: 0, ..loan.clone() };
    let mut scratch = vec![0; loan.scratch];
    let lent = Lent { store: &mut loan.store, record: &mut loan.record, scratch: &mut scratch, trace: &mut [] };
    let answer = calls::cycle(&loan.image, lent, stimulus);
    harness.note(format!("cycle {kind}: {}", outcome(answer.refusal, answer.stop)));
    if answer.conflicts > 0 {
        harness.remark(format!("cycle {kind}: with conflicts"));
    }
    for _ in 0..2 {
        let parts = &mut Parts::of(&found, stimulus, harness);
        let [store, record, scratch, _] = &mut parts.written;
        let lent = Lent { store: store.part(), record: record.part(), scratch: scratch.part(), trace: &mut [] };
        same("cycle", module::cycle(parts.image.part(), lent, parts.stimuli.part()), answer)?;
        parts.hold("cycle", loan, stimulus, &[])?;
    }
    Ok(answer)
}

/// Advances the loan's store and record as a run does; answers the trace too.
pub fn run(
    harness: &mut Harness,
    kind: &str,
    loan: &mut Loan,
    stimuli: &[u8],
    cycles: u32,
) -> Result<(RunAnswer, Vec<u8>), Failure> {
    let found = loan.clone();
    let (mut scratch, mut trace) = (vec![0; loan.scratch], vec![0; loan.trace]);
    let lent = Lent { store: &mut loan.store, record: &mut loan.record, scratch: &mut scratch, trace: &mut trace };
    let answer = calls::run(&loan.image, lent, stimuli, cycles);
    harness.note(format!("run {kind}: {}", outcome(answer.refusal, answer.stop)));
    for _ in 0..2 {
        let parts = &mut Parts::of(&found, stimuli, harness);
        let [store, record, scratch, lent_trace] = &mut parts.written;
        let lent =
            Lent { store: store.part(), record: record.part(), scratch: scratch.part(), trace: lent_trace.part() };
        same("run", module::run(parts.image.part(), lent, parts.stimuli.part(), cycles), answer)?;
        parts.hold("run", loan, stimuli, &trace)?;
    }
    Ok((answer, trace))
}

/// The parts of a loan between their walls.
struct Parts {
    image: Walled,
    stimuli: Walled,
    /// Store, record, scratch and trace.
    written: [Walled; 4],
}

impl Parts {
    fn of(found: &Loan, stimuli: &[u8], harness: &mut Harness) -> Parts {
        let random = &mut harness.random;
        let (scratch, trace) = (random.bytes(found.scratch), random.bytes(found.trace));
        let written = [&found.store, &found.record, &scratch, &trace];
        Parts {
            image: Walled::around(&found.image, random),
            stimuli: Walled::around(stimuli, random),
            written: written.map(|part| Walled::around(part, random)),
        }
    }

    fn hold(&self, call: &str, expected: &Loan, stimuli: &[u8], trace: &[u8]) -> Result<(), Failure> {
        let scratch = vec![0; expected.scratch];
        let expected_parts = [&expected.store[..], &expected.record[..], &scratch[..], trace];
        for (order, what) in ["store", "record", "scratch", "trace"].into_iter().enumerate() {
            self.written[order].holds(&format!("{call}: {what}"), expected_parts[order])?;
        }
        self.image.holds(&format!("{call}: image"), &expected.image)?;
        self.stimuli.holds(&format!("{call}: stimulus"), stimuli)
    }
}

/// The three lookups of one number.
pub fn lookups(harness: &mut Harness, kind: &str, image: &[u8], number: u32) -> Result<(), Failure> {
    let lent = &mut Walled::around(image, &mut harness.random);
    let found: NameAnswer = module::facility_name(lent.part(), number);
    same("facility name", found, calls::facility_name(image, number))?;
    harness.note(format!("facility name {kind}: {}", outcome(found.refusal, 0)));
    let found: NameAnswer = module::state_name(lent.part(), number);
    same("state name", found, calls::state_name(image, number))?;
    harness.note(format!("state name {kind}: {}", outcome(found.refusal, 0)));
    let found = module::facility(lent.part(), number);
    same("facility", found, calls::facility(image, number))?;
    harness.note(format!("facility {kind}: {}", outcome(found.refusal, 0)));
    lent.holds("lookup: image", image)
}
