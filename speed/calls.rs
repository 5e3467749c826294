//! Every call on an image, completed, stopped and refused, on a painted
//! stack; each must answer what it owes.

use crate::module;
use crate::painted::Stacks;
use ddlp::Image;
use second::calls::Lent;
use second::record::RECORD;

const LARGEST_STORE: usize = 16_384;
const SCRATCH_STORES: usize = 4;
const CYCLES: u32 = 3;

/// What comes of a cycle.
#[derive(Clone, Copy, PartialEq)]
pub enum Outcome {
    Completes,
    Stops(u32),
    /// The image does not pass.
    Refused,
}

pub struct Case {
    pub name: String,
    pub image: Vec<u8>,
    pub outcome: Outcome,
}

/// What a call took.
pub struct Taken {
    pub call: &'static str,
    pub bytes: usize,
}

/// Refusal and stop.
type Answer = [u32; 2];

struct Bench<'a> {
    image: &'a [u8],
    opened: (Vec<u8>, Vec<u8>),
    store: Vec<u8>,
    record: Vec<u8>,
    scratch: Vec<u8>,
    trace: Vec<u8>,
    /// Of each cycle, and a byte more.
    stimuli: Vec<u8>,
    stimulus: usize,
}

impl Bench<'_> {
    /// The largest parts of memory, with an opened store and record where the image passes.
    fn new(image: &[u8]) -> Bench<'_> {
        let stimulus = Image::from_bytes(image.to_vec()).map_or(0, |image| image.stimulus_size());
        let opened = (vec![0; LARGEST_STORE], vec![0; RECORD]);
        let mut bench = Bench {
            image,
            store: opened.0.clone(),
            record: opened.1.clone(),
            opened,
            scratch: vec![0; SCRATCH_STORES * LARGEST_STORE],
            trace: vec![0; CYCLES as usize * LARGEST_STORE],
            stimuli: vec![0; CYCLES as usize * stimulus + 1],
            stimulus,
        };
        module::open(image, &mut bench.opened.0, &mut bench.opened.1);
        bench
    }

    /// A call may be made twice, each time from the beginning.
    fn reopened(&mut self) -> &mut Self {
        self.store.copy_from_slice(&self.opened.0);
        self.record.copy_from_slice(&self.opened.1);
        self
    }

    fn unsound(&mut self) -> &mut Self {
        self.reopened().record.fill(0xFF);
        self
    }

    fn open(&mut self, record: usize) -> Answer {
        [module::open(self.image, &mut self.store, &mut self.record[..record]), 0]
    }

    fn cycle(&mut self, scratch: usize, more: usize) -> Answer {
        let Bench { image, store, record, trace, .. } = self;
        let lent = Lent { store, record, scratch: &mut self.scratch[..scratch], trace };
        let answer = module::cycle(image, lent, &self.stimuli[..self.stimulus + more]);
        [answer.refusal, answer.stop]
    }

    fn run(&mut self, trace: usize, more: usize) -> Answer {
        let Bench { image, store, record, scratch, .. } = self;
        let lent = Lent { store, record, scratch, trace: &mut self.trace[..trace] };
        let answer = module::run(image, lent, &self.stimuli[..CYCLES as usize * self.stimulus + more], CYCLES);
        [answer.refusal, answer.stop]
    }
}

type Ask = fn(&mut Bench) -> Answer;

const SCRATCH: usize = SCRATCH_STORES * LARGEST_STORE;
const TRACE: usize = CYCLES as usize * LARGEST_STORE;

/// Each call in each way: what it is called in the table, what it answers where the image passes, and the call.
const ASKED: [(&str, u32, Ask); 15] = [
    ("open", 0, |bench| bench.open(RECORD)),
    ("open", 12, |bench| bench.open(RECORD - 1)),
    ("cycle", 0, |bench| bench.reopened().cycle(SCRATCH, 0)),
    ("cycle", 12, |bench| bench.reopened().cycle(0, 0)),
    ("cycle", 14, |bench| bench.unsound().cycle(SCRATCH, 0)),
    ("cycle", 15, |bench| bench.reopened().cycle(SCRATCH, 1)),
    ("run", 0, |bench| bench.reopened().run(TRACE, 0)),
    ("run", 12, |bench| bench.reopened().run(1, 0)),
    ("run", 14, |bench| bench.unsound().run(0, 0)),
    ("run", 15, |bench| bench.reopened().run(0, 1)),
    ("lookup", 0, |bench| [module::facility(bench.image, 0).refusal, 0]),
    ("lookup", 6, |bench| [module::facility(bench.image, u32::MAX).refusal, 0]),
    ("lookup", 0, |bench| [module::facility_name(bench.image, 0).refusal, 0]),
    ("lookup", 0, |bench| [module::state_name(bench.image, 0).refusal, 0]),
    ("lookup", 6, |bench| [module::state_name(bench.image, u32::MAX).refusal, 0]),
];

fn owed(outcome: Outcome, call: &str, refusal: u32) -> Answer {
    match outcome {
        Outcome::Refused => [13, 0],
        Outcome::Stops(stop) if refusal == 0 && matches!(call, "cycle" | "run") => [0, stop],
        _ => [refusal, 0],
    }
}

pub fn taken(stacks: &Stacks, case: &Case) -> Result<Vec<Taken>, String> {
    let mut bench = Bench::new(&case.image);
    let one = |(call, refusal, ask): (&'static str, u32, Ask)| {
        let owed = owed(case.outcome, call, refusal);
        let mut answer = owed;
        let bytes = stacks.needed(&mut || answer = ask(&mut bench))?;
        match answer == owed {
            true => Ok(Taken { call, bytes }),
            false => Err(format!("{}: {call} answers {answer:?} and not {owed:?}", case.name)),
        }
    };
    ASKED.into_iter().map(one).collect()
}
