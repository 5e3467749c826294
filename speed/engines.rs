//! The four that carry out cycles, over the same image, store, record and stimuli.

use crate::measure::{measured, Counter, Measured};
use crate::module;
use second::calls::{self, Lent};
use second::record::RECORD;
use second::trials::random::Random;
use second::Outcome;
use std::time::Duration;

/// So many cycles are measured at a time, from the same beginning.
const CYCLES: usize = 1_000;

/// A run at its beginning, and the stimuli of its cycles.
#[derive(Clone)]
pub struct Board {
    pub image: Vec<u8>,
    pub store: Vec<u8>,
    pub record: Vec<u8>,
    stimuli: Vec<u8>,
}

impl Board {
    /// Any stimuli will do; they come from a fixed seed.
    pub fn open(text: &[u8]) -> Result<Board, u32> {
        let mut image = vec![0; 165_556];
        let answer = module::read(text, &mut image);
        if answer.refusal > 0 {
            return Err(answer.refusal);
        }
        image.truncate(answer.length as usize);
        let description = second::read(text).map_err(|refusal| refusal.number as u32)?;
        let mut random = Random::new(1979);
        let mut some = || second::trials::supply::stimulus(&description, &mut random);
        let stimuli = (0..CYCLES).flat_map(|_| second::bytes::stimulus_bytes(&some())).collect();
        let (mut store, mut record) = (vec![0; calls::store_size(&description)], vec![0; RECORD]);
        module::open(&image, &mut store, &mut record);
        Ok(Board { image, store, record, stimuli })
    }

    /// A word of 16 bits put into a memory that begins with word 0.
    pub fn set_word(&mut self, memory: &str, word: u16, contents: u16) -> Result<(), String> {
        let named = |number: &u32| {
            let name = module::facility_name(&self.image, *number);
            let start = name.offset as usize;
            &self.image[start..start + name.length as usize] == memory.as_bytes()
        };
        let number = (0..256).find(named).ok_or(format!("no memory {memory}"))?;
        let place = module::facility(&self.image, number).place as usize + 2 * word as usize;
        self.store[place..place + 2].copy_from_slice(&contents.to_be_bytes());
        Ok(())
    }

    fn scratch(&self) -> Vec<u8> {
        vec![0; 4 * self.store.len()]
    }
}

/// The stimulus of one cycle.
fn stimulus(stimuli: &[u8], cycle: usize) -> &[u8] {
    let size = stimuli.len() / CYCLES;
    &stimuli[cycle * size..(cycle + 1) * size]
}

pub struct Engine {
    pub name: &'static str,
    pub in_c: bool,
    /// Carries the board's cycles out; answers how many were completed.
    work: fn(&mut Board, &mut Tools) -> u64,
}

pub const ENGINES: [Engine; 4] = [
    Engine { name: "ddlp_run", in_c: false, work: by_run },
    Engine { name: "ddlp_cycle", in_c: false, work: by_cycle },
    Engine { name: "interpreter in C", in_c: true, work: by_interpreter },
    Engine { name: "second simulator", in_c: false, work: by_second },
];

/// What the engines prepare once.
struct Tools {
    scratch: Vec<u8>,
    interpreter: Interpreter,
    description: second::Description,
}

impl Tools {
    fn of(board: &Board) -> Option<Tools> {
        let description = second::load::load(&board.image)?.description;
        Some(Tools { scratch: board.scratch(), interpreter: Interpreter::of(&board.image)?, description })
    }
}

impl Engine {
    /// Store and record after all cycles.
    pub fn after(&self, board: &Board) -> Result<(u64, Vec<u8>, Vec<u8>), String> {
        let mut tools = Tools::of(board).ok_or("the image does not pass")?;
        let mut board = board.clone();
        let cycles = (self.work)(&mut board, &mut tools);
        Ok((cycles, board.store, board.record))
    }

    pub fn measured(&self, board: &Board, time: Duration, counter: Option<&Counter>) -> Measured {
        let mut tools = Tools::of(board);
        let mut under_way = board.clone();
        measured(time, counter, || {
            under_way.store.copy_from_slice(&board.store);
            under_way.record.copy_from_slice(&board.record);
            tools.as_mut().map_or(0, |tools| (self.work)(&mut under_way, tools))
        })
    }
}

fn by_run(board: &mut Board, tools: &mut Tools) -> u64 {
    let Board { image, store, record, stimuli } = board;
    let lent = Lent { store, record, scratch: &mut tools.scratch, trace: &mut [] };
    module::run(image, lent, stimuli, CYCLES as u32).cycles
}

fn by_cycle(board: &mut Board, tools: &mut Tools) -> u64 {
    let Board { image, store, record, stimuli } = board;
    for cycle in 0..CYCLES {
        let lent = Lent { store, record, scratch: &mut tools.scratch, trace: &mut [] };
        let answer = module::cycle(image, lent, stimulus(stimuli, cycle));
        if answer.stop > 0 || answer.refusal > 0 {
            return cycle as u64;
        }
    }
    CYCLES as u64
}

fn by_interpreter(board: &mut Board, tools: &mut Tools) -> u64 {
    let Board { store, record, stimuli, .. } = board;
    for cycle in 0..CYCLES {
        if tools.interpreter.cycle(store, record, stimulus(stimuli, cycle)).0 > 0 {
            return cycle as u64;
        }
    }
    CYCLES as u64
}

/// The second simulator keeps its own form of a run between cycles.
fn by_second(board: &mut Board, tools: &mut Tools) -> u64 {
    let Some(mut run) = second::record::resumed(&tools.description, &board.store, &board.record) else {
        return 0;
    };
    let mut cycles = 0;
    for cycle in 0..CYCLES {
        match second::cycle_bytes(&tools.description, &mut run, stimulus(&board.stimuli, cycle)) {
            Outcome::Completed { .. } => cycles += 1,
            _ => break,
        }
    }
    board.store.copy_from_slice(&second::store_bytes(&run));
    board.record.copy_from_slice(&second::record::record_bytes(&run));
    cycles
}

// The interpreter in C (interpreter.h).

enum Opaque {}

extern "C" {
    fn interpreter_new(image: *const u8) -> *mut Opaque;
    fn interpreter_free(interpreter: *mut Opaque);
    fn interpreter_cycle(
        interpreter: *mut Opaque,
        store: *mut u8,
        record: *mut u8,
        stimulus: *const u8,
        conflicts: *mut u64,
    ) -> u32;
}

/// Keeps the image that the interpreter points into.
pub struct Interpreter {
    own: *mut Opaque,
    _image: Box<[u8]>,
}

impl Interpreter {
    /// Only for an image that passes: the interpreter trusts it.
    pub fn of(image: &[u8]) -> Option<Interpreter> {
        let image: Box<[u8]> = image.into();
        let own = unsafe { interpreter_new(image.as_ptr()) };
        (!own.is_null()).then_some(Interpreter { own, _image: image })
    }

    /// The stop, or 0, and the conflicts.
    pub fn cycle(&mut self, store: &mut [u8], record: &mut [u8], stimulus: &[u8]) -> (u32, u64) {
        let mut conflicts = 0;
        let (store, record) = (store.as_mut_ptr(), record.as_mut_ptr());
        let stop = unsafe { interpreter_cycle(self.own, store, record, stimulus.as_ptr(), &mut conflicts) };
        (stop, conflicts)
    }
}

impl Drop for Interpreter {
    fn drop(&mut self) {
        unsafe { interpreter_free(self.own) }
    }
}
