//! The interpreter in C held against the second simulator on random legal
//! descriptions, so that what is measured does the same work.

use crate::engines::Interpreter;
use second::bytes::{stimulus_bytes, store_bytes};
use second::record::record_bytes;
use second::trials::generate::legal;
use second::trials::layout::lay_out;
use second::trials::random::Random;
use second::trials::running::some_run;
use second::trials::supply;
use second::{cycle, read, Outcome};

pub fn interpreter_agrees(seed: u64, tries: u64) -> Result<(), String> {
    let mut cycles = 0;
    for seed in seed..seed + tries {
        cycles += one_try(&mut Random::new(seed)).map_err(|what| format!("seed {seed}: {what}"))?;
    }
    println!("interpreter in C: {tries} descriptions, {cycles} cycles agree");
    Ok(())
}

fn one_try(random: &mut Random) -> Result<usize, String> {
    let words = legal(Random::new(random.below(1 << 48) as u64));
    let text = lay_out(&words, false, random).bytes;
    let description = read(&text).map_err(|refusal| format!("{refusal:?}"))?;
    let mut interpreter = Interpreter::of(&second::image::image(&description)).ok_or("no memory")?;
    let mut run = some_run(&description, random)?;
    let (mut store, mut record) = (store_bytes(&run), record_bytes(&run));
    for number in 0..20 {
        let stimulus = supply::stimulus(&description, random);
        let expected = match cycle(&description, &mut run, &stimulus) {
            Outcome::Completed { conflicts } => (0, conflicts as u64),
            Outcome::Stop(stop) => (stop as u32, 0),
            Outcome::Refused(refusal) => return Err(format!("refused {refusal}")),
        };
        let found = interpreter.cycle(&mut store, &mut record, &stimulus_bytes(&stimulus));
        if found != expected || store != store_bytes(&run) || record != record_bytes(&run) {
            return Err(format!("cycle {number}: {found:?} and not {expected:?}, or another store or record"));
        }
        if expected.0 > 0 {
            return Ok(number + 1);
        }
    }
    Ok(20)
}
