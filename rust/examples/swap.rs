//! The example of the trace program: two registers that swap, or are loaded.

use ddlp::{Image, Run};
use std::error::Error;

const TEXT: &[u8] = b"REGISTER A[4], B[4].
TERMINAL GO = INPUT(1,GO).
OPERATION SWAP = [A <- B, B <- A],
  LOAD = [A = 4D9, B <- (A (+) 4D3) TAIL 4].
CONTROL P: IF GO THEN SWAP ENDIF/ Q: LOAD, ->P/ .
";

fn main() -> Result<(), Box<dyn Error>> {
    let image = Image::read(TEXT)?;
    let mut run = Run::open(&image)?;
    for go in ["1", "0", "1"] {
        let mut stimulus = image.stimulus();
        stimulus.set("GO", go)?;
        let label = image.state_name(run.state())?;
        run.cycle(&stimulus)?;
        print!("{} {label}", run.cycles());
        for facility in image.facilities() {
            if let Some(word) = run.word(&facility, 0) {
                print!(" {}={word}", facility.name());
            }
        }
        println!();
    }
    println!("end {}", run.cycles());
    Ok(())
}
