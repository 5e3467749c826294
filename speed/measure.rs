//! Time and instructions of what is measured. The time is that of the
//! processor, so that a busy host does not count.

use std::time::Duration;

extern "C" {
    fn processor_time() -> u64;
    fn instructions_open() -> i32;
    fn instructions_start(counter: i32);
    fn instructions_stop(counter: i32) -> u64;
}

/// The host's counter of instructions.
pub struct Counter(i32);

impl Counter {
    pub fn open() -> Option<Counter> {
        let counter = unsafe { instructions_open() };
        (counter >= 0).then_some(Counter(counter))
    }
}

pub struct Measured {
    /// Cycles carried out, or texts read.
    done: u64,
    time: Duration,
    instructions: Option<u64>,
}

impl Measured {
    pub fn a_second(&self) -> f64 {
        self.done as f64 / self.time.as_secs_f64()
    }

    pub fn instructions_each(&self) -> Option<f64> {
        self.instructions.filter(|&count| count > 0).map(|count| count as f64 / self.done as f64)
    }
}

fn now() -> Duration {
    Duration::from_nanos(unsafe { processor_time() })
}

/// Repeats the work, which answers how much it did, for so long.
pub fn measured(least: Duration, counter: Option<&Counter>, mut work: impl FnMut() -> u64) -> Measured {
    work();
    let start = now();
    if let Some(Counter(counter)) = counter {
        unsafe { instructions_start(*counter) }
    }
    let mut done = 0;
    while now() - start < least {
        done += work();
    }
    let instructions = counter.map(|Counter(counter)| unsafe { instructions_stop(*counter) });
    Measured { done, time: now() - start, instructions }
}
