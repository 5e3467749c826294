//! The module's calls by name, carried out by the second simulator: what the
//! benches and the harness are built against where the proved archive is not
//! there, and what shows that the harness can fail.
//!
//! The variable STANDIN_FAULT names a fault that the stand-in then has; each
//! is a slip that a simulator could well have (see `FAULTS`).

mod faults;
mod lent;

use faults::Fault;
use lent::{lent, lent_mut};
use second::calls::{self, CycleAnswer, FacilityAnswer, Lent, NameAnswer, ReadAnswer, RunAnswer};

/// # Safety
/// As include/ddlp.h says; so for each function below.
#[no_mangle]
pub unsafe extern "C" fn ddlp_read(
    text: *const u8,
    text_length: usize,
    image: *mut u8,
    image_length: usize,
) -> ReadAnswer {
    let (text, image) = (faults::text(lent(text, text_length)), lent_mut(image, image_length));
    let found = image.to_vec();
    let answer = calls::read(&text, image);
    faults::after_reading(&text, &found, image, answer)
}

/// # Safety
/// As above.
#[no_mangle]
pub unsafe extern "C" fn ddlp_open(
    image: *const u8,
    image_length: usize,
    store: *mut u8,
    store_length: usize,
    record: *mut u8,
    record_length: usize,
) -> u32 {
    let (store, record) = (lent_mut(store, store_length), lent_mut(record, record_length));
    let image = faults::image(lent(image, image_length));
    let found = store.to_vec();
    let refusal = calls::open(&image, store, record);
    faults::after_opening(&image, &found, store, refusal);
    refusal
}

/// # Safety
/// As above.
#[no_mangle]
pub unsafe extern "C" fn ddlp_cycle(
    image: *const u8,
    image_length: usize,
    store: *mut u8,
    store_length: usize,
    record: *mut u8,
    record_length: usize,
    stimulus: *const u8,
    stimulus_length: usize,
    scratch: *mut u8,
    scratch_length: usize,
) -> CycleAnswer {
    let lent_parts = Lent {
        store: lent_mut(store, store_length),
        record: lent_mut(record, record_length),
        scratch: lent_mut(scratch, scratch_length),
        trace: &mut [],
    };
    faults::cycle(&faults::image(lent(image, image_length)), lent_parts, lent(stimulus, stimulus_length))
}

/// # Safety
/// As above.
#[no_mangle]
pub unsafe extern "C" fn ddlp_run(
    image: *const u8,
    image_length: usize,
    store: *mut u8,
    store_length: usize,
    record: *mut u8,
    record_length: usize,
    stimuli: *const u8,
    stimuli_length: usize,
    cycles: u32,
    scratch: *mut u8,
    scratch_length: usize,
    trace: *mut u8,
    trace_length: usize,
) -> RunAnswer {
    let lent_parts = Lent {
        store: lent_mut(store, store_length),
        record: lent_mut(record, record_length),
        scratch: lent_mut(scratch, scratch_length),
        trace: lent_mut(trace, trace_length),
    };
    let image = faults::image(lent(image, image_length));
    faults::run(&image, lent_parts, lent(stimuli, stimuli_length), cycles)
}

/// # Safety
/// As above.
#[no_mangle]
pub unsafe extern "C" fn ddlp_facility_name(image: *const u8, image_length: usize, number: u32) -> NameAnswer {
    calls::facility_name(&faults::image(lent(image, image_length)), number)
}

/// # Safety
/// As above.
#[no_mangle]
pub unsafe extern "C" fn ddlp_state_name(image: *const u8, image_length: usize, number: u32) -> NameAnswer {
    let mut answer = calls::state_name(&faults::image(lent(image, image_length)), number);
    if Fault::LookupOrder.is_on() && answer.refusal == 6 {
        answer.refusal = 13;
    }
    answer
}

/// # Safety
/// As above.
#[no_mangle]
pub unsafe extern "C" fn ddlp_facility(image: *const u8, image_length: usize, number: u32) -> FacilityAnswer {
    let mut answer = calls::facility(&faults::image(lent(image, image_length)), number);
    if Fault::BoundsSwapped.is_on() {
        (answer.bits_first, answer.bits_last) = (answer.bits_last, answer.bits_first);
    }
    answer
}
