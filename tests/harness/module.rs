//! The module's calls as the linked archive has them (include/ddlp.h), over slices.

use second::calls::{CycleAnswer, FacilityAnswer, Lent, NameAnswer, ReadAnswer, RunAnswer};

type Byte = *const u8;
type Space = *mut u8;

extern "C" {
    fn ddlp_read(text: Byte, text_length: usize, image: Space, image_length: usize) -> ReadAnswer;
    fn ddlp_open(image: Byte, length: usize, store: Space, store_length: usize, record: Space, l: usize) -> u32;
    fn ddlp_cycle(
        image: Byte,
        image_length: usize,
        store: Space,
        store_length: usize,
        record: Space,
        record_length: usize,
        stimulus: Byte,
        stimulus_length: usize,
        scratch: Space,
        scratch_length: usize,
    ) -> CycleAnswer;
    fn ddlp_run(
        image: Byte,
        image_length: usize,
        store: Space,
        store_length: usize,
        record: Space,
        record_length: usize,
        stimuli: Byte,
        stimuli_length: usize,
        cycles: u32,
        scratch: Space,
        scratch_length: usize,
        trace: Space,
        trace_length: usize,
    ) -> RunAnswer;
    fn ddlp_facility_name(image: Byte, length: usize, number: u32) -> NameAnswer;
    fn ddlp_state_name(image: Byte, length: usize, number: u32) -> NameAnswer;
    fn ddlp_facility(image: Byte, length: usize, number: u32) -> FacilityAnswer;
}

// Each call is safe for any slices: their pointers are not null and they do not overlap.

pub fn read(text: &[u8], image: &mut [u8]) -> ReadAnswer {
    unsafe { ddlp_read(text.as_ptr(), text.len(), image.as_mut_ptr(), image.len()) }
}

pub fn open(image: &[u8], store: &mut [u8], record: &mut [u8]) -> u32 {
    let (stored, recorded) = (store.len(), record.len());
    unsafe { ddlp_open(image.as_ptr(), image.len(), store.as_mut_ptr(), stored, record.as_mut_ptr(), recorded) }
}

pub fn cycle(image: &[u8], lent: Lent, stimulus: &[u8]) -> CycleAnswer {
    let Lent { store, record, scratch, .. } = lent;
    unsafe {
        ddlp_cycle(
            image.as_ptr(),
            image.len(),
            store.as_mut_ptr(),
            store.len(),
            record.as_mut_ptr(),
            record.len(),
            stimulus.as_ptr(),
            stimulus.len(),
            scratch.as_mut_ptr(),
            scratch.len(),
        )
    }
}

pub fn run(image: &[u8], lent: Lent, stimuli: &[u8], cycles: u32) -> RunAnswer {
    let Lent { store, record, scratch, trace } = lent;
    unsafe {
        ddlp_run(
            image.as_ptr(),
            image.len(),
            store.as_mut_ptr(),
            store.len(),
            record.as_mut_ptr(),
            record.len(),
            stimuli.as_ptr(),
            stimuli.len(),
            cycles,
            scratch.as_mut_ptr(),
            scratch.len(),
            trace.as_mut_ptr(),
            trace.len(),
        )
    }
}

pub fn facility_name(image: &[u8], number: u32) -> NameAnswer {
    unsafe { ddlp_facility_name(image.as_ptr(), image.len(), number) }
}

pub fn state_name(image: &[u8], number: u32) -> NameAnswer {
    unsafe { ddlp_state_name(image.as_ptr(), image.len(), number) }
}

pub fn facility(image: &[u8], number: u32) -> FacilityAnswer {
    unsafe { ddlp_facility(image.as_ptr(), image.len(), number) }
}
