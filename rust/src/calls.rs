//! The module's calls (include/ddlp.h) over slices. This is the only file
//! with unsafe code: each call is safe for any slices, since their pointers
//! are not null and those that are written to overlap no other.

#[repr(C)]
pub struct ReadAnswer {
    pub refusal: u32,
    pub place: u32,
    pub length: u32,
}

#[repr(C)]
pub struct CycleAnswer {
    pub refusal: u32,
    pub stop: u32,
    pub conflicts: u32,
}

#[repr(C)]
pub struct RunAnswer {
    pub refusal: u32,
    pub stop: u32,
    pub cycles: u64,
    pub conflicts: u64,
}

#[repr(C)]
#[derive(Debug, PartialEq, Eq)]
pub struct NameAnswer {
    pub refusal: u32,
    pub offset: u32,
    pub length: u32,
}

mod archive {
    use super::*;

    #[link(name = "ddlp", kind = "static")]
    extern "C" {
        pub fn ddlp_read(text: *const u8, length: usize, image: *mut u8, image_length: usize) -> ReadAnswer;
        pub fn ddlp_open(
            image: *const u8,
            image_length: usize,
            store: *mut u8,
            store_length: usize,
            record: *mut u8,
            record_length: usize,
        ) -> u32;
        pub fn ddlp_cycle(
            image: *const u8,
            image_length: usize,
            store: *mut u8,
            store_length: usize,
            record: *mut u8,
            record_length: usize,
            stimulus: *const u8,
            stimulus_length: usize,
            scratch: *mut u8,
            scratch_length: usize,
        ) -> CycleAnswer;
        pub fn ddlp_run(
            image: *const u8,
            image_length: usize,
            store: *mut u8,
            store_length: usize,
            record: *mut u8,
            record_length: usize,
            stimuli: *const u8,
            stimuli_length: usize,
            cycles: u32,
            scratch: *mut u8,
            scratch_length: usize,
            trace: *mut u8,
            trace_length: usize,
        ) -> RunAnswer;
        pub fn ddlp_facility_name(image: *const u8, length: usize, number: u32) -> NameAnswer;
    }
}

pub fn read(text: &[u8], image: &mut [u8]) -> ReadAnswer {
    unsafe { archive::ddlp_read(text.as_ptr(), text.len(), image.as_mut_ptr(), image.len()) }
}

/// The parts of memory that a run owns.
pub struct Lent<'a> {
    pub store: &'a mut [u8],
    pub record: &'a mut [u8],
    pub scratch: &'a mut [u8],
}

pub fn open(image: &[u8], store: &mut [u8], record: &mut [u8]) -> u32 {
    let (stored, recorded) = (store.len(), record.len());
    unsafe {
        archive::ddlp_open(image.as_ptr(), image.len(), store.as_mut_ptr(), stored, record.as_mut_ptr(), recorded)
    }
}

pub fn cycle(image: &[u8], lent: Lent, stimulus: &[u8]) -> CycleAnswer {
    unsafe {
        archive::ddlp_cycle(
            image.as_ptr(),
            image.len(),
            lent.store.as_mut_ptr(),
            lent.store.len(),
            lent.record.as_mut_ptr(),
            lent.record.len(),
            stimulus.as_ptr(),
            stimulus.len(),
            lent.scratch.as_mut_ptr(),
            lent.scratch.len(),
        )
    }
}

pub fn run(image: &[u8], lent: Lent, stimuli: &[u8], cycles: u32, trace: &mut [u8]) -> RunAnswer {
    unsafe {
        archive::ddlp_run(
            image.as_ptr(),
            image.len(),
            lent.store.as_mut_ptr(),
            lent.store.len(),
            lent.record.as_mut_ptr(),
            lent.record.len(),
            stimuli.as_ptr(),
            stimuli.len(),
            cycles,
            lent.scratch.as_mut_ptr(),
            lent.scratch.len(),
            trace.as_mut_ptr(),
            trace.len(),
        )
    }
}

pub fn facility_name(image: &[u8], number: u32) -> NameAnswer {
    unsafe { archive::ddlp_facility_name(image.as_ptr(), image.len(), number) }
}

/// The lookups that the wrapper does without; its tests hold what it reads
/// against them.
#[cfg(test)]
pub mod lookups {
    use super::NameAnswer;

    #[repr(C)]
    #[derive(Debug, PartialEq, Eq)]
    pub struct FacilityAnswer {
        pub refusal: u32,
        pub kind: u32,
        pub dimensions: u32,
        pub words_first: u32,
        pub words_last: u32,
        pub bits_first: u32,
        pub bits_last: u32,
        pub stored: u32,
        pub place: u32,
    }

    extern "C" {
        fn ddlp_state_name(image: *const u8, length: usize, number: u32) -> NameAnswer;
        fn ddlp_facility(image: *const u8, length: usize, number: u32) -> FacilityAnswer;
    }

    pub fn state_name(image: &[u8], number: u32) -> NameAnswer {
        unsafe { ddlp_state_name(image.as_ptr(), image.len(), number) }
    }

    pub fn facility(image: &[u8], number: u32) -> FacilityAnswer {
        unsafe { ddlp_facility(image.as_ptr(), image.len(), number) }
    }
}
