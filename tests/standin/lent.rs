//! What a call in C lends, as slices.

use std::slice::{from_raw_parts, from_raw_parts_mut};

/// # Safety
/// The caller lends `length` bytes at the pointer, which is not null.
pub unsafe fn lent<'a>(bytes: *const u8, length: usize) -> &'a [u8] {
    from_raw_parts(bytes, length)
}

/// # Safety
/// As above; no other part lent to the call overlaps these bytes.
pub unsafe fn lent_mut<'a>(bytes: *mut u8, length: usize) -> &'a mut [u8] {
    from_raw_parts_mut(bytes, length)
}
