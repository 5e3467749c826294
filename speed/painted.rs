//! The bytes of stack that a call touches, on a painted one.

use ddlp::{STACK_MOST, STACK_READ, STACK_SMALL};
use std::ffi::c_void;
use std::hint::black_box;

/// Far more than any call takes, so that one which takes too much is told and not struck down.
const ROOMY: usize = 16 << 20;

extern "C" {
    fn stack_painted(room: usize) -> *mut u8;
    fn stack_touched(stack: *mut u8, room: usize, call: extern "C" fn(*mut c_void), with: *mut c_void) -> usize;
}

type Call<'a> = &'a mut dyn FnMut();

extern "C" fn called(with: *mut c_void) {
    // Only `touched` hands this over, and waits until it is done.
    let call = unsafe { &mut *(with as *mut Call) };
    call();
}

struct Painted {
    stack: *mut u8,
    room: usize,
}

impl Painted {
    fn new(room: usize) -> Result<Painted, String> {
        let stack = unsafe { stack_painted(room) };
        match stack.is_null() {
            true => Err(format!("no stack of {room} bytes")),
            false => Ok(Painted { stack, room }),
        }
    }

    fn touched(&self, mut call: Call) -> Result<usize, String> {
        let with = &mut call as *mut Call as *mut c_void;
        match unsafe { stack_touched(self.stack, self.room, called, with) } {
            0 => Err("no thread for a call".to_string()),
            bytes => Ok(bytes),
        }
    }
}

/// A roomy stack, and one as small as any call must do with.
pub struct Stacks {
    roomy: Painted,
    exact: Painted,
}

impl Stacks {
    pub fn new() -> Result<Stacks, String> {
        Ok(Stacks { roomy: Painted::new(ROOMY)?, exact: Painted::new(STACK_MOST)? })
    }

    /// What a call takes, the thread's own with it. Where it is no more than any call may take, the call is made
    /// again in a thread that has so much.
    pub fn needed(&self, call: Call) -> Result<usize, String> {
        let needed = self.roomy.touched(call)?;
        match needed <= STACK_MOST {
            true => Ok(needed.max(self.exact.touched(call)?)),
            false => Ok(needed),
        }
    }

    /// Calls that take a known stack, up to more than any may take, must take that by the painted ones, and little
    /// more.
    pub fn right(&self) -> Result<(), String> {
        for wanted in [STACK_SMALL, STACK_READ, STACK_MOST, 2 * STACK_MOST] {
            let mut taken = 0;
            let bytes = self.needed(&mut || taken = black_box(take(wanted)))?;
            if taken < wanted || !(wanted..wanted + wanted / 4).contains(&bytes) {
                return Err(format!("a call that takes {wanted} bytes is said to take {bytes}"));
            }
        }
        Ok(())
    }
}

const PAGE: usize = 4_096;

/// Takes so much stack, and answers how much.
#[inline(never)]
fn take(bytes: usize) -> usize {
    let page = [1_u8; PAGE];
    let below = if bytes > PAGE { take(bytes - PAGE) } else { 0 };
    below + black_box(&page).len()
}
