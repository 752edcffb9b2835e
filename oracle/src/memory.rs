//! The memory that the Rust works on, and the only place that calls it.

use crate::call::{Call, Outcome, Routine, BYTES};
use routines::mem;
use std::sync::atomic::{compiler_fence, Ordering};

/// How many bytes stand on either side of the memory, for a store that leaves it to be seen.
pub const GUARD: usize = 256;
const UNTOUCHED: [u8; GUARD] = [0xa5; GUARD];

/// The memory starts at a multiple of 8, as `GUARD` is one. A store to `begin` and one to `end` mark each call in a trace.
#[repr(C, align(8))]
struct Space {
    before: [u8; GUARD],
    bytes: [u8; BYTES],
    after: [u8; GUARD],
    begin: u64,
    end: u64,
}

pub struct Memory {
    space: Box<Space>,
}

/// Where the machine has the memory and the two marks.
#[derive(Clone, Copy)]
pub struct Places {
    pub memory: u64,
    pub begin: u64,
    pub end: u64,
}

impl Default for Memory {
    fn default() -> Memory {
        let (before, after) = (UNTOUCHED, UNTOUCHED);
        let space = Space { before, bytes: [0; BYTES], after, begin: 0, end: 0 };
        Memory { space: Box::new(space) }
    }
}

impl Memory {
    pub fn bytes(&self) -> &[u8; BYTES] {
        &self.space.bytes
    }

    pub fn bytes_mut(&mut self) -> &mut [u8; BYTES] {
        &mut self.space.bytes
    }

    pub fn places(&self) -> Places {
        Places {
            memory: (&raw const self.space.bytes) as u64,
            begin: (&raw const self.space.begin) as u64,
            end: (&raw const self.space.end) as u64,
        }
    }

    /// Makes the call in Rust, unless document 01 refuses it: a bad call is undefined there.
    pub fn call(&mut self, call: &Call) -> Outcome {
        if let Some(refusal) = call.refusal(self.bytes()) {
            return Outcome::Refusal(refusal);
        }
        let space = &raw mut *self.space;
        // SAFETY: the table accepts the call, so every range lies in `bytes`, and a string ends there.
        let outcome = unsafe {
            (&raw mut (*space).begin).write_volatile(1);
            compiler_fence(Ordering::SeqCst);
            let outcome = run(space.cast::<u8>().wrapping_add(GUARD), call.routine);
            compiler_fence(Ordering::SeqCst);
            (&raw mut (*space).end).write_volatile(1);
            outcome
        };
        let untouched = self.space.before == UNTOUCHED && self.space.after == UNTOUCHED;
        assert!(untouched, "the Rust stored outside the memory");
        outcome
    }
}

/// # Safety
/// What the routine reaches from `base` on must be the caller's to lend.
unsafe fn run(base: *mut u8, routine: Routine) -> Outcome {
    let at = |address: u64| base.wrapping_add(address as usize);
    let address = |pointer: *mut u8| Outcome::Address((pointer as usize).wrapping_sub(base as usize) as u64);
    match routine {
        Routine::Copy { dest, src, n } => address(mem::memcpy(at(dest), at(src), n as usize)),
        Routine::Move { dest, src, n } => address(mem::memmove(at(dest), at(src), n as usize)),
        Routine::Fill { dest, value, n } => address(mem::memset(at(dest), value, n as usize)),
        Routine::Compare { first, second, n } => Outcome::Number(mem::memcmp(at(first), at(second), n as usize)),
        Routine::Bcmp { first, second, n } => Outcome::Number(mem::bcmp(at(first), at(second), n as usize)),
        Routine::Strlen { start } => Outcome::Length(mem::strlen(at(start).cast()) as u64),
    }
}
