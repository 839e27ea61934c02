//! The reference's calls as the C programs of `tests/counted` make them, declared there in
//! `reference.h`. `tools/count-rows` compiles this crate and the reference for another machine, each
//! as a module of its own, and counts the instructions of the functions `reference_*`.
//!
//! Such a function does nothing but call the reference, and its own instructions are left out: one
//! jump, since an answer stays where the reference puts it ([`Answer`]); and where it is no more than
//! a word, in `why`, `confirm`, the float's calls and `take`, a call, a return and what puts the answer
//! into one register. By "C-unwind" a panic may pass, which otherwise each call would be guarded
//! against.
//!
//! The functions `lend_*`, which make what the reference is lent, and `told_*`, which say an answer in
//! the library's bits, are not counted. Nothing here may call what `core` has not.

// An answer is a Rust type in memory or in registers that C does not look into: `told_*` does.
#![allow(improper_ctypes_definitions)]

mod coupler;
mod frames;
mod leak;
#[path = "../../calls/src/answer/packed.rs"]
mod packed;
mod tracer;
mod tunnelling;

use std::mem::MaybeUninit;
use std::slice;

/// An answer of the reference, which Rust has written to memory that the caller lends if it is above a
/// word. By what lies behind it C has so too, where it would take one of two words from registers, and
/// nothing is copied.
#[repr(C)]
pub struct Answer<T> {
    is: T,
    behind: MaybeUninit<[u64; 2]>,
}

impl<T> Answer<T> {
    #[inline(always)]
    fn of(is: T) -> Answer<T> {
        const { assert!(fits::<Answer<T>>(8)) };
        Answer {
            is,
            behind: MaybeUninit::uninit(),
        }
    }
}

/// That what C lends has room for a type.
const fn fits<T>(words: usize) -> bool {
    size_of::<T>() <= words * size_of::<u64>() && align_of::<T>() <= align_of::<u64>()
}

/// # Safety
/// That many octets are lent, and nobody writes them meanwhile.
unsafe fn lent<'a>(octets: *const u8, length: usize) -> &'a [u8] {
    slice::from_raw_parts(octets, length)
}

/// # Safety
/// That many octets are lent to this call alone.
unsafe fn room<'a>(octets: *mut u8, length: usize) -> &'a mut [u8] {
    slice::from_raw_parts_mut(octets, length)
}
