//! Refusals, reasons and faults in words. These functions are C, and not proved.

use super::Fault;
use std::ffi::{c_char, CStr};

mod foreign {
    use super::{c_char, Fault};

    extern "C" {
        #[link_name = "mesh3d_refusal_text"]
        pub fn refusal_text(number: u32) -> *const c_char;
        #[link_name = "mesh3d_reason_text"]
        pub fn reason_text(reason: u32) -> *const c_char;
        #[link_name = "mesh3d_fault_text"]
        pub fn fault_text(fault: Fault, text: *mut c_char, text_len: usize) -> usize;
    }
}

/// A refusal number in a sentence.
pub fn refusal_text(number: u32) -> &'static CStr {
    // SAFETY: the function answers a text that is there as long as the program.
    unsafe { CStr::from_ptr(foreign::refusal_text(number)) }
}

/// Why a channel is passed over.
pub fn reason_text(reason: u32) -> &'static CStr {
    // SAFETY: as for `refusal_text`.
    unsafe { CStr::from_ptr(foreign::reason_text(reason)) }
}

/// A fault in a sentence, cut off and closed with a 0 where `text` is shorter; answers how
/// many bytes the whole sentence has.
pub fn fault_text(fault: Fault, text: &mut [u8]) -> usize {
    // SAFETY: the function writes inside the slice, whatever the fault says.
    unsafe { foreign::fault_text(fault, text.as_mut_ptr().cast(), text.len()) }
}
