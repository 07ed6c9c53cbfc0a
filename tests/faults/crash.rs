//! Prints the number of the running case when a signal ends the program.

use std::ffi::c_void;
use std::sync::atomic::{AtomicUsize, Ordering};

// Values of Linux.
const ILLEGAL_INSTRUCTION: i32 = 4;
const BUS_ERROR: i32 = 7;
const ARITHMETIC_ERROR: i32 = 8;
const SEGMENTATION_FAULT: i32 = 11;
const DEFAULT_ACTION: usize = 0;
const STANDARD_ERROR: i32 = 2;

extern "C" {
    fn signal(number: i32, action: usize) -> usize;
    fn write(file: i32, bytes: *const c_void, length: usize) -> isize;
}

static CASE: AtomicUsize = AtomicUsize::new(0);

/// Arranges that a crash prints the number that `set_case` was last given.
pub fn install() {
    let action: extern "C" fn(i32) = print_case;
    for number in [
        ILLEGAL_INSTRUCTION,
        BUS_ERROR,
        ARITHMETIC_ERROR,
        SEGMENTATION_FAULT,
    ] {
        // SAFETY: the action calls only what a signal handler may call.
        unsafe { signal(number, action as usize) };
    }
}

pub fn set_case(number: usize) {
    CASE.store(number, Ordering::Relaxed);
}

/// Returns to the instruction at fault, which then ends the program.
extern "C" fn print_case(signal_number: i32) {
    let mut digits = [0; 20];
    let case = digits_of(CASE.load(Ordering::Relaxed), &mut digits);
    for part in [b"FAULT in case ", case, b"\n"] {
        // SAFETY: pointer and length of a slice.
        unsafe { write(STANDARD_ERROR, part.as_ptr().cast(), part.len()) };
    }
    // SAFETY: the action is the system's default.
    unsafe { signal(signal_number, DEFAULT_ACTION) };
}

/// Decimal digits, without allocation.
fn digits_of(mut number: usize, digits: &mut [u8; 20]) -> &[u8] {
    let mut first = digits.len();
    loop {
        first -= 1;
        digits[first] = b'0' + (number % 10) as u8;
        number /= 10;
        if number == 0 {
            return &digits[first..];
        }
    }
}
