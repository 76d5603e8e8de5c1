//! A library to be loaded before a program (`LD_PRELOAD`): its clock then counts the processor time of
//! the process, so that its figures don't depend on what else the machine does. For Linux on x86-64.

use std::ffi::{c_int, c_long, c_void};

const MONOTONIC: c_int = 1;
const PROCESS_CPUTIME: c_int = 2;
const SYS_CLOCK_GETTIME: c_long = 228;

unsafe extern "C" {
    fn syscall(number: c_long, ...) -> c_long;
}

/// # Safety
///
/// As that of the C library's function.
#[unsafe(no_mangle)]
pub unsafe extern "C" fn clock_gettime(clock: c_int, time: *mut c_void) -> c_int {
    let clock = if clock == MONOTONIC {
        PROCESS_CPUTIME
    } else {
        clock
    };
    unsafe { syscall(SYS_CLOCK_GETTIME, clock, time) as c_int }
}
