//! Loaded before the C library, makes one program's reads of standard input and writes to standard output fail or move less than they could.
//!
//! `FAULTS_IN` names the program; every other process is left alone. `FAULTS_READ` and `FAULTS_WRITE` are plans: numbers, each followed by a
//! comma, one for each call and then again from the first. A number up to 0 fails with that error, negated, or moves nothing and gives no
//! error; any other is the most bytes that the call moves.
#![no_std]

use core::arch::asm;
use core::ffi::{c_char, c_int, CStr};
use core::sync::atomic::{AtomicUsize, Ordering};

#[link(name = "c")]
extern "C" {
    static program_invocation_short_name: *const c_char;
    fn __errno_location() -> *mut c_int;
    fn getenv(name: *const c_char) -> *const c_char;
}

const READ: isize = 0;
const WRITE: isize = 1;

static READS: AtomicUsize = AtomicUsize::new(0);
static WRITES: AtomicUsize = AtomicUsize::new(0);

#[panic_handler]
fn panic(_: &core::panic::PanicInfo) -> ! {
    loop {}
}

/// A variable of the environment, and nothing where it is not set.
unsafe fn variable(name: &CStr) -> &'static [u8] {
    let value = getenv(name.as_ptr());
    if value.is_null() {
        return b"";
    }
    CStr::from_ptr(value).to_bytes()
}

/// The number that a plan has for its call of this index.
fn planned(plan: &[u8], index: usize) -> Option<isize> {
    let numbers = plan.iter().filter(|&&b| b == b',').count();
    if numbers == 0 {
        return None;
    }
    let number = plan.split(|&b| b == b',').nth(index % numbers)?;
    let (sign, digits) = match number {
        [b'-', digits @ ..] => (-1, digits),
        digits => (1, digits),
    };
    Some(
        digits
            .iter()
            .fold(0, |n, &b| n * 10 + sign * (b - b'0') as isize),
    )
}

/// The system's own call.
unsafe fn system(call: isize, fd: c_int, bytes: *const u8, count: usize) -> isize {
    let mut answer = call;
    asm!("syscall", inlateout("rax") answer, in("rdi") fd as isize, in("rsi") bytes, in("rdx") count,
        lateout("rcx") _, lateout("r11") _);
    answer
}

/// The call as its plan has it, if it is on the one descriptor.
unsafe fn called(
    call: isize,
    fd: c_int,
    bytes: *const u8,
    count: usize,
    plan: &CStr,
    calls: &AtomicUsize,
) -> isize {
    let name = CStr::from_ptr(program_invocation_short_name).to_bytes();
    let mut most = count;
    let mut answer = 1;
    if fd as isize == call && name == variable(c"FAULTS_IN") {
        if let Some(number) = planned(variable(plan), calls.fetch_add(1, Ordering::Relaxed)) {
            answer = number.min(1);
            most = count.min(number.max(0) as usize);
        }
    }
    if answer == 1 {
        answer = system(call, fd, bytes, most);
    }
    if answer < 0 {
        *__errno_location() = -answer as c_int;
        return -1;
    }
    answer
}

#[no_mangle]
pub unsafe extern "C" fn read(fd: c_int, bytes: *mut u8, count: usize) -> isize {
    called(READ, fd, bytes, count, c"FAULTS_READ", &READS)
}

#[no_mangle]
pub unsafe extern "C" fn write(fd: c_int, bytes: *const u8, count: usize) -> isize {
    called(WRITE, fd, bytes, count, c"FAULTS_WRITE", &WRITES)
}
