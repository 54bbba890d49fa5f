//! The thread's float mode, which every call rests on: round to nearest, subnormals kept.

use std::arch::asm;

/// MXCSR's rounding control, flush-to-zero and denormals-are-zero; all clear by default.
const ROUNDING: u32 = 0x6000;
const FLUSH_TO_ZERO: u32 = 0x8000;
const DENORMALS_ARE_ZERO: u32 = 0x0040;

fn mxcsr() -> u32 {
    let mut held = 0u32;
    unsafe { asm!("stmxcsr [{}]", in(reg) &mut held, options(nostack, preserves_flags)) };
    held
}

/// Panics where the calling thread rounds otherwise or flushes subnormals: an answer of the
/// library would then be another than the proved one, with no refusal.
#[inline]
pub(crate) fn look() {
    let held = mxcsr() & (ROUNDING | FLUSH_TO_ZERO | DENORMALS_ARE_ZERO);
    if held != 0 {
        unfit(held);
    }
}

#[cold]
fn unfit(held: u32) -> ! {
    let what = match held {
        _ if held & ROUNDING != 0 => "doesn't round to nearest",
        _ if held & FLUSH_TO_ZERO != 0 => "flushes subnormal results to zero",
        _ => "reads subnormal values as zero",
    };
    panic!("foldrima: this thread {what} (MXCSR), so no answer would be the proved one");
}
