//! What the compiler must believe to be looked at and changed, so that no work is left out. `std::hint::black_box` came after rustc 1.63.

use std::arch::asm;

/// The same value, of which the compiler knows nothing any more.
#[inline(always)]
pub fn seen<T>(mut value: T) -> T {
    // SAFETY: there is no instruction in it.
    unsafe { asm!("/* {0} */", in(reg) &mut value as *mut T as *mut u8, options(nostack, preserves_flags)) };
    value
}

/// All of a value is looked at.
#[inline(always)]
pub fn see<T>(value: &T) {
    // SAFETY: there is no instruction in it.
    unsafe { asm!("/* {0} */", in(reg) value as *const T as *const u8, options(nostack, preserves_flags, readonly)) };
}
