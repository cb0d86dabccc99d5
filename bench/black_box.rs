//! What `std::hint::black_box` does, which came only after Rust 1.63.

/// The value, of which the compiler must now believe that it was read and that it may be another.
#[inline(always)]
pub fn black_box<T>(mut value: T) -> T {
    unsafe { std::arch::asm!("/* {} */", in(reg) &mut value, options(nostack, preserves_flags)) };
    value
}
