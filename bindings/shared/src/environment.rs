//! The floating-point environment of the processor: how it rounds, whether it flushes subnormal numbers to zero, and
//! which exceptions it traps. The proofs are about IEEE 754's default, so a call runs in that.

use std::arch::asm;

/// Round to nearest, keep subnormal numbers, trap nothing, no flag raised.
const DEFAULT: u32 = 0x1F80;

fn control() -> u32 {
    let mut control = 0u32;
    // SAFETY: it stores the 32 bits of the register in `control`.
    unsafe { asm!("stmxcsr [{}]", in(reg) &mut control, options(nostack, preserves_flags)) };
    control
}

fn set_control(control: u32) {
    // SAFETY: `control` is the default, or what the register held before.
    unsafe { asm!("ldmxcsr [{}]", in(reg) &control, options(nostack, preserves_flags)) };
}

/// The default environment until it is dropped: then the caller's is back, with its own flags.
pub struct DefaultEnvironment {
    callers: u32,
}

impl DefaultEnvironment {
    pub fn enter() -> DefaultEnvironment {
        let callers = control();
        set_control(DEFAULT);
        DefaultEnvironment { callers }
    }
}

impl Drop for DefaultEnvironment {
    fn drop(&mut self) {
        set_control(self.callers);
    }
}
