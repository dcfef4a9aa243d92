//! How deep a call reaches into the stack: it runs on one of its own, which was painted before.

use std::arch::asm;

const WORDS: usize = 8 * 1024;
const PAINT: u64 = 0xa5a5_5a5a_c3c3_3c3c;

extern "C" fn enter(call: *mut &mut dyn FnMut()) {
    // SAFETY: `taken` passes a pointer to its own local, which outlives the call.
    unsafe { (*call)() }
}

/// The bytes of stack below the caller's that a call takes, with the parameters that it is passed.
pub fn taken(mut call: &mut dyn FnMut()) -> usize {
    let mut stack = vec![PAINT; WORDS];
    let top = (stack.as_mut_ptr() as usize + WORDS * 8) & !15;
    // SAFETY: the stack put in place belongs to nothing else, r12 (x20 on Arm) keeps the old one over the
    // call, and what is called neither unwinds nor looks further up.
    #[cfg(target_arch = "x86_64")]
    unsafe {
        asm!(
            "mov r12, rsp",
            "mov rsp, {top}",
            "call {enter}",
            "mov rsp, r12",
            top = in(reg) top,
            enter = sym enter,
            in("rdi") &mut call,
            out("r12") _,
            clobber_abi("C"),
        );
    }
    #[cfg(target_arch = "aarch64")]
    unsafe {
        asm!(
            "mov x20, sp",
            "mov sp, {top}",
            "bl {enter}",
            "mov sp, x20",
            top = in(reg) top,
            enter = sym enter,
            in("x0") &mut call,
            out("x20") _,
            clobber_abi("C"),
        );
    }
    let untouched = stack.iter().take_while(|w| **w == PAINT).count();
    (WORDS - untouched) * 8
}
