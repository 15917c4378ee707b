//! How much stack a call takes.
use std::arch::asm;

const AREA: usize = 1 << 20;

/// The bytes of stack that a C function takes, its return address included: on these arguments, words of which C passes the
/// first six in registers and the others on the stack, which do not count.
///
/// It runs on a stack of its own, an area of 1 MB that is filled with a pattern beforehand; for the call the stack pointer is set
/// to its top, or below it to the first of the arguments there. Afterwards the lowest byte that is not the pattern is the deepest
/// one written. That is done with two patterns, as no byte that was written looks like both.
pub fn depth(function: usize, arguments: &[usize]) -> usize {
    let one = depth_by(0xA5, function, arguments);
    one.max(depth_by(0x5A, function, arguments))
}

fn depth_by(pattern: u8, function: usize, arguments: &[usize]) -> usize {
    let mut area = vec![pattern; AREA];
    let mut registers = [0; 6];
    let (first, others) = arguments.split_at(arguments.len().min(6));
    registers[..first.len()].copy_from_slice(first);
    // The stack pointer is a multiple of 16 where a call is made.
    let top = (area.as_mut_ptr_range().end as usize - 8 * others.len()) & !15;
    let at = top - area.as_ptr() as usize;
    for (place, word) in area[at..].chunks_exact_mut(8).zip(others) {
        place.copy_from_slice(&word.to_ne_bytes());
    }
    unsafe {
        asm!(
            "mov r12, rsp",
            "mov rsp, {top}",
            "call {function}",
            "mov rsp, r12",
            top = in(reg) top,
            function = in(reg) function,
            in("rdi") registers[0],
            in("rsi") registers[1],
            in("rdx") registers[2],
            in("rcx") registers[3],
            in("r8") registers[4],
            in("r9") registers[5],
            out("r12") _,
            clobber_abi("C"),
        );
    }
    let untouched = area.iter().take_while(|&&byte| byte == pattern).count();
    assert!(untouched > 0, "the area is too small");
    at - untouched
}
