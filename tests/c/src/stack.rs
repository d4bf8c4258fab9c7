//! How many bytes of stack a call writes, measured on a painted one.

use std::arch::asm;

use crate::caller::{call, Exported};
use crate::lent::Lent;
use crate::starts::{self, mcx11_free_start, Cycle};

const BYTES: usize = 16_384;
const PAINT: u8 = 0xA5;

/// Writes nothing but where it returns to.
unsafe extern "C" fn nothing(
    _: *const u8,
    _: usize,
    _: *mut u8,
    _: usize,
    _: *mut u8,
    _: usize,
    _: *mut u8,
    _: usize,
    _: *mut u8,
    _: usize,
    _: *mut u8,
    _: usize,
) -> u8 {
    0
}

/// The same, with the arguments of a free start.
unsafe extern "C" fn no_start(_: *const Cycle, _: usize, _: u32, _: *mut u32) -> u8 {
    0
}

/// The bytes that the call of this function writes, the return address with them: what is written, less what an empty function
/// writes that has the same arguments.
pub fn bytes(function: Exported, frame: &[u8], memory: &mut Lent) -> usize {
    let measured = |function: Exported, memory: &mut Lent| {
        written(&mut || unsafe {
            call(function, frame, memory.lend());
        })
    };
    let empty = measured(nothing, &mut memory.clone());
    measured(function, memory) - empty + size_of::<usize>()
}

/// The same of a free start.
pub fn of_free_start(timers: &[Cycle], period: u32) -> usize {
    let measured = |function: starts::Exported| {
        let mut start = 0;
        written(&mut || unsafe {
            function(timers.as_ptr(), timers.len(), period, &mut start);
        })
    };
    measured(mcx11_free_start) - measured(no_start) + size_of::<usize>()
}

fn written(mut call: &mut dyn FnMut()) -> usize {
    let mut stack = vec![PAINT; BYTES];
    let end = stack.as_mut_ptr_range().end as usize & !15;
    unsafe {
        asm!(
            "mov r12, rsp",
            "mov rsp, {end}",
            "call {run}",
            "mov rsp, r12",
            end = in(reg) end,
            run = in(reg) run as unsafe extern "C" fn(*mut &mut dyn FnMut()),
            in("rdi") &mut call as *mut &mut dyn FnMut(),
            out("r12") _,
            clobber_abi("C"),
        );
    }
    stack.iter().skip_while(|&&byte| byte == PAINT).count()
}

unsafe extern "C" fn run(call: *mut &mut dyn FnMut()) {
    unsafe { (*call)() };
}
