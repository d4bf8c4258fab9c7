//! Memory between closed pages: an access outside a lent part ends the test, and a byte written beside it is noticed.

mod list;

use std::cell::Cell;
use std::process::Command;
use std::slice;

use plain_executive::numbers::Number;

use crate::caller::Blocks;
use crate::lent::{Lent, SIZES};

pub use list::{Edge, List, EDGES};

extern "C" {
    fn mmap(address: *mut u8, bytes: usize, protection: i32, flags: i32, file: i32, offset: i64) -> *mut u8;
    fn mprotect(address: *mut u8, bytes: usize, protection: i32) -> i32;
    fn munmap(address: *mut u8, bytes: usize) -> i32;
    fn signal(number: i32, handler: usize) -> usize;
    fn alarm(seconds: u32) -> u32;
    fn write(file: i32, bytes: *const u8, count: usize) -> isize;
}

const PAGE: usize = 4096;
const CLOSED: i32 = 0;
const READ_AND_WRITE: i32 = 3;
const PRIVATE_AND_ANONYMOUS: i32 = 0x22;
/// A bus error, an access to a closed page, and the alarm.
const SIGNALS: [i32; 3] = [7, 11, ALARM];
const ALARM: i32 = 14;
/// All tests of a program together take some seconds.
const PATIENCE: u32 = 600;
/// What the open bytes beside a lent part hold.
const BESIDE: u8 = 0xC5;

/// The end of the part that has a closed page directly beside it.
#[derive(Clone, Copy, Debug, PartialEq, Eq)]
pub enum Side {
    Front,
    Back,
}

/// Some open pages between two closed ones.
pub struct Fence {
    open: *mut u8,
    room: usize,
}

impl Fence {
    pub fn new(least: usize) -> Self {
        watch_for_signals();
        let room = least.div_ceil(PAGE) * PAGE;
        let open = unsafe {
            let all = mmap(std::ptr::null_mut(), room + 2 * PAGE, CLOSED, PRIVATE_AND_ANONYMOUS, -1, 0);
            assert!(all as isize != -1, "no memory from mmap");
            let open = all.add(PAGE);
            assert_eq!(mprotect(open, room, READ_AND_WRITE), 0, "mprotect");
            open.write_bytes(BESIDE, room);
            open
        };
        Fence { open, room }
    }

    fn all(&mut self) -> &mut [u8] {
        unsafe { slice::from_raw_parts_mut(self.open, self.room) }
    }

    /// The part that is lent, and the open rest.
    fn parts(&mut self, length: usize, side: Side) -> (&mut [u8], &mut [u8]) {
        let room = self.room;
        match side {
            Side::Front => self.all().split_at_mut(length),
            Side::Back => {
                let (rest, part) = self.all().split_at_mut(room - length);
                (part, rest)
            }
        }
    }

    /// Lends a part that holds these bytes.
    pub fn fill(&mut self, bytes: &[u8], side: Side) -> &mut [u8] {
        let (part, _) = self.parts(bytes.len(), side);
        part.copy_from_slice(bytes);
        part
    }

    /// Takes the bytes out again; those beside them are as they were.
    pub fn empty(&mut self, bytes: &mut [u8], side: Side) {
        let (part, rest) = self.parts(bytes.len(), side);
        bytes.copy_from_slice(part);
        part.fill(BESIDE);
        assert!(rest.iter().all(|byte| *byte == BESIDE), "a byte beside a lent part was written");
    }
}

impl Drop for Fence {
    fn drop(&mut self) {
        unsafe {
            munmap(self.open.sub(PAGE), self.room + 2 * PAGE);
        }
    }
}

/// Fences for the five blocks, with room for the larger ones of the controller, and for a frame.
pub struct Fences {
    blocks: [Fence; 5],
    frame: Fence,
}

impl Default for Fences {
    fn default() -> Self {
        Fences::new()
    }
}

impl Fences {
    pub fn new() -> Self {
        Fences { blocks: SIZES.map(|size| Fence::new(size + 64)), frame: Fence::new(512) }
    }

    pub fn configure(&mut self, lent: &mut Lent, frame: &[u8], side: Side) -> Number {
        let caller = lent.caller;
        self.call(|frame, blocks| caller.configure(frame, blocks), lent, frame, side)
    }

    pub fn feed(&mut self, lent: &mut Lent, frame: &[u8], side: Side) -> Number {
        let caller = lent.caller;
        self.call(|frame, blocks| caller.feed(frame, blocks), lent, frame, side)
    }

    /// Lends a frame and the blocks to a function.
    pub fn call(
        &mut self,
        function: impl FnOnce(&[u8], Blocks) -> Number,
        lent: &mut Lent,
        frame: &[u8],
        side: Side,
    ) -> Number {
        let [config, tables, slots, timers, answer] = self.blocks.each_mut();
        let blocks = [
            config.fill(&lent.config, side),
            tables.fill(&lent.tables, side),
            slots.fill(&lent.slots, side),
            timers.fill(&lent.timers, side),
            answer.fill(&lent.answer, side),
        ];
        let number = function(self.frame.fill(frame, side), blocks);
        for (fence, block) in self.blocks.iter_mut().zip(lent.blocks_mut()) {
            fence.empty(block, side);
        }
        let mut kept = frame.to_vec();
        self.frame.empty(&mut kept, side);
        assert_eq!(kept, frame, "the frame was written");
        number
    }

    /// The byte directly outside the tables; there is none.
    pub fn read_outside(&mut self, side: Side) -> u8 {
        let (part, _) = self.blocks[1].parts(SIZES[1], side);
        let outside = match side {
            Side::Front => part.as_ptr().wrapping_sub(1),
            Side::Back => part.as_ptr().wrapping_add(part.len()),
        };
        unsafe { outside.read_volatile() }
    }
}

thread_local! {
    static CASE: Cell<[u64; 3]> = const { Cell::new([0; 3]) };
}

/// What is told of a call that leaves its memory: the test's own numbers.
pub fn now(case: [u64; 3]) {
    CASE.set(case);
}

/// The case of a test that dies on purpose.
pub const DYING: [u64; 3] = [1, 2, 0xBEEF];

/// A test of this program that is ignored, run as a child, dies of an access outside in that case.
pub fn dies(test: &str) {
    let this = std::env::current_exe().expect("a name");
    let child = Command::new(this).args(["--exact", test, "--ignored"]).output().expect("a child");
    assert!(!child.status.success(), "{test}");
    let said = String::from_utf8_lossy(&child.stderr).into_owned();
    assert!(said.contains("a call left its memory: case 00000001 00000002 0000BEEF"), "{test}: {said}");
}

fn watch_for_signals() {
    for number in SIGNALS {
        unsafe {
            signal(number, on_signal as extern "C" fn(i32) as usize);
        }
    }
    unsafe {
        alarm(PATIENCE);
    }
}

extern "C" fn on_signal(number: i32) {
    let mut line = *b"a call left its memory: case ........ ........ ........\n";
    for (place, value) in CASE.get().into_iter().enumerate() {
        for digit in 0..8 {
            line[29 + 9 * place + digit] = b"0123456789ABCDEF"[(value >> (28 - 4 * digit) & 15) as usize];
        }
    }
    let told: &[u8] = if number == ALARM { b"the test has not ended\n" } else { &line };
    unsafe {
        write(2, told.as_ptr(), told.len());
        signal(number, 0);
        if number == ALARM {
            std::process::abort();
        }
    }
}
