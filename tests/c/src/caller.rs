//! Who calls the executive: the ride controller or its brake module. Each has limits, block sizes and exported functions of its own.

use plain_executive::configuration::MOST_PAIRS;
use plain_executive::limits::Limits;
use plain_executive::numbers::Number;

/// Declares functions of the header that take the frame and the five blocks, each as its address and its length.
macro_rules! exported {
    ($($function:ident),*) => {
        extern "C" {
            $(fn $function(
                frame: *const u8,
                bytes: usize,
                config: *mut u8,
                config_bytes: usize,
                tables: *mut u8,
                tables_bytes: usize,
                slots: *mut u8,
                slots_bytes: usize,
                timers: *mut u8,
                timers_bytes: usize,
                answer: *mut u8,
                answer_bytes: usize,
            ) -> u8;)*
        }
    };
}

exported!(mcx11_configure_blocks, mcx11_frame_blocks, mcx11_module_configure_blocks, mcx11_module_frame_blocks);

/// Such a function.
#[rustfmt::skip]
pub type Exported = unsafe extern "C" fn(
    *const u8, usize, *mut u8, usize, *mut u8, usize, *mut u8, usize, *mut u8, usize, *mut u8, usize,
) -> u8;

/// Five blocks of bytes: config, tables, slots, timers, answer.
pub type Blocks<'a> = [&'a mut [u8]; 5];

/// Calls such a function with a frame and these blocks.
///
/// # Safety
///
/// The function keeps to the lengths.
pub unsafe fn call(function: Exported, frame: &[u8], [config, tables, slots, timers, answer]: Blocks) -> Number {
    function(
        frame.as_ptr(),
        frame.len(),
        config.as_mut_ptr(),
        config.len(),
        tables.as_mut_ptr(),
        tables.len(),
        slots.as_mut_ptr(),
        slots.len(),
        timers.as_mut_ptr(),
        timers.len(),
        answer.as_mut_ptr(),
        answer.len(),
    )
}

#[derive(Clone, Copy, Debug, PartialEq, Eq)]
pub enum Caller {
    Controller,
    Module,
}

impl Caller {
    pub const ALL: [Caller; 2] = [Caller::Controller, Caller::Module];

    pub const fn limits(self) -> Limits {
        match self {
            Caller::Controller => Limits::CONTROLLER,
            Caller::Module => Limits::MODULE,
        }
    }

    /// The least sizes of the five blocks.
    pub const fn sizes(self) -> [usize; 5] {
        match self {
            Caller::Controller => [336, 7517, 2024, 659, 21],
            Caller::Module => [178, 985, 264, 99, 21],
        }
    }

    /// The longest configuration frame that is kept.
    pub fn longest(self) -> usize {
        let Limits { tasks, queues, .. } = self.limits();
        8 + usize::from(tasks) + 2 * usize::from(queues) + 2 * MOST_PAIRS
    }

    /// The function that configures.
    pub fn configuring(self) -> Exported {
        match self {
            Caller::Controller => mcx11_configure_blocks,
            Caller::Module => mcx11_module_configure_blocks,
        }
    }

    /// The function that a frame is fed to.
    pub fn feeding(self) -> Exported {
        match self {
            Caller::Controller => mcx11_frame_blocks,
            Caller::Module => mcx11_module_frame_blocks,
        }
    }

    pub fn configure(self, frame: &[u8], blocks: Blocks) -> Number {
        unsafe { call(self.configuring(), frame, blocks) }
    }

    pub fn feed(self, frame: &[u8], blocks: Blocks) -> Number {
        unsafe { call(self.feeding(), frame, blocks) }
    }
}

/// Runs each of these functions as a test for the controller, and as one for the module.
#[macro_export]
macro_rules! for_each_caller {
    ($($test:ident),* $(,)?) => {
        mod controller {
            $(#[test]
            fn $test() {
                super::$test($crate::caller::Caller::Controller);
            })*
        }
        mod module {
            $(#[test]
            fn $test() {
                super::$test($crate::caller::Caller::Module);
            })*
        }
    };
}
