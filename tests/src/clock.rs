//! The tick count within the present tock, and the tocks since the start.

#[derive(Clone, Debug)]
pub struct Clock {
    ticks: u8,
    ticks_per_tock: u8,
    tocks: u64,
}

impl Clock {
    pub fn fresh(ticks_per_tock: u8) -> Self {
        Clock { ticks: 0, ticks_per_tock, tocks: 0 }
    }

    /// With so many ticks gone in the present tock, the first one.
    pub fn restored(ticks_per_tock: u8, ticks: u8) -> Self {
        Clock { ticks, ticks_per_tock, tocks: 0 }
    }

    /// Counts one tick; tells whether a tock passed.
    pub fn tick(&mut self) -> bool {
        self.ticks += 1;
        let passed = self.ticks == self.ticks_per_tock;
        if passed {
            self.ticks = 0;
            self.tocks += 1;
        }
        passed
    }

    pub fn ticks(&self) -> u8 {
        self.ticks
    }

    pub fn tocks(&self) -> u64 {
        self.tocks
    }
}
