//! The device's clock: whole seconds since its start, never going back.

use std::time::Instant;

pub struct Clock {
    start: Instant,
    /// So many of its seconds pass in one; more than 1 is for trying things out.
    speed: u64,
}

impl Clock {
    pub fn start(speed: u64) -> Clock {
        Clock { start: Instant::now(), speed }
    }

    pub fn now(&self) -> u64 {
        let passed = self.start.elapsed().as_millis() as u64;
        passed * self.speed / 1_000
    }
}
