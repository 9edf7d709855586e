//! What a thread does between two tries: it spins, longer each time, and then gives up the processor.

use std::hint::spin_loop;
use std::thread::yield_now;

const SPINS: u32 = 6;

pub struct Pause(u32);

impl Pause {
    pub fn new() -> Pause {
        Pause(0)
    }

    pub fn snooze(&mut self) {
        if self.0 > SPINS {
            return yield_now();
        }
        (0..1 << self.0).for_each(|_| spin_loop());
        self.0 += 1;
    }
}
