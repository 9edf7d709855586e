//! A ring of one sender and one receiver, with two counts. All atomics are SeqCst, as the proved ones.

use crate::pause::Pause;
use std::cell::UnsafeCell;
use std::sync::atomic::{AtomicU64, Ordering::SeqCst};

pub const CAPACITY: usize = 1_024;

/// A count, alone in two cache lines.
#[repr(align(128))]
struct Count(AtomicU64);

/// A ring of one sender and one receiver.
pub struct Ring {
    slots: Vec<UnsafeCell<Option<Vec<u8>>>>,
    sent: Count,
    taken: Count,
}

// SAFETY: a slot is the receiver's from the store of `sent` on that counts it, and the sender's from that of `taken` on.
unsafe impl Sync for Ring {}

impl Ring {
    pub fn new() -> Ring {
        let slots = (0..CAPACITY).map(|_| UnsafeCell::new(None)).collect();
        Ring { slots, sent: Count(AtomicU64::new(0)), taken: Count(AtomicU64::new(0)) }
    }

    pub fn ends(&self) -> (RingSender<'_>, RingReceiver<'_>) {
        (RingSender { ring: self, sent: 0, taken: 0 }, RingReceiver { ring: self, taken: 0, sent: 0 })
    }

    fn slot(&self, number: u64) -> *mut Option<Vec<u8>> {
        self.slots[number as usize % CAPACITY].get()
    }
}

/// One end, with its own count and what it saw of the other's last.
pub struct RingSender<'a> {
    ring: &'a Ring,
    sent: u64,
    taken: u64,
}

impl RingSender<'_> {
    pub fn send(&mut self, item: Vec<u8>) {
        let mut pause = Pause::new();
        while self.sent - self.taken >= CAPACITY as u64 {
            self.taken = self.ring.taken.0.load(SeqCst);
            if self.sent - self.taken >= CAPACITY as u64 {
                pause.snooze();
            }
        }
        // SAFETY: the slot is free, and only this end fills slots.
        unsafe { *self.ring.slot(self.sent) = Some(item) };
        self.sent += 1;
        self.ring.sent.0.store(self.sent, SeqCst);
    }
}

pub struct RingReceiver<'a> {
    ring: &'a Ring,
    taken: u64,
    sent: u64,
}

impl RingReceiver<'_> {
    pub fn receive(&mut self) -> Vec<u8> {
        let mut pause = Pause::new();
        while self.taken >= self.sent {
            self.sent = self.ring.sent.0.load(SeqCst);
            if self.taken >= self.sent {
                pause.snooze();
            }
        }
        // SAFETY: the slot was filled, and only this end empties slots.
        let item = unsafe { (*self.ring.slot(self.taken)).take() };
        self.taken += 1;
        self.ring.taken.0.store(self.taken, SeqCst);
        item.unwrap_or_default()
    }
}
