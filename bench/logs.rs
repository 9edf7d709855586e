//! The logs of some cores, of reused slots. All atomics are SeqCst, at the same places of the words as the proved ones.

use crate::messages::Words;
use crate::pause::Pause;
use std::sync::atomic::{AtomicU64, Ordering::SeqCst};

const SLOT: u32 = 8;

/// Each core has slots of a tag and the seven words of a row, and then its finished number.
pub struct Logs {
    words: Vec<AtomicU64>,
    cores: u32,
    slots: u32,
}

enum Look {
    Row(Words),
    Lost,
    NotYet,
}

impl Logs {
    pub fn new(cores: u32, slots: u32) -> Logs {
        let words = (0..cores * (SLOT * slots + 1)).map(|_| AtomicU64::new(0)).collect();
        Logs { words, cores, slots }
    }

    fn slot(&self, core: u32, p: u32) -> &[AtomicU64] {
        let at = (core * (SLOT * self.slots + 1) + SLOT * ((p - 1) % self.slots)) as usize;
        &self.words[at..at + SLOT as usize]
    }

    fn finished(&self, core: u32) -> &AtomicU64 {
        &self.words[(core * (SLOT * self.slots + 1) + SLOT * self.slots) as usize]
    }

    fn publish(&self, core: u32, p: u32, entry: Option<&Words>) {
        let slot = self.slot(core, p);
        if let Some(row) = entry {
            for (place, word) in slot[1..].iter().zip(row) {
                place.store(*word, SeqCst);
            }
        }
        slot[0].store(4 * u64::from(p) + if entry.is_some() { 1 } else { 2 }, SeqCst);
    }

    fn look(&self, core: u32, p: u32) -> Look {
        let slot = self.slot(core, p);
        match slot[0].load(SeqCst).checked_sub(4 * u64::from(p)) {
            Some(1) => Look::Row(std::array::from_fn(|i| slot[1 + i].load(SeqCst))),
            Some(2) => Look::Lost,
            _ => Look::NotYet,
        }
    }

    /// What all others have finished at least.
    fn known(&self, own: u32) -> u64 {
        (0..self.cores).filter(|core| *core != own).map(|core| self.finished(core).load(SeqCst)).min().unwrap_or(u64::MAX)
    }
}

/// A core's way through the packets.
pub struct Pass<'a> {
    logs: &'a Logs,
    core: u32,
    known: u64,
}

impl<'a> Pass<'a> {
    pub fn new(logs: &'a Logs, core: u32) -> Pass<'a> {
        Pass { logs, core, known: 0 }
    }

    /// Publishes what the core knows of packet p, once its slot is free.
    #[inline]
    pub fn publish(&mut self, p: u32, entry: Option<&Words>) {
        let needed = u64::from(p.saturating_sub(self.logs.slots));
        let mut pause = Pause::new();
        while self.known < needed {
            self.known = self.logs.known(self.core);
            if self.known < needed {
                pause.snooze();
            }
        }
        self.logs.publish(self.core, p, entry);
    }

    /// The row of packet p that another core knows. The core whose turn it was is asked first.
    pub fn found(&self, p: u32) -> Option<Words> {
        let cores = self.logs.cores;
        for core in (p - 1..p - 1 + cores).map(|turn| turn % cores).filter(|core| *core != self.core) {
            let mut pause = Pause::new();
            loop {
                match self.logs.look(core, p) {
                    Look::Row(row) => return Some(row),
                    Look::Lost => break,
                    Look::NotYet => pause.snooze(),
                }
            }
        }
        None
    }

    #[inline]
    pub fn finish(&self, p: u32) {
        self.logs.finished(self.core).store(u64::from(p), SeqCst);
    }
}
