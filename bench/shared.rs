//! The two things that cores in threads share, in plain Rust, std only: the same items as scr_bench's `lane` and `log` go
//! through them, and the same checksums are printed.
//!
//! `lane channel FRAMES` sends the messages of so many frames through std's bounded channel, and `lane ring FRAMES` through
//! a ring of one sender and one receiver with two counts. `log CORES ROWS` lets cores publish the rows that they have,
//! each in a log of its own, and look at each other for those that they don't. All atomics are SeqCst, as the proved ones.

use crate::logs::{Logs, Pass};
use crate::messages::{decode, encode, Words, BEACON, BEACON_EVERY, END, FRAME};
use crate::ring::{Ring, CAPACITY};
use std::sync::mpsc;
use std::thread;

const SLOTS: u32 = 1_024;
const MOST_ROWS: u32 = 1_000_000;
const SOURCES: u32 = 50;

fn rows_of(count: u32) -> Vec<Words> {
    (0..count).map(|n| [0, u64::from(n % SOURCES), 0, 0, 3, u64::from(n), 60]).collect()
}

/// Sends the messages of a core that gets every frame.
fn send_all(rows: &[Words], mut send: impl FnMut(Vec<u8>)) {
    for (row, number) in rows.iter().zip(1..) {
        if number > 1 && (number - 1) % BEACON_EVERY == 0 {
            send(encode(BEACON, number - 1, &[]));
        }
        send(encode(FRAME, number, std::slice::from_ref(row)));
    }
    send(encode(END, rows.len() as u32, &[]));
}

/// A checksum of the messages up to the end.
fn receive_all(mut receive: impl FnMut() -> Vec<u8>) -> u64 {
    let mut sum = 0u64;
    loop {
        let message = receive();
        let Some(view) = decode(&message) else { return sum };
        sum = sum.wrapping_mul(31).wrapping_add(u64::from(view.count) << 32 | u64::from(view.number));
        if view.kind == END {
            return sum;
        }
    }
}

fn through_ring(rows: &[Words]) -> u64 {
    let ring = Ring::new();
    let (mut sender, mut receiver) = ring.ends();
    thread::scope(|scope| {
        scope.spawn(move || send_all(rows, |item| sender.send(item)));
        receive_all(|| receiver.receive())
    })
}

fn through_channel(rows: &[Words]) -> u64 {
    let (sender, receiver) = mpsc::sync_channel(CAPACITY);
    thread::scope(|scope| {
        scope.spawn(move || {
            send_all(rows, |item| {
                let _ = sender.send(item);
            })
        });
        receive_all(|| receiver.recv().unwrap_or_default())
    })
}

/// A core goes through all packets, and tells a checksum of the rows that it found in the logs of others.
fn go_through(logs: &Logs, own: u32, cores: u32, rows: &[Words]) -> u64 {
    let (mut sum, mut pass) = (0u64, Pass::new(logs, own));
    for (row, p) in rows.iter().zip(1..) {
        let entry = ((p - 1) % cores == own).then_some(row);
        pass.publish(p, entry);
        if entry.is_none() {
            let found = pass.found(p).map_or(0, |row| row[5].wrapping_mul(31).wrapping_add(row[1]));
            sum = sum.wrapping_add(found);
        }
        pass.finish(p);
    }
    sum
}

fn through_logs(cores: u32, rows: &[Words]) -> u64 {
    let logs = &Logs::new(cores, SLOTS);
    thread::scope(|scope| {
        let others: Vec<_> = (1..cores).map(|core| scope.spawn(move || go_through(logs, core, cores, rows))).collect();
        let own = go_through(logs, 0, cores, rows);
        others.into_iter().fold(own, |sum, other| sum.wrapping_add(other.join().unwrap_or(0)))
    })
}

/// The checksum that these words ask for, or none where they are other words.
pub fn checksum_of(words: &[String]) -> Option<u64> {
    let [measure, kind, count] = words else { return None };
    let count = count.parse().ok().filter(|it| *it <= MOST_ROWS)?;
    match (measure.as_str(), kind.as_str()) {
        ("lane", "ring") => Some(through_ring(&rows_of(count))),
        ("lane", "channel") => Some(through_channel(&rows_of(count))),
        ("log", "2") => Some(through_logs(2, &rows_of(count))),
        ("log", "4") => Some(through_logs(4, &rows_of(count))),
        _ => None,
    }
}
