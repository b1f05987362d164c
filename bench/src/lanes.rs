//! The speed of a ring between two threads in plain Rust.

use crate::report::Report;
use crate::ring::{Receiver, Ring, Sender};
use crate::synthetic::{mixed, residuals};
use std::hint::black_box;
use std::thread;
use std::time::Instant;

/// The number of slots of a ring.
const SLOTS: usize = 1024;

/// The most numbers of a run.
const LONGEST: usize = 64;

/// How often each end may find no free slot, or no number, before it gives up.
const MOST_REFUSED: u32 = 10_000_000;

/// Measures the transfer of numbers, singly and in runs.
pub fn measure(report: &Report) {
    let count = if report.timed { 1_000_000 } else { 5_000 };
    let numbers = residuals(count);
    for (name, run) in [
        ("lane_singly", 1),
        ("lane_runs_8", 8),
        ("lane_runs_64", 64),
    ] {
        let start = Instant::now();
        let sum = through(&numbers, black_box(run));
        report.line(name, count, start, || sum);
    }
}

/// Sends numbers through a ring in runs of so many, and returns the checksum of those that are received.
fn through(numbers: &[u16], run: usize) -> u64 {
    let mut ring = Ring::new(SLOTS);
    let (sender, receiver) = ring.ends();
    thread::scope(|scope| {
        scope.spawn(move || {
            if run == 1 {
                send_singly(sender, numbers);
            } else {
                send_in_runs(sender, numbers, run);
            }
        });
        if run == 1 {
            receive_singly(receiver, numbers.len())
        } else {
            receive_in_runs(receiver, numbers.len(), run)
        }
    })
}

fn send_singly(mut sender: Sender, numbers: &[u16]) {
    let mut sent = 0;
    let mut refused = 0;
    while sent < numbers.len() && refused < MOST_REFUSED {
        if sender.try_send(numbers[sent]).is_ok() {
            sent += 1;
        } else {
            refused += 1;
            thread::yield_now();
        }
    }
}

fn send_in_runs(mut sender: Sender, numbers: &[u16], run: usize) {
    let mut sent = 0;
    let mut refused = 0;
    while sent < numbers.len() && refused < MOST_REFUSED {
        let count = run.min(numbers.len() - sent);
        if sender.send_run(&numbers[sent..sent + count]) {
            sent += count;
        } else {
            refused += 1;
            thread::yield_now();
        }
    }
}

fn receive_singly(mut receiver: Receiver, count: usize) -> u64 {
    let mut sum = 0;
    let mut received = 0;
    let mut refused = 0;
    while received < count && refused < MOST_REFUSED {
        if let Some(number) = receiver.try_recv() {
            sum = mixed(sum, u64::from(number));
            received += 1;
        } else {
            refused += 1;
            thread::yield_now();
        }
    }
    sum
}

fn receive_in_runs(mut receiver: Receiver, count: usize, run: usize) -> u64 {
    let mut room = [0; LONGEST];
    let mut sum = 0;
    let mut left = count;
    let mut refused = 0;
    while left > 0 && refused < MOST_REFUSED {
        let taken = receiver.recv_run(&mut room[..run]);
        for number in &room[..taken] {
            sum = mixed(sum, u64::from(*number));
        }
        left = left.saturating_sub(taken);
        if taken == 0 {
            refused += 1;
            thread::yield_now();
        }
    }
    sum
}
