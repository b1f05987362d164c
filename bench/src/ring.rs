//! A ring of slots that transfers numbers from one thread to another without a lock. Each end keeps its own count and
//! the last one that it read of the other's.
//!
//! Its steps acquire and release, where those of a proved lane are sequentially consistent, as all atomic steps of the toolchain
//! are. So a lane is slower with single numbers; runs of eight and more share that cost, and with them it is level or ahead.

use std::cell::UnsafeCell;
use std::sync::atomic::{AtomicUsize, Ordering};

/// A count on cache lines of its own, since each of the two threads writes one.
#[repr(align(128))]
struct Count(AtomicUsize);

/// A ring, with the counts of all numbers that were sent and received.
pub struct Ring {
    slots: Box<[UnsafeCell<u16>]>,
    sent: Count,
    received: Count,
}

// A slot is written by the sender alone before it is counted as sent, and read by the receiver alone until
// it is counted as received.
unsafe impl Sync for Ring {}

/// The end that sends.
pub struct Sender<'a> {
    ring: &'a Ring,
    sent: usize,
    received: usize,
}

/// The end that receives.
pub struct Receiver<'a> {
    ring: &'a Ring,
    received: usize,
    sent: usize,
}

impl Ring {
    /// Returns a ring of so many slots, a power of two.
    pub fn new(slots: usize) -> Ring {
        assert!(slots.is_power_of_two());
        Ring {
            slots: (0..slots).map(|_| UnsafeCell::new(0)).collect(),
            sent: Count(AtomicUsize::new(0)),
            received: Count(AtomicUsize::new(0)),
        }
    }

    /// Returns both ends of a new ring.
    pub fn ends(&mut self) -> (Sender<'_>, Receiver<'_>) {
        let ring = &*self;
        let sender = Sender {
            ring,
            sent: 0,
            received: 0,
        };
        let receiver = Receiver {
            ring,
            received: 0,
            sent: 0,
        };
        (sender, receiver)
    }

    fn slot(&self, place: usize) -> *mut u16 {
        self.slots[place & (self.slots.len() - 1)].get()
    }

    /// Returns how many of `count` slots, from `place` on, lie before the end of the ring.
    fn before_end(&self, place: usize, count: usize) -> usize {
        count.min(self.slots.len() - (place & (self.slots.len() - 1)))
    }
}

impl Sender<'_> {
    /// Returns whether so many slots are free. Reads the other end's count only where the last one shows fewer.
    #[inline]
    fn has_free(&mut self, count: usize) -> bool {
        let slots = self.ring.slots.len();
        if slots - (self.sent - self.received) < count {
            self.received = self.ring.received.0.load(Ordering::Acquire);
        }
        slots - (self.sent - self.received) >= count
    }

    #[inline]
    fn count_sent(&mut self, count: usize) {
        self.sent += count;
        self.ring.sent.0.store(self.sent, Ordering::Release);
    }

    /// Sends a number, or returns it if no slot is free.
    #[inline]
    pub fn try_send(&mut self, number: u16) -> Result<(), u16> {
        if !self.has_free(1) {
            return Err(number);
        }
        unsafe { self.ring.slot(self.sent).write(number) };
        self.count_sent(1);
        Ok(())
    }

    /// Sends all numbers, or none if too few slots are free, and returns whether it sent them.
    #[inline]
    pub fn send_run(&mut self, numbers: &[u16]) -> bool {
        if !self.has_free(numbers.len()) {
            return false;
        }
        let (front, back) = numbers.split_at(self.ring.before_end(self.sent, numbers.len()));
        unsafe {
            self.ring
                .slot(self.sent)
                .copy_from_nonoverlapping(front.as_ptr(), front.len());
            self.ring
                .slot(0)
                .copy_from_nonoverlapping(back.as_ptr(), back.len());
        }
        self.count_sent(numbers.len());
        true
    }
}

impl Receiver<'_> {
    /// Returns how many numbers are there, up to `wanted`. Reads the other end's count only where the last one shows fewer.
    #[inline]
    fn there(&mut self, wanted: usize) -> usize {
        if self.sent - self.received < wanted {
            self.sent = self.ring.sent.0.load(Ordering::Acquire);
        }
        wanted.min(self.sent - self.received)
    }

    #[inline]
    fn count_received(&mut self, count: usize) {
        self.received += count;
        self.ring.received.0.store(self.received, Ordering::Release);
    }

    /// Receives the next number, if one is there.
    #[inline]
    pub fn try_recv(&mut self) -> Option<u16> {
        if self.there(1) == 0 {
            return None;
        }
        let number = unsafe { self.ring.slot(self.received).read() };
        self.count_received(1);
        Some(number)
    }

    /// Receives the numbers that are there into the front of `room`, and returns how many they are.
    #[inline]
    pub fn recv_run(&mut self, room: &mut [u16]) -> usize {
        let count = self.there(room.len());
        let (front, back) = room[..count].split_at_mut(self.ring.before_end(self.received, count));
        unsafe {
            self.ring
                .slot(self.received)
                .copy_to_nonoverlapping(front.as_mut_ptr(), front.len());
            self.ring
                .slot(0)
                .copy_to_nonoverlapping(back.as_mut_ptr(), back.len());
        }
        if count > 0 {
            self.count_received(count);
        }
        count
    }
}
