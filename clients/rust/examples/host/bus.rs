//! The simulated bus: what is sent arrives in order, what is answered comes late or in another order,
//! and some of both is lost. Times are microseconds.
use crate::random::Random;
use std::cmp::Reverse;
use std::collections::BinaryHeap;

/// An extended frame of eight bytes.
#[derive(Clone, Copy, Debug, PartialEq, Eq, PartialOrd, Ord)]
pub struct Frame {
    pub id: u32,
    pub data: [u8; 8],
}

/// What falls due.
#[derive(Clone, Copy, Debug, PartialEq, Eq, PartialOrd, Ord)]
pub enum Delivery {
    ToMotor(Frame),
    ToHost(Frame),
    /// The motor at this place may report.
    Report(usize),
}

const ON_THE_WIRE: u64 = 200;
const LOST_ONCE_IN: u64 = 30;
const LATE_ONCE_IN: u64 = 6;

pub struct Bus {
    random: Random,
    /// By time, and among equals by number.
    queue: BinaryHeap<Reverse<(u64, u64, Delivery)>>,
    numbered: u64,
    newest: u64,
    pub sent: u64,
    pub heard: u64,
    pub lost: u64,
    pub reordered: u64,
}

impl Bus {
    pub fn new(seed: u64) -> Bus {
        Bus {
            random: Random::new(seed),
            queue: BinaryHeap::new(),
            numbered: 0,
            newest: 0,
            sent: 0,
            heard: 0,
            lost: 0,
            reordered: 0,
        }
    }

    /// The host sends a frame.
    pub fn send(&mut self, now: u64, frame: Frame) {
        self.sent += 1;
        match self.random.once_in(LOST_ONCE_IN) {
            true => self.lost += 1,
            false => self.put(now + ON_THE_WIRE, Delivery::ToMotor(frame)),
        }
    }

    /// A motor answers with a frame.
    pub fn answer(&mut self, now: u64, frame: Frame) {
        if self.random.once_in(LOST_ONCE_IN) {
            self.lost += 1;
            return;
        }
        let late = match self.random.once_in(LATE_ONCE_IN) {
            true => self.random.within(20_000, 60_000),
            false => 0,
        };
        let delay = ON_THE_WIRE + self.random.within(500, 6_000) + late;
        self.put(now + delay, Delivery::ToHost(frame));
    }

    pub fn put(&mut self, at: u64, delivery: Delivery) {
        self.numbered += 1;
        self.queue.push(Reverse((at, self.numbered, delivery)));
    }

    /// The next that is due.
    pub fn due(&mut self, now: u64) -> Option<Delivery> {
        let Reverse((at, _, _)) = self.queue.peek()?;
        if *at > now {
            return None;
        }
        let Reverse((_, number, delivery)) = self.queue.pop()?;
        if let Delivery::ToHost(_) = delivery {
            self.heard += 1;
            self.reordered += u64::from(number < self.newest);
            self.newest = self.newest.max(number);
        }
        Some(delivery)
    }
}
