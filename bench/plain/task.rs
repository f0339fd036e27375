//! A task and its tally.

use crate::claims::{Claim, Place};
use crate::limits::{FIRST_PRIO, IDLE_POLICY_WEIGHT, WEIGHTS};

/// A task that was ever named, and its tally.
pub struct Task {
    pub v: i64,
    /// Nanoseconds that it was charged for: each pid runs at one processor at a time, so 64 bits serve.
    pub ran: u64,
    /// Virtual nanoseconds that it was charged, over all its lives.
    pub charged: u128,
    /// What it was told to be charged less what it costs exactly, added up since it came to its processor.
    pub drift: i64,
    pub picks: u32,
    pub pid: u32,
    /// How often it was put into a queue; an entry of a heap with another number is dead.
    pub stamp: u32,
    pub cpu: u8,
    pub prio: u8,
    pub idle_policy: bool,
    pub place: Place,
}

impl Task {
    #[inline(always)]
    pub fn weight(&self) -> u32 {
        if self.idle_policy {
            return IDLE_POLICY_WEIGHT;
        }
        WEIGHTS[self.prio as usize - FIRST_PRIO as usize]
    }

    /// The drift that the task comes to by a told charge, where it was charged exactly already and stood at `before`;
    /// None where the charge is another task's, where it would take virtual runtime away, or where 64 bits don't hold
    /// the drift.
    pub fn drift_by(&self, told: Claim, before: i64) -> Option<i64> {
        if told.pid != self.pid || told.v < before {
            return None;
        }
        self.drift.checked_add(told.v.checked_sub(self.v)?)
    }
}
