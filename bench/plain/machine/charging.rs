//! What every event begins with: the charge, the lift, and the change of a nice value.

use super::{wrong, Judged, Machine};
use crate::claims::Claim;
use crate::faults::Kind;
use crate::limits::{MOST_VIRTUAL, USUAL_WEIGHT};
use crate::queue::{NOBODY, NONE};
use crate::settings::Place as At;

/// What so many nanoseconds cost at a weight, in virtual nanoseconds; `u64::MAX` where that is above 64 bits.
#[inline(always)]
fn cost(nanoseconds: u64, weight: u32) -> u64 {
    if weight == USUAL_WEIGHT {
        return nanoseconds;
    }
    if nanoseconds < 1 << 54 {
        return nanoseconds * 1024 / weight as u64;
    }
    u64::try_from(nanoseconds as u128 * 1024 / weight as u128).unwrap_or(u64::MAX)
}

impl Machine {
    /// A processor as the event finds it: charged, by the charge that the companion tells on its line, and with the
    /// nice value changed that it changes there.
    #[inline(always)]
    pub(super) fn find(&mut self, cpu: usize, time: u64) -> Judged {
        let told = self.told.take();
        self.charge(cpu, time, told)?;
        if self.change.is_none() {
            return Ok(());
        }
        self.renice(cpu)
    }

    /// The charge of the running task up to a time, the told one in its place, and the lift of the floor.
    #[inline(always)]
    pub(super) fn charge(&mut self, cpu: usize, time: u64, told: Option<Claim>) -> Judged {
        let line = self.line;
        let processor = &mut self.processors[cpu];
        let nanoseconds = time - processor.mark;
        processor.mark = time;
        let mut least = processor.least();
        if let Some(task) = self.tasks.get_mut(processor.running as usize) {
            let cost = cost(nanoseconds, task.weight());
            if cost > MOST_VIRTUAL as u64 || cost > MOST_VIRTUAL.wrapping_sub(task.v) as u64 {
                return wrong(cpu, task.pid, Kind::Range);
            }
            let before = task.v;
            task.v += cost as i64;
            task.ran += nanoseconds;
            if let Some(told) = told {
                match task.drift_by(told, before).filter(|drift| drift.unsigned_abs() <= self.settings.drift) {
                    Some(drift) => (task.v, task.drift) = (told.v, drift),
                    None => return wrong(cpu, told.pid, Kind::WrongCharge),
                }
                let place = At { line, time, cpu: cpu as u32, pid: task.pid, over: None };
                self.needs.drift.raise(task.drift.unsigned_abs(), place);
            }
            // In 64 bits without a sign, since it is up to 2^63.
            task.charged += task.v.wrapping_sub(before) as u64 as u128;
            least = least.min(task.v);
        } else if let Some(told) = told {
            return wrong(cpu, told.pid, Kind::WrongCharge);
        }
        if least != NOBODY {
            processor.floor = processor.floor.max(least);
        }
        Ok(())
    }

    #[cold]
    #[inline(never)]
    fn renice(&mut self, cpu: usize) -> Judged {
        let Some(change) = self.change.take() else { return Ok(()) };
        let slot = self.here(change.pid, cpu);
        if slot == NONE {
            return wrong(cpu, change.pid, Kind::Strange);
        }
        self.tasks[slot as usize].prio = change.v as u8;
        Ok(())
    }
}
