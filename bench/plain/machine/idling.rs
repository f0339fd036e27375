//! How long processors idle beside a waiting task.

use super::{wrong, Judged, Machine};
use crate::faults::Kind;
use crate::queue::NONE;
use crate::settings::{Needs, Place as At};

impl Machine {
    /// Whether a processor idles beside a waiting task after an event at this time.
    #[inline(always)]
    pub(super) fn note_idling(&mut self, cpu: usize, time: u64) {
        let processor = &mut self.processors[cpu];
        if processor.running != NONE || processor.waiting == 0 {
            self.end_idling(cpu, time);
        } else if self.idle >> cpu & 1 == 0 {
            self.idle |= 1 << cpu;
            processor.since = time;
            self.deadline = self.deadline.min(time + self.settings.slack);
        }
    }

    /// A processor doesn't idle beside a waiting task any longer, if it did.
    #[inline(always)]
    pub(super) fn end_idling(&mut self, cpu: usize, time: u64) {
        if self.idle >> cpu & 1 != 0 {
            self.idle &= !(1 << cpu);
            self.note_slack(cpu, time - self.processors[cpu].since);
        }
    }

    /// A processor has idled for so long up to now: as long as this it had first at the first line of this time.  Where
    /// another did so too on that line, it is the lower one's.
    fn note_slack(&mut self, cpu: usize, figure: u64) {
        let (time, line) = self.now;
        let need = &mut self.needs.slack;
        need.raise(figure, At { line, time, cpu: cpu as u32, pid: 0, over: None });
        if need.figure == figure && need.place.line == line {
            need.place.cpu = need.place.cpu.min(cpu as u32);
        }
    }

    /// What the events needed, the last of them at this time, behind which nobody idles any longer.
    pub fn needs_until(mut self, time: u64) -> Needs {
        for cpu in 0..self.processors.len() {
            self.end_idling(cpu, time);
        }
        self.needs
    }

    /// The lowest processor that at this time has idled for too long.
    #[cold]
    pub(super) fn judge_idling(&mut self, time: u64) -> Judged {
        self.deadline = u64::MAX;
        let mut idle = self.idle;
        while idle != 0 {
            let cpu = idle.trailing_zeros() as usize;
            let deadline = self.processors[cpu].since + self.settings.slack;
            if time > deadline {
                return wrong(cpu, 0, Kind::IdleTooLong);
            }
            self.deadline = self.deadline.min(deadline);
            idle &= idle - 1;
        }
        Ok(())
    }
}
