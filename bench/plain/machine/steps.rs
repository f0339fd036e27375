//! The steps of the events: each is judged by its tests in their order, and made.

use super::{wrong, Judged, Machine};
use crate::claims::{Claim, Place, Sort};
use crate::event::{Act, Event, Way};
use crate::faults::{Fault, Kind};
use crate::queue::{Waiting, NOBODY, NONE};
use crate::settings::Place as At;

impl Machine {
    /// One event with what the companion says on its line, judged by the tests in their order and made.
    #[inline(always)]
    pub fn step(&mut self, event: Event, claim: Option<Claim>) -> Judged {
        let time = event.time;
        if time > self.now.0 {
            self.now = (time, self.line);
        }
        if time > self.deadline {
            self.judge_idling(time)?;
        }
        self.counts.events += 1;
        match event.act {
            Act::Switch { cpu, prev, prev_prio, way, next, next_prio } => {
                self.switch(time, cpu as usize, (prev, prev_prio), way, (next, next_prio), claim)
            }
            Act::Wake { cpu, pid, prio } => self.wake(time, cpu as usize, pid, prio, claim),
            Act::Born { cpu, pid, prio } => self.bear(time, cpu as usize, pid, prio, claim),
            Act::Shift { orig, dest, pid, prio } => {
                self.migrate(time, orig as usize, dest as usize, pid, prio, claim)
            }
        }
    }

    #[inline(always)]
    fn switch(
        &mut self,
        time: u64,
        cpu: usize,
        (prev, prev_prio): (u32, u32),
        way: Way,
        (next, next_prio): (u32, u32),
        claim: Option<Claim>,
    ) -> Judged {
        self.find(cpu, time)?;
        if prev == next {
            return wrong(cpu, prev, Kind::SelfSwitch);
        }
        let running = self.processors[cpu].running;
        match self.tasks.get(running as usize) {
            Some(task) if task.pid != prev => return wrong(cpu, prev, Kind::PrevNotRunning),
            Some(task) if task.prio as u32 != prev_prio => return wrong(cpu, prev, Kind::WrongPrio),
            None if prev != 0 => return wrong(cpu, prev, Kind::PrevNotRunning),
            _ => {}
        }
        let chosen = if next == 0 { NONE } else { self.here(next, cpu) };
        if chosen != NONE && self.tasks[chosen as usize].prio as u32 != next_prio {
            return wrong(cpu, next, Kind::WrongPrio);
        }
        let put_back = self.put_back(cpu, prev, way, claim)?;
        if next == 0 {
            self.judge_going_idle(cpu, put_back)?;
            self.leave(running, way);
        } else {
            let least = self.processors[cpu].least().min(put_back);
            let lead = self.lead(cpu, (next, chosen), least)?;
            if lead > self.needs.granularity.figure {
                let over = self.first_waiting(cpu, least, (put_back == least).then_some(prev));
                let at = At { over, ..self.at(time, cpu, next) };
                self.needs.granularity.raise(lead, at);
            }
            self.pick(chosen);
            if put_back == NOBODY {
                self.leave(running, way);
                self.dequeue(chosen, cpu);
            } else {
                self.exchange(cpu, running, chosen, put_back);
            }
        }
        self.processors[cpu].running = chosen;
        self.end_idling(cpu, time);
        self.counts.switches += 1;
        self.counts.deaths += (prev != 0 && way == Way::Ends) as u64;
        Ok(())
    }

    /// The virtual runtime at which the previous task of a switch goes on waiting; `NOBODY` where it doesn't.
    #[inline(always)]
    fn put_back(&self, cpu: usize, prev: u32, way: Way, claim: Option<Claim>) -> Result<i64, Fault> {
        if prev == 0 || way != Way::Stays {
            return claim.map_or(Ok(NOBODY), |claim| wrong(cpu, claim.pid, Kind::ClaimExtra));
        }
        let Some(Claim { pid, v, sort: Sort::At, .. }) = claim else {
            return wrong(cpu, prev, Kind::ClaimMissing);
        };
        if pid != prev {
            return wrong(cpu, pid, Kind::ClaimPid);
        }
        if v != self.tasks[self.processors[cpu].running as usize].v {
            return wrong(cpu, prev, Kind::WrongPutBack);
        }
        Ok(v)
    }

    #[inline(always)]
    fn judge_going_idle(&self, cpu: usize, put_back: i64) -> Judged {
        if put_back != NOBODY || self.processors[cpu].waiting > 0 {
            return wrong(cpu, 0, Kind::IdleBesideWaiting);
        }
        Ok(())
    }

    /// How far the next task of a switch is above the least of those who wait.
    #[inline(always)]
    fn lead(&self, cpu: usize, (next, chosen): (u32, u32), least: i64) -> Result<u64, Fault> {
        match self.tasks.get(chosen as usize) {
            Some(task) if task.place == Place::Wait => {
                if task.v > least + self.settings.granularity as i64 {
                    return wrong(cpu, next, Kind::NotLeast);
                }
                Ok((task.v - least) as u64)
            }
            _ => wrong(cpu, next, Kind::NextNotWaiting),
        }
    }

    /// The chosen task runs; its entry in the heap stays for now.
    #[inline(always)]
    fn pick(&mut self, chosen: u32) {
        let task = &mut self.tasks[chosen as usize];
        task.place = Place::Run;
        task.picks += 1;
    }

    /// The one who ran waits in the place of the one who was chosen.
    #[inline(always)]
    fn exchange(&mut self, cpu: usize, running: u32, chosen: u32, put_back: i64) {
        let processor = &mut self.processors[cpu];
        if processor.heap[0].slot == chosen {
            let task = &mut self.tasks[running as usize];
            task.place = Place::Wait;
            task.stamp = task.stamp.wrapping_add(1);
            processor.sink(0, Waiting { v: put_back, slot: running, stamp: task.stamp });
            self.settle(cpu);
        } else {
            processor.waiting -= 1;
            self.enqueue(running, cpu, put_back);
        }
    }

    /// The running task, if any, sleeps or ends.
    #[inline(always)]
    fn leave(&mut self, running: u32, way: Way) {
        if let Some(task) = self.tasks.get_mut(running as usize) {
            task.place = if way == Way::Ends { Place::Gone } else { Place::Rest };
        }
    }

    #[inline(always)]
    fn wake(&mut self, time: u64, cpu: usize, pid: u32, prio: u32, claim: Option<Claim>) -> Judged {
        self.find(cpu, time)?;
        let slot = self.here(pid, cpu);
        if slot == NONE {
            return wrong(cpu, pid, Kind::Strange);
        }
        let task = &self.tasks[slot as usize];
        if task.prio as u32 != prio {
            return wrong(cpu, pid, Kind::WrongPrio);
        }
        if task.place != Place::Rest {
            return match claim {
                Some(claim) => wrong(cpu, claim.pid, Kind::ClaimExtra),
                None => Ok(()),
            };
        }
        let claim = self.needed(claim, cpu, pid)?;
        let floor = self.processors[cpu].floor;
        let least = task.v.max(floor - self.settings.credit as i64);
        if claim.v < least || claim.v > task.v.max(floor) {
            return wrong(cpu, pid, Kind::WakeBounds);
        }
        let at = self.at(time, cpu, pid);
        self.needs.credit.raise((floor - claim.v).max(0) as u64, at);
        self.enqueue(slot, cpu, claim.v);
        self.note_idling(cpu, time);
        Ok(())
    }

    /// The claim `at` for a task that is put into a queue.
    #[inline(always)]
    fn needed(&self, claim: Option<Claim>, cpu: usize, pid: u32) -> Result<Claim, Fault> {
        match claim {
            Some(claim) if claim.sort == Sort::At && claim.pid == pid => Ok(claim),
            Some(claim) if claim.sort == Sort::At => wrong(cpu, claim.pid, Kind::ClaimPid),
            _ => wrong(cpu, pid, Kind::ClaimMissing),
        }
    }

    #[inline(always)]
    fn bear(&mut self, time: u64, cpu: usize, pid: u32, prio: u32, claim: Option<Claim>) -> Judged {
        self.find(cpu, time)?;
        if self.here(pid, cpu) != NONE {
            return wrong(cpu, pid, Kind::Already);
        }
        let claim = self.needed(claim, cpu, pid)?;
        let floor = self.processors[cpu].floor;
        if claim.v < floor || claim.v > floor + self.settings.debit as i64 {
            return wrong(cpu, pid, Kind::ForkBounds);
        }
        let at = self.at(time, cpu, pid);
        self.needs.debit.raise((claim.v - floor) as u64, at);
        let mut slot = self.slots[pid as usize].wrapping_sub(1);
        match self.tasks.get_mut(slot as usize) {
            Some(task) if task.place != Place::Gone => return wrong(cpu, pid, Kind::BornTwice),
            Some(task) => task.prio = prio as u8,
            None => {
                slot = self.tasks.len() as u32;
                self.add_task(pid, prio, cpu as u32, Place::Gone, claim.v);
            }
        }
        let task = &mut self.tasks[slot as usize];
        task.idle_policy = std::mem::take(&mut self.born_idle);
        task.drift = 0;
        self.enqueue(slot, cpu, claim.v);
        self.note_idling(cpu, time);
        self.counts.births += 1;
        Ok(())
    }

    #[inline(never)]
    fn migrate(
        &mut self,
        time: u64,
        orig: usize,
        dest: usize,
        pid: u32,
        prio: u32,
        claim: Option<Claim>,
    ) -> Judged {
        self.find(orig, time)?;
        if orig == dest {
            return wrong(orig, pid, Kind::MoveHome);
        }
        let slot = self.here(pid, orig);
        if slot == NONE {
            return wrong(orig, pid, Kind::Strange);
        }
        let task = &self.tasks[slot as usize];
        if task.place == Place::Run {
            return wrong(orig, pid, Kind::MoveRunning);
        }
        if task.prio as u32 != prio {
            return wrong(orig, pid, Kind::WrongPrio);
        }
        self.charge(dest, time, None)?;
        let Some(claim) = claim else {
            return wrong(dest, pid, Kind::ClaimMissing);
        };
        if claim.pid != pid {
            return wrong(dest, claim.pid, Kind::ClaimPid);
        }
        let task = &mut self.tasks[slot as usize];
        task.drift = 0;
        let waits = task.place == Place::Wait;
        let kept = task.v as i128 - self.processors[orig].floor as i128;
        if waits != (claim.sort == Sort::At) || claim.v as i128 - self.processors[dest].floor as i128 != kept {
            return wrong(dest, pid, Kind::TicketUnequal);
        }
        if waits {
            // Dead at its origin, before it waits again.
            task.place = Place::Rest;
            self.dequeue(slot, orig);
            self.enqueue(slot, dest, claim.v);
            self.note_idling(orig, time);
            self.note_idling(dest, time);
        } else {
            task.v = claim.v;
            task.cpu = dest as u8;
        }
        self.counts.migrations += 1;
        Ok(())
    }
}
