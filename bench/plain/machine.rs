//! The machine: its processors and tasks.

mod charging;
mod idling;
mod steps;
mod waiting;

use crate::claims::{Claim, Place};
use crate::faults::{Fault, Kind};
use crate::limits::MOST_PID;
use crate::queue::{Processor, Waiting, NONE};
use crate::settings::{Knobs, Needs, Place as At};
use crate::task::Task;

pub struct Machine {
    settings: Knobs,
    /// Of each setting the most that an event needed so far; of the slack without those who idle still.
    needs: Needs,
    /// The line of the event that is judged.
    pub line: u64,
    /// The time of the newest event, and the first line that has it.
    now: (u64, u64),
    pub processors: Vec<Processor>,
    /// In the order of the tallies: the companion's tasks, then births by line.
    pub tasks: Vec<Task>,
    /// For each pid its place in `tasks` and one, 0 where it has none.
    slots: Vec<u32>,
    /// The processors that idle beside a waiting task, a bit each.
    idle: u64,
    /// No later than the first moment at which one of them has idled for too long.
    deadline: u64,
    /// The told charge on the next event's line.
    pub told: Option<Claim>,
    /// The change of a nice value on the next event's line.
    pub change: Option<Claim>,
    /// Whether the next event's task is born with the idle policy.
    pub born_idle: bool,
    pub counts: Counts,
}

#[derive(Default)]
pub struct Counts {
    pub events: u64,
    pub switches: u64,
    pub migrations: u64,
    pub births: u64,
    pub deaths: u64,
}

type Judged = Result<(), Fault>;

#[inline(always)]
fn wrong<T>(cpu: usize, pid: u32, kind: Kind) -> Result<T, Fault> {
    Err(Fault { cpu: cpu as u32, pid, kind })
}

impl Machine {
    pub fn new(settings: Knobs) -> Machine {
        Machine {
            settings,
            needs: Needs::default(),
            line: 0,
            now: (0, 0),
            processors: Vec::new(),
            tasks: Vec::new(),
            slots: vec![0; MOST_PID as usize + 1],
            idle: 0,
            deadline: u64::MAX,
            told: None,
            change: None,
            born_idle: false,
            counts: Counts::default(),
        }
    }

    pub fn add_processor(&mut self, start: u64, floor: i64) {
        self.processors.push(Processor {
            running: NONE,
            waiting: 0,
            mark: start,
            floor,
            since: start,
            heap: Vec::new(),
        });
    }

    pub fn add_task(&mut self, pid: u32, prio: u32, cpu: u32, place: Place, v: i64) {
        let slot = self.tasks.len() as u32;
        self.slots[pid as usize] = slot + 1;
        self.tasks.push(Task {
            v,
            ran: 0,
            charged: 0,
            drift: 0,
            picks: 0,
            pid,
            stamp: 0,
            cpu: cpu as u8,
            prio: prio as u8,
            idle_policy: false,
            place,
        });
        let processor = &mut self.processors[cpu as usize];
        match place {
            Place::Run => processor.running = slot,
            Place::Wait => {
                processor.waiting += 1;
                processor.push(Waiting { v, slot, stamp: 0 });
            }
            Place::Rest | Place::Gone => {}
        }
    }

    /// A task of the start is of the idle policy; None where there is no such task.
    pub fn begin_idle(&mut self, pid: u32) -> Option<()> {
        let slot = self.slots[pid as usize].wrapping_sub(1);
        self.tasks.get_mut(slot as usize)?.idle_policy = true;
        Some(())
    }

    /// Marks the processors that idle from the start on.
    pub fn begin(&mut self, start: u64) {
        for cpu in 0..self.processors.len() {
            self.note_idling(cpu, start);
        }
    }

    /// The place among the tasks of one that was ever named.
    pub fn slot_of(&self, pid: u32) -> Option<usize> {
        (self.slots[pid as usize] as usize).checked_sub(1)
    }

    /// The place of a task that stands at a processor, or `NONE`.
    #[inline(always)]
    fn here(&self, pid: u32, cpu: usize) -> u32 {
        let slot = self.slots[pid as usize].wrapping_sub(1);
        match self.tasks.get(slot as usize) {
            Some(task) if task.cpu as usize == cpu && task.place != Place::Gone => slot,
            _ => NONE,
        }
    }

    /// Where the event that is judged needs something, at a processor with a task.
    #[inline(always)]
    fn at(&self, time: u64, cpu: usize, pid: u32) -> At {
        At { line: self.line, time, cpu: cpu as u32, pid, over: None }
    }
}
