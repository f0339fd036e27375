//! How long tasks waited: the places of the tasks that an event names, before it and behind it, compared.

use crate::claims::Place;
use crate::event::Act;
use crate::machine::Machine;
use crate::task::Task;

/// The start, an event, or the end of a record.
#[derive(Clone, Copy)]
pub struct Moment {
    /// The event's line; None at the start and at the end.
    pub line: Option<u64>,
    /// In nanoseconds.
    pub time: u64,
}

/// A wait: from the event that leads into it to the one that leads out of it.
#[derive(Clone, Copy)]
pub struct Wait {
    pub begun: Moment,
    pub ended: Moment,
}

impl Wait {
    /// In nanoseconds.
    pub fn length(&self) -> u64 {
        self.ended.time - self.begun.time
    }
}

/// The waits of a task.
#[derive(Clone, Copy, Default)]
pub struct TaskWaits {
    pub pid: u32,
    /// When the wait began that goes on.
    begun: Option<Moment>,
    pub times: u64,
    /// Nanoseconds: a task has one wait at a time, so 64 bits serve.
    pub total: u64,
    /// Of equally long ones the first.
    pub longest: Option<Wait>,
}

impl TaskWaits {
    /// Whether the task waits from a moment on.
    fn note(&mut self, waits: bool, moment: Moment) {
        match (self.begun, waits) {
            (None, true) => self.begun = Some(moment),
            (Some(begun), false) => {
                self.begun = None;
                self.add(Wait { begun, ended: moment });
            }
            // A wait goes on, at this processor or at another.
            _ => {}
        }
    }

    fn add(&mut self, wait: Wait) {
        self.times += 1;
        self.total += wait.length();
        if self.longest.map_or(true, |longest| wait.length() > longest.length()) {
            self.longest = Some(wait);
        }
    }
}

/// The waits of all tasks, in the order of the machine's.
#[derive(Default)]
pub struct Waits {
    pub tasks: Vec<TaskWaits>,
}

impl Waits {
    /// Those that begin with the record.
    pub fn new(machine: &Machine, start: u64) -> Waits {
        let mut waits = Waits::default();
        for slot in 0..machine.tasks.len() {
            waits.note_slot(&machine.tasks, slot, Moment { line: None, time: start });
        }
        waits
    }

    /// An event was made on a line: only the tasks that it names can wait from it on, or no longer.
    pub fn note(&mut self, machine: &Machine, act: Act, line: u64, time: u64) {
        let pids = match act {
            Act::Switch { prev, next, .. } => [prev, next],
            Act::Wake { pid, .. } | Act::Born { pid, .. } | Act::Shift { pid, .. } => [pid, 0],
        };
        for slot in pids.into_iter().filter_map(|pid| machine.slot_of(pid)) {
            self.note_slot(&machine.tasks, slot, Moment { line: Some(line), time });
        }
    }

    fn note_slot(&mut self, tasks: &[Task], slot: usize, moment: Moment) {
        if self.tasks.len() <= slot {
            self.tasks.resize(slot + 1, TaskWaits::default());
        }
        let task = &tasks[slot];
        self.tasks[slot].pid = task.pid;
        self.tasks[slot].note(task.place == Place::Wait, moment);
    }

    /// Those that go on behind the last event end with it.
    pub fn end(&mut self, time: u64) {
        for task in &mut self.tasks {
            task.note(false, Moment { line: None, time });
        }
    }

    /// The longest of all tasks, of equally long ones that of the first task.
    pub fn longest(&self) -> Option<(u32, Wait)> {
        let mut longest: Option<(u32, Wait)> = None;
        for task in &self.tasks {
            let Some(wait) = task.longest else { continue };
            if longest.map_or(true, |(_, other)| wait.length() > other.length()) {
                longest = Some((task.pid, wait));
            }
        }
        longest
    }
}
