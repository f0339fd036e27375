use crate::dice::Dice;
use crate::processor::{Processor, Task};

/// How many tasks a processor has at the start.
const TASKS: u32 = 12;

/// The standard settings, in nanoseconds.
const CREDIT: i64 = 3_000_000;
const GRANULARITY: i64 = 1_000_000;

/// When the recording starts, in nanoseconds.
pub const START: u64 = 1_403_725_128_000;

/// What happens.
pub enum Act {
    /// From one pid to another, 0 of the idle task. The flag tells whether the first one still wants to run.
    Switch {
        prev: u32,
        stays: bool,
        next: u32,
    },
    Wakeup {
        pid: u32,
    },
    Migration {
        pid: u32,
        destination: usize,
    },
}

/// The virtual runtime that the companion names for a task.
pub struct Claim {
    /// Whether the task waits.
    pub waits: bool,
    pub task: Task,
}

pub struct Event {
    /// In nanoseconds, at a whole microsecond.
    pub time: u64,
    pub processor: usize,
    /// Who runs there before it, 0 of the idle task.
    pub running: u32,
    pub act: Act,
    pub claim: Option<Claim>,
}

/// Some processors, run by the rules with the standard settings.
pub struct Machine {
    time: u64,
    dice: Dice,
    pub processors: Vec<Processor>,
    /// Processors that idle beside a waiting task, which go on at once.
    idle: Vec<usize>,
}

impl Machine {
    pub fn new(count: usize) -> Machine {
        let first = |number: usize| 101 + number as u32 * TASKS;
        Machine {
            time: START,
            dice: Dice::new(),
            processors: (0..count)
                .map(|number| Processor::new(START, first(number)..first(number + 1)))
                .collect(),
            idle: (0..count).rev().collect(),
        }
    }

    pub fn next_event(&mut self) -> Event {
        while let Some(number) = self.idle.pop() {
            self.time += 1000;
            if let Some(event) = self.switch(number, false) {
                return event;
            }
        }
        loop {
            self.time += (100 + self.dice.below(3900)) / self.processors.len() as u64 * 1000;
            let number = self.dice.below(self.processors.len() as u64) as usize;
            let kind = self.dice.below(100);
            let event = match kind {
                0..40 => self.wake(number),
                40..44 => self.migrate(number),
                _ => None,
            };
            let event = match event {
                Some(event) => Some(event),
                None => self.switch(number, kind % 2 == 0),
            };
            if let Some(event) = event {
                return event;
            }
        }
    }

    /// One of those that rest at a processor, out of them.
    fn rested(&mut self, number: usize) -> Option<Task> {
        let resting = &mut self.processors[number].resting;
        if resting.is_empty() {
            return None;
        }
        let place = self.dice.below(resting.len() as u64) as usize;
        Some(resting.swap_remove(place))
    }

    fn event(&self, number: usize, act: Act, claim: Option<Claim>) -> Event {
        Event {
            time: self.time,
            processor: number,
            running: pid_of(self.processors[number].running),
            act,
            claim,
        }
    }

    fn wake(&mut self, number: usize) -> Option<Event> {
        let task = self.rested(number)?;
        let processor = &mut self.processors[number];
        processor.charge(self.time);
        let woken = Task {
            virtual_runtime: task.virtual_runtime.max(processor.floor - CREDIT),
            ..task
        };
        processor.wait(woken);
        if processor.running.is_none() {
            self.idle.push(number);
        }
        Some(self.event(
            number,
            Act::Wakeup { pid: task.pid },
            Some(Claim {
                waits: true,
                task: woken,
            }),
        ))
    }

    /// One that rests goes to another processor.
    fn migrate(&mut self, number: usize) -> Option<Event> {
        let destination = self.dice.below(self.processors.len() as u64) as usize;
        if destination == number {
            return None;
        }
        let task = self.rested(number)?;
        self.processors[number].charge(self.time);
        self.processors[destination].charge(self.time);
        let further = self.processors[destination].floor - self.processors[number].floor;
        let moved = Task {
            virtual_runtime: task.virtual_runtime + further,
            ..task
        };
        self.processors[destination].resting.push(moved);
        let act = Act::Migration {
            pid: task.pid,
            destination,
        };
        Some(self.event(
            number,
            act,
            Some(Claim {
                waits: false,
                task: moved,
            }),
        ))
    }

    /// To the waiting task with the least virtual runtime; none where that is beyond the granularity.
    fn switch(&mut self, number: usize, stays: bool) -> Option<Event> {
        let processor = &self.processors[number];
        let least = processor.least_waiting();
        let stays = match (processor.running_at(self.time), least) {
            (None, None) => return None,
            (Some(running), Some(least)) if stays && least <= running + GRANULARITY => true,
            (Some(_), _) if stays => return None,
            _ => false,
        };
        let processor = &mut self.processors[number];
        processor.charge(self.time);
        let before = processor.running;
        processor.pick();
        let next = processor.running;
        let mut claim = None;
        if let Some(task) = before {
            if stays {
                processor.wait(task);
                claim = Some(Claim { waits: true, task });
            } else {
                processor.resting.push(task);
            }
        }
        let prev = pid_of(before);
        Some(Event {
            time: self.time,
            processor: number,
            running: prev,
            act: Act::Switch {
                prev,
                stays,
                next: pid_of(next),
            },
            claim,
        })
    }
}

/// Of who runs, 0 of the idle task.
fn pid_of(running: Option<Task>) -> u32 {
    running.map_or(0, |task| task.pid)
}
