use std::collections::BTreeSet;

/// A task, by its pid and its virtual runtime in nanoseconds.
#[derive(Clone, Copy)]
pub struct Task {
    pub pid: u32,
    pub virtual_runtime: i64,
}

/// A processor's runqueue. All tasks are at nice 0, so a nanosecond of running is one of virtual runtime.
pub struct Processor {
    pub floor: i64,
    pub running: Option<Task>,
    pub waiting: BTreeSet<(i64, u32)>,
    pub resting: Vec<Task>,
    /// When it was touched last, in nanoseconds.
    touched: u64,
}

impl Processor {
    /// These tasks wait, all at 0.
    pub fn new(start: u64, pids: std::ops::Range<u32>) -> Processor {
        Processor {
            floor: 0,
            running: None,
            waiting: pids.map(|pid| (0, pid)).collect(),
            resting: Vec::new(),
            touched: start,
        }
    }

    /// What the running task will have at this time.
    pub fn running_at(&self, time: u64) -> Option<i64> {
        let task = self.running?;
        Some(task.virtual_runtime + (time - self.touched) as i64)
    }

    pub fn least_waiting(&self) -> Option<i64> {
        self.waiting.first().map(|(virtual_runtime, _)| *virtual_runtime)
    }

    /// Charges the running task, and raises the floor to the least of who runs or waits.
    pub fn charge(&mut self, time: u64) {
        let charged = self.running_at(time);
        if let (Some(task), Some(virtual_runtime)) = (&mut self.running, charged) {
            task.virtual_runtime = virtual_runtime;
        }
        self.touched = time;
        let least = charged.into_iter().chain(self.least_waiting()).min();
        self.floor = self.floor.max(least.unwrap_or(self.floor));
    }

    pub fn wait(&mut self, task: Task) {
        self.waiting.insert((task.virtual_runtime, task.pid));
    }

    /// The least who waits runs, if anybody waits.
    pub fn pick(&mut self) {
        self.running = self
            .waiting
            .pop_first()
            .map(|(virtual_runtime, pid)| Task { pid, virtual_runtime });
    }
}
