//! Who waits at a processor.

/// A waiting task in the heap of its processor.
#[derive(Clone, Copy)]
pub struct Waiting {
    pub v: i64,
    pub slot: u32,
    pub stamp: u32,
}

/// No task's place in the list of tasks.
pub const NONE: u32 = u32::MAX;

/// Above every virtual runtime.
pub const NOBODY: i64 = i64::MAX;

pub struct Processor {
    /// The place of the running task, or `NONE`.
    pub running: u32,
    /// How many tasks wait.
    pub waiting: u32,
    /// Until when it was charged, in nanoseconds.
    pub mark: u64,
    pub floor: i64,
    /// Since when it has idled beside a waiting task, where its bit in `idle` is set.
    pub since: u64,
    /// Those who wait, the least above; entries that died stay until they come up, but the uppermost is alive.
    pub heap: Vec<Waiting>,
}

impl Processor {
    #[inline(always)]
    pub fn least(&self) -> i64 {
        self.heap.first().map_or(NOBODY, |entry| entry.v)
    }

    #[inline(always)]
    pub fn push(&mut self, entry: Waiting) {
        self.heap.push(entry);
        self.lift_up(self.heap.len() - 1);
    }

    #[inline(always)]
    fn lift_up(&mut self, mut place: usize) {
        let entry = self.heap[place];
        while place > 0 {
            let parent = (place - 1) / 4;
            if self.heap[parent].v <= entry.v {
                break;
            }
            self.heap[place] = self.heap[parent];
            place = parent;
        }
        self.heap[place] = entry;
    }

    /// Puts an entry where the place's own is, and lets it sink below all that are less.
    #[inline(always)]
    pub fn sink(&mut self, mut place: usize, entry: Waiting) {
        let heap = self.heap.as_mut_slice();
        loop {
            let child = 4 * place + 1;
            let least = if child + 3 < heap.len() {
                let left = if heap[child + 1].v < heap[child].v { child + 1 } else { child };
                let right = if heap[child + 3].v < heap[child + 2].v { child + 3 } else { child + 2 };
                if heap[right].v < heap[left].v {
                    right
                } else {
                    left
                }
            } else {
                let Some(least) = (child..heap.len()).min_by_key(|&child| heap[child].v) else { break };
                least
            };
            if entry.v <= heap[least].v {
                break;
            }
            heap[place] = heap[least];
            place = least;
        }
        heap[place] = entry;
    }

    #[inline(always)]
    pub fn pop(&mut self) {
        if let Some(last) = self.heap.pop() {
            if !self.heap.is_empty() {
                self.sink(0, last);
            }
        }
    }
}
