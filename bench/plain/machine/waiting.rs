//! Who waits at a processor: a heap, in which entries of tasks that wait no longer are dead.

use super::Machine;
use crate::claims::Place;
use crate::queue::Waiting;
use crate::task::Task;

impl Machine {
    /// A task begins to wait at a processor with a virtual runtime.
    #[inline(always)]
    pub(super) fn enqueue(&mut self, slot: u32, cpu: usize, v: i64) {
        let task = &mut self.tasks[slot as usize];
        task.v = v;
        task.cpu = cpu as u8;
        task.place = Place::Wait;
        task.stamp = task.stamp.wrapping_add(1);
        let entry = Waiting { v, slot, stamp: task.stamp };
        let processor = &mut self.processors[cpu];
        processor.waiting += 1;
        processor.push(entry);
        if processor.heap.len() > 2 * processor.waiting as usize + 64 {
            self.bury(cpu);
        }
    }

    /// A task that waited waits no longer; its place was changed before.
    #[inline(always)]
    pub(super) fn dequeue(&mut self, slot: u32, cpu: usize) {
        let processor = &mut self.processors[cpu];
        processor.waiting -= 1;
        if processor.heap[0].slot == slot {
            processor.pop();
            self.settle(cpu);
        }
    }

    #[inline(always)]
    fn is_alive(tasks: &[Task], entry: &Waiting) -> bool {
        let task = &tasks[entry.slot as usize];
        task.stamp == entry.stamp && task.place == Place::Wait
    }

    /// The least pid of those who wait at a processor with this virtual runtime, and of one who is put back with it.
    #[cold]
    pub(super) fn first_waiting(&self, cpu: usize, v: i64, put_back: Option<u32>) -> Option<u32> {
        let heap = self.processors[cpu].heap.iter();
        let waiting = heap.filter(|entry| entry.v == v && Machine::is_alive(&self.tasks, entry));
        waiting.map(|entry| self.tasks[entry.slot as usize].pid).chain(put_back).min()
    }

    /// Takes dead entries off the top of a heap.
    #[inline(always)]
    pub(super) fn settle(&mut self, cpu: usize) {
        let processor = &mut self.processors[cpu];
        while let Some(entry) = processor.heap.first() {
            if Machine::is_alive(&self.tasks, entry) {
                break;
            }
            processor.pop();
        }
    }

    /// Takes all dead entries out of a heap.
    #[cold]
    fn bury(&mut self, cpu: usize) {
        let processor = &mut self.processors[cpu];
        processor.heap.retain(|entry| Machine::is_alive(&self.tasks, entry));
        for place in (0..processor.heap.len()).rev() {
            let entry = processor.heap[place];
            processor.sink(place, entry);
        }
    }
}
