//! Ends of the program without a report.

use std::alloc::{GlobalAlloc, Layout, System};
use std::io::{self, Write};
use std::process::exit;

/// What ends an audit without a report, as an exit status and words for standard error.
#[derive(Clone, Copy)]
pub enum Failure {
    ReadTrace,
    ReadCompanion,
    Write,
    Memory,
}

impl Failure {
    pub fn end(self) -> ! {
        let (status, words) = match self {
            Failure::ReadTrace => (3, "sched_audit: cannot read the trace\n"),
            Failure::ReadCompanion => (3, "sched_audit: cannot read the companion\n"),
            Failure::Write => (3, "sched_audit: cannot write the report\n"),
            Failure::Memory => (4, "sched_audit: out of memory\n"),
        };
        let _ = io::stderr().write_all(words.as_bytes());
        exit(status)
    }
}

/// The system's allocator, but for a refused growth, which ends the program with its status.
struct OrEnd;

#[global_allocator]
static ALLOCATOR: OrEnd = OrEnd;

fn or_end(memory: *mut u8) -> *mut u8 {
    if memory.is_null() {
        Failure::Memory.end()
    }
    memory
}

// SAFETY: every call is the system allocator's own.
unsafe impl GlobalAlloc for OrEnd {
    unsafe fn alloc(&self, layout: Layout) -> *mut u8 {
        or_end(unsafe { System.alloc(layout) })
    }

    unsafe fn alloc_zeroed(&self, layout: Layout) -> *mut u8 {
        or_end(unsafe { System.alloc_zeroed(layout) })
    }

    unsafe fn realloc(&self, memory: *mut u8, layout: Layout, size: usize) -> *mut u8 {
        or_end(unsafe { System.realloc(memory, layout, size) })
    }

    unsafe fn dealloc(&self, memory: *mut u8, layout: Layout) {
        unsafe { System.dealloc(memory, layout) }
    }
}
