//! What the lines of a trace say.

#[derive(Clone, Copy, PartialEq, Eq)]
pub enum Way {
    Stays,
    Sleeps,
    Ends,
}

impl Way {
    pub fn of(state: &[u8]) -> Way {
        if state.contains(&b'+') {
            Way::Stays
        } else if state.iter().any(|byte| matches!(byte, b'X' | b'Z' | b'x')) {
            Way::Ends
        } else if state.first() == Some(&b'R') {
            Way::Stays
        } else {
            Way::Sleeps
        }
    }
}

/// The way out by a state of one letter.
pub static WAYS: [Way; 256] = {
    let mut ways = [Way::Sleeps; 256];
    (ways[b'+' as usize], ways[b'R' as usize]) = (Way::Stays, Way::Stays);
    (ways[b'X' as usize], ways[b'Z' as usize], ways[b'x' as usize]) = (Way::Ends, Way::Ends, Way::Ends);
    ways
};

/// An event without its line and time.  The prio of pid 0 is of no meaning.
#[derive(Clone, Copy)]
pub enum Act {
    Switch { cpu: u32, prev: u32, prev_prio: u32, way: Way, next: u32, next_prio: u32 },
    Wake { cpu: u32, pid: u32, prio: u32 },
    Born { cpu: u32, pid: u32, prio: u32 },
    Shift { orig: u32, dest: u32, pid: u32, prio: u32 },
}

/// An event, with its time in nanoseconds.
#[derive(Clone, Copy)]
pub struct Event {
    pub time: u64,
    pub act: Act,
}
