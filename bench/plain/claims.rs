//! What a companion says of the tasks and of the lines of a trace.

#[derive(Clone, Copy, PartialEq, Eq)]
pub enum Sort {
    At,
    Pass,
    Nice,
    Charge,
}

impl Sort {
    /// Where on one line of the trace it stands among others, of which there is at most one of each: a told charge
    /// before a change before a claim.
    #[inline(always)]
    fn turn(self) -> u64 {
        match self {
            Sort::Charge => 0,
            Sort::Nice => 1,
            Sort::At | Sort::Pass => 2,
        }
    }
}

/// A claim; or a change of a nice value, which is of sort `Nice` and has the new prio in place of a virtual runtime; or
/// a told charge, of sort `Charge`, with the virtual runtime that the task comes to by it.
#[derive(Clone, Copy)]
pub struct Claim {
    /// The line of the trace, or `NEVER`.
    pub line: u64,
    pub pid: u32,
    pub v: i64,
    pub sort: Sort,
}

impl Claim {
    /// Rises from one to the next.
    #[inline(always)]
    pub fn rank(&self) -> u64 {
        4 * self.line + self.sort.turn()
    }
}

#[derive(Clone, Copy, PartialEq, Eq)]
pub enum Place {
    Run,
    Wait,
    Rest,
    Gone,
}

/// Above the number of any line, where no claim is left.
pub const NEVER: u64 = u64::MAX;
pub const NO_CLAIM: Claim = Claim { line: NEVER, pid: 0, v: 0, sort: Sort::At };

/// A task of the idle policy: of the start, on line 0, or born on a line of the trace.
#[derive(Clone, Copy, PartialEq, Eq, PartialOrd, Ord)]
pub struct IdleLine {
    pub line: u64,
    pub pid: u32,
}
