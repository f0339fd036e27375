//! The limits of docs/FORMATS.md, and the weights.

pub const MOST_PROCESSORS: u64 = 64;
pub const MOST_PROCESSOR_NUMBER: u64 = 65_535;
pub const MOST_PID: u64 = 4_194_304;
pub const MOST_LINE: u64 = u32::MAX as u64;
pub const MOST_SECONDS: u64 = u32::MAX as u64;
pub const MOST_SETTING: u64 = 1_000_000_000_000;
/// Virtual runtimes and floors lie from `-MOST_VIRTUAL` to `MOST_VIRTUAL` virtual nanoseconds.
pub const MOST_VIRTUAL: i64 = 1 << 62;

/// The printed prio of nice -20; that of nice 19 is 139.
pub const FIRST_PRIO: u64 = 100;
pub const LAST_PRIO: u64 = 139;

/// The scheduler's weights, from prio 100 to prio 139.
pub const WEIGHTS: [u32; 40] = [
    88761, 71755, 56483, 46273, 36291, 29154, 23254, 18705, 14949, 11916, 9548, 7620, 6100, 4904, 3906, 3121, 2501,
    1991, 1586, 1277, 1024, 820, 655, 526, 423, 335, 272, 215, 172, 137, 110, 87, 70, 56, 45, 36, 29, 23, 18, 15,
];
/// The weight of nice 0, at which a nanosecond costs a virtual one.
pub const USUAL_WEIGHT: u32 = 1024;
/// The weight of a task of the idle policy, whatever its prio.
pub const IDLE_POLICY_WEIGHT: u32 = 3;
