//! The reader of the shape that most lines of a trace have.

use crate::bytes::{all, digits_of, first, lowest, no_digits, places_of, up_to_lowest, value_of_eight, Bytes};
use crate::event::{Act, Event, Way, WAYS};
use crate::limits::{FIRST_PRIO, LAST_PRIO, MOST_PID, MOST_PROCESSOR_NUMBER};

/// Where the parts of a head stand in its line, and what stood there last.  From line to line the places seldom change,
/// and neither do the flags and the seconds, so the last line's are tried.
#[derive(Clone, Copy)]
pub struct Columns {
    /// The bracket before the processor.
    bracket: usize,
    /// The point in the time.
    point: usize,
    /// The eight bytes from the flags on, and those before the point, of a head that was read.
    flags: u64,
    before: u64,
    /// The time in nanoseconds that the seconds of that head make.
    seconds: u64,
}

impl Columns {
    /// Those of a line with a head; None where its parts stand too far apart to be tried.
    pub fn of(line: Bytes, bracket: usize, point: usize) -> Option<Columns> {
        if !(19..=25).contains(&bracket) || !(bracket + 10..=bracket + 22).contains(&point) {
            return None;
        }
        let mut columns = Columns { bracket, point, flags: 0, before: 0, seconds: 0 };
        columns.learn(line.after(bracket + 6).eight(), line.after(point - 8).eight()).then_some(columns)
    }

    /// Reads a word of flags, spaces, and the seconds up to the point; false where something else stands there.
    #[cold]
    #[inline(never)]
    fn learn(&mut self, flags: u64, before: u64) -> bool {
        let digits = no_digits(before).leading_zeros() as usize / 8;
        let width = (self.point - self.bracket - 6).wrapping_sub(digits);
        let spaces = places_of(flags, b' ');
        let length = first(spaces);
        let bad = places_of(flags, b':') | places_of(flags, b'\n');
        if !(1..8).contains(&digits)
            || !(2..=8).contains(&width)
            || !(1..width).contains(&length)
            || bad & up_to_lowest(spaces) != 0
            || ((flags ^ all(b' ')) & lowest(width)) >> (8 * length) != 0
        {
            return false;
        }
        self.flags = flags;
        self.before = before;
        self.seconds = value_of_eight(before & (u64::MAX << (64 - 8 * digits))) * 1_000_000_000;
        true
    }
}

/// What the usual reader of a line found, with the length of the line and its line feed.
pub enum Usual {
    Event(Event, usize),
    Other(usize),
    /// The careful reader decides.
    Unusual,
}

/// Reads a line that begins with a space and has the shape that most lines have.  What it reads is the line's one
/// reading; where it meets anything else it leaves the line to `read_line`.
#[inline(always)]
pub fn read_usual_line(line: Bytes, columns: &mut Columns) -> Usual {
    let Some((cpu, time)) = read_usual_head(line, columns) else {
        return Usual::Unusual;
    };
    let text = line.after(columns.point + 9);
    let beginning = text.eight();
    let read = if beginning == u64::from_le_bytes(*b"sched_sw") {
        read_usual_switch(text, cpu)
    } else if beginning == u64::from_le_bytes(*b"sched_wa") {
        read_usual_wakeup(text)
    } else if beginning == u64::from_le_bytes(*b"sched_mi") {
        read_usual_migration(text)
    } else {
        return Usual::Other(columns.point + 9 + text.line_length() + 1);
    };
    match read {
        Some((act, length)) => Usual::Event(Event { time, act }, columns.point + 9 + length),
        None => Usual::Unusual,
    }
}

/// The processor and the time of a head whose parts stand in these columns.
#[inline(always)]
fn read_usual_head(line: Bytes, columns: &mut Columns) -> Option<(u32, u64)> {
    let (bracket, point) = (columns.bracket, columns.point);
    if line.byte() != b' ' || line.sixteen_that_are(b'\n') != 0 || line.after(16).byte() != b'-' {
        return None;
    }
    // A pid, and spaces up to the bracket.
    let pid = line.after(17).eight();
    let digits = digits_of(pid);
    let width = bracket - 17;
    if digits == 0 || digits >= width || ((pid ^ all(b' ')) & lowest(width)) >> (8 * digits) != 0 {
        return None;
    }
    // The processor.
    let processor = line.after(bracket).eight();
    let digits = (processor >> 8) & 0x00FF_FFFF;
    if processor & 0x0000_FFFF_0000_00FF != u64::from_le_bytes(*b"[\0\0\0] \0\0")
        || no_digits(digits) & 0x0080_8080 != 0
    {
        return None;
    }
    let cpu = 100 * (digits & 0xF) + 10 * (digits >> 8 & 0xF) + (digits >> 16 & 0xF);
    // The flags, the seconds, and the microseconds.
    let flags = line.after(bracket + 6).eight();
    let before = line.after(point - 8).eight();
    if (flags != columns.flags || before != columns.before) && !columns.learn(flags, before) {
        return None;
    }
    let micros = line.after(point + 1).eight();
    if line.after(point).byte() != b'.' || digits_of(micros) != 6 || micros >> 48 != u16::from_le_bytes(*b": ") as u64
    {
        return None;
    }
    Some((cpu as u32, columns.seconds + value_of_eight(micros << 16) * 1_000))
}

#[inline(always)]
fn is_task_prio(prio: u32) -> bool {
    prio.wrapping_sub(FIRST_PRIO as u32) <= (LAST_PRIO - FIRST_PRIO) as u32
}

/// A switch with its length, its line feed counted; so the two below.
#[inline(always)]
fn read_usual_switch(text: Bytes, cpu: u32) -> Option<(Act, usize)> {
    if !text.says(b"sched_switch: prev_comm=") {
        return None;
    }
    let mut at = 24;
    at += text.after(at).name_before(b" prev_pid=")? + 10;
    let (prev, length) = text.after(at).short_number()?;
    at += length;
    let prev_prio = text.after(at + 11).prio();
    if !text.after(at).says(b" prev_prio=") || !text.after(at + 14).says(b" prev_state=") {
        return None;
    }
    at += 26;
    let state = text.after(at).eight();
    let spaces = places_of(state, b' ');
    let length = first(spaces);
    if length == 0 || length == 8 || places_of(state, b'\n') & up_to_lowest(spaces) != 0 {
        return None;
    }
    // A letter, or a letter and a `+`, without a branch that could only be guessed.
    let (letter, second) = (state as u8, (state >> 8) as u8);
    let way = if length == 1 || length == 2 && second == b'+' {
        WAYS[if second == b'+' { b'+' } else { letter } as usize]
    } else {
        Way::of(&state.to_le_bytes()[..length])
    };
    at += length;
    if !text.after(at).says(b" ==> next_comm=") {
        return None;
    }
    at += 15;
    at += text.after(at).name_before(b" next_pid=")? + 10;
    let (next, length) = text.after(at).short_number()?;
    at += length;
    let next_prio = text.after(at + 11).prio();
    if !text.after(at).says(b" next_prio=")
        || text.after(at + 14).byte() != b'\n'
        || prev > MOST_PID as u32
        || next > MOST_PID as u32
        || !is_task_prio(prev_prio)
        || !is_task_prio(next_prio)
    {
        return None;
    }
    Some((Act::Switch { cpu, prev, prev_prio, way, next, next_prio }, at + 15))
}

/// The pid and the prio behind `comm=`, and where what follows them begins.
#[inline(always)]
fn read_usual_task(text: Bytes, mut at: usize) -> Option<(u32, u32, usize)> {
    at += text.after(at).name_before(b" pid=")? + 5;
    let (pid, length) = text.after(at).short_number()?;
    at += length;
    let prio = text.after(at + 6).prio();
    if !text.after(at).says(b" prio=") || pid == 0 || pid > MOST_PID as u32 || !is_task_prio(prio) {
        return None;
    }
    Some((pid, prio, at + 9))
}

#[inline(always)]
fn read_usual_wakeup(text: Bytes) -> Option<(Act, usize)> {
    let fresh = if text.says(b"sched_wakeup: comm=") {
        false
    } else if text.says(b"sched_wakeup_new: comm=") {
        true
    } else {
        return None;
    };
    let (pid, prio, mut at) = read_usual_task(text, if fresh { 23 } else { 19 })?;
    if !text.after(at).says(b" target_cpu=") {
        return None;
    }
    at += 12;
    let (cpu, length) = text.after(at).short_number()?;
    at += length;
    if text.after(at).byte() != b'\n' || cpu > MOST_PROCESSOR_NUMBER as u32 {
        return None;
    }
    Some((if fresh { Act::Born { cpu, pid, prio } } else { Act::Wake { cpu, pid, prio } }, at + 1))
}

#[inline(always)]
fn read_usual_migration(text: Bytes) -> Option<(Act, usize)> {
    if !text.says(b"sched_migrate_task: comm=") {
        return None;
    }
    let (pid, prio, mut at) = read_usual_task(text, 25)?;
    if !text.after(at).says(b" orig_cpu=") {
        return None;
    }
    at += 10;
    let (orig, length) = text.after(at).short_number()?;
    at += length;
    if !text.after(at).says(b" dest_cpu=") {
        return None;
    }
    at += 10;
    let (dest, length) = text.after(at).short_number()?;
    at += length;
    if text.after(at).byte() != b'\n' || orig > MOST_PROCESSOR_NUMBER as u32 || dest > MOST_PROCESSOR_NUMBER as u32 {
        return None;
    }
    Some((Act::Shift { orig, dest, pid, prio }, at + 1))
}
