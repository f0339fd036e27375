//! The reader of a companion.

use crate::blocks::Blocks;
use crate::bytes::Bytes;
use crate::careful::{take_number, take_time};
use crate::claims::{Claim, IdleLine, Place, Sort, NO_CLAIM};
use crate::limits::{MOST_LINE, MOST_PID, MOST_PROCESSORS, MOST_SECONDS, MOST_VIRTUAL};
use std::fs::File;

/// What a line of a companion says.
pub enum Said {
    Version(u32),
    Cpus(u64),
    Start(u64),
    Floor(i64),
    Task { pid: u32, prio: u32, cpu: u32, place: Place, v: i64 },
    Idle(IdleLine),
    Claim(Claim),
}

/// Why a companion isn't read on.
#[derive(Clone, Copy)]
pub enum Stop {
    Refused { line: u64, cause: &'static str },
    Unread,
}

/// Which line is due, besides comments.
#[derive(Clone, Copy, PartialEq, Eq, PartialOrd, Ord)]
enum Due {
    Version,
    Cpus,
    Start,
    Floor(u64),
    Task,
    Idle,
    Claim,
}

/// A companion as it is read.
pub struct Companion {
    pub blocks: Blocks,
    /// Where the next line begins.
    place: usize,
    /// The lines read so far.
    lines: u64,
    /// 1, 2 or 3.
    pub version: u32,
    due: Due,
    cpus: u64,
    /// The processors that a task was said to run at, a bit each.
    running: u64,
    last_pid: u32,
    last_idle: Option<IdleLine>,
    /// The rank of the last claim, change of a nice value or told charge.
    last_rank: u64,
    pub stop: Option<Stop>,
}

/// An integer of any digits; one beyond 64 bits is taken for `MANY`, with its sign.
fn integer(word: &[u8]) -> Option<i128> {
    let (digits, sign) = match word.strip_prefix(b"-") {
        Some(digits) => (digits, -1),
        None => (word, 1),
    };
    whole_number(digits).map(|value| sign * value as i128)
}

fn whole_number(word: &[u8]) -> Option<u64> {
    take_number(word).filter(|(_, rest)| rest.is_empty()).map(|(value, _)| value)
}

fn virtual_runtime(value: i128) -> Option<i64> {
    (value.abs() <= MOST_VIRTUAL as i128).then_some(value as i64)
}

fn prio_of(nice: i128) -> Option<u32> {
    (-20..=19).contains(&nice).then_some((120 + nice) as u32)
}

fn pid_of(value: u64) -> Option<u32> {
    (1..=MOST_PID).contains(&value).then_some(value as u32)
}

/// The numbers of a line that has one of the shapes.
enum Shape {
    Version,
    Cpus(u64),
    Start(u64, u64),
    Floor(u64, i128),
    Task(u64, i128, u64, Place, i128),
    Idle(u64, u64),
    /// A line, a pid, and a virtual runtime or a nice value.
    Claim(Sort, u64, u64, i128),
}

/// The shape of a line of words with one space between them, in a companion of this version.
fn shape_of(line: &[u8], version: u32) -> Option<Shape> {
    let mut words = line.split(|&byte| byte == b' ');
    let mut word = || words.next();
    let shape = match word()? {
        b"cfs-companion" => {
            whole_number(word()?)?;
            Shape::Version
        }
        b"cpus" => Shape::Cpus(whole_number(word()?)?),
        b"start" => {
            let ((seconds, nanos), rest) = take_time(word()?)?;
            if !rest.is_empty() {
                return None;
            }
            Shape::Start(seconds, nanos)
        }
        b"floor" => Shape::Floor(whole_number(word()?)?, integer(word()?)?),
        b"task" => {
            let (pid, nice, cpu) = (whole_number(word()?)?, integer(word()?)?, whole_number(word()?)?);
            let place = match word()? {
                b"run" => Place::Run,
                b"wait" => Place::Wait,
                b"rest" => Place::Rest,
                _ => return None,
            };
            Shape::Task(pid, nice, cpu, place, integer(word()?)?)
        }
        b"idle" if version >= 2 => Shape::Idle(whole_number(word()?)?, whole_number(word()?)?),
        b"at" => Shape::Claim(Sort::At, whole_number(word()?)?, whole_number(word()?)?, integer(word()?)?),
        b"pass" => Shape::Claim(Sort::Pass, whole_number(word()?)?, whole_number(word()?)?, integer(word()?)?),
        b"nice" if version >= 2 => {
            Shape::Claim(Sort::Nice, whole_number(word()?)?, whole_number(word()?)?, integer(word()?)?)
        }
        b"charge" if version >= 3 => {
            Shape::Claim(Sort::Charge, whole_number(word()?)?, whole_number(word()?)?, integer(word()?)?)
        }
        _ => return None,
    };
    word().is_none().then_some(shape)
}

impl Companion {
    pub fn new(file: File) -> Companion {
        let blocks = Blocks::new(file);
        Companion {
            blocks,
            place: 0,
            lines: 0,
            version: 0,
            due: Due::Version,
            cpus: 0,
            running: 0,
            last_pid: 0,
            last_idle: None,
            last_rank: 0,
            stop: None,
        }
    }

    /// The next line that is no comment; None at the end, or where the companion isn't read on.
    #[inline]
    pub fn next(&mut self) -> Option<Said> {
        loop {
            if self.place == self.blocks.whole && !self.refill() {
                return None;
            }
            let line = self.blocks.at(self.place);
            if self.due == Due::Task {
                if let Some((said, length)) = self.usual_task(line) {
                    self.lines += 1;
                    self.place += length;
                    return Some(said);
                }
            }
            if let Some(said) = self.careful_line()? {
                return Some(said);
            }
        }
    }

    #[cold]
    fn refill(&mut self) -> bool {
        self.place = 0;
        if self.stop.is_some() {
            return false;
        }
        match self.blocks.refill() {
            Ok(true) => return true,
            Ok(false) if self.due < Due::Task => {
                self.stop = Some(Stop::Refused { line: self.lines + 1, cause: "Short" });
            }
            Ok(false) => {}
            Err(_) => self.stop = Some(Stop::Unread),
        }
        false
    }

    /// A task as most are, with the length of its line.
    #[inline(always)]
    fn usual_task(&mut self, text: Bytes) -> Option<(Said, usize)> {
        if !text.says(b"task ") {
            return None;
        }
        let mut at = 5;
        let (pid, length) = text.after(at).short_number()?;
        at += length + 1;
        if text.after(at - 1).byte() != b' ' {
            return None;
        }
        let below = text.after(at).byte() == b'-';
        at += below as usize;
        let (nice, length) = text.after(at).short_number()?;
        at += length + 1;
        if text.after(at - 1).byte() != b' ' {
            return None;
        }
        let (cpu, length) = text.after(at).short_number()?;
        at += length;
        let place = match &text.after(at).eight().to_le_bytes()[..6] {
            b" wait " => Place::Wait,
            b" rest " => Place::Rest,
            _ => return None,
        };
        at += 5;
        let (v, length) = usual_virtual(text.after(at))?;
        let nice = if below { -(nice as i64) } else { nice as i64 };
        if pid <= self.last_pid || pid > MOST_PID as u32 || !(-20..=19).contains(&nice) || cpu as u64 >= self.cpus {
            return None;
        }
        self.last_pid = pid;
        Some((Said::Task { pid, prio: (120 + nice) as u32, cpu, place, v }, at + length))
    }

    /// Any line, by the tests in their order; Some(None) is a comment.
    #[cold]
    #[inline(never)]
    fn careful_line(&mut self) -> Option<Option<Said>> {
        let line = self.blocks.line(self.place);
        let length = line.len() + 1;
        let read = if line.is_empty() || line[0] == b'#' { Ok(None) } else { self.judged(line).map(Some) };
        self.lines += 1;
        self.place += length;
        match read {
            Ok(said) => {
                if let Some(said) = &said {
                    self.note(said);
                }
                Some(said)
            }
            Err(cause) => {
                self.refuse(cause);
                None
            }
        }
    }

    /// The line that was read last isn't accepted, and no other is read.
    pub fn refuse(&mut self, cause: &'static str) {
        self.stop = Some(Stop::Refused { line: self.lines, cause });
        if self.blocks.drain().is_err() {
            self.stop = Some(Stop::Unread);
        }
        self.place = 0;
    }

    fn judged(&self, line: &[u8]) -> Result<Said, &'static str> {
        if self.due == Due::Version {
            return match line {
                b"cfs-companion 1" => Ok(Said::Version(1)),
                b"cfs-companion 2" => Ok(Said::Version(2)),
                b"cfs-companion 3" => Ok(Said::Version(3)),
                _ => Err("Version"),
            };
        }
        if line == b"cgroup" || line.starts_with(b"cgroup ") {
            return Err("Group");
        }
        let shape = shape_of(line, self.version).ok_or("BadLine")?;
        let is_due = match shape {
            Shape::Version => false,
            Shape::Cpus(_) => self.due == Due::Cpus,
            Shape::Start(..) => self.due == Due::Start,
            Shape::Floor(..) => matches!(self.due, Due::Floor(_)),
            Shape::Task(..) => self.due == Due::Task,
            Shape::Idle(..) => self.due == Due::Task || self.due == Due::Idle,
            Shape::Claim(..) => self.due >= Due::Task,
        };
        if !is_due {
            return Err("Order");
        }
        let said = self.in_range(&shape).ok_or("NumberRange")?;
        match (shape, &said) {
            (Shape::Floor(cpu, _), _) if self.due != Due::Floor(cpu) => Err("Order"),
            (_, Said::Task { pid, .. }) if *pid < self.last_pid => Err("Order"),
            (_, Said::Task { pid, .. }) if *pid == self.last_pid => Err("TwiceNamed"),
            (_, Said::Task { cpu, place: Place::Run, .. }) if self.running >> cpu & 1 != 0 => Err("TwiceRunning"),
            (_, Said::Idle(idle)) if Some(*idle) <= self.last_idle => Err("LineOrder"),
            (_, Said::Claim(claim)) if claim.rank() <= self.last_rank => Err("LineOrder"),
            _ => Ok(said),
        }
    }

    fn in_range(&self, shape: &Shape) -> Option<Said> {
        Some(match *shape {
            Shape::Cpus(count) if (1..=MOST_PROCESSORS).contains(&count) => Said::Cpus(count),
            Shape::Start(seconds, nanos) if seconds <= MOST_SECONDS => Said::Start(seconds * 1_000_000_000 + nanos),
            Shape::Floor(cpu, v) if cpu < self.cpus => Said::Floor(virtual_runtime(v)?),
            Shape::Task(pid, nice, cpu, place, v) if cpu < self.cpus => Said::Task {
                pid: pid_of(pid)?,
                prio: prio_of(nice)?,
                cpu: cpu as u32,
                place,
                v: virtual_runtime(v)?,
            },
            Shape::Idle(line, pid) if line <= MOST_LINE => Said::Idle(IdleLine { line, pid: pid_of(pid)? }),
            Shape::Claim(Sort::Nice, line, pid, nice) if (1..=MOST_LINE).contains(&line) => {
                Said::Claim(Claim { line, pid: pid_of(pid)?, v: prio_of(nice)? as i64, sort: Sort::Nice })
            }
            Shape::Claim(sort, line, pid, v) if (1..=MOST_LINE).contains(&line) => {
                Said::Claim(Claim { line, pid: pid_of(pid)?, v: virtual_runtime(v)?, sort })
            }
            _ => return None,
        })
    }

    /// What the next line may be, after this one.
    fn note(&mut self, said: &Said) {
        match said {
            Said::Version(version) => {
                self.version = *version;
                self.due = Due::Cpus;
            }
            Said::Cpus(count) => {
                self.cpus = *count;
                self.due = Due::Start;
            }
            Said::Start(_) => self.due = Due::Floor(0),
            Said::Floor(_) => {
                let Due::Floor(cpu) = self.due else { unreachable!("a floor was due") };
                self.due = if cpu + 1 == self.cpus { Due::Task } else { Due::Floor(cpu + 1) };
            }
            Said::Task { pid, cpu, place, .. } => {
                self.last_pid = *pid;
                if *place == Place::Run {
                    self.running |= 1 << cpu;
                }
            }
            Said::Idle(idle) => {
                self.due = Due::Idle;
                self.last_idle = Some(*idle);
            }
            Said::Claim(claim) => {
                self.due = Due::Claim;
                self.last_rank = claim.rank();
            }
        }
    }

    /// The claim, change or told charge that comes next, after the first.
    #[inline(always)]
    pub fn next_claim(&mut self) -> Claim {
        if self.place < self.blocks.whole {
            if let Some((claim, length)) = usual_claim(self.blocks.at(self.place), self.version) {
                if claim.rank() > self.last_rank {
                    self.last_rank = claim.rank();
                    self.lines += 1;
                    self.place += length;
                    return claim;
                }
            }
        }
        self.careful_claim()
    }

    #[cold]
    #[inline(never)]
    fn careful_claim(&mut self) -> Claim {
        match self.next() {
            Some(Said::Claim(claim)) => claim,
            Some(_) => unreachable!("only claims are due"),
            None => NO_CLAIM,
        }
    }
}

/// A claim or a told charge as most are, with the length of its line.
#[inline(always)]
fn usual_claim(text: Bytes, version: u32) -> Option<(Claim, usize)> {
    let (sort, mut at) = if text.says(b"at ") {
        (Sort::At, 3)
    } else if text.says(b"pass ") {
        (Sort::Pass, 5)
    } else if version >= 3 && text.says(b"charge ") {
        (Sort::Charge, 7)
    } else {
        return None;
    };
    let (line, length) = text.after(at).number()?;
    at += length;
    let (pid, length) = text.after(at + 1).short_number()?;
    if text.after(at).byte() != b' ' {
        return None;
    }
    at += 1 + length;
    let (v, length) = usual_virtual(text.after(at))?;
    if line > MOST_LINE || pid == 0 || pid > MOST_PID as u32 {
        return None;
    }
    Some((Claim { line, pid, v, sort }, at + length))
}

/// A space, a virtual runtime of up to sixteen digits and a line feed, with their length.
#[inline(always)]
fn usual_virtual(text: Bytes) -> Option<(i64, usize)> {
    let below = text.after(1).byte() == b'-';
    let at = 1 + below as usize;
    let (value, length) = text.after(at).number()?;
    if text.byte() != b' ' || text.after(at + length).byte() != b'\n' {
        return None;
    }
    Some((if below { -(value as i64) } else { value as i64 }, at + length + 1))
}
