//! The careful reader of a line of a trace: the grammar, part by part.

use crate::event::{Act, Event, Way};
use crate::limits::{FIRST_PRIO, LAST_PRIO, MOST_PID, MOST_PROCESSOR_NUMBER, MOST_SECONDS};

/// What a line of a trace that isn't refused says.
pub enum Line {
    Passed,
    Event(Event),
}

/// Greater than every limit, and what a number that is too large for its type is taken for.
const MANY: u64 = u64::MAX;

/// A number of any digits, and what follows them.
pub fn take_number(text: &[u8]) -> Option<(u64, &[u8])> {
    let count = text.iter().take_while(|byte| byte.is_ascii_digit()).count();
    let (digits, rest) = text.split_at(count);
    let value =
        digits.iter().try_fold(0u64, |value, digit| value.checked_mul(10)?.checked_add((digit - b'0') as u64));
    (count > 0).then_some((value.unwrap_or(MANY), rest))
}

fn take_spaces(text: &[u8]) -> Option<&[u8]> {
    let count = text.iter().take_while(|&&byte| byte == b' ').count();
    (count > 0).then(|| &text[count..])
}

/// Seconds, a point and six or nine digits, as the seconds and the nanoseconds beyond them.
pub fn take_time(text: &[u8]) -> Option<((u64, u64), &[u8])> {
    let (seconds, rest) = take_number(text)?;
    let digits = rest.strip_prefix(b".")?;
    let (part, rest) = take_number(digits)?;
    match digits.len() - rest.len() {
        6 => Some(((seconds, part * 1_000), rest)),
        9 => Some(((seconds, part), rest)),
        _ => None,
    }
}

struct Head<'a> {
    cpu: u64,
    seconds: u64,
    nanos: u64,
    text: &'a [u8],
    /// Where the bracket before the processor stands, and the point in the time if six digits follow it.
    places: (usize, usize),
}

fn take_head(line: &[u8]) -> Option<Head<'_>> {
    if line.len() < 17 || line[0] != b' ' || line[16] != b'-' {
        return None;
    }
    let (_, rest) = take_number(&line[17..])?;
    let mut rest = take_spaces(rest)?;
    if let Some(group) = rest.strip_prefix(b"(") {
        let count = group.iter().take_while(|&&byte| byte.is_ascii_digit() || byte == b' ' || byte == b'-').count();
        if count == 0 {
            return None;
        }
        rest = take_spaces(group[count..].strip_prefix(b")")?)?;
    }
    let bracket = line.len() - rest.len();
    let digits = rest.strip_prefix(b"[")?;
    let (cpu, rest) = take_number(digits)?;
    if digits.len() - rest.len() < 3 {
        return None;
    }
    let rest = take_spaces(rest.strip_prefix(b"]")?)?;
    let told = |rest| {
        let (time, rest) = take_time(rest)?;
        Some((time, rest.strip_prefix(b": ")?))
    };
    let ((seconds, nanos), text) = told(rest).or_else(|| {
        let count = rest.iter().take_while(|&&byte| byte != b' ' && byte != b':').count();
        if count == 0 {
            None
        } else {
            told(take_spaces(&rest[count..])?)
        }
    })?;
    let places = (bracket, line.len() - text.len() - 9);
    Some(Head { cpu, seconds, nanos, text, places })
}

fn is_lost(line: &[u8]) -> bool {
    let lost = || {
        let (_, rest) = take_number(line.strip_prefix(b"CPU:")?)?;
        let rest = rest.strip_prefix(b" [LOST ")?;
        if rest == b"EVENTS]" {
            return Some(());
        }
        let (_, rest) = take_number(rest)?;
        (rest == b" EVENTS]").then_some(())
    };
    lost().is_some()
}

/// A printed prio; of one with a sign only that.
#[derive(Clone, Copy)]
enum Prio {
    Negative,
    Number(u64),
}

fn take_prio(text: &[u8]) -> Option<(Prio, &[u8])> {
    match text.strip_prefix(b"-") {
        Some(digits) => take_number(digits).map(|(_, rest)| (Prio::Negative, rest)),
        None => take_number(text).map(|(prio, rest)| (Prio::Number(prio), rest)),
    }
}

impl Prio {
    fn fault(self) -> Option<&'static str> {
        match self {
            Prio::Number(FIRST_PRIO..=LAST_PRIO) => None,
            Prio::Negative | Prio::Number(..FIRST_PRIO) => Some("RealTime"),
            Prio::Number(_) => Some("PrioRange"),
        }
    }

    fn number(self) -> u32 {
        match self {
            Prio::Number(prio @ FIRST_PRIO..=LAST_PRIO) => prio as u32,
            _ => 0,
        }
    }
}

fn take_key<'a, T>(
    text: &'a [u8],
    key: &[u8],
    take: impl Fn(&'a [u8]) -> Option<(T, &'a [u8])>,
) -> Option<(T, &'a [u8])> {
    take(text.strip_prefix(key)?)
}

/// What is read behind a name, of whatever length it may have: at most one makes sense.
fn beyond_name<'a, T>(text: &'a [u8], read: impl Fn(&'a [u8]) -> Option<T>) -> Option<T> {
    (0..=15).find_map(|length| read(text.get(length..)?))
}

struct PrintedSwitch<'a> {
    prev: u64,
    prev_prio: Prio,
    state: &'a [u8],
    next: u64,
    next_prio: Prio,
}

fn switch_of(text: &[u8]) -> Option<PrintedSwitch<'_>> {
    beyond_name(text.strip_prefix(b"prev_comm=")?, |text| {
        let (prev, text) = take_key(text, b" prev_pid=", take_number)?;
        let (prev_prio, text) = take_key(text, b" prev_prio=", take_prio)?;
        let text = text.strip_prefix(b" prev_state=")?;
        let length = text.iter().position(|&byte| byte == b' ')?;
        let (state, text) = text.split_at(length);
        if state.is_empty() {
            return None;
        }
        beyond_name(text.strip_prefix(b" ==> next_comm=")?, |text| {
            let (next, text) = take_key(text, b" next_pid=", take_number)?;
            let (next_prio, text) = take_key(text, b" next_prio=", take_prio)?;
            text.is_empty().then_some(PrintedSwitch { prev, prev_prio, state, next, next_prio })
        })
    })
}

struct PrintedTask {
    pid: u64,
    prio: Prio,
    cpus: (u64, u64),
}

fn wakeup_of(text: &[u8]) -> Option<PrintedTask> {
    beyond_name(text.strip_prefix(b"comm=")?, |text| {
        let (pid, text) = take_key(text, b" pid=", take_number)?;
        let (prio, text) = take_key(text, b" prio=", take_prio)?;
        let text = take_key(text, b" success=", take_number).map_or(text, |(_, text)| text);
        let (cpu, text) = take_key(text, b" target_cpu=", take_number)?;
        text.is_empty().then_some(PrintedTask { pid, prio, cpus: (cpu, cpu) })
    })
}

fn migration_of(text: &[u8]) -> Option<PrintedTask> {
    beyond_name(text.strip_prefix(b"comm=")?, |text| {
        let (pid, text) = take_key(text, b" pid=", take_number)?;
        let (prio, text) = take_key(text, b" prio=", take_prio)?;
        let (orig, text) = take_key(text, b" orig_cpu=", take_number)?;
        let (dest, text) = take_key(text, b" dest_cpu=", take_number)?;
        text.is_empty().then_some(PrintedTask { pid, prio, cpus: (orig, dest) })
    })
}

fn read_switch(text: &[u8], cpu: u32) -> Result<Act, &'static str> {
    let PrintedSwitch { prev, prev_prio, state, next, next_prio } = switch_of(text).ok_or("BadFields")?;
    if prev > MOST_PID || next > MOST_PID {
        return Err("NumberRange");
    }
    let looked_at = [(prev, prev_prio), (next, next_prio)];
    match looked_at.iter().filter(|(pid, _)| *pid != 0).find_map(|(_, prio)| prio.fault()) {
        Some(cause) => Err(cause),
        None => Ok(Act::Switch {
            cpu,
            prev: prev as u32,
            prev_prio: prev_prio.number(),
            way: Way::of(state),
            next: next as u32,
            next_prio: next_prio.number(),
        }),
    }
}

fn read_task(printed: Option<PrintedTask>, act: impl Fn(u32, u32, u32, u32) -> Act) -> Result<Act, &'static str> {
    let PrintedTask { pid, prio, cpus } = printed.ok_or("BadFields")?;
    if pid > MOST_PID || cpus.0 > MOST_PROCESSOR_NUMBER || cpus.1 > MOST_PROCESSOR_NUMBER {
        return Err("NumberRange");
    }
    if pid == 0 {
        return Err("IdleNamed");
    }
    match prio.fault() {
        Some(cause) => Err(cause),
        None => Ok(act(cpus.0 as u32, cpus.1 as u32, pid as u32, prio.number())),
    }
}

/// What any line says, or why the trace is refused at it; and the places in its head, where it has one.
#[cold]
#[inline(never)]
pub fn read_line(line: &[u8]) -> (Result<Line, &'static str>, Option<(usize, usize)>) {
    if line.is_empty() || line[0] == b'#' {
        return (Ok(Line::Passed), None);
    }
    if is_lost(line) {
        return (Err("LostEvents"), None);
    }
    let Some(head) = take_head(line) else {
        return (Err("BadHead"), None);
    };
    let places = Some(head.places);
    if head.cpu > MOST_PROCESSOR_NUMBER || head.seconds > MOST_SECONDS {
        return (Err("NumberRange"), places);
    }
    let act = if let Some(text) = head.text.strip_prefix(b"sched_switch: ") {
        read_switch(text, head.cpu as u32)
    } else if let Some(text) = head.text.strip_prefix(b"sched_wakeup: ") {
        read_task(wakeup_of(text), |cpu, _, pid, prio| Act::Wake { cpu, pid, prio })
    } else if let Some(text) = head.text.strip_prefix(b"sched_wakeup_new: ") {
        read_task(wakeup_of(text), |cpu, _, pid, prio| Act::Born { cpu, pid, prio })
    } else if let Some(text) = head.text.strip_prefix(b"sched_migrate_task: ") {
        read_task(migration_of(text), |orig, dest, pid, prio| Act::Shift { orig, dest, pid, prio })
    } else {
        return (Ok(Line::Passed), places);
    };
    let time = head.seconds * 1_000_000_000 + head.nanos;
    (act.map(|act| Line::Event(Event { time, act })), places)
}
