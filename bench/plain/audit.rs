//! The audit: both texts, gone through at once.

use crate::blocks::Blocks;
use crate::careful::{read_line, Line};
use crate::claims::{Claim, IdleLine, Sort, NEVER, NO_CLAIM};
use crate::companion::{Companion, Said, Stop};
use crate::ends::Failure;
use crate::event::{Act, Event};
use crate::faults::Fault;
use crate::limits::MOST_LINE;
use crate::machine::Machine;
use crate::settings::{Knobs, Needs};
use crate::usual::{read_usual_line, Columns, Usual};
use crate::waits::Waits;
use std::fs::File;

pub enum Verdict {
    Refused { source: &'static str, line: u64, cause: &'static str },
    Fault(u64, Fault),
    /// The machine after the last event, the time of that, or the start where there is none, the version of the
    /// companion, and how long tasks waited, where that was asked for.
    Run { machine: Machine, last_time: u64, version: u32, waits: Option<Waits> },
    /// The needs of all events, the version of the companion, which says whether the drift is told among them, and how
    /// long tasks waited.
    Least { needs: Needs, version: u32, waits: Option<Waits> },
}

/// Both texts as they are gone through, and what was found so far.
pub struct Audit {
    companion: Companion,
    machine: Machine,
    /// How long tasks waited up to now, where that is asked for.
    waits: Option<Waits>,
    /// The claim or change that comes next, or `NO_CLAIM`.
    claim: Claim,
    /// The `idle` lines of births that are still to come, the last first.
    idles: Vec<IdleLine>,
    /// The line of the next of them, or `NEVER`.
    next_idle: u64,
    start: u64,
    /// Whether events are still judged: until something is wrong that no later event can mend.
    judging: bool,
    cpus: u32,
    outside: Option<u64>,
    late: Option<u64>,
    stray: Option<u64>,
    fault: Option<(u64, Fault)>,
}

impl Audit {
    /// Reads the companion up to its first claim, change or told charge.
    pub fn new(companion: File, settings: Knobs, asks_waits: bool) -> Audit {
        let mut companion = Companion::new(companion);
        let mut machine = Machine::new(settings);
        let (mut start, mut idles, mut claim) = (0, Vec::new(), NO_CLAIM);
        while let Some(said) = companion.next() {
            match said {
                Said::Version(_) | Said::Cpus(_) => {}
                Said::Start(time) => start = time,
                Said::Floor(floor) => machine.add_processor(start, floor),
                Said::Task { pid, prio, cpu, place, v } => machine.add_task(pid, prio, cpu, place, v),
                Said::Idle(IdleLine { line: 0, pid }) => {
                    if machine.begin_idle(pid).is_none() {
                        companion.refuse("NoTask");
                    }
                }
                Said::Idle(idle) => idles.push(idle),
                Said::Claim(first) => {
                    claim = first;
                    break;
                }
            }
        }
        machine.begin(start);
        let waits = asks_waits.then(|| Waits::new(&machine, start));
        idles.reverse();
        let (judging, cpus) = (companion.stop.is_none(), machine.processors.len() as u32);
        let next_idle = idles.last().map_or(NEVER, |idle| idle.line);
        Audit {
            companion,
            machine,
            waits,
            claim,
            idles,
            next_idle,
            start,
            judging,
            cpus,
            outside: None,
            late: None,
            stray: None,
            fault: None,
        }
    }

    /// One more event of the trace.
    #[inline(always)]
    fn event(&mut self, line: u64, event: Event) {
        let claim = if self.claim.line <= line { self.claim_on(line) } else { None };
        if self.next_idle <= line {
            self.idle_on(line, event.act);
        }
        let greatest = match event.act {
            Act::Switch { cpu, .. } | Act::Wake { cpu, .. } | Act::Born { cpu, .. } => cpu,
            Act::Shift { orig, dest, .. } => orig.max(dest),
        };
        if greatest >= self.cpus {
            self.outside.get_or_insert(line);
            self.judging = false;
        }
        if event.time < self.start {
            self.late.get_or_insert(line);
            self.judging = false;
        }
        if self.judging {
            self.machine.line = line;
            if let Err(fault) = self.machine.step(event, claim) {
                self.fault = Some((line, fault));
                self.judging = false;
            } else if let Some(waits) = &mut self.waits {
                waits.note(&self.machine, event.act, line, event.time);
            }
        }
    }

    /// The claim on the line of an event, where what comes next is not on a later one; the machine is told the charge
    /// and the change before it.
    #[inline(always)]
    fn claim_on(&mut self, line: u64) -> Option<Claim> {
        if self.claim.line < line {
            self.pass_over(line);
        }
        if self.claim.line == line && self.claim.sort == Sort::Charge {
            self.machine.told = Some(self.claim);
            self.claim = self.companion.next_claim();
        }
        if self.claim.line == line && self.claim.sort == Sort::Nice {
            self.change();
        }
        if self.claim.line != line {
            return None;
        }
        let claim = self.claim;
        self.claim = self.companion.next_claim();
        Some(claim)
    }

    /// The machine is told the change that comes next, which is on the line of an event.
    #[cold]
    #[inline(never)]
    fn change(&mut self) {
        self.machine.change = Some(self.claim);
        self.claim = self.companion.next_claim();
    }

    /// The `idle` lines up to the line of an event: one is for it, if it is the birth of that task.
    #[cold]
    #[inline(never)]
    fn idle_on(&mut self, line: u64, act: Act) {
        while self.next_idle <= line {
            let Some(idle) = self.idles.pop() else { unreachable!("one is left") };
            self.next_idle = self.idles.last().map_or(NEVER, |next| next.line);
            if idle.line == line && matches!(act, Act::Born { pid, .. } if pid == idle.pid) {
                self.machine.born_idle = true;
            } else {
                self.stray_at(idle.line);
            }
        }
    }

    /// Something that the companion says of a line isn't about the event there; the least such line counts.
    fn stray_at(&mut self, line: u64) {
        self.stray = Some(self.stray.map_or(line, |least| least.min(line)));
        self.judging = false;
    }

    /// Claims, changes and told charges before the line of an event are on that of none.
    #[cold]
    #[inline(never)]
    fn pass_over(&mut self, line: u64) {
        while self.claim.line < line {
            self.stray_at(self.claim.line);
            self.claim = self.companion.next_claim();
        }
    }

    /// Goes through the trace.
    pub fn judge(mut self, trace: File) -> Result<Verdict, Failure> {
        let mut blocks = Blocks::new(trace);
        let mut columns = None;
        let (mut lines, mut last_time) = (0, 0);
        while blocks.refill().map_err(|_| Failure::ReadTrace)? {
            let mut place = 0;
            while place < blocks.whole {
                lines += 1;
                let usual = match &mut columns {
                    Some(columns) => read_usual_line(blocks.at(place), columns),
                    None => Usual::Unusual,
                };
                let (event, length) = match usual {
                    Usual::Event(event, length) => (Some(event), length),
                    Usual::Other(length) => (None, length),
                    Usual::Unusual => {
                        let line = blocks.line(place);
                        let length = line.len() + 1;
                        let (read, places) = read_line(line);
                        if let Some((bracket, point)) = places {
                            columns = Columns::of(blocks.at(place), bracket, point).or(columns);
                        }
                        match read {
                            Ok(Line::Passed) => (None, length),
                            Ok(Line::Event(event)) => (Some(event), length),
                            Err(_) if lines > MOST_LINE => (None, length),
                            Err(cause) => return self.refused(blocks, lines, cause),
                        }
                    }
                };
                place += length;
                if lines > MOST_LINE {
                    return self.refused(blocks, lines, "TooManyLines");
                }
                if let Some(event) = event {
                    if event.time < last_time {
                        return self.refused(blocks, lines, "TimeBack");
                    }
                    last_time = event.time;
                    self.event(lines, event);
                }
            }
        }
        self.verdict(last_time)
    }

    /// The trace's first bad line decides, once both files were read.
    #[cold]
    fn refused(mut self, mut trace: Blocks, line: u64, cause: &'static str) -> Result<Verdict, Failure> {
        trace.drain().map_err(|_| Failure::ReadTrace)?;
        if let Some(Stop::Unread) = self.companion.stop {
            return Err(Failure::ReadCompanion);
        }
        self.companion.blocks.drain().map_err(|_| Failure::ReadCompanion)?;
        Ok(Verdict::Refused { source: "trace", line, cause })
    }

    /// After the whole trace, whose last event was at this time.
    fn verdict(mut self, last_time: u64) -> Result<Verdict, Failure> {
        self.pass_over(NEVER);
        if let Some(idle) = self.idles.last() {
            self.stray_at(idle.line);
        }
        let join = |line, cause| Ok(Verdict::Refused { source: "join", line, cause });
        match self.companion.stop {
            Some(Stop::Unread) => return Err(Failure::ReadCompanion),
            Some(Stop::Refused { line, cause }) => return Ok(Verdict::Refused { source: "companion", line, cause }),
            None => {}
        }
        match self {
            Audit { outside: Some(line), .. } => join(line, "CpuOutside"),
            Audit { late: Some(line), .. } => join(line, "StartLate"),
            Audit { stray: Some(line), .. } => join(line, "ClaimNoEvent"),
            Audit { fault: Some((line, fault)), .. } => Ok(Verdict::Fault(line, fault)),
            Audit { machine, mut waits, start, companion, .. } => {
                let last_time = last_time.max(start);
                if let Some(waits) = &mut waits {
                    waits.end(last_time);
                }
                Ok(Verdict::Run { machine, last_time, version: companion.version, waits })
            }
        }
    }
}
