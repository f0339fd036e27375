use std::io::{self, Write};

use crate::machine::{Act, Claim, Event, Machine, START};

const SECOND: u64 = 1_000_000_000;

/// A line of the trace.
pub fn write_event(out: &mut impl Write, event: &Event) -> io::Result<()> {
    let name = format!("t{}", event.running);
    let (seconds, microseconds) = (event.time / SECOND, event.time % SECOND / 1000);
    write!(
        out,
        "{name:>16}-{:<7} [{:03}] d..2. {seconds:5}.{microseconds:06}: ",
        event.running, event.processor
    )?;
    match event.act {
        Act::Switch { prev, stays, next } => {
            let state = if stays || prev == 0 { "R" } else { "S" };
            writeln!(
                out,
                "sched_switch: prev_comm=t{prev} prev_pid={prev} prev_prio=120 prev_state={state} ==> \
                 next_comm=t{next} next_pid={next} next_prio=120"
            )
        }
        Act::Wakeup { pid } => {
            writeln!(
                out,
                "sched_wakeup: comm=t{pid} pid={pid} prio=120 target_cpu={:03}",
                event.processor
            )
        }
        Act::Migration { pid, destination } => writeln!(
            out,
            "sched_migrate_task: comm=t{pid} pid={pid} prio=120 orig_cpu={} dest_cpu={destination}",
            event.processor
        ),
    }
}

/// The companion up to the first claim.
pub fn write_beginning(out: &mut impl Write, machine: &Machine) -> io::Result<()> {
    let (seconds, microseconds) = (START / SECOND, START % SECOND / 1000);
    writeln!(
        out,
        "cfs-companion 1\ncpus {}\nstart {seconds}.{microseconds:06}",
        machine.processors.len()
    )?;
    for number in 0..machine.processors.len() {
        writeln!(out, "floor {number} 0")?;
    }
    for (number, processor) in machine.processors.iter().enumerate() {
        for (_, pid) in &processor.waiting {
            writeln!(out, "task {pid} 0 {number} wait 0")?;
        }
    }
    Ok(())
}

pub fn write_claim(out: &mut impl Write, line: u64, claim: &Claim) -> io::Result<()> {
    let sort = if claim.waits { "at" } else { "pass" };
    writeln!(out, "{sort} {line} {} {}", claim.task.pid, claim.task.virtual_runtime)
}
