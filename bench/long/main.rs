//! Writes a run of any length, its trace or its companion, in memory that doesn't grow with it.
//!
//! `long trace EVENTS PROCESSORS` and `long companion EVENTS PROCESSORS` are of one run: twelve tasks a processor, none
//! of which ends, with wakeups, preemptions and migrations. Some pipe reads each: neither is a file.

mod dice;
mod machine;
mod processor;
mod texts;

use std::io::{self, BufWriter, Write};
use std::process::ExitCode;

use machine::Machine;
use texts::{write_beginning, write_claim, write_event};

fn main() -> ExitCode {
    let words: Vec<String> = std::env::args().skip(1).collect();
    let [text, events, processors] = words.as_slice() else {
        return misused();
    };
    let is_trace = match text.as_str() {
        "trace" => true,
        "companion" => false,
        _ => return misused(),
    };
    let (Ok(events), Ok(processors)) = (events.parse(), processors.parse()) else {
        eprintln!("two numbers are wanted: how many events, and of how many processors");
        return ExitCode::from(2);
    };
    match write(is_trace, events, processors) {
        Ok(()) => ExitCode::SUCCESS,
        Err(_) => ExitCode::FAILURE,
    }
}

fn misused() -> ExitCode {
    eprintln!("usage: long trace|companion EVENTS PROCESSORS");
    ExitCode::from(2)
}

fn write(is_trace: bool, events: u64, processors: usize) -> io::Result<()> {
    let mut out = BufWriter::with_capacity(1 << 16, io::stdout().lock());
    let mut machine = Machine::new(processors);
    if !is_trace {
        write_beginning(&mut out, &machine)?;
    }
    for line in 1..=events {
        let event = machine.next_event();
        if is_trace {
            write_event(&mut out, &event)?;
        } else if let Some(claim) = event.claim {
            write_claim(&mut out, line, &claim)?;
        }
    }
    out.flush()
}
