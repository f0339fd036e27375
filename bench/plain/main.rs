//! A plain auditor: what sched_audit answers, by ordinary Rust without a proof, for x86-64.
//!
//! It is the yardstick for the speed of the proved program and a second judge of its answers, written from
//! docs/RULES.md, docs/FORMATS.md and the order of tests in docs/REPLAY.md alone.  One thread goes through both texts
//! at once: each event is judged against the whole machine as it is read, with a table by pid and a heap a processor,
//! so that of the texts nothing is kept but a block of each, and the companion's `idle` lines.
//!
//!     rustc -O -C codegen-units=1 --edition 2021 -o plain bench/plain/main.rs && ./plain TRACE COMPANION [OPTIONS]
//!
//! The options are the settings, `--least` and `--waits`, as sched_audit has them.  For `--least` the events are judged
//! at the greatest settings, and of each setting the most that an event needed is kept.  For `--waits` the places of
//! the tasks that an event names are compared behind each event.  A line is first tried by a reader for the shape that
//! most lines have, and left to one that follows the grammar wherever it has another.  A standard output that is closed
//! isn't told from one that takes everything, by Rust's own way of starting a program.

mod amounts;
mod audit;
mod blocks;
mod bytes;
mod careful;
mod claims;
mod command;
mod companion;
mod ends;
mod event;
mod faults;
mod limits;
mod machine;
mod queue;
mod report;
mod settings;
mod task;
mod usual;
mod waits;

use crate::audit::{Audit, Verdict};
use crate::command::{request_of, USAGE};
use crate::ends::Failure;
use crate::report::report;
use std::fs::File;
use std::io::{self, Write};
use std::process::exit;

fn main() {
    let words: Option<Vec<String>> = std::env::args_os().skip(1).map(|word| word.into_string().ok()).collect();
    let Some(request) = words.and_then(|words| request_of(words.into_iter())) else {
        let _ = io::stderr().write_all(USAGE.as_bytes());
        exit(5)
    };
    let trace = File::open(request.trace).unwrap_or_else(|_| Failure::ReadTrace.end());
    let companion = File::open(request.companion).unwrap_or_else(|_| Failure::ReadCompanion.end());
    let audit = Audit::new(companion, request.settings, request.waits);
    let verdict = audit.judge(trace).unwrap_or_else(|failure| failure.end());
    let verdict = match verdict {
        Verdict::Run { machine, last_time, version, waits } if request.least => {
            Verdict::Least { needs: machine.needs_until(last_time), version, waits }
        }
        verdict => verdict,
    };
    match report(verdict) {
        Ok(status) => exit(status),
        Err(_) => Failure::Write.end(),
    }
}
