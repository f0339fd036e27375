//! The report and the exit status.

use crate::audit::Verdict;
use crate::faults::Fault;
use crate::machine::Machine;
use crate::settings::{Need, Place};
use crate::waits::{Moment, Wait, Waits};
use std::io::{self, Write};

/// Standard output, written in blocks.
struct Report {
    text: Vec<u8>,
}

impl Report {
    /// So many bytes are collected before they are written, and as many more may be added at once.
    const MOST: usize = 1 << 15;

    /// A key and a number in decimal digits, copied in lengths that are known when this is compiled.
    fn put<const LENGTH: usize>(&mut self, key: &[u8; LENGTH], number: u128) -> io::Result<()> {
        if self.text.len() > Report::MOST {
            self.write()?;
        }
        self.text.extend_from_slice(key);
        let Ok(mut number) = u64::try_from(number) else {
            return write!(self.text, "{number}");
        };
        let mut digits = [0; 40];
        let mut place = 20;
        while number > 99 {
            place -= 2;
            digits[place..place + 2].copy_from_slice(&PAIRS[(number % 100) as usize]);
            number /= 100;
        }
        place -= 2;
        digits[place..place + 2].copy_from_slice(&PAIRS[number as usize]);
        place += (number < 10) as usize;
        self.text.extend_from_slice(&digits[place..place + 20]);
        self.text.truncate(self.text.len() - place);
        Ok(())
    }

    /// A key, what is needed of a setting, and where, if anything is.
    fn put_need<const LENGTH: usize>(&mut self, key: &[u8; LENGTH], need: Need) -> io::Result<()> {
        let Need { figure, place: Place { line, time, cpu, pid, over } } = need;
        self.put(key, figure as u128)?;
        if figure == 0 {
            return Ok(());
        }
        let (seconds, nanoseconds) = (time / 1_000_000_000, time % 1_000_000_000);
        write!(self.text, " line {line} time {seconds}.{nanoseconds:09} cpu {cpu} pid {pid}")?;
        match over {
            Some(over) => write!(self.text, " over {over}"),
            None => Ok(()),
        }
    }

    /// How long tasks waited, where that was asked for.
    fn put_waits(&mut self, waits: Option<Waits>) -> io::Result<()> {
        let Some(waits) = waits else { return Ok(()) };
        match waits.longest() {
            Some((pid, wait)) => {
                write!(self.text, "\nlongest wait pid {pid} waited ")?;
                self.put_wait(wait)?;
            }
            None => self.text.extend_from_slice(b"\nlongest wait none"),
        }
        for task in &waits.tasks {
            self.put(b"\nwaits ", task.pid as u128)?;
            self.put(b" times ", task.times as u128)?;
            self.put(b" total ", task.total as u128)?;
            if let Some(longest) = task.longest {
                self.text.extend_from_slice(b" longest ");
                self.put_wait(longest)?;
            }
        }
        Ok(())
    }

    /// A wait's length, and where it began and ended.
    fn put_wait(&mut self, wait: Wait) -> io::Result<()> {
        write!(self.text, "{} from ", wait.length())?;
        self.put_moment(wait.begun, "start")?;
        self.text.extend_from_slice(b" to ");
        self.put_moment(wait.ended, "end")
    }

    fn put_moment(&mut self, moment: Moment, outside: &str) -> io::Result<()> {
        match moment.line {
            Some(line) => write!(self.text, "line {line}"),
            None => write!(self.text, "{outside}"),
        }
    }

    fn write(&mut self) -> io::Result<()> {
        io::stdout().write_all(&self.text)?;
        self.text.clear();
        Ok(())
    }
}

/// The two digits of each number below a hundred.
const PAIRS: [[u8; 2]; 100] = {
    let mut pairs = [[0; 2]; 100];
    let mut number = 0;
    while number < 100 {
        pairs[number] = [b'0' + number as u8 / 10, b'0' + number as u8 % 10];
        number += 1;
    }
    pairs
};

/// Writes the report, and answers the exit status.
pub fn report(verdict: Verdict) -> io::Result<i32> {
    let mut report = Report { text: Vec::with_capacity(2 * Report::MOST) };
    let status = match verdict {
        Verdict::Refused { source, line, cause } => {
            write!(report.text, "refused {source} line {line} {cause}")?;
            2
        }
        Verdict::Fault(line, Fault { cpu, pid, kind }) => {
            write!(report.text, "fault line {line} cpu {cpu} pid {pid} {}", kind.words())?;
            1
        }
        Verdict::Run { machine: Machine { counts, tasks, .. }, waits, .. } => {
            report.put(b"run\nevents ", counts.events as u128)?;
            report.put(b"\nswitches ", counts.switches as u128)?;
            report.put(b"\nmigrations ", counts.migrations as u128)?;
            report.put(b"\nbirths ", counts.births as u128)?;
            report.put(b"\ndeaths ", counts.deaths as u128)?;
            for task in &tasks {
                report.put(b"\ntask ", task.pid as u128)?;
                report.put(b" ran ", task.ran as u128)?;
                report.put(b" charged ", task.charged)?;
                report.put(b" picks ", task.picks as u128)?;
            }
            report.put_waits(waits)?;
            0
        }
        Verdict::Least { needs: least, version, waits } => {
            report.put_need(b"least granularity-ns ", least.granularity)?;
            report.put_need(b"\nleast credit-ns ", least.credit)?;
            report.put_need(b"\nleast debit-ns ", least.debit)?;
            report.put_need(b"\nleast slack-ns ", least.slack)?;
            if version >= 3 {
                report.put_need(b"\nleast drift-ns ", least.drift)?;
            }
            report.put_waits(waits)?;
            0
        }
    };
    report.text.push(b'\n');
    report.write()?;
    Ok(status)
}
