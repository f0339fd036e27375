//! The command line.

use crate::amounts::amount_of;
use crate::settings::Knobs;

pub const USAGE: &str = "\
Usage: plain [--granularity-ns N] [--credit-ns N] [--debit-ns N] [--slack-ns N] [--drift-ns N] [--waits] TRACE COMPANION
       plain --least [--waits] TRACE COMPANION
";

pub struct Request {
    pub trace: String,
    pub companion: String,
    pub settings: Knobs,
    /// Whether the least settings are told in place of a run.
    pub least: bool,
    /// Whether waits are told behind a run or the least settings.
    pub waits: bool,
}

/// What the words ask for; None where they make no sense.
pub fn request_of(mut words: impl Iterator<Item = String>) -> Option<Request> {
    let (mut granularity, mut credit, mut debit, mut slack, mut drift) = (None, None, None, None, None);
    let (mut files, mut only_files, mut least, mut waits) = (Vec::new(), false, false, false);
    while let Some(word) = words.next() {
        if only_files || !word.starts_with('-') || word == "-" {
            files.push(word);
            continue;
        }
        if word == "--" {
            only_files = true;
            continue;
        }
        let flag = match word.as_str() {
            "--least" => Some(&mut least),
            "--waits" => Some(&mut waits),
            _ => None,
        };
        if let Some(flag) = flag {
            if *flag {
                return None;
            }
            *flag = true;
            continue;
        }
        let (name, value) = match word.split_once('=') {
            Some((name, value)) => (name, value.to_owned()),
            None => (word.as_str(), words.next()?),
        };
        let setting = match name {
            "--granularity-ns" => &mut granularity,
            "--credit-ns" => &mut credit,
            "--debit-ns" => &mut debit,
            "--slack-ns" => &mut slack,
            "--drift-ns" => &mut drift,
            _ => return None,
        };
        let value = amount_of(&value)?;
        if setting.replace(value).is_some() {
            return None;
        }
    }
    let [trace, companion] = <[String; 2]>::try_from(files).ok()?;
    if trace == "-" && companion == "-" {
        return None;
    }
    if least && [granularity, credit, debit, slack, drift].iter().any(Option::is_some) {
        return None;
    }
    let settings = Knobs {
        granularity: granularity.unwrap_or(1_000_000),
        credit: credit.unwrap_or(3_000_000),
        debit: debit.unwrap_or(3_000_000),
        slack: slack.unwrap_or(100_000),
        drift: drift.unwrap_or(0),
    };
    Some(Request { trace, companion, settings: if least { Knobs::GREATEST } else { settings }, least, waits })
}
