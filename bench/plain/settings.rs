//! The settings of an audit, and what its events need of them.

use crate::limits::MOST_SETTING;

#[derive(Clone, Copy)]
pub struct Knobs {
    pub granularity: u64,
    pub credit: u64,
    pub debit: u64,
    pub slack: u64,
    pub drift: u64,
}

impl Knobs {
    pub const GREATEST: Knobs = Knobs {
        granularity: MOST_SETTING,
        credit: MOST_SETTING,
        debit: MOST_SETTING,
        slack: MOST_SETTING,
        drift: MOST_SETTING,
    };
}

/// The most that an event needed of a setting, and which one needed it first.
#[derive(Clone, Copy, Default)]
pub struct Need {
    pub figure: u64,
    pub place: Place,
}

/// An event, by its line and its time, with a processor and a task; at a pick with the least of those who waited too.
#[derive(Clone, Copy, Default)]
pub struct Place {
    pub line: u64,
    pub time: u64,
    pub cpu: u32,
    pub pid: u32,
    pub over: Option<u32>,
}

impl Need {
    /// So much is needed at a place.
    #[inline(always)]
    pub fn raise(&mut self, figure: u64, place: Place) {
        if figure > self.figure {
            *self = Need { figure, place };
        }
    }
}

/// The needs of each setting.
#[derive(Clone, Copy, Default)]
pub struct Needs {
    pub granularity: Need,
    pub credit: Need,
    pub debit: Need,
    pub slack: Need,
    pub drift: Need,
}
