//! What is wrong with an event.

/// What is wrong with an event.
#[derive(Clone, Copy)]
pub struct Fault {
    pub cpu: u32,
    pub pid: u32,
    pub kind: Kind,
}

macro_rules! kinds {
    ($($kind:ident: $text:literal,)*) => {
        #[derive(Clone, Copy)]
        pub enum Kind { $($kind,)* }

        impl Kind {
            pub fn words(self) -> &'static str {
                match self { $(Kind::$kind => concat!(stringify!($kind), ": ", $text),)* }
            }
        }
    };
}

kinds! {
    IdleTooLong: "idle beside a waiting task",
    Range: "virtual runtime out of range",
    WrongCharge: "charged beyond the drift",
    MoveHome: "migration to its own processor",
    SelfSwitch: "switch to the same task",
    PrevNotRunning: "previous task is not the running one",
    Strange: "task does not stand at this processor",
    Already: "task stands at this processor already",
    MoveRunning: "running task migrated",
    WrongPrio: "printed prio is not the task's own",
    ClaimMissing: "claim is missing",
    ClaimExtra: "claim on an event that needs none",
    ClaimPid: "claim names another task",
    WrongPutBack: "put back at another value",
    WakeBounds: "placed outside the wake bounds",
    ForkBounds: "placed outside the fork bounds",
    NextNotWaiting: "next task is not waiting here",
    IdleBesideWaiting: "switch to idle beside a waiting task",
    NotLeast: "next task is beyond the granularity",
    TicketUnequal: "migration values do not agree",
    BornTwice: "task born twice",
}
