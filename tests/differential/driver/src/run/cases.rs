//! Cases that a run must meet and that a refusal's number doesn't tell apart.

use crate::run::designers::Answer;
use crate::run::tickets::{Source, Ticket};

/// A case that a run must meet, told by the ticket and the Rust side's answer.
pub struct Case {
    pub what: &'static str,
    pub met: fn(&Ticket, &Answer) -> bool,
}

/// What a refusal carries, by its code.
pub const PLAIN: u32 = 0;
pub const RANGE: u32 = 1;
pub const LENGTH: u32 = 2;
pub const CAP: u32 = 3;
pub const ELEMENT: u32 = 4;

/// A case: what it is, and how a ticket and its report show it.
macro_rules! case {
    ($what:literal, $met:expr) => {
        $crate::run::cases::Case {
            what: $what,
            met: |ticket, answer| {
                let met: fn(&$crate::run::tickets::Ticket, &$crate::run::report::Report) -> bool =
                    $met;
                met(ticket, &answer.report)
            },
        }
    };
}

/// A case that what was written shows.
macro_rules! written {
    ($what:literal, $met:expr) => {
        $crate::run::cases::Case {
            what: $what,
            met: $met,
        }
    };
}

pub(crate) use {case, written};

pub const IN_BYTES: Case = case!("8 in bytes", |ticket, report| {
    report.number == 8 && ticket.bytes() % 8 != 0
});

pub const IN_ELEMENTS: Case = case!("8 in elements", |ticket, report| {
    report.number == 8 && ticket.bytes() % 8 == 0
});

/// Whether the ticket is a conversion for which that holds.
pub fn of_source(ticket: &Ticket, holds: impl FnOnce(&Source) -> bool) -> bool {
    ticket.source().is_some_and(holds)
}
