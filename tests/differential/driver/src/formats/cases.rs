//! What the lengths of conversions to Q14 and f32 must meet.

use crate::run::cases::{Case, case, of_source};
use crate::run::report::Report;
use crate::run::tickets::Ticket;

/// How many bytes a number takes in the destination.
fn width(ticket: &Ticket) -> u64 {
    match ticket {
        Ticket::ToQ14 { .. } => 2,
        _ => 4,
    }
}

/// Whether the lengths are refused where the source's bytes and the destination's are whole or not.
pub fn refused(ticket: &Ticket, report: &Report, whole: [bool; 2]) -> bool {
    let destination = ticket.bytes().is_multiple_of(width(ticket));
    report.number == 8 && of_source(ticket, |source| [source.rest == 0, destination] == whole)
}

/// Whether the source is whole sections.
fn sectioned(ticket: &Ticket) -> bool {
    of_source(ticket, |source| source.elements.len().is_multiple_of(5))
}

pub const BY_SOURCE: Case = case!("8 by the source's bytes", |ticket, report| {
    refused(ticket, report, [false, true])
});

pub const BY_SOURCE_FIRST: Case = case!(
    "8 by the source's bytes before the destination's",
    |ticket, report| {
        refused(ticket, report, [false, false])
            && of_source(ticket, |source| source.length() == report.given)
    }
);

pub const BY_DESTINATION: Case = case!("8 by the destination's bytes", |ticket, report| {
    refused(ticket, report, [true, false])
});

pub const BY_DESTINATION_FIRST: Case = case!(
    "8 by the destination's bytes before the sections",
    |ticket, report| refused(ticket, report, [true, false]) && !sectioned(ticket)
);

pub const BY_SECTIONS: Case = case!("8 by the sections alone", |ticket, report| {
    refused(ticket, report, [true, true])
        && !sectioned(ticket)
        && report.given == ticket.bytes() / width(ticket)
});

pub const BY_SECTIONS_FIRST: Case = case!(
    "8 by the sections before the numbers of elements",
    |ticket, report| {
        refused(ticket, report, [true, true])
            && !sectioned(ticket)
            && report.given != ticket.bytes() / width(ticket)
    }
);

pub const IN_NUMBERS: Case = case!("8 by the numbers of elements", |ticket, report| {
    refused(ticket, report, [true, true]) && sectioned(ticket)
});

pub const IN_OTHER_SECTIONS: Case = case!("8 by another number of sections", |ticket, report| {
    refused(ticket, report, [true, true]) && sectioned(ticket) && report.given % 5 == 0
});

pub const NOTHING: Case = case!("nothing converted", |_, report| report.is_accepted()
    && report.count == 0);
