//! What serves every kind: the tickets, both sides, the comparison and what is drawn, told, listed and timed.

pub mod asked;
pub mod bench;
pub mod cases;
pub mod compare;
pub mod designers;
pub mod draw;
pub mod exact;
pub mod faults;
pub mod inputs;
pub mod kinds;
pub mod large;
pub mod lent;
pub mod list;
pub mod port;
pub mod random;
pub mod report;
pub mod rust_lent;
pub mod smoke;
pub mod tickets;
pub mod totals;
