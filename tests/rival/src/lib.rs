//! The check and the run of a job, the dealing of its turns, the tidying of a charge file, and the pricing of a switch's log, in safe Rust, tuned for
//! time: what the library's time is held against. For measuring, not for use.
//!
//! What makes it fast:
//!
//! - a check of one pass that says only yes or no (`check`); where it says no, the refusal is looked for row by row (`exact`);
//! - every table of a run is a view of the lent memory with a fixed size and byte-wide numbers, so that few indices are tested
//!   (`tables`), and the length of a page is a constant of the compiled code (`header::by_length`);
//! - the pseudo key of a call is worked out once for each operation, on its first turn, and of a record once for each split of its page; the check, which
//!   needs those of all records, works out two at a time (`key::of_record`);
//! - a turn that waits, or that is of a finished operation, is one test (`tables::FREE`);
//! - which pages are left after joining is read off counts, and each is written once (`tidy`);
//! - for whom turns are dealt is kept in sets of bits, so that nobody who waits or has finished is passed over round after round (`deal`);
//! - a band is made ready once, so that no record of a log is looked for in the tariff or divided by a unit (`price`).
//!
//! A mask on an index or a shift, as in `count & 15`, changes nothing: it spares a test that the compiler would put in.
#![forbid(unsafe_code)]

mod bytes;
mod check;
mod deal;
mod exact;
mod header;
mod held;
mod key;
mod log;
mod operation;
mod page;
mod pieces;
mod price;
mod result;
mod run;
mod search;
mod split;
mod tables;
mod tidy;

pub use check::check;
pub use deal::deal;
pub use operation::Row;
pub use price::price;
pub use run::run;
pub use tidy::tidy;

/// What a refused call gets: number and place.
pub type Refusal = (u32, usize);
