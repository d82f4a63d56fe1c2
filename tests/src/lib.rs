//! A second implementation of "The charge file and its turns", for tests only.
//!
//! It was written from the documents alone, so that a mistake in the library
//! and a mistake here are unlikely to be the same mistake. Where the document
//! leaves the manner open, this crate takes the plain way of the paper behind
//! it: an insert works out its whole split once, in a private work space, and
//! then only carries out what stands there.
//!
//! The calls a test needs:
//!
//! - [`check`]: the refusal of a job by its bytes, every row that is about them alone, or `None`;
//! - [`run`]: the result bytes, or the refusal, by every row;
//! - [`run::result_bytes`]: the result bytes of a job that is sound;
//! - [`result::answer_bytes`]: the bytes of its answers;
//! - [`report`]: what `chargelog` prints;
//! - [`tidy`]: the bytes of a tidied charge file, or the refusal;
//! - [`deal`]: the bytes of a job with turns dealt for it, or the refusal;
//! - [`price`]: the inserts of a switch's log at their charges, or the refusal;
//! - [`page::Page`] and [`split`]: find, add, remove and split a page;
//! - [`make`], [`damage`], [`damage_pages`], [`damage_records`] and [`seeds`]:
//!   random jobs, damaged jobs, and seeds that can be repeated;
//! - [`make_thin`] and [`make_months`]: random files with thin pages, and jobs
//!   that begin from the file that another has left;
//! - [`make_asked`] and [`make_few_calls`]: the charges that random deletes ask
//!   for, and random jobs whose operations all go for a few calls at a few
//!   charges;
//! - [`one_key`]: calls that share their whole pseudo key, for these and for tests
//!   of their own;
//! - [`make_most_turns`] and [`bounds`]: jobs whose operations use as many turns as
//!   they can, and how many that is;
//! - [`make_rounds`] and [`rounds`]: jobs in which many operations want one page, and
//!   rounds of turns that finish everybody, however badly they are dealt;
//! - [`make_tariff`]: random tariffs and switch's logs, and damaged ones;
//! - [`by_hand`]: small jobs made by hand, with what their result says;
//! - [`vectors`]: the stored jobs and files, with what is wanted of them;
//! - [`tally`] and [`asked`]: how often each number of refusal was met, and each
//!   way in which a delete's charge stands to the file's;
//! - [`explain`]: whether a log explains its answers by the plain list.

pub mod answer;
pub mod asked;
pub mod bounds;
pub mod by_hand;
pub mod check;
pub mod damage;
pub mod damage_pages;
pub mod damage_records;
pub mod deal;
pub mod examples;
pub mod examples_parts;
pub mod examples_priced;
pub mod examples_refused;
pub mod explain;
pub mod file;
pub mod job;
pub mod key;
pub mod little_endian;
pub mod make;
pub mod make_asked;
pub mod make_few_calls;
pub mod make_months;
pub mod make_most_turns;
pub mod make_rounds;
pub mod make_tariff;
pub mod make_thin;
pub mod make_turns;
pub mod one_key;
pub mod page;
pub mod plain_list;
pub mod random;
pub mod report;
pub mod result;
pub mod rounds;
pub mod run;
pub mod seeds;
pub mod shared;
pub mod split;
pub mod tally;
pub mod tariff;
pub mod tidy;
pub mod turn;
pub mod vectors;

pub use check::check;
pub use deal::deal;
pub use report::report;
pub use run::{run, Outcome};
pub use tariff::price;
pub use tidy::tidy;
