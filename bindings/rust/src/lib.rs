//! livevec: a growable vector of 64-bit numbers for programs that keep asking it about ranges.
//!
//! The library is written and proved in Rattle. This crate binds its C form, `liblivevec.a`; `build.rs` says where it is looked for.
//! The library's calls are proved, the crate over them is tested.
//!
//! A [`Vector`] is edited by one thread at a time. A [`Board`] is for several at once, without a lock, of elements of 16 bits.
//! A [`Series`] goes on: its elements and edits are bounded by memory alone, and its front may expire.
//! [`Samples`] are such values with times, for windows of time.
//! [`Queries`] are names for questions, and tell which answers have changed.
//! A [`Shared`] vector, series or samples are for several threads, by a lock; they have subscribers to such answers, and a vector has workers.
//! A [`Summary`] is what a list comes to, as bytes that travel between processes and machines, and are joined there.
//!
//! ```
//! use livevec::Vector;
//!
//! fn main() -> Result<(), livevec::Refusal> {
//!     let mut prices = Vector::new()?;
//!     prices.extend_from_slice(&[300, 120, 500, 80])?;
//!     prices.write(0, 180)?;
//!     let all = prices.ask(..)?;
//!     assert_eq!((all.edit, all.values.sum, all.values.least), (5, 880, Some(80)));
//!     Ok(())
//! }
//! ```
#![warn(missing_docs, missing_debug_implementations)]
#![deny(unsafe_code)]

#[cfg(not(target_pointer_width = "64"))]
compile_error!("livevec is for targets of 64 bits: there each index and each length is a usize");

mod blocks;
mod board;
mod columns;
mod elements;
mod indices;
mod jobs;
mod kinds;
mod like_vec;
mod limits;
mod many;
mod places;
mod queries;
mod questions;
#[allow(unsafe_code)]
mod raw;
mod refusal;
mod samples;
mod samples_like_vec;
mod saved;
mod scans;
pub mod series;
mod series_edits;
mod series_kinds;
mod series_lent;
mod series_like_vec;
mod series_places;
mod series_scans;
mod shared;
mod shared_lock;
mod shared_series;
mod shared_subscriber;
mod shared_sweep;
mod shared_workers;
mod subtrees;
mod summary;
mod totals;
mod transcripts;
mod values;
mod vector;

/// The version of this crate, and of the library to which it belongs.
pub const VERSION: &str = env!("CARGO_PKG_VERSION");

/// The version of the library that is linked. If it was built without its proofs, `" (not proved)"` follows.
///
/// ```
/// assert!(livevec::library_version().starts_with(livevec::VERSION));
/// ```
pub fn library_version() -> &'static str {
    raw::version()
}

pub use blocks::{Batch, BatchOutcome, Taken};
pub use board::{Board, Closed, NotClosed, Refreshed, Seat, Told};
pub use columns::{Column, Filled, by};
pub use elements::{Elements, IntoElements, Through};
pub use indices::{AsIndex, Indices};
pub use jobs::{Job, Outcome};
pub use kinds::{Kind, UnknownKind, Value};
pub use limits::Limits;
pub use places::{BestRun, Placed};
pub use queries::{Answered, Note, Queries, Query};
pub use refusal::Refusal;
pub use samples::{Sample, Samples};
pub use samples_like_vec::Timed;
pub use scans::{Beginnings, Scan};
pub use series::Series;
pub use shared::{Shared, Sharing};
pub use shared_subscriber::Subscriber;
pub use subtrees::{Subtree, SubtreeOutcome};
pub use summary::Summary;
pub use transcripts::{FrontVerdict, NotRestored, Recorded, Verdict};
#[allow(deprecated)]
pub use values::Stopped;
pub use values::{Accepted, Edit, Node, Popped, Pushed, Reduced, RefusedAt, Reserved, Swapped, Truncated, Values, Written};
pub use vector::Vector;

/// The program on the crate's page runs as one of the tests.
#[cfg(doctest)]
#[doc = include_str!("../README.md")]
struct Page;
