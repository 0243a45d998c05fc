//! Durable vectors in files, from plain Rust: `std` alone is used, over libcvec.a (docs/use/install.md says how it is built and
//! linked), and C calls no function of this crate back.
//!
//! | Take | where |
//! |---|---|
//! | [`Vector`] | threads of one process grow one vector, and read what others grew |
//! | [`File`] | one process appends by one thread, and others read beside it |
//!
//! ```no_run
//! use cvec::{Error, Vector};
//! use std::thread;
//!
//! # fn main() -> Result<(), Error> {
//! let vector = &Vector::<u64>::open_or_create("numbers.cvec")?;
//! let grow = |name: u64| {
//!     let seat = vector.seat()?; // one for each thread
//!     let receipt = seat.grow(&[name, name + 100])?; // in the vector, in one row
//!     seat.settle(&receipt) // durable when it returns
//! };
//! thread::scope(|scope| {
//!     let threads: Vec<_> = (0..4).map(|name| scope.spawn(move || grow(name))).collect();
//!     threads.into_iter().try_for_each(|it| it.join().expect("no thread panics"))
//! })?;
//! for record in &vector.seat()?.view()? {
//!     println!("{record}"); // where it stands, without a copy
//! }
//! # Ok(())
//! # }
//! ```
//!
//! Records are numbers, [`Pair`], [`Flagged`], arrays of bytes, or structs that [`record!`] writes. An [`Error`] names the file.
#![deny(unsafe_op_in_unsafe_fn)]
#![warn(missing_docs)]

mod error;
pub mod file;
mod options;
mod ranges;
mod raw;
mod record;
pub mod vector;

pub use error::{Error, ErrorKind};
pub use file::{Fault, File, Frame, Stat, check, frame_at};
pub use options::{MOST_SEATS, Options, Version};
pub use record::{Bytes, Flagged, Pair, Plain, Record};
pub use vector::{Appender, Pieces, Receipt, Seat, Vector, View};
