//! A vector that threads of this process grow, wait for and read, by a [`Seat`] each.

mod appender;
mod filling;
mod lent;
mod seat;

pub use appender::Appender;
pub use lent::{Iter, Pieces, View};
pub use seat::{Receipt, Seat};

use crate::error::{Error, ErrorKind, told};
use crate::options::{Options, name_of};
use crate::ranges::room_for;
use crate::raw::{
    BeginVector, RawVector, cvec_seat_borrow, cvec_seat_take, cvec_vector_change, cvec_vector_clear, cvec_vector_close,
    cvec_vector_compact, cvec_vector_create, cvec_vector_fold, cvec_vector_open, cvec_vector_open_or_create, cvec_vector_resize,
    cvec_vector_run_flusher, cvec_vector_settle, cvec_vector_settled, cvec_vector_start_flusher, cvec_vector_stop_flusher,
};
use crate::record::{Record, pointer_to};
use std::fmt;
use std::marker::PhantomData;
use std::path::Path;
use std::ptr;
use std::slice;
use std::sync::Arc;
use std::time::Duration;

/// A vector has at most so many records of C, and a growth so many bytes of them.
const MOST_KEPT: u64 = 1 << 32;
const LARGEST_GROWTH: usize = (1 << 20) - 8;

/// Of a wait, in milliseconds: as long as it takes.
const NO_LIMIT: u64 = u64::MAX;

/// As C counts it, rounded up.
fn milliseconds_of(time: Duration) -> u64 {
    u64::try_from(time.as_nanos().div_ceil(1_000_000)).unwrap_or(NO_LIMIT)
}

/// A durable vector of a file, which is locked until the vector is closed. Threads share it, and each takes a seat. A drop closes
/// it, and can't report what fails: `close` does.
///
/// What takes `&mut self` is of the whole vector: nothing that was lent is there then. It settles what was grown, and what it makes is
/// durable when it returns. `Memory` and `FileFull` lose nothing. Where a write or a sync failed all is `Broken` from then on, reads
/// too.
pub struct Vector<R: Record = u64> {
    /// Null once it is closed.
    raw: *mut RawVector,
    path: Arc<Path>,
    of: PhantomData<R>,
}

// SAFETY: C guards all that its calls on a vector have in common by a mutex, and any thread may make them. Records go anywhere.
unsafe impl<R: Record> Send for Vector<R> {}
// SAFETY: as above; the calls that want the vector alone take it by value, by `&mut` or on its drop. Records that are lent are
// shared by threads that take seats: they are `Sync`, as each record is, and nobody writes them while the vector is borrowed.
unsafe impl<R: Record> Sync for Vector<R> {}

/// How it begins.
impl<R: Record> Vector<R> {
    /// Makes a file of such records, of version 1, and a vector for 64 seats. Something that is there stays: `Exists`.
    pub fn create(path: impl AsRef<Path>) -> Result<Vector<R>, Error> {
        Vector::create_with(path, &Options::default())
    }

    /// The same, with all that can be chosen.
    pub fn create_with(path: impl AsRef<Path>, options: &Options) -> Result<Vector<R>, Error> {
        Vector::begun(path.as_ref(), options, cvec_vector_create)
    }

    /// Opens a file of such records that is there, and reads it. `Width`: its records have another width, or they are no whole
    /// ones of this type.
    pub fn open(path: impl AsRef<Path>) -> Result<Vector<R>, Error> {
        Vector::open_with(path, &Options::default())
    }

    /// The same, with all that can be chosen.
    pub fn open_with(path: impl AsRef<Path>, options: &Options) -> Result<Vector<R>, Error> {
        Vector::begun(path.as_ref(), options, cvec_vector_open)
    }

    /// Opens a file that is there, and makes one where there is none, or only what a stopped creation left.
    pub fn open_or_create(path: impl AsRef<Path>) -> Result<Vector<R>, Error> {
        Vector::open_or_create_with(path, &Options::default())
    }

    /// The same, with all that can be chosen.
    pub fn open_or_create_with(path: impl AsRef<Path>, options: &Options) -> Result<Vector<R>, Error> {
        Vector::begun(path.as_ref(), options, cvec_vector_open_or_create)
    }

    fn begun(path: &Path, options: &Options, begin: BeginVector) -> Result<Vector<R>, Error> {
        let (name, path) = name_of(path)?;
        let raw_options = options.raw(&path)?;
        options.opened(|| {
            let mut raw = ptr::null_mut();
            // SAFETY: the name ends with a zero, and lasts for the call, as do the options and the place for the pointer.
            told(unsafe { begin(&mut raw, name.as_ptr(), R::KEPT.number, &raw_options) }, &path)?;
            Vector { raw, path: path.clone(), of: PhantomData }.whole()
        })
    }

    fn whole(self) -> Result<Vector<R>, Error> {
        let are_whole = R::KEPT.count == 1 || R::KEPT.are_whole(self.seat()?.all_kept()?);
        if are_whole { Ok(self) } else { Err(Error::own(ErrorKind::Width, Some(&self.path))) }
    }

    /// The path by which it was opened.
    pub fn path(&self) -> &Path {
        &self.path
    }

    fn told(&self, status: u32) -> Result<(), Error> {
        told(status, &self.path)
    }
}

/// Seats, and waits by none.
impl<R: Record> Vector<R> {
    /// A seat, for one thread at a time. Who drops it leaves it to another. `NoSeat`: every seat is taken, or waited for.
    pub fn seat(&self) -> Result<Seat<'_, R>, Error> {
        let mut raw = ptr::null_mut();
        // SAFETY: the vector is open as long as `self` is there, and the place for the pointer lasts for the call.
        self.told(unsafe { cvec_seat_take(self.raw, &mut raw) })?;
        Ok(Seat { raw, of: self })
    }

    /// The same for threads that keep no seat: one for a call or a few, mostly that which this thread had last, without a lock then.
    /// It waits no longer than this for one that another thread drops: `Late`. Who has waited for a millisecond goes before who comes.
    /// So any number of threads work by the seats that there are.
    pub fn seat_within(&self, longest: Duration) -> Result<Seat<'_, R>, Error> {
        let mut raw = ptr::null_mut();
        // SAFETY: as above.
        self.told(unsafe { cvec_seat_borrow(self.raw, milliseconds_of(longest), &mut raw) })?;
        Ok(Seat { raw, of: self })
    }

    /// Waits until each growth is durable that had returned when it was called, of whichever seat. Who finds that nobody commits
    /// commits for all that wait.
    pub fn settle(&self) -> Result<(), Error> {
        // SAFETY: as above.
        self.told(unsafe { cvec_vector_settle(self.raw, NO_LIMIT) })
    }

    /// The same, but it waits for the commits of others no longer than this: `Late`.
    pub fn settle_for(&self, longest: Duration) -> Result<(), Error> {
        // SAFETY: as above.
        self.told(unsafe { cvec_vector_settle(self.raw, milliseconds_of(longest)) })
    }

    /// How many growths are durable, as the last commit that ended told: those with a lower number are.
    pub fn settled(&self) -> Result<u64, Error> {
        let mut count = 0;
        // SAFETY: as above.
        self.told(unsafe { cvec_vector_settled(self.raw, &mut count) })?;
        Ok(count)
    }

    /// Begins a thread of the library's own that commits what was grown this often (each millisecond at most), until `stop_flusher`,
    /// the close, or a commit that is refused for good. `Memory`: the system makes no thread.
    pub fn start_flusher(&self, every: Duration) -> Result<(), Error> {
        // SAFETY: as above; it ends before the vector does.
        self.told(unsafe { cvec_vector_start_flusher(self.raw, milliseconds_of(every).max(1)) })
    }

    /// For a thread of the caller's, which takes no seat: commits what was grown, and so again and again, this long (at least a
    /// millisecond) behind the last time, until `stop_flusher`. An error is that of a commit that was refused, which ends it.
    pub fn run_flusher(&self, every: Duration) -> Result<(), Error> {
        // SAFETY: as above.
        self.told(unsafe { cvec_vector_run_flusher(self.raw, milliseconds_of(every)) })
    }

    /// Ends the loops of flushers, each that is begun later too. It doesn't wait for them.
    pub fn stop_flusher(&self) -> Result<(), Error> {
        // SAFETY: as above.
        self.told(unsafe { cvec_vector_stop_flusher(self.raw) })
    }
}

/// The whole vector, and its end.
impl<R: Record> Vector<R> {
    /// Writes these records over those from position `start` on: all of them or none, also over a crash. `OutOfRange`: the vector
    /// doesn't reach so far; `TooLarge`.
    pub fn change(&mut self, start: u64, records: &[R]) -> Result<(), Error> {
        let kept = R::KEPT;
        // SAFETY: the vector is open; the pointer and the length are those of one slice, whose records are kept as those of its type.
        self.told(unsafe { cvec_vector_change(self.raw, kept.number, kept.first(start), pointer_to(records), kept.all(records.len())) })
    }

    /// Takes the records behind the first `size` away, or appends copies of this one. `Unfolded`, where it takes some away;
    /// `OutOfRange`, past 2^32 records; `TooLarge`.
    pub fn resize(&mut self, size: u64, record: R) -> Result<(), Error> {
        let kept = R::KEPT;
        if kept.count > 1 {
            let len = self.seat()?.len()?;
            if size > len {
                return self.append(size, len, record);
            }
        }
        // SAFETY: as above; the record lasts for the call, and of one that is kept as several none is appended.
        self.told(unsafe { cvec_vector_resize(self.raw, kept.number, kept.first(size), pointer_to(slice::from_ref(&record))) })
    }

    /// Copies of a record that C has no one for, up to this size: as one growth, for which there is room behind a `compact`.
    fn append(&mut self, size: u64, len: u64, record: R) -> Result<(), Error> {
        if R::KEPT.first(size) > MOST_KEPT {
            return Err(Error::own(ErrorKind::OutOfRange, Some(&self.path)));
        }
        let count = (size - len) as usize;
        if count * size_of::<R>() > LARGEST_GROWTH {
            return Err(Error::own(ErrorKind::TooLarge, Some(&self.path)));
        }
        let mut copies = room_for(count, &self.path)?;
        copies.resize(count, record);
        self.compact()?;
        let seat = self.seat()?;
        seat.settle(&seat.grow(&copies)?)
    }

    /// Takes all records away. `Unfolded`.
    pub fn clear(&mut self) -> Result<(), Error> {
        // SAFETY: as above.
        self.told(unsafe { cvec_vector_clear(self.raw) })
    }

    /// Writes what was changed to its place in the file: a write for each record, after which the vector may become shorter.
    pub fn fold(&mut self) -> Result<(), Error> {
        // SAFETY: as above.
        self.told(unsafe { cvec_vector_fold(self.raw) })
    }

    /// Settles what was grown, and puts the records of the growths since the last call of the whole vector behind one another:
    /// afterwards they take no more memory than themselves, and the vector takes as many growths as a new one.
    pub fn compact(&mut self) -> Result<(), Error> {
        // SAFETY: as above.
        self.told(unsafe { cvec_vector_compact(self.raw) })
    }

    /// Commits what was grown, and closes the file. An error says that growths nobody has settled may be lost; the vector is gone
    /// then too, but for `Busy`. In a forked process it lets go of the file alone, and is `Forked`.
    pub fn close(mut self) -> Result<(), Error> {
        let status = self.end();
        self.told(status)
    }

    /// Closes it where it isn't yet, and answers what C does.
    fn end(&mut self) -> u32 {
        // SAFETY: no seat is there, since each borrows the vector; C refuses it while one is forgotten. It makes the pointer null, and
        // refuses that.
        unsafe { cvec_vector_close(&mut self.raw) }
    }
}

impl<R: Record> Drop for Vector<R> {
    fn drop(&mut self) {
        self.end();
    }
}

impl<R: Record> fmt::Debug for Vector<R> {
    fn fmt(&self, f: &mut fmt::Formatter<'_>) -> fmt::Result {
        f.debug_struct("Vector").field("path", &self.path).finish_non_exhaustive()
    }
}
