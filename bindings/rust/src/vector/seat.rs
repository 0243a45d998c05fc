//! What one thread grows, waits and reads by.

use super::{Appender, LARGEST_GROWTH, NO_LIMIT, Vector, milliseconds_of};
use crate::error::{Error, ErrorKind};
use crate::ranges::{count_of, ends_of, room_for};
use crate::raw::{
    RawReceipt, RawSeat, cvec_seat_at, cvec_seat_close, cvec_seat_count, cvec_seat_find, cvec_seat_grow, cvec_seat_read, cvec_seat_settle,
    cvec_seat_settled, cvec_seat_size,
};
use crate::record::{Record, bytes_of, pointer_to};
use std::fmt;
use std::mem::MaybeUninit;
use std::ops::RangeBounds;
use std::slice;
use std::time::Duration;

/// So many records are copied at once where C can't search for one.
const SEARCHED_AT_ONCE: usize = 1024;

/// Where a growth stands, as long as the vector is open, and until its records are taken away.
#[derive(Clone, Copy, Debug, PartialEq, Eq, Hash)]
pub struct Receipt {
    /// How many growths since the vector was opened stand before it.
    pub number: u64,
    /// The position of its first record.
    pub start: u64,
    /// How many records it has.
    pub length: u64,
}

impl RawReceipt {
    pub(super) fn of<R: Record>(&self) -> Receipt {
        Receipt { number: self.number, start: R::KEPT.whole(self.start), length: R::KEPT.whole(self.len) }
    }
}

/// What one thread grows, waits and reads by. It may go to another thread, but two can't share it.
pub struct Seat<'v, R: Record = u64> {
    pub(super) raw: *mut RawSeat,
    pub(super) of: &'v Vector<R>,
}

// SAFETY: C keeps nothing of the thread that took it: its memory is malloc's, and its calls are those of any one thread. It isn't
// `Sync`, as its pointer isn't: so neither `Pieces` nor an `Appender`, which borrow it, go to another thread. What it lends is
// borrowed of the vector alone, and does.
unsafe impl<R: Record> Send for Seat<'_, R> {}

impl<'v, R: Record> Seat<'v, R> {
    pub(super) fn told(&self, status: u32) -> Result<(), Error> {
        self.of.told(status)
    }

    /// Grows by copies of these records, as one block behind all that was grown before: all of them are in the vector, in a row,
    /// or none. Others read them when it returns; they are durable once they are settled. Where the room of the phase is used up
    /// (`Options::growths`) it settles all that was grown, while other calls wait; or, where records were lent, it is `Full`.
    pub fn grow(&self, records: &[R]) -> Result<Receipt, Error> {
        let (kept, mut receipt) = (R::KEPT, RawReceipt::default());
        // SAFETY: the seat is open as long as `self` is there, and in one call; the pointer and the length are those of one slice,
        // whose records are kept as those of the vector's type.
        self.told(unsafe { cvec_seat_grow(self.raw, kept.number, pointer_to(records), kept.all(records.len()), &mut receipt) })?;
        Ok(receipt.of::<R>())
    }

    /// Grows by any number of records: by as many growths as they take, each as large as one may be, between which those of other
    /// threads may stand. It answers their receipts in order: once the last one is settled all are. Refused, those from before stand,
    /// and [`Error::taken`] says how many records these have.
    pub fn grow_all(&self, records: &[R]) -> Result<Vec<Receipt>, Error> {
        let blocks = records.chunks(LARGEST_GROWTH / R::KEPT.bytes);
        let mut receipts = room_for::<Receipt>(blocks.len(), &self.of.path)?;
        for block in blocks {
            let taken = receipts.iter().map(|it| it.length).sum();
            receipts.push(self.grow(block).map_err(|it| it.behind(taken))?);
        }
        Ok(receipts)
    }

    /// Waits until this growth, and each before it, is durable. Who finds that nobody commits commits for all that wait.
    pub fn settle(&self, receipt: &Receipt) -> Result<(), Error> {
        // SAFETY: as above.
        self.told(unsafe { cvec_seat_settle(self.raw, receipt.number, NO_LIMIT) })
    }

    /// The same, but it waits for the commits of others no longer than this: `Late`. With no time at all it commits where nobody
    /// does, and else only looks.
    pub fn settle_for(&self, receipt: &Receipt, longest: Duration) -> Result<(), Error> {
        // SAFETY: as above.
        self.told(unsafe { cvec_seat_settle(self.raw, receipt.number, milliseconds_of(longest)) })
    }

    /// How many growths are durable: those with a lower number are. It doesn't wait.
    pub fn settled(&self) -> Result<u64, Error> {
        let mut count = 0;
        // SAFETY: as above.
        self.told(unsafe { cvec_seat_settled(self.raw, &mut count) })?;
        Ok(count)
    }

    /// How many records there are, durable or not.
    pub fn len(&self) -> Result<u64, Error> {
        Ok(R::KEPT.whole(self.all_kept()?))
    }

    /// How many these are of C's.
    pub(super) fn all_kept(&self) -> Result<u64, Error> {
        let mut size = 0;
        // SAFETY: as above.
        self.told(unsafe { cvec_seat_size(self.raw, &mut size) })?;
        Ok(size)
    }

    /// Whether there is no record.
    pub fn is_empty(&self) -> Result<bool, Error> {
        Ok(self.len()? == 0)
    }

    /// Copies the records of these positions, as far as the vector reaches.
    pub fn read(&self, range: impl RangeBounds<u64>) -> Result<Vec<R>, Error> {
        let (from, to) = ends_of(range);
        let room = count_of(from, to.min(self.len()?));
        let mut out = room_for(room, &self.of.path)?;
        // SAFETY: there is room for so many, and so many of them are written.
        unsafe {
            let count = self.copy(from, out.as_mut_ptr(), room)?;
            out.set_len(count);
        }
        Ok(out)
    }

    /// Copies the records from a position on over the front of `out`, as far as it and the vector reach, and answers how many.
    pub fn read_into(&self, from: u64, out: &mut [R]) -> Result<usize, Error> {
        // SAFETY: `out` is this call's alone, and has room for so many.
        unsafe { self.copy(from, out.as_mut_ptr(), out.len()) }
    }

    /// Copies records to this place, and answers how many.
    ///
    /// # Safety
    /// There is room for so many, and nobody else has it.
    unsafe fn copy(&self, from: u64, out: *mut R, room: usize) -> Result<usize, Error> {
        let (kept, mut count) = (R::KEPT, 0);
        // SAFETY: as above and below; a flag is written as 0 or 1.
        self.told(unsafe { cvec_seat_read(self.raw, kept.number, kept.first(from), out.cast(), kept.all(room), &mut count) })?;
        Ok(kept.whole(count) as usize)
    }

    /// A copy of the record at this position, durable or not. `None` past the end.
    pub fn at(&self, position: u64) -> Result<Option<R>, Error> {
        let mut record = MaybeUninit::<R>::uninit();
        if R::KEPT.count > 1 {
            // SAFETY: it has room for one. Written, it is one.
            return unsafe { Ok((self.copy(position, record.as_mut_ptr(), 1)? == 1).then(|| record.assume_init())) };
        }
        // SAFETY: as above; C has one record for it, and writes it unless it refuses the call.
        match self.told(unsafe { cvec_seat_at(self.raw, R::KEPT.number, position, record.as_mut_ptr().cast()) }) {
            Err(refusal) if refusal.kind() == ErrorKind::OutOfRange => Ok(None),
            // SAFETY: it was written.
            answer => answer.map(|()| Some(unsafe { record.assume_init() })),
        }
    }

    /// How many of the records that there are when it is called equal this one, byte by byte.
    pub fn count(&self, record: R) -> Result<u64, Error> {
        let (sought, mut count) = (slice::from_ref(&record), 0);
        if R::KEPT.count > 1 {
            self.search(0, sought, |_| {
                count += 1;
                false
            })?;
            return Ok(count);
        }
        // SAFETY: as above; the record and the place for the count last for the call.
        self.told(unsafe { cvec_seat_count(self.raw, R::KEPT.number, pointer_to(sought), &mut count) })?;
        Ok(count)
    }

    /// The first position from `from` on that has this record, byte by byte, of those that there are when it is called.
    pub fn find(&self, record: R, from: u64) -> Result<Option<u64>, Error> {
        let (sought, len, mut found) = (slice::from_ref(&record), self.len()?, u64::MAX);
        if R::KEPT.count > 1 {
            self.search(from, sought, |position| {
                found = position;
                true
            })?;
        } else {
            // SAFETY: as above. Where there is none it answers how many there are, which then aren't fewer.
            self.told(unsafe { cvec_seat_find(self.raw, R::KEPT.number, pointer_to(sought), from, &mut found) })?;
        }
        Ok((found < len).then_some(found))
    }

    /// Passes on the position of each record from `from` on that equals this one, which is kept as several, until `ends` answers
    /// so. Copies are looked at, since what is lent would keep the phase from being renewed.
    fn search(&self, from: u64, sought: &[R], mut ends: impl FnMut(u64) -> bool) -> Result<(), Error> {
        let (len, wanted, mut next) = (self.len()?, bytes_of(sought), from);
        let mut some = room_for(SEARCHED_AT_ONCE, &self.of.path)?;
        some.resize(SEARCHED_AT_ONCE, sought[0]);
        while next < len {
            let count = self.read_into(next, &mut some)?;
            let mut all = (next..len).zip(bytes_of(&some[..count]).chunks_exact(wanted.len()));
            if all.any(|it| it.1 == wanted && ends(it.0)) {
                break;
            }
            next += count as u64;
        }
        Ok(())
    }

    /// Gathers single records into blocks of so many. `Empty`: 0 are none; `Memory`.
    pub fn appender(&self, capacity: usize) -> Result<Appender<'_, 'v, R>, Error> {
        Appender::of(self, capacity)
    }
}

impl<R: Record> Drop for Seat<'_, R> {
    fn drop(&mut self) {
        // SAFETY: it is in no call, and closed once, or given back; C refuses it in a forked process.
        unsafe { cvec_seat_close(&mut self.raw) };
    }
}

impl<R: Record> fmt::Debug for Seat<'_, R> {
    fn fmt(&self, f: &mut fmt::Formatter<'_>) -> fmt::Result {
        f.debug_struct("Seat").field("of", self.of).finish()
    }
}
