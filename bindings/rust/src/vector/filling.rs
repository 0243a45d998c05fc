//! Growth in place: the caller writes records where they will stand, and the vector grows by them without a copy.

use super::{Receipt, Seat};
use crate::error::{Error, ErrorKind};
use crate::raw::{RawReceipt, cvec_seat_block, cvec_seat_drop, cvec_seat_publish};
use crate::record::Record;
use std::mem;
use std::ptr::{self, NonNull};

impl<R: Record> Seat<'_, R> {
    /// Grows by so many records, which `fill` writes where they will stand: without a copy, else as `grow`. They are zero at first,
    /// and nobody reads them before all are in the vector. Where it is refused, or `fill` panics, nothing was grown, and what was
    /// written is gone. `Filling`: `fill` makes another such growth by this seat. Other calls it may make. The records stay where
    /// they are, so that phase isn't renewed: it is `Full` as one of which records were lent.
    pub fn grow_with(&self, count: usize, fill: impl FnOnce(&mut [R])) -> Result<Receipt, Error> {
        self.try_grow_with(count, |records| {
            fill(records);
            Ok(())
        })
    }

    /// The same by what may fail: where `fill` answers an error that is the answer, and nothing was grown.
    pub fn try_grow_with<E: From<Error>>(&self, count: usize, fill: impl FnOnce(&mut [R]) -> Result<(), E>) -> Result<Receipt, E> {
        let mut block = Block::of(self, count)?;
        fill(block.records())?;
        Ok(block.publish()?)
    }
}

/// Records that C has lent to be written. A drop gives them up.
struct Block<'s, 'v, R: Record> {
    seat: &'s Seat<'v, R>,
    records: NonNull<R>,
    count: usize,
}

impl<'s, 'v, R: Record> Block<'s, 'v, R> {
    /// Where the seat has a block, C refuses another one.
    fn of(seat: &'s Seat<'v, R>, count: usize) -> Result<Self, Error> {
        let (all, mut records) = (R::KEPT.all(count), ptr::null_mut());
        // SAFETY: the seat is open as long as `seat` is borrowed, and in one call; the place for the pointer lasts for it.
        match seat.told(unsafe { cvec_seat_block(seat.raw, all, &mut records) }) {
            Err(refusal) if refusal.kind() == ErrorKind::NoSeat => Err(Error::own(ErrorKind::Filling, Some(&seat.of.path))),
            Err(refusal) => Err(refusal),
            Ok(()) => {
                let records = NonNull::new(records.cast()).ok_or_else(|| Error::own(ErrorKind::Memory, Some(&seat.of.path)))?;
                Ok(Block { seat, records, count })
            }
        }
    }

    fn records(&mut self) -> &mut [R] {
        // SAFETY: C has lent room for so many, aligned to its type of them, which is nobody else's until the block is published or
        // dropped. It is zero at first, which is a record of any type.
        unsafe { std::slice::from_raw_parts_mut(self.records.as_ptr(), self.count) }
    }

    /// Where it is refused C has the block as before, and the drop gives it up.
    fn publish(self) -> Result<Receipt, Error> {
        let mut receipt = RawReceipt::default();
        // SAFETY: as above; no reference to the records is there any more.
        self.seat.told(unsafe { cvec_seat_publish(self.seat.raw, &mut receipt) })?;
        mem::forget(self);
        Ok(receipt.of::<R>())
    }
}

impl<R: Record> Drop for Block<'_, '_, R> {
    fn drop(&mut self) {
        // SAFETY: as above. In a forked process C refuses it.
        unsafe { cvec_seat_drop(self.seat.raw) };
    }
}
