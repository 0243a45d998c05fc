//! Single records, gathered into growths.

use super::{Receipt, Seat};
use crate::error::{Error, ErrorKind};
use crate::ranges::room_for;
use crate::record::Record;
use std::fmt;

/// Single records, kept until there are as many as a block has: then the vector grows by them. Nobody reads what is kept. A drop
/// grows by the rest, and can't report what fails: `flush` does.
///
/// They are kept here and not in the seat of C (`cvec_seat_push`): one that C keeps as several has to be kept whole or not at all.
pub struct Appender<'s, 'v, R: Record = u64> {
    seat: &'s Seat<'v, R>,
    kept: Vec<R>,
    capacity: usize,
}

impl<'s, 'v, R: Record> Appender<'s, 'v, R> {
    pub(super) fn of(seat: &'s Seat<'v, R>, capacity: usize) -> Result<Self, Error> {
        if capacity == 0 {
            return Err(Error::own(ErrorKind::Empty, Some(&seat.of.path)));
        }
        Ok(Appender { seat, kept: room_for(capacity, &seat.of.path)?, capacity })
    }

    /// Keeps the record. Where as many are kept as fit, it grows by those first, and answers their receipt; where that is refused
    /// the record isn't kept, and the others stay.
    pub fn push(&mut self, record: R) -> Result<Option<Receipt>, Error> {
        let receipt = if self.kept.len() == self.capacity { self.flush()? } else { None };
        self.kept.push(record);
        Ok(receipt)
    }

    /// Keeps each of these in turn. Refused, the first ones are in the vector or kept, and [`Error::taken`] says how many.
    pub fn extend(&mut self, records: impl IntoIterator<Item = R>) -> Result<(), Error> {
        for (taken, record) in (0..).zip(records) {
            self.push(record).map_err(|it| it.behind(taken))?;
        }
        Ok(())
    }

    /// Grows by what is kept, as one block; `None` where that is nothing. Refused, all of it stays kept.
    pub fn flush(&mut self) -> Result<Option<Receipt>, Error> {
        if self.kept.is_empty() {
            return Ok(None);
        }
        let receipt = self.seat.grow(&self.kept)?;
        self.kept.clear();
        Ok(Some(receipt))
    }

    /// What is kept, in order.
    pub fn kept(&self) -> &[R] {
        &self.kept
    }
}

impl<R: Record> Drop for Appender<'_, '_, R> {
    fn drop(&mut self) {
        let _ = self.flush();
    }
}

impl<R: Record> fmt::Debug for Appender<'_, '_, R> {
    fn fmt(&self, f: &mut fmt::Formatter<'_>) -> fmt::Result {
        f.debug_struct("Appender").field("seat", self.seat).field("kept", &self.kept.len()).finish_non_exhaustive()
    }
}
