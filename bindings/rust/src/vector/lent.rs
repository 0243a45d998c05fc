//! Records of a vector that are lent where they stand, without a copy, for as long as the vector is borrowed.
//!
//! C moves and writes no record of a phase of which some were lent until a call of the whole vector begins, or its close. Those take
//! the vector by `&mut`, by value or on its drop. So what is lent for `'v` is borrowed of the vector, and not of a seat: seats come
//! and go, and threads grow meanwhile.

use super::{Seat, Vector};
use crate::error::{Error, ErrorKind};
use crate::raw::{RawPiece, cvec_seat_pieces};
use crate::record::Record;
use std::fmt;
use std::iter::Flatten;
use std::marker::PhantomData;
use std::ops::Index;
use std::ptr;
use std::slice;

const NO_PIECE: RawPiece = RawPiece { start: 0, records: ptr::null(), len: 0 };

/// How many pieces are asked for at once.
const PIECES_AT_ONCE: usize = 64;

/// The records of a piece.
///
/// # Safety
/// C has lent it of a vector of such records that is borrowed for `'v`.
unsafe fn lent<'v, R: Record>(piece: &RawPiece) -> &'v [R] {
    // SAFETY: C lends no piece without records, nor one at NULL, and until the borrow ends nothing moves or writes them. They are
    // aligned to C's type, which is as much as a record may be; whole, since each growth and the file that was opened are; and of
    // bytes that are all set, of which any are a value, or, of `Flagged`, with a flag that is 0 or 1.
    unsafe { slice::from_raw_parts(piece.records.cast(), R::KEPT.whole(piece.len) as usize) }
}

impl<'v, R: Record> Seat<'v, R> {
    /// Fills the front of `out` with the pieces from position `start` on, and answers how many.
    fn ask(&self, start: u64, out: &mut [RawPiece]) -> Result<usize, Error> {
        let mut count = 0;
        // SAFETY: the seat is open as long as `self` is there, and in one call; the pointer and the room are those of one slice.
        self.told(unsafe { cvec_seat_pieces(self.raw, R::KEPT.first(start), out.as_mut_ptr(), out.len(), &mut count) })?;
        Ok(count)
    }

    /// The records from position `start` on as far as they stand behind one another in memory, durable or not, without a copy.
    /// `None` past the end. What is lent stays while threads grow, and when this seat is gone: until the vector is changed,
    /// resized, cleared, folded, compacted or closed, which the compiler refuses while it is used.
    pub fn piece(&self, start: u64) -> Result<Option<&'v [R]>, Error> {
        let mut piece = [NO_PIECE];
        let count = self.ask(start, &mut piece)?;
        // SAFETY: C has lent it.
        Ok((count > 0).then(|| unsafe { lent(&piece[0]) }))
    }

    /// All records from position `start` on, piece by piece, as `piece` lends them: those that there are when C is asked, which is
    /// once for some pieces.
    pub fn pieces(&self, start: u64) -> Pieces<'_, 'v, R> {
        Pieces { seat: self, next: start, asked: [NO_PIECE; PIECES_AT_ONCE], count: 0, given: 0, ended: false, of: PhantomData }
    }

    /// All records that there are, lent, to be looked at by position without a call.
    pub fn view(&self) -> Result<View<'v, R>, Error> {
        let mut view = View { of: self.of, pieces: Vec::new(), table: Vec::new(), shift: 0, len: 0 };
        view.learn(self)?;
        Ok(view)
    }
}

/// Pieces of a vector's records, lent in order. An `Err` is the last item.
pub struct Pieces<'s, 'v, R: Record = u64> {
    seat: &'s Seat<'v, R>,
    next: u64,
    asked: [RawPiece; PIECES_AT_ONCE],
    count: usize,
    given: usize,
    ended: bool,
    of: PhantomData<&'v [R]>,
}

impl<R: Record> Pieces<'_, '_, R> {
    /// Fewer than there is room for are all.
    fn go_on(&mut self) -> Result<(), Error> {
        self.count = self.seat.ask(self.next, &mut self.asked)?;
        self.given = 0;
        self.ended = self.count < PIECES_AT_ONCE;
        Ok(())
    }
}

impl<'v, R: Record> Iterator for Pieces<'_, 'v, R> {
    type Item = Result<&'v [R], Error>;

    fn next(&mut self) -> Option<Self::Item> {
        let asked = if self.given == self.count && !self.ended { self.go_on() } else { Ok(()) };
        if let Err(refusal) = asked {
            (self.count, self.given, self.ended) = (0, 0, true);
            return Some(Err(refusal));
        }
        let piece = self.asked[..self.count].get(self.given)?;
        self.given += 1;
        // SAFETY: C has lent it.
        let records: &'v [R] = unsafe { lent(piece) };
        self.next += records.len() as u64;
        Some(Ok(records))
    }
}

/// Records that stand behind one another, and the position of the first.
pub struct Piece<'v, R> {
    start: u64,
    records: &'v [R],
}

/// The records that a vector had when it was last asked, lent: `view[k]` is the one at position `k`, by no call and no lock. As that
/// of a slice, its length is known, and only a position past it panics; `get` answers `None` there. What is grown later it has once
/// it has learned that. Threads may share it.
pub struct View<'v, R: Record = u64> {
    of: &'v Vector<R>,
    pieces: Vec<Piece<'v, R>>,
    /// For each `1 << shift` positions the number of the piece that has the first one.
    table: Vec<u32>,
    shift: u32,
    len: u64,
}

impl<'v, R: Record> View<'v, R> {
    /// How many records it has.
    pub fn len(&self) -> u64 {
        self.len
    }

    /// Whether it has none.
    pub fn is_empty(&self) -> bool {
        self.len == 0
    }

    /// The record at this position, or `None` past the last one.
    pub fn get(&self, position: u64) -> Option<&'v R> {
        if position >= self.len {
            return None;
        }
        let first = self.table[(position >> self.shift) as usize] as usize;
        self.pieces[first].get(position).or_else(|| self.get_behind(first, position))
    }

    /// The record at this position, where it isn't in the piece that its entry has: mostly in the next.
    fn get_behind(&self, first: usize, position: u64) -> Option<&'v R> {
        self.pieces[first + 1].get(position).or_else(|| {
            let last = self.table.get((position >> self.shift) as usize + 1).map_or(self.pieces.len() - 1, |it| *it as usize);
            let behind = self.pieces[first + 2..=last].partition_point(|it| it.start <= position);
            self.pieces[first + 1 + behind].get(position)
        })
    }

    /// All its records, in order; from the back too.
    pub fn iter(&self) -> Iter<'_, 'v, R> {
        self.pieces.iter().flatten()
    }

    /// All its records, piece by piece.
    pub fn pieces(&self) -> impl Iterator<Item = &'v [R]> {
        self.pieces.iter().map(|it| it.records)
    }

    /// Has what was grown since too, as this seat finds it. Refused, it has a part of that, or nothing more. `OtherVector`: the
    /// seat is one of another vector. `Memory`.
    pub fn learn(&mut self, seat: &Seat<'v, R>) -> Result<(), Error> {
        if !ptr::eq(self.of, seat.of) {
            return Err(Error::own(ErrorKind::OtherVector, Some(&self.of.path)));
        }
        let added = self.add(seat.pieces(self.end()));
        self.index()?;
        added
    }

    fn add(&mut self, pieces: Pieces<'_, 'v, R>) -> Result<(), Error> {
        for records in pieces {
            let records = records?;
            self.pieces.try_reserve(1).map_err(|_| self.memory())?;
            self.pieces.push(Piece { start: self.end(), records });
        }
        Ok(())
    }

    /// So many records its pieces have. Where memory for the table was refused it is more than the length.
    fn end(&self) -> u64 {
        self.pieces.last().map_or(0, |it| it.start + it.records.len() as u64)
    }

    /// Makes the table reach to the last piece, and the length with it. There is about one entry for a piece: where pieces have
    /// become much longer or shorter than they were, it is made anew.
    fn index(&mut self) -> Result<(), Error> {
        let len = self.end();
        let mean = len.checked_div(self.pieces.len() as u64).map_or(0, u64::ilog2);
        let shift = if mean.abs_diff(self.shift) > 1 { mean } else { self.shift };
        let count = len.div_ceil(1 << shift) as usize;
        self.table.try_reserve(count.saturating_sub(self.table.len())).map_err(|_| self.memory())?;
        if shift != self.shift {
            self.table.clear();
            self.shift = shift;
        }
        self.fill_table(count);
        self.len = len;
        Ok(())
    }

    fn memory(&self) -> Error {
        Error::own(ErrorKind::Memory, Some(&self.of.path))
    }

    fn fill_table(&mut self, count: usize) {
        let mut piece = self.table.last().map_or(0, |it| *it as usize);
        for entry in self.table.len()..count {
            let first = (entry as u64) << self.shift;
            while self.pieces.get(piece + 1).is_some_and(|next| next.start <= first) {
                piece += 1;
            }
            self.table.push(piece as u32);
        }
    }
}

impl<'v, R> Piece<'v, R> {
    /// Of a position from its start on.
    fn get(&self, position: u64) -> Option<&'v R> {
        self.records.get((position - self.start) as usize)
    }
}

impl<R: Record> Index<u64> for View<'_, R> {
    type Output = R;

    /// Panics past the last record.
    fn index(&self, position: u64) -> &R {
        match self.get(position) {
            Some(record) => record,
            None => panic!("position {position} of a view of {} records", self.len),
        }
    }
}

impl<'v, R> IntoIterator for &Piece<'v, R> {
    type Item = &'v R;
    type IntoIter = slice::Iter<'v, R>;

    fn into_iter(self) -> slice::Iter<'v, R> {
        self.records.iter()
    }
}

/// The records of a view, in order.
pub type Iter<'w, 'v, R> = Flatten<slice::Iter<'w, Piece<'v, R>>>;

impl<'w, 'v, R: Record> IntoIterator for &'w View<'v, R> {
    type Item = &'v R;
    type IntoIter = Iter<'w, 'v, R>;

    fn into_iter(self) -> Iter<'w, 'v, R> {
        self.iter()
    }
}

impl<R: Record> fmt::Debug for Pieces<'_, '_, R> {
    fn fmt(&self, f: &mut fmt::Formatter<'_>) -> fmt::Result {
        f.debug_struct("Pieces").field("seat", self.seat).field("next", &self.next).finish_non_exhaustive()
    }
}

impl<R: Record> fmt::Debug for View<'_, R> {
    fn fmt(&self, f: &mut fmt::Formatter<'_>) -> fmt::Result {
        f.debug_struct("View").field("of", self.of).field("len", &self.len).finish_non_exhaustive()
    }
}
