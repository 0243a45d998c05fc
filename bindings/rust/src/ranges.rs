//! Ranges of positions, and room for what is copied of them.

use crate::error::{Error, ErrorKind};
use std::ops::{Bound, RangeBounds};
use std::path::Path;
use std::sync::Arc;

/// The first position, and that behind the last.
pub(crate) fn ends_of(range: impl RangeBounds<u64>) -> (u64, u64) {
    let from = match range.start_bound() {
        Bound::Included(&at) => at,
        Bound::Excluded(&at) => at.saturating_add(1),
        Bound::Unbounded => 0,
    };
    let to = match range.end_bound() {
        Bound::Included(&at) => at.saturating_add(1),
        Bound::Excluded(&at) => at,
        Bound::Unbounded => u64::MAX,
    };
    (from, to)
}

/// How many positions these are.
pub(crate) fn count_of(from: u64, to: u64) -> usize {
    usize::try_from(to.saturating_sub(from)).unwrap_or(usize::MAX)
}

/// Memory for so many records.
pub(crate) fn room_for<R>(count: usize, path: &Arc<Path>) -> Result<Vec<R>, Error> {
    let mut room = Vec::new();
    room.try_reserve_exact(count).map_err(|_| Error::own(ErrorKind::Memory, Some(path)))?;
    Ok(room)
}
