//! What records may be: C's types, numbers, arrays of bytes, and plain structs of the caller's.

use std::ffi::c_void;

/// A type whose values are their bytes: what a record, and each field of it, has to be. It is that for integers and floats of fixed
/// sizes, arrays of such, and structs that [`record!`](crate::record) writes.
///
/// A record is a plain type of 1, 2 or 4 bytes, or of 8, 16, 24, .. 256, which is aligned to 8 bytes at most: one of another size or
/// alignment isn't compiled where a vector or a file has it. In the file one of 1, 2, 4, 8, 16, 24, 32 or 64 bytes is one record, of
/// `u8`, `u16`, `u32`, `u64`, `Pair` or `Bytes`; a longer one is as many of `u64` as it takes, in the machine's order of bytes.
///
/// # Safety
/// Any bytes are a value of it: it has no reference, `bool`, `char` or enum within. Each byte of a value is set: it has no padding.
/// Its layout is the same in each program (`#[repr(C)]` or `transparent`), else a file has other values for the next one.
#[diagnostic::on_unimplemented(
    message = "`{Self}` isn't plain: not any bytes are a value of it",
    note = "a record has integers and floats of fixed sizes, and arrays and structs of these, as `cvec::record!` writes them"
)]
pub unsafe trait Plain: Copy + Send + Sync + 'static {}

macro_rules! plain {
    ($($name:ty),*) => {
        // SAFETY: any bytes are a value, and all bytes of one are set.
        $(unsafe impl Plain for $name {})*
    };
}

plain!(u8, i8, u16, i16, u32, i32, u64, i64, f32, f64);

// SAFETY: its values stand behind one another, with nothing in between.
unsafe impl<T: Plain, const N: usize> Plain for [T; N] {}

// SAFETY: 8 bytes and 8 bytes, of which any are a value.
unsafe impl Plain for Pair {}

mod sealed {
    pub trait Sealed {}
}

/// How a record is kept: as so many of C's, of the type that C has this number for, which take so many bytes in the file.
#[doc(hidden)]
#[derive(Clone, Copy, Debug)]
pub struct Kept {
    pub(crate) number: u32,
    pub(crate) count: u64,
    pub(crate) bytes: usize,
}

/// The type of records: [`Plain`] ones, [`Flagged`], and [`Bytes`] of 16, 24, 32 and 64. A file has the width of what they are kept
/// as, and no name for their type: one of `u64` is opened as `i64` too, and as `f64`. The bits of a float are kept, also those of a
/// NaN. A type is kept alike by a `File` and by a `Vector`.
#[diagnostic::on_unimplemented(
    message = "`{Self}` can't be a record",
    note = "`cvec::record!` writes a struct of integers and floats that can be one"
)]
pub trait Record: Copy + Send + Sync + sealed::Sealed + 'static {
    #[doc(hidden)]
    const KEPT: Kept;
}

impl<T: Plain> sealed::Sealed for T {}

impl<T: Plain> Record for T {
    const KEPT: Kept = kept_by_size(size_of::<T>(), align_of::<T>());
}

impl sealed::Sealed for Flagged {}

impl Record for Flagged {
    const KEPT: Kept = Kept { number: FLAGGED, count: 1, bytes: 9 };
}

macro_rules! bytes {
    ($($len:literal),*) => {
        $(
            impl sealed::Sealed for Bytes<$len> {}

            impl Record for Bytes<$len> {
                const KEPT: Kept = kept_by_size($len, align_of::<Self>());
            }
        )*
    };
}

bytes!(16, 24, 32, 64);

/// The numbers of C's types, as `cvec.h` has them.
const U8: u32 = 0;
const U16: u32 = 1;
const U32: u32 = 2;
const U64: u32 = 3;
const PAIR: u32 = 8;
const FLAGGED: u32 = 9;
const BYTES24: u32 = 11;
const BYTES32: u32 = 12;
const BYTES64: u32 = 13;

/// C copies records as bytes, of any alignment. What it lends is aligned to its own type of them.
const fn kept_by_size(size: usize, align: usize) -> Kept {
    let is_a_size = matches!(size, 1 | 2 | 4) || (size > 0 && size <= 256 && size % 8 == 0);
    assert!(is_a_size, "a record has 1, 2 or 4 bytes, or 8, 16, 24, .. 256");
    assert!(align <= 8, "a record is aligned to 8 bytes at most");
    let (number, count) = match size {
        1 => (U8, 1),
        2 => (U16, 1),
        4 => (U32, 1),
        16 => (PAIR, 1),
        24 => (BYTES24, 1),
        32 => (BYTES32, 1),
        64 => (BYTES64, 1),
        _ => (U64, size / 8),
    };
    Kept { number, count: count as u64, bytes: size }
}

impl Kept {
    /// The position, in records of C, of what is kept of the record at this one. Past all that there can be it stays so.
    pub(crate) fn first(&self, position: u64) -> u64 {
        position.saturating_mul(self.count)
    }

    /// How many records of C so many are: a slice in memory has no more bytes than fit.
    pub(crate) fn all(&self, count: usize) -> usize {
        count.saturating_mul(self.count as usize)
    }

    /// How many records so many of C are.
    pub(crate) fn whole(&self, all: u64) -> u64 {
        all / self.count
    }

    /// Whether so many of C are whole ones.
    pub(crate) fn are_whole(&self, all: u64) -> bool {
        all % self.count == 0
    }
}

/// As C takes records.
pub(crate) fn pointer_to<R: Record>(records: &[R]) -> *const c_void {
    records.as_ptr().cast()
}

/// The bytes of plain records.
pub(crate) fn bytes_of<R: Record>(records: &[R]) -> &[u8] {
    assert!(R::KEPT.count > 1);
    // SAFETY: such records are plain, or `Bytes`, so each byte is set.
    unsafe { std::slice::from_raw_parts(records.as_ptr().cast(), size_of_val(records)) }
}

/// A record with a key and a value, of 16 bytes.
#[repr(C)]
#[derive(Clone, Copy, Debug, Default, PartialEq, Eq, Hash)]
pub struct Pair {
    /// The first 8 bytes.
    pub key: u64,
    /// The last 8 bytes.
    pub value: i64,
}

/// A record with a key and a flag: 9 bytes in a file.
#[repr(C)]
#[derive(Clone, Copy, Debug, Default, PartialEq, Eq, Hash)]
pub struct Flagged {
    /// The first 8 bytes.
    pub key: u64,
    /// The last byte, 0 or 1.
    pub flag: bool,
}

/// Any 16, 24, 32 or 64 bytes, as one record of a file: commands call it `bytes16`, `bytes24` and so on. A vector keeps one of 16 so
/// too, and a longer one as several of 8 bytes, as it keeps an array of bytes.
#[repr(C, align(8))]
#[derive(Clone, Copy, Debug, PartialEq, Eq, PartialOrd, Ord, Hash)]
pub struct Bytes<const N: usize>(pub [u8; N]);

impl<const N: usize> Default for Bytes<N> {
    fn default() -> Self {
        Bytes([0; N])
    }
}

/// Writes structs that can be records: of fields that are [`Plain`], in their order, without padding. Other fields, padding, and a
/// size that no record has aren't compiled. It derives `Clone` and `Copy`; other attributes are the caller's.
///
/// ```
/// cvec::record! {
///     /// What a sensor measured.
///     #[derive(Debug, PartialEq)]
///     pub struct Sample {
///         pub sensor: u32,
///         pub second: u32,
///         pub value: f64,
///     }
/// }
/// ```
#[macro_export]
macro_rules! record {
    ($($(#[$about:meta])* $seen:vis struct $name:ident {
        $($(#[$about_field:meta])* $seen_field:vis $field:ident: $type:ty),+ $(,)?
    })+) => {$(
        $(#[$about])*
        #[repr(C)]
        #[derive(Clone, Copy)]
        $seen struct $name {
            $($(#[$about_field])* $seen_field $field: $type),+
        }

        const _: () = {
            const fn size_of_plain<T: $crate::Plain>() -> usize {
                ::core::mem::size_of::<T>()
            }
            // No attribute has taken a field away, added one, or given one another type.
            fn has_these_fields(it: $name) {
                let $name { $($field),+ } = it;
                $(let _: $type = $field;)+
            }
            let _ = has_these_fields;
            assert!(
                0 $(+ size_of_plain::<$type>())+ == ::core::mem::size_of::<$name>(),
                "a record has no padding between its fields or behind them"
            );
            let _ = <$name as $crate::Record>::KEPT;
        };

        // SAFETY: it has just these fields, which are plain, in this order, and no byte besides.
        unsafe impl $crate::Plain for $name {}
    )+};
}
