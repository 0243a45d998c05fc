//! Structs that are records, and those that are none (tests/shell/vector_rust.sh). By itself it is compiled; with `--cfg NAME` the
//! struct has one field more, or another one, and is refused. With `--cfg mended` besides that is mended, and it is compiled again.
#![allow(unexpected_cfgs, dead_code)]
use cvec::{Plain, Vector};

/// What is no part of the crate isn't within a record before somebody has said that it is plain.
#[derive(Clone, Copy)]
#[repr(C)]
struct Inner {
    number: u64,
}

// SAFETY: one number.
#[cfg(any(not(unsaid), mended))]
unsafe impl Plain for Inner {}

#[cfg(not(any(padded, padded_behind, hidden, reference, boolean, character, machine, pointer, odd, large, overaligned, unsaid)))]
cvec::record! { pub struct Record { pub number: u64, pub inner: Inner } }

#[cfg(all(padded, not(mended)))]
cvec::record! { pub struct Record { pub small: u32, pub number: u64, pub last: u32 } }
#[cfg(all(padded, mended))]
cvec::record! { pub struct Record { pub small: u32, pub last: u32, pub number: u64 } }

#[cfg(all(padded_behind, not(mended)))]
cvec::record! { pub struct Record { pub number: u64, pub small: u32 } }
#[cfg(all(padded_behind, mended))]
cvec::record! { pub struct Record { pub number: u64, pub small: u32, pub spare: u32 } }

// As many bytes as the struct has, of which it has four as padding.
#[cfg(all(hidden, not(mended)))]
cvec::record! { pub struct Record { pub number: u64, pub small: u32, #[cfg(any())] pub other: u32 } }
#[cfg(all(hidden, mended))]
cvec::record! { pub struct Record { pub number: u64, pub small: u32, #[cfg(all())] pub other: u32 } }

#[cfg(all(reference, not(mended)))]
cvec::record! { pub struct Record { pub number: u64, pub name: &'static u64 } }
#[cfg(all(reference, mended))]
cvec::record! { pub struct Record { pub number: u64, pub name: u64 } }

#[cfg(all(pointer, not(mended)))]
cvec::record! { pub struct Record { pub number: u64, pub at: Option<std::num::NonZeroU64> } }
#[cfg(all(pointer, mended))]
cvec::record! { pub struct Record { pub number: u64, pub at: u64 } }

#[cfg(all(boolean, not(mended)))]
cvec::record! { pub struct Record { pub number: u32, pub others: [u8; 3], pub flag: bool } }
#[cfg(all(boolean, mended))]
cvec::record! { pub struct Record { pub number: u32, pub others: [u8; 3], pub flag: u8 } }

#[cfg(all(character, not(mended)))]
cvec::record! { pub struct Record { pub letter: char } }
#[cfg(all(character, mended))]
cvec::record! { pub struct Record { pub letter: u32 } }

#[cfg(all(machine, not(mended)))]
cvec::record! { pub struct Record { pub size: usize } }
#[cfg(all(machine, mended))]
cvec::record! { pub struct Record { pub size: u64 } }

#[cfg(all(odd, not(mended)))]
cvec::record! { pub struct Record { pub numbers: [u32; 3] } }
#[cfg(all(odd, mended))]
cvec::record! { pub struct Record { pub numbers: [u32; 4] } }

#[cfg(all(large, not(mended)))]
cvec::record! { pub struct Record { pub numbers: [u64; 33] } }
#[cfg(all(large, mended))]
cvec::record! { pub struct Record { pub numbers: [u64; 32] } }

#[cfg(all(overaligned, not(mended)))]
cvec::record! { #[repr(align(16))] pub struct Record { pub numbers: [u64; 2] } }
#[cfg(all(overaligned, mended))]
cvec::record! { #[repr(align(8))] pub struct Record { pub numbers: [u64; 2] } }

#[cfg(unsaid)]
cvec::record! { pub struct Record { pub inner: Inner } }

/// A vector has them.
pub fn count(vector: &Vector<Record>, record: Record) -> Option<u64> {
    vector.seat().ok()?.count(record).ok()
}
