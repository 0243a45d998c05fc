//! The calls of `cvec.h` and `cvec/proved.h` that this crate makes, as they stand there.

use crate::file::{Fault, Frame, Stat};
use std::ffi::{c_char, c_void};

/// What C hides behind its pointers.
#[repr(C)]
pub(crate) struct RawFile([u8; 0]);
#[repr(C)]
pub(crate) struct RawVector([u8; 0]);
#[repr(C)]
pub(crate) struct RawSeat([u8; 0]);

#[repr(C)]
pub(crate) struct RawOptions {
    pub version: u8,
    pub seats: u16,
    pub pushes: u32,
    pub growths: u64,
}

#[repr(C)]
#[derive(Default)]
pub(crate) struct RawReceipt {
    pub number: u64,
    pub start: u64,
    pub len: u64,
    pub serial: u64,
    pub seat: u16,
}

#[repr(C)]
#[derive(Clone, Copy)]
pub(crate) struct RawPiece {
    pub start: u64,
    pub records: *const c_void,
    pub len: u64,
}

/// What makes a file, or opens one that is there.
pub(crate) type BeginVector = unsafe extern "C" fn(*mut *mut RawVector, *const c_char, u32, *const RawOptions) -> u32;
pub(crate) type OpenFile = unsafe extern "C" fn(*mut *mut RawFile, *const c_char, u32, *mut Fault) -> u32;

unsafe extern "C" {
    pub(crate) fn cvec_status_text(status: u32) -> *const c_char;
    pub(crate) fn cvec_cause_text(cause: u32) -> *const c_char;

    pub(crate) fn cvec_image_read(
        kind: u32, image: *const u8, len: usize, from: u64, out: *mut u8, room: usize, count: *mut u64, stat: *mut Stat, fault: *mut Fault,
    ) -> u32;
    pub(crate) fn cvec_image_frame(image: *const u8, len: usize, at: u64, version: u8, width: u16, frame: *mut Frame) -> u32;

    pub(crate) fn cvec_file_create(file: *mut *mut RawFile, path: *const c_char, kind: u32, version: u8) -> u32;
    pub(crate) fn cvec_file_open(file: *mut *mut RawFile, path: *const c_char, kind: u32, fault: *mut Fault) -> u32;
    pub(crate) fn cvec_file_open_to_read(file: *mut *mut RawFile, path: *const c_char, kind: u32, fault: *mut Fault) -> u32;
    pub(crate) fn cvec_file_append(file: *mut RawFile, kind: u32, records: *const c_void, count: usize) -> u32;
    pub(crate) fn cvec_file_read(
        file: *mut RawFile, kind: u32, from: u64, out: *mut c_void, room: usize, count: *mut u64, fault: *mut Fault,
    ) -> u32;
    pub(crate) fn cvec_file_stat(file: *const RawFile, stat: *mut Stat) -> u32;
    pub(crate) fn cvec_file_close(file: *mut *mut RawFile);

    pub(crate) fn cvec_vector_create(vector: *mut *mut RawVector, path: *const c_char, kind: u32, options: *const RawOptions) -> u32;
    pub(crate) fn cvec_vector_open(vector: *mut *mut RawVector, path: *const c_char, kind: u32, options: *const RawOptions) -> u32;
    pub(crate) fn cvec_vector_open_or_create(
        vector: *mut *mut RawVector, path: *const c_char, kind: u32, options: *const RawOptions,
    ) -> u32;
    pub(crate) fn cvec_vector_close(vector: *mut *mut RawVector) -> u32;
    pub(crate) fn cvec_vector_settle(vector: *mut RawVector, milliseconds: u64) -> u32;
    pub(crate) fn cvec_vector_settled(vector: *mut RawVector, count: *mut u64) -> u32;
    pub(crate) fn cvec_vector_run_flusher(vector: *mut RawVector, every_milliseconds: u64) -> u32;
    pub(crate) fn cvec_vector_start_flusher(vector: *mut RawVector, every_milliseconds: u64) -> u32;
    pub(crate) fn cvec_vector_stop_flusher(vector: *mut RawVector) -> u32;
    pub(crate) fn cvec_vector_change(vector: *mut RawVector, kind: u32, start: u64, records: *const c_void, count: usize) -> u32;
    pub(crate) fn cvec_vector_resize(vector: *mut RawVector, kind: u32, size: u64, record: *const c_void) -> u32;
    pub(crate) fn cvec_vector_clear(vector: *mut RawVector) -> u32;
    pub(crate) fn cvec_vector_fold(vector: *mut RawVector) -> u32;
    pub(crate) fn cvec_vector_compact(vector: *mut RawVector) -> u32;

    pub(crate) fn cvec_seat_take(vector: *mut RawVector, seat: *mut *mut RawSeat) -> u32;
    pub(crate) fn cvec_seat_borrow(vector: *mut RawVector, milliseconds: u64, seat: *mut *mut RawSeat) -> u32;
    pub(crate) fn cvec_seat_close(seat: *mut *mut RawSeat) -> u32;
    pub(crate) fn cvec_seat_grow(seat: *mut RawSeat, kind: u32, records: *const c_void, count: usize, receipt: *mut RawReceipt) -> u32;
    pub(crate) fn cvec_seat_block(seat: *mut RawSeat, count: usize, records: *mut *mut c_void) -> u32;
    pub(crate) fn cvec_seat_publish(seat: *mut RawSeat, receipt: *mut RawReceipt) -> u32;
    pub(crate) fn cvec_seat_drop(seat: *mut RawSeat) -> u32;
    pub(crate) fn cvec_seat_settle(seat: *mut RawSeat, number: u64, milliseconds: u64) -> u32;
    pub(crate) fn cvec_seat_settled(seat: *mut RawSeat, count: *mut u64) -> u32;
    pub(crate) fn cvec_seat_size(seat: *mut RawSeat, size: *mut u64) -> u32;
    pub(crate) fn cvec_seat_read(seat: *mut RawSeat, kind: u32, from: u64, out: *mut c_void, room: usize, count: *mut u64) -> u32;
    pub(crate) fn cvec_seat_at(seat: *mut RawSeat, kind: u32, position: u64, record: *mut c_void) -> u32;
    pub(crate) fn cvec_seat_pieces(seat: *mut RawSeat, from: u64, out: *mut RawPiece, room: usize, count: *mut usize) -> u32;
    pub(crate) fn cvec_seat_count(seat: *mut RawSeat, kind: u32, record: *const c_void, count: *mut u64) -> u32;
    pub(crate) fn cvec_seat_find(seat: *mut RawSeat, kind: u32, record: *const c_void, from: u64, place: *mut u64) -> u32;
}
