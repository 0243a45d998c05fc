//! Segment files by one thread: one process appends, and any number read beside it.

use crate::error::{Error, ErrorKind, told, told_with};
use crate::options::{Options, name_of};
use crate::ranges::{count_of, ends_of, room_for};
use crate::raw::{
    OpenFile, RawFile, cvec_file_append, cvec_file_close, cvec_file_create, cvec_file_open, cvec_file_open_to_read, cvec_file_read,
    cvec_file_stat, cvec_image_frame, cvec_image_read,
};
use crate::record::{Record, pointer_to};
use std::fmt;
use std::marker::PhantomData;
use std::ops::RangeBounds;
use std::path::Path;
use std::ptr;
use std::sync::Arc;

/// What a file or its image holds.
#[repr(C)]
#[derive(Clone, Copy, Debug, Default, PartialEq, Eq, Hash)]
pub struct Stat {
    /// How many records of the file's width: of one that is kept as several, so many.
    pub size: u64,
    /// The frames before the closed gate.
    pub frames: u64,
    /// How many of them are changes.
    pub changes: u64,
    /// The count of the last fold: changes below it stand in their places.
    pub folded: u64,
    /// The place of the closed gate.
    pub gate: u64,
    /// The bytes of one record.
    pub width: u16,
    /// 1 or 2.
    pub version: u8,
}

/// Where and why a file has no vector.
#[repr(C)]
#[derive(Clone, Copy, Debug, Default, PartialEq, Eq, Hash)]
pub struct Fault {
    /// The place of a damage, or the position of a record that is none.
    pub at: u64,
    /// Why it is damaged, by its number in `cvec.h`.
    pub cause: u32,
    /// The version, the width or the kind of frame that was found.
    pub found: u32,
}

/// One frame of an image.
#[repr(C)]
#[derive(Clone, Copy, Debug, Default, PartialEq, Eq, Hash)]
pub struct Frame {
    /// The place of its first record; of a frame without records it is `next`.
    pub first_record: u64,
    /// The place of the next gate.
    pub next: u64,
    /// The bytes behind its head.
    pub payload_len: u32,
    /// Of a group of growths how many it has, else 0.
    pub growths: u32,
    /// How many records it has, of the file's width.
    pub records: u32,
    /// 1 a group, 2 a change, 3 a shrink, 4 a fold.
    pub kind: u8,
}

/// What the image holds, or its first fault.
pub fn check<R: Record>(image: &[u8]) -> Result<Stat, Error> {
    let (mut stat, mut fault, mut none, mut count) = (Stat::default(), Fault::default(), 0, 0);
    // SAFETY: the pointer and the length are those of one slice, which is lent for the call; there is room for no record.
    let status =
        unsafe { cvec_image_read(R::KEPT.number, image.as_ptr(), image.len(), 0, &mut none, 0, &mut count, &mut stat, &mut fault) };
    told_with(status, None, fault)?;
    if R::KEPT.are_whole(stat.size) { Ok(stat) } else { Err(Error::own(ErrorKind::Width, None)) }
}

/// The frame whose gate is at this place of a file of this version and width.
pub fn frame_at(image: &[u8], at: u64, version: u8, width: u16) -> Option<Frame> {
    let mut frame = Frame::default();
    // SAFETY: as above.
    let status = unsafe { cvec_image_frame(image.as_ptr(), image.len(), at, version, width, &mut frame) };
    (status == 0).then_some(frame)
}

/// A file that is open for reading and appending, by the process that opened it; by `open_to_read` for reading alone. It says
/// how wide its records are and not of which type: one of `u64` is opened as `i64` too. A drop closes it: what was appended stands.
pub struct File<R: Record = u64> {
    /// Not `Sync`: a read changes what is known of a file that another process writes.
    raw: *mut RawFile,
    path: Arc<Path>,
    of: PhantomData<R>,
}

// SAFETY: its memory is malloc's, which any thread may free, and no thread has a part of it.
unsafe impl<R: Record> Send for File<R> {}

impl<R: Record> File<R> {
    /// Makes a file of version 1. One that is there stays: `Exists`.
    pub fn create(path: impl AsRef<Path>) -> Result<File<R>, Error> {
        File::create_with(path, &Options::default())
    }

    /// The same, with a version, and with a wait for who has the file.
    pub fn create_with(path: impl AsRef<Path>, options: &Options) -> Result<File<R>, Error> {
        options.opened(|| File::created(path.as_ref(), options))
    }

    fn created(path: &Path, options: &Options) -> Result<File<R>, Error> {
        let ((name, path), mut raw) = (name_of(path)?, ptr::null_mut());
        // SAFETY: the name ends with a zero, and lasts for the call; what is refused leaves no file.
        told(unsafe { cvec_file_create(&mut raw, name.as_ptr(), R::KEPT.number, options.number_of_version()) }, &path)?;
        Ok(File { raw, path, of: PhantomData })
    }

    /// Opens a file, and checks it.
    pub fn open(path: impl AsRef<Path>) -> Result<File<R>, Error> {
        File::open_with(path, &Options::default())
    }

    /// The same, with a wait for who has the file.
    pub fn open_with(path: impl AsRef<Path>, options: &Options) -> Result<File<R>, Error> {
        options.opened(|| File::opened(path.as_ref(), cvec_file_open))
    }

    /// Opens a file that is there, and makes one where there is none, or only what a stopped creation left.
    pub fn open_or_create(path: impl AsRef<Path>) -> Result<File<R>, Error> {
        File::open_or_create_with(path, &Options::default())
    }

    /// The same, with a version for one that is made, and with a wait for who has the file.
    pub fn open_or_create_with(path: impl AsRef<Path>, options: &Options) -> Result<File<R>, Error> {
        let path = path.as_ref();
        options.opened(|| match File::opened(path, cvec_file_open) {
            Err(refusal) if refusal.is_of_no_vector() => match File::created(path, options) {
                Err(refusal) if refusal.kind() == ErrorKind::Exists => File::opened(path, cvec_file_open), // another has made it
                made => made,
            },
            opened => opened,
        })
    }

    /// Opens a file for reading alone, and checks it: also while another process writes it, without a lock, and with no leave
    /// to write.
    pub fn open_to_read(path: impl AsRef<Path>) -> Result<File<R>, Error> {
        File::opened(path.as_ref(), cvec_file_open_to_read)
    }

    fn opened(path: &Path, open: OpenFile) -> Result<File<R>, Error> {
        let (name, path) = name_of(path)?;
        let (mut raw, mut fault) = (ptr::null_mut(), Fault::default());
        // SAFETY: as above.
        told_with(unsafe { open(&mut raw, name.as_ptr(), R::KEPT.number, &mut fault) }, Some(&path), fault)?;
        let file = File { raw, path, of: PhantomData };
        if R::KEPT.are_whole(file.stat().size) { Ok(file) } else { Err(Error::own(ErrorKind::Width, Some(&file.path))) }
    }

    /// The path by which it was opened.
    pub fn path(&self) -> &Path {
        &self.path
    }

    /// What the file holds; one that is open to be read, when it was last read.
    pub fn stat(&self) -> Stat {
        let mut stat = Stat::default();
        // SAFETY: no other thread has the file (it isn't `Sync`), which is open: so it isn't refused.
        unsafe { cvec_file_stat(self.raw, &mut stat) };
        stat
    }

    /// How many records those are.
    pub fn len(&self) -> u64 {
        R::KEPT.whole(self.stat().size)
    }

    /// Whether there is none.
    pub fn is_empty(&self) -> bool {
        self.len() == 0
    }

    /// Appends the records as one growth: durable when it returns, and all of them or none whatever happens.
    pub fn append(&mut self, records: &[R]) -> Result<(), Error> {
        let count = R::KEPT.all(records.len());
        // SAFETY: the pointer and the length are those of one slice, whose records are kept as those of this type.
        told(unsafe { cvec_file_append(self.raw, R::KEPT.number, pointer_to(records), count) }, &self.path)
    }

    /// A copy of the records of these positions, as far as there are any; of a file that another process writes as they are at one
    /// moment.
    pub fn read(&self, range: impl RangeBounds<u64>) -> Result<Vec<R>, Error> {
        let (from, to) = ends_of(range);
        let mut slack = 0;
        loop {
            let room = count_of(from, to.min(self.len().saturating_add(slack)));
            let mut out = room_for(room, &self.path)?;
            // SAFETY: there is room for so many, and so many of them are written.
            unsafe {
                let count = self.copy(from, out.as_mut_ptr(), room)?;
                out.set_len(count);
            }
            // One that is only read may have grown. It is read again, as all of it is of one moment; with room for what comes
            // meanwhile, or it would never end beside one who appends without rest.
            if count_of(from, to.min(self.len())) <= room {
                return Ok(out);
            }
            slack = slack.saturating_mul(2).saturating_add(1000);
        }
    }

    /// Copies records to this place, and answers how many.
    ///
    /// # Safety
    /// There is room for so many, and nobody else has it.
    unsafe fn copy(&self, from: u64, out: *mut R, room: usize) -> Result<usize, Error> {
        let (mut count, mut fault, room) = (0, Fault::default(), R::KEPT.all(room));
        // SAFETY: as above and below; what is written are records of the type.
        let status =
            unsafe { cvec_file_read(self.raw, R::KEPT.number, R::KEPT.first(from), out.cast(), room, &mut count, &mut fault) };
        told_with(status, Some(&self.path), fault)?;
        Ok(R::KEPT.whole(count) as usize)
    }
}

impl<R: Record> Drop for File<R> {
    fn drop(&mut self) {
        // SAFETY: it is closed once, here.
        unsafe { cvec_file_close(&mut self.raw) }
    }
}

impl<R: Record> fmt::Debug for File<R> {
    fn fmt(&self, f: &mut fmt::Formatter<'_>) -> fmt::Result {
        f.debug_struct("File").field("path", &self.path).field("len", &self.len()).finish_non_exhaustive()
    }
}
