//! Why a call was refused: one error of files and of vectors.

use crate::file::Fault;
use crate::raw::{cvec_cause_text, cvec_status_text};
use std::ffi::CStr;
use std::fmt;
use std::io;
use std::path::Path;
use std::sync::Arc;

/// The kinds that C answers, by their numbers in `cvec.h`, and behind them those that this crate refuses by itself.
macro_rules! kinds {
    (
        of_c { $($(#[$about:meta])* $name:ident = $status:literal,)* }
        own { $($(#[$about_own:meta])* $own:ident = $sentence:literal,)* }
    ) => {
        /// What a refusal is, as [`Error::kind`] tells it.
        #[derive(Clone, Copy, Debug, PartialEq, Eq, Hash)]
        #[non_exhaustive]
        pub enum ErrorKind {
            $($(#[$about])* $name,)*
            $($(#[$about_own])* $own,)*
            /// A number that this crate doesn't know.
            Unknown(u32),
        }

        impl ErrorKind {
            fn of(status: u32) -> ErrorKind {
                match status {
                    $($status => ErrorKind::$name,)*
                    _ => ErrorKind::Unknown(status),
                }
            }

            /// C's number, or the sentence of this crate.
            fn number_or_sentence(self) -> Result<u32, &'static str> {
                match self {
                    $(ErrorKind::$name => Ok($status),)*
                    $(ErrorKind::$own => Err($sentence),)*
                    ErrorKind::Unknown(status) => Ok(status),
                }
            }
        }
    };
}

kinds! {
    of_c {
        /// No vector was begun in the file.
        Unborn = 1,
        /// The file's bytes aren't those of a segment file.
        NotSegment = 2,
        /// The file has a version that isn't known.
        Version = 3,
        /// The file's records have another width, or there are no whole ones of this type.
        Width = 4,
        /// A frame of the file is damaged: [`Error::fault`] says where, of a [`File`](crate::File).
        Damaged = 5,
        /// Memory was refused. The call may be made again.
        Memory = 6,
        /// A growth without a record.
        Empty = 7,
        /// The vector would have more than 2^32 records; of `settle`, there is no such growth; of `change`, no such positions.
        OutOfRange = 8,
        /// More records than fit one growth, a change or a resize: 1,048,568 bytes of them, and 16,777,208 of a `File` of version 2.
        TooLarge = 9,
        /// The file would become longer than 2^48 bytes.
        FileFull = 10,
        /// A record of the file is none of the type.
        NoRecord = 13,
        /// Something is there already, and stays.
        Exists = 32,
        /// The file is open, in this process or another.
        InUse = 33,
        /// A write or a sync has failed before. Open the file again; after a sync, restart the system first.
        Broken = 34,
        /// It couldn't be opened or locked.
        DiskOpen = 35,
        /// Its length couldn't be asked.
        DiskLength = 36,
        /// It couldn't be read.
        DiskRead = 37,
        /// It couldn't be written: the device may be full.
        DiskWrite = 38,
        /// It couldn't be put on the device. Restart the system before the file is opened again.
        DiskSync = 39,
        /// The process from which this one was forked has opened it.
        Forked = 40,
        /// A folder, a pipe or a device has that name.
        NotFile = 41,
        /// The file was opened to be read.
        ReadOnly = 42,
        /// Every seat is taken, or waited for.
        NoSeat = 64,
        /// Records were lent, so none can be moved to make room for more growths. `Vector::compact` does.
        Full = 66,
        /// Of `close`: a seat was forgotten (`std::mem::forget`), and the vector stays open.
        Busy = 67,
        /// The time has passed. What was waited for may yet come.
        Late = 68,
        /// Of `resize` and `clear`: a change isn't folded. `fold` first.
        Unfolded = 69,
    }
    own {
        /// Of `Options::seats`.
        Seats = "a vector has 1 to 64 seats",
        /// Of `Options::growths`.
        Growths = "a phase has room for 536,870,904 growths at most",
        /// It is none that the system has a name for.
        Path = "a path has a zero byte",
        /// Of `grow_with`: another one fills its records by this seat.
        Filling = "the seat's records of another growth are being filled",
        /// Of a view: the seat is one of another vector.
        OtherVector = "the seat is one of another vector",
    }
}

impl ErrorKind {
    /// The number in `cvec.h` by which C refuses so. `None`: this crate does.
    pub fn status(self) -> Option<u32> {
        self.number_or_sentence().ok()
    }

    /// C's sentence, but where that is of more than is refused here by its number.
    fn sentence(self) -> &'static str {
        match (self, self.number_or_sentence()) {
            (ErrorKind::TooLarge, _) => "more records than fit one growth",
            (ErrorKind::NoSeat, _) => "every seat is taken, or waited for",
            // SAFETY: C gives a text that lasts, whatever the number.
            (_, Ok(status)) => text_of(unsafe { CStr::from_ptr(cvec_status_text(status)) }),
            (_, Err(sentence)) => sentence,
        }
    }
}

/// C's sentences are plain.
fn text_of(text: &'static CStr) -> &'static str {
    text.to_str().unwrap_or("an unknown status")
}

/// A refusal of a call, which grew and changed nothing, but for what [`taken`](Error::taken) says. It prints the path and a sentence.
/// Where a call of the system failed, `source()` is the system's reason.
pub struct Error {
    kind: ErrorKind,
    path: Option<Arc<Path>>,
    system: Option<io::Error>,
    fault: Fault,
    taken: u64,
}

impl Error {
    /// What was refused.
    pub fn kind(&self) -> ErrorKind {
        self.kind
    }

    /// The number in `cvec.h` by which C refused the call. `None`: this crate refused it.
    pub fn status(&self) -> Option<u32> {
        self.kind.status()
    }

    /// The file. `None`: the call was of none, as of bytes in memory.
    pub fn path(&self) -> Option<&Path> {
        self.path.as_deref()
    }

    /// The system's number of why a call of the system failed, where one did.
    pub fn errno(&self) -> Option<i32> {
        self.system.as_ref()?.raw_os_error()
    }

    /// Where and why a file is damaged, or has another version or width than the one that is known. All are 0 of another refusal, and
    /// of a vector's.
    pub fn fault(&self) -> Fault {
        self.fault
    }

    /// So many of the call's records were taken, from the first one on, though it was refused: of `grow_all` they stand in the vector,
    /// of an appender's `extend` there or among those that are kept. Of other calls it is 0.
    pub fn taken(&self) -> u64 {
        self.taken
    }

    pub(crate) fn own(kind: ErrorKind, path: Option<&Arc<Path>>) -> Error {
        Error { kind, path: path.cloned(), system: None, fault: Fault::default(), taken: 0 }
    }

    pub(crate) fn behind(self, taken: u64) -> Error {
        Error { taken, ..self }
    }

    /// Whether an opener found nothing, or what a stopped creation left.
    pub(crate) fn is_of_no_vector(&self) -> bool {
        let is_missing = self.system.as_ref().is_some_and(|it| it.kind() == io::ErrorKind::NotFound);
        self.kind == ErrorKind::Unborn || (self.kind == ErrorKind::DiskOpen && is_missing)
    }
}

impl fmt::Display for Error {
    fn fmt(&self, f: &mut fmt::Formatter<'_>) -> fmt::Result {
        if let Some(path) = &self.path {
            write!(f, "{}: ", path.display())?;
        }
        f.write_str(self.kind.sentence())?;
        match self.kind {
            ErrorKind::Damaged if self.fault.cause != 0 => {
                // SAFETY: as above.
                let cause = unsafe { CStr::from_ptr(cvec_cause_text(self.fault.cause)) };
                write!(f, " at {}: {}", self.fault.at, text_of(cause))?;
            }
            ErrorKind::NoRecord => write!(f, " at position {}", self.fault.at)?,
            _ => {}
        }
        if self.taken > 0 { write!(f, ", behind {} records that were taken", self.taken) } else { Ok(()) }
    }
}

/// What there is of it, by name.
impl fmt::Debug for Error {
    fn fmt(&self, f: &mut fmt::Formatter<'_>) -> fmt::Result {
        let mut shown = f.debug_struct("Error");
        shown.field("kind", &self.kind).field("text", &self.to_string());
        if let Some(system) = &self.system {
            shown.field("source", system);
        }
        shown.finish()
    }
}

impl std::error::Error for Error {
    fn source(&self) -> Option<&(dyn std::error::Error + 'static)> {
        self.system.as_ref().map(|it| it as _)
    }
}

/// What C answered. To be asked right behind the call.
#[inline]
pub(crate) fn told(status: u32, path: &Arc<Path>) -> Result<(), Error> {
    told_with(status, Some(path), Fault::default())
}

/// The same of a call that says where a file is damaged.
#[inline]
pub(crate) fn told_with(status: u32, path: Option<&Arc<Path>>, fault: Fault) -> Result<(), Error> {
    if status == 0 { Ok(()) } else { Err(refusal(status, path, fault)) }
}

#[cold]
fn refusal(status: u32, path: Option<&Arc<Path>>, fault: Fault) -> Error {
    use ErrorKind::{DiskLength, DiskOpen, DiskRead, DiskSync, DiskWrite};
    let (reason, kind) = (io::Error::last_os_error(), ErrorKind::of(status));
    let is_of_system = matches!(kind, DiskOpen | DiskLength | DiskRead | DiskWrite | DiskSync);
    Error { fault, system: is_of_system.then_some(reason), ..Error::own(kind, path) }
}
