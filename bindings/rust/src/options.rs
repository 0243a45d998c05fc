//! How a file is made or opened.

use crate::error::{Error, ErrorKind};
use crate::raw::RawOptions;
use std::ffi::CString;
use std::os::unix::ffi::OsStrExt;
use std::path::Path;
use std::sync::Arc;
use std::thread;
use std::time::{Duration, Instant};

/// A vector has at most so many seats.
pub const MOST_SEATS: u16 = 64;

/// A phase has room for so many growths at most.
const MOST_GROWTHS: u64 = 536_870_904;

/// How long it sleeps before it looks again whether a file is in use.
const NAP: Duration = Duration::from_millis(5);

/// The version of a new file, which sets how much one commit puts into a frame.
#[derive(Clone, Copy, Debug, Default, PartialEq, Eq, Hash)]
pub enum Version {
    /// At most 2^20 bytes.
    #[default]
    One = 1,
    /// At most 2^24 bytes.
    Two = 2,
}

/// How a file is made or opened: `create_with`, `open_with` and `open_or_create_with` of a [`Vector`](crate::Vector) and of a
/// [`File`](crate::File) take it. Each has its default, which stands there.
#[derive(Clone, Copy, Debug, PartialEq, Eq)]
pub struct Options {
    version: Version,
    wait: Duration,
    seats: u16,
    growths: u64,
}

impl Default for Options {
    fn default() -> Self {
        Options { version: Version::One, wait: Duration::ZERO, seats: MOST_SEATS, growths: 0 }
    }
}

impl Options {
    /// The version of a file that is made: `Version::One`.
    pub fn version(self, version: Version) -> Options {
        Options { version, ..self }
    }

    /// A file that is in use is waited for, no longer than this: not at all. It is looked for every 5 milliseconds.
    pub fn wait(self, longest: Duration) -> Options {
        Options { wait: longest, ..self }
    }

    /// Of a vector: for so many threads at once, 64 or fewer. Others are refused as `Seats`.
    pub fn seats(self, seats: u16) -> Options {
        Options { seats, ..self }
    }

    /// Of a vector: for so many growths a phase has room, 536,870,904 at most, else `Growths`; 0 is the default, 4,129,776 with 64
    /// seats. With more than 1,048,568 it reserves 4 bytes of addresses for each of them and seat; where the system refuses those it
    /// has room for 1,048,568. Behind a full phase another one begins by itself; but growths are `Full` where records of it were lent.
    pub fn growths(self, growths: u64) -> Options {
        Options { growths, ..self }
    }

    pub(crate) fn number_of_version(&self) -> u8 {
        self.version as u8
    }

    pub(crate) fn raw(&self, path: &Arc<Path>) -> Result<RawOptions, Error> {
        if !(1..=MOST_SEATS).contains(&self.seats) {
            return Err(Error::own(ErrorKind::Seats, Some(path)));
        }
        if self.growths > MOST_GROWTHS {
            return Err(Error::own(ErrorKind::Growths, Some(path)));
        }
        Ok(RawOptions { version: self.number_of_version(), seats: self.seats, pushes: 0, growths: self.growths })
    }

    /// What this opens, once the file isn't in use.
    pub(crate) fn opened<T>(&self, mut open: impl FnMut() -> Result<T, Error>) -> Result<T, Error> {
        let begun = Instant::now();
        loop {
            let (answer, left) = (open(), self.wait.saturating_sub(begun.elapsed()));
            match answer {
                Err(refusal) if refusal.kind() == ErrorKind::InUse && !left.is_zero() => thread::sleep(left.min(NAP)),
                answer => return answer,
            }
        }
    }
}

/// A path as C takes it, and as errors tell it.
pub(crate) fn name_of(path: &Path) -> Result<(CString, Arc<Path>), Error> {
    let told = Arc::from(path);
    let name = CString::new(path.as_os_str().as_bytes()).map_err(|_| Error::own(ErrorKind::Path, Some(&told)))?;
    Ok((name, told))
}
