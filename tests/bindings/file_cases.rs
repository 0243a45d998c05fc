//! Tests of the crate `cvec` that no table tells: file_cases NAME FILE. NAME is that of a function below.
use cvec::{Error, ErrorKind, File, Options, Version};
use std::alloc::{GlobalAlloc, Layout, System};
use std::path::Path;
use std::sync::atomic::{AtomicBool, Ordering};

/// That of Rust: while it is told to, it refuses half a megabyte at once.
struct Memory;

const TOO_MUCH: usize = 1 << 19;
static IS_REFUSED: AtomicBool = AtomicBool::new(false);

#[global_allocator]
static MEMORY: Memory = Memory;

// SAFETY: what it gives and takes is the system's.
unsafe impl GlobalAlloc for Memory {
    unsafe fn alloc(&self, layout: Layout) -> *mut u8 {
        if layout.size() >= TOO_MUCH && IS_REFUSED.load(Ordering::Relaxed) {
            return std::ptr::null_mut();
        }
        // SAFETY: the caller's.
        unsafe { System.alloc(layout) }
    }
    unsafe fn dealloc(&self, at: *mut u8, layout: Layout) {
        // SAFETY: the caller's.
        unsafe { System.dealloc(at, layout) }
    }
}

/// A read that there is no memory for is refused, and the next one isn't.
fn is_refused(path: &Path) -> Result<(), Error> {
    let records: Vec<u64> = (0..100_000).collect();
    let mut file = File::create(path)?;
    file.append(&records)?;
    for file in [file, File::open_to_read(path)?] {
        IS_REFUSED.store(true, Ordering::Relaxed);
        let refused = file.read(..).map(|it| it.len());
        let few = file.read(99_998..);
        IS_REFUSED.store(false, Ordering::Relaxed);
        let refused = refused.expect_err("no memory was asked for");
        let told = format!("{}: memory was refused", path.display());
        assert_eq!((refused.kind(), refused.errno(), refused.to_string()), (ErrorKind::Memory, None, told));
        assert_eq!(few?, [99_998, 99_999]);
        assert_eq!(file.read(..)?, records);
    }
    Ok(())
}

/// A writer appends a record in each read of the file (tests/bindings/grows.c), and they end all the same.
fn grows(path: &Path) -> Result<(), Error> {
    File::create(path)?.append(&[0u64])?;
    let file = File::<u64>::open_to_read(path)?;
    assert_eq!(file.read(..)?, [0, 1, 2]);
    assert_eq!(file.read(1..)?, [1, 2, 3, 4]);
    assert_eq!(file.read(9..)?, []);
    Ok(())
}

/// A file is made of version 1 or 2.
fn versions(path: &Path) -> Result<(), Error> {
    for (version, number) in [(Version::One, 1), (Version::Two, 2)] {
        assert_eq!(File::<u64>::create_with(path, &Options::default().version(version))?.stat().version, number);
        assert_eq!(File::<i64>::open(path)?.stat().version, number);
        std::fs::remove_file(path).unwrap();
    }
    assert_eq!(File::<u64>::create(path)?.stat().version, 1);
    Ok(())
}

fn main() -> Result<(), Error> {
    let words: Vec<String> = std::env::args().collect();
    let path = Path::new(&words[2]);
    match words[1].as_str() {
        "is_refused" => is_refused(path),
        "grows" => grows(path),
        "versions" => versions(path),
        name => panic!("there is no test {name}"),
    }
}
