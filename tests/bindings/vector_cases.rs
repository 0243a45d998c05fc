//! Tests of vectors of the crate `cvec`: vector_cases NAME FILE, where NAME is that of a test below; and writers that vector_killed.py and
//! vector_steps.py kill: vector_cases write FILE ROUND THREADS TURNS, vector_cases steps FILE. What a file holds is read by others.
use cvec::{Bytes, Error, ErrorKind, Flagged, MOST_SEATS, Options, Pair, Receipt, Record, Seat, Vector, Version, View};
use std::error::Error as _;
use std::fmt::Debug;
use std::fs;
use std::io::{Write, stdout};
use std::panic::{AssertUnwindSafe, catch_unwind, set_hook, take_hook};
use std::path::Path;
use std::sync::atomic::{AtomicU64, Ordering};
use std::thread;
use std::time::{Duration, Instant};

unsafe extern "C" {
    fn fork() -> i32;
    fn _exit(status: i32) -> !;
    fn waitpid(process: i32, status: *mut i32, options: i32) -> i32;
    fn alarm(seconds: u32) -> u32;
}

fn is_send<T: Send>() {}
fn is_shared<T: Send + Sync>() {}

/// A block of a thread: its first record says whose it is, and how long. The others follow from it.
fn block(round: u64, name: u64, turn: u64) -> Vec<u64> {
    let length = 1 + (name * 7 + turn * 13 + round * 29) % 60;
    let head = round << 48 | name << 40 | turn << 8 | length;
    std::iter::once(head).chain((1..length).map(|at| head.wrapping_mul(31).wrapping_add(at))).collect()
}

const TOO_LARGE: &str = "more records than fit one growth";
const IN_USE: &str = "the file is in use";
const LATE: &str = "the time has passed: what was waited for may yet come";
const UNFOLDED: &str = "a change isn't folded: fold first";
const OUT_OF_RANGE: &str = "there is no such growth or position, or the vector would pass 2^32 records";
const BUSY: &str = "another thread is inside a call, a seat isn't closed, the vector is held, or answers of growths aren't taken";
const FULL: &str = "it takes no more growths while records are lent: compact it";
const FILE_TOO_LARGE: &str = "the file can't be written: File too large (os error 27)";
const BROKEN: &str = "a write or a sync has failed before: open the file again";

/// It names the file, and says this; behind it stands the system's reason, where it has one.
fn refused<T: Debug>(answer: Result<T, Error>, text: &str) -> Error {
    let error = answer.expect_err(text);
    let place = format!("{}: ", error.path().expect("a path").display());
    let told = error.to_string().strip_prefix(&place).expect("the path first").to_string();
    let reason = error.source().map(|it| format!(": {it}")).unwrap_or_default();
    assert_eq!(told + &reason, text);
    error
}

fn kind_of<T>(answer: Result<T, Error>) -> Option<ErrorKind> {
    answer.err().map(|it| it.kind())
}

fn seats(seats: u16) -> Options {
    Options::default().seats(seats)
}

/// Of `u64`, with so many seats.
fn create(path: &Path, count: u16) -> Result<Vector, Error> {
    Vector::create_with(path, &seats(count))
}

fn open(path: &Path, count: u16) -> Result<Vector, Error> {
    open_of(path, count)
}

fn open_of<R: Record>(path: &Path, count: u16) -> Result<Vector<R>, Error> {
    Vector::open_with(path, &seats(count))
}

/// What it panics with, which isn't printed.
fn panic_of<T: Debug>(run: impl FnOnce() -> T) -> String {
    let hook = take_hook();
    set_hook(Box::new(|_| ()));
    let ended = catch_unwind(AssertUnwindSafe(run));
    set_hook(hook);
    *ended.expect_err("it panics").downcast().unwrap()
}

fn grows_and_reads(path: &Path) -> Result<(), Error> {
    is_shared::<Vector>();
    is_send::<Seat<'static>>();
    let vector = Vector::<u64>::create_with(path, &seats(2).version(Version::Two))?;
    let seat = vector.seat()?;
    assert!(seat.is_empty()? && seat.read(..)?.is_empty());
    let first = seat.grow(&[5, 7])?;
    let second = thread::scope(|scope| scope.spawn(|| vector.seat()?.grow(&[11, u64::MAX, 0])).join().unwrap())?;
    assert_eq!((first, second), (Receipt { number: 0, start: 0, length: 2 }, Receipt { number: 1, start: 2, length: 3 }));
    assert_eq!((seat.len()?, seat.settled()?, seat.is_empty()?), (5, 0, false));
    seat.settle(&first)?;
    assert!(seat.settled()? >= 1);
    seat.settle(&second)?;
    assert_eq!(seat.settled()?, 2);
    let all = [5, 7, 11, u64::MAX, 0];
    assert_eq!(seat.read(..)?, all);
    assert_eq!(seat.read(1..=3)?, all[1..=3]);
    assert_eq!(seat.read(..2)?, all[..2]);
    assert_eq!(seat.read((std::ops::Bound::Excluded(1), std::ops::Bound::Included(u64::MAX)))?, all[2..]);
    #[allow(clippy::reversed_empty_ranges)]
    let backwards = 3..1;
    assert!(seat.read(backwards)?.is_empty() && seat.read(5..)?.is_empty() && seat.read(u64::MAX..)?.is_empty());
    let mut out = [9; 4];
    assert_eq!((seat.read_into(2, &mut out)?, out), (3, [11, u64::MAX, 0, 9]));
    assert_eq!((seat.read_into(0, &mut out[1..3])?, out), (2, [11, 5, 7, 9]));
    assert_eq!((seat.read_into(0, &mut [])?, seat.read_into(9, &mut out)?), (0, 0));
    seat.grow(&[13])?;
    // A seat may go to another thread; the vector's drop commits what nobody has settled.
    thread::scope(|scope| scope.spawn(move || seat.grow(&[17])).join().unwrap())?;
    Ok(())
}

cvec::record! {
    /// Of 40 bytes: five words.
    #[derive(Debug, PartialEq)]
    struct Sample {
        sensor: u32,
        second: u32,
        value: f64,
        /// Of each channel.
        more: [u16; 12],
    }

    /// Of 24 bytes: one record.
    #[derive(Debug, PartialEq)]
    struct Place {
        name: u64,
        at: Point,
        height: f64,
    }

    /// Of 8 bytes, none of its fields.
    #[derive(Debug, PartialEq)]
    pub struct Point {
        pub x: f32,
        pub(crate) y: f32,
    }

    #[derive(Debug, PartialEq)]
    struct Color {
        all: u32,
    }

    #[derive(Debug, PartialEq)]
    struct Span {
        from: i64,
        to: i64,
    }

    /// Of 256 bytes, as many as a record has.
    #[derive(Debug, PartialEq)]
    struct Line {
        first: u64,
        others: [u64; 31],
    }
}

fn sample(number: u64) -> Sample {
    Sample { sensor: number as u32, second: (number >> 32) as u32, value: number as f64 / 2.0, more: [number as u16, 0, 1, 2, 0, 0, 0, 0, 0, 0, 0, 0] }
}

fn point(number: u64) -> Point {
    Point { x: number as f32, y: -1.0 }
}

fn line(number: u64) -> Line {
    Line { first: number, others: [!number; 31] }
}

/// Of this type: grown, read, opened again, searched and changed.
fn has_records_of<R: Record + PartialEq + Debug>(path: &Path, width: u8, records: [R; 4]) -> Result<(), Error> {
    let _ = fs::remove_file(path);
    let vector = Vector::<R>::create_with(path, &seats(2).version(Version::Two))?;
    let seat = vector.seat()?;
    assert_eq!(seat.grow(&records[..2])?, Receipt { number: 0, start: 0, length: 2 });
    let mut appender = seat.appender(1)?;
    appender.push(records[2])?;
    let receipt = appender.push(records[3])?.unwrap();
    assert_eq!((receipt.start, appender.kept()), (2, &records[3..]));
    seat.settle(&appender.flush()?.unwrap())?;
    drop(appender);
    assert_eq!(seat.read(..)?, records);
    drop(seat);
    vector.close()?;
    assert_eq!(fs::read(path).unwrap()[9..11], [width, 0]);
    let mut vector = open_of::<R>(path, 2)?;
    let seat = vector.seat()?;
    assert_eq!((seat.count(records[3])?, seat.find(records[3], 0)?, seat.find(records[0], 1)?), (1, Some(3), None));
    assert_eq!([seat.at(0)?, seat.at(3)?, seat.at(4)?, seat.at(u64::MAX)?], [Some(records[0]), Some(records[3]), None, None]);
    assert_eq!(seat.piece(0)?, Some(&records[..]));
    drop(seat);
    vector.change(1, &records[..2])?;
    vector.resize(6, records[3])?;
    vector.fold()?;
    vector.resize(5, records[0])?;
    assert_eq!(vector.seat()?.read(..)?, [records[0], records[0], records[1], records[3], records[3]]);
    vector.close()
}

fn has_types(path: &Path) -> Result<(), Error> {
    has_records_of(path, 4, [1, u32::MAX, 0, 7])?;
    const WIDTH: &str = "the records have another width";
    assert_eq!(refused(open(path, 1), WIDTH).kind(), ErrorKind::Width);
    refused(open_of::<Pair>(path, 1), WIDTH);
    has_records_of(path, 8, [1, u64::MAX, 0, 7])?;
    refused(open_of::<u32>(path, 1), WIDTH);
    has_records_of(path, 8, [-1, i64::MIN, i64::MAX, 7])?;
    assert_eq!(open(path, 1)?.seat()?.read(..1)?, [u64::MAX]);
    has_records_of(path, 16, [(1, -1), (u64::MAX, i64::MIN), (1, 1), (0, 7)].map(|(key, value)| Pair { key, value }))?;
    refused(open_of::<Flagged>(path, 1), WIDTH);
    has_records_of(path, 9, [(1, true), (u64::MAX, false), (1, false), (0, true)].map(|(key, flag)| Flagged { key, flag }))?;
    refused(open_of::<Pair>(path, 1), WIDTH);
    Ok(())
}

/// Structs of the caller's are kept as one record of their size, or as several of 8 bytes.
fn has_own_structs(path: &Path) -> Result<(), Error> {
    has_records_of(path, 4, [1, 2, 0, 7].map(|all| Color { all }))?;
    assert_eq!(open_of::<u32>(path, 1)?.seat()?.read(..)?, [1, 1, 2, 7, 7]);
    has_records_of(path, 4, [0.5, -1.0, f32::INFINITY, 7.0_f32])?;
    has_records_of(path, 8, [1, 2, 3, 4].map(point))?;
    assert_eq!(open(path, 1)?.seat()?.read(..1)?, [0xbf80_0000_3f80_0000]);
    has_records_of(path, 8, [0.5, -1.0, f64::MAX, 7.0])?;
    has_records_of(path, 16, [1, 2, 3, 4].map(|from| Span { from, to: -from }))?;
    assert_eq!(open_of::<Pair>(path, 1)?.seat()?.read(3..4)?, [Pair { key: 4, value: -4 }]);
    has_records_of(path, 8, [1, 2, 3, 4].map(line))?;
    has_records_of(path, 16, [1, 2, 0, 7].map(|it| Bytes([it; 16])))?;
    has_records_of(path, 1, [1, 255, 0, 7_u8])?;
    has_records_of(path, 2, [-1, i16::MIN, 0, 7])?;
    has_records_of(path, 24, [1, 2, 0, 7].map(|it| Bytes([it; 24])))?;
    has_records_of(path, 24, [1, 2, 3, 4].map(|name| Place { name, at: point(name), height: -0.5 }))?;
    has_records_of(path, 32, [1_u8, 2, 0, 7].map(|it| [it; 32]))?;
    has_records_of(path, 64, [1, 2, 0, 7].map(|it| Bytes([it; 64])))?;
    has_records_of(path, 8, [0, 1 << 32, 3, 4].map(sample))?;
    // Five samples are 25 words, by hand: of sensor 0 and second 1, 2^31 as a double, and the four numbers.
    let words = open(path, 1)?.seat()?.read(..)?;
    assert_eq!((words.len(), &words[10..13]), (25, &[1 << 32, 0x41e0_0000_0000_0000, 0x0002_0001_0000_0000][..]));
    refused(open_of::<Line>(path, 1), "the records have another width");
    refused(open_of::<Span>(path, 1), "the records have another width");
    Ok(())
}

/// As records that C has, but that a growth, a change and a resize are of whole ones.
fn searches_and_resizes_own_structs(path: &Path) -> Result<(), Error> {
    let mut vector = Vector::<Sample>::create_with(path, &seats(1).growths(2))?;
    let (a, b) = (sample(1), Sample { sensor: 0, second: 0, value: 0.0, more: [0; 12] });
    let seat = vector.seat()?;
    // The last four words of one and the first of the next are no record.
    seat.grow(&[Sample { value: 8.0, more: [0; 12], ..a }, Sample { sensor: 9, ..b }])?;
    let within = Sample { sensor: 0, second: 0x4020_0000, value: 0.0, more: [0, 0, 0, 0, 0, 0, 0, 0, 9, 0, 0, 0] };
    assert_eq!((seat.count(within)?, seat.find(within, 0)?), (0, None));
    let receipt = seat.grow(&(0..3_000).map(sample).collect::<Vec<_>>())?;
    assert_eq!(receipt, Receipt { number: 1, start: 2, length: 3_000 });
    assert_eq!((seat.len()?, seat.count(a)?, seat.find(a, 0)?, seat.find(a, 4)?), (3_002, 1, Some(3), None));
    let last = sample(2_999);
    assert_eq!([seat.find(last, 0)?, seat.find(last, 3_001)?, seat.find(last, 3_002)?], [Some(3_001), Some(3_001), None]);
    assert_eq!((seat.piece(3_001)?, seat.piece(3_002)?), (Some(&[last][..]), None));
    drop(seat);
    // The phase is full, of which records were lent: that stands in no way of a resize, by rows of whole ones.
    let c = Sample { sensor: 1, second: 2, value: 3.0, more: [4, 5, 6, 7, 4, 5, 6, 7, 4, 5, 6, 7] };
    vector.resize(3_004, c)?;
    assert_eq!(vector.seat()?.read(3_000..)?, [sample(2_998), last, c, c]);
    vector.change(3_001, &[a])?;
    refused(vector.change(3_003, &[a, a]), OUT_OF_RANGE);
    refused(vector.change(u64::MAX, &[a]), OUT_OF_RANGE);
    let seat = vector.seat()?;
    assert_eq!((seat.read(3_000..)?, seat.count(a)?), (vec![sample(2_998), a, c, c], 2));
    drop(seat);
    refused(vector.resize(3_004 + 26_215, b), TOO_LARGE);
    refused(vector.resize((1 << 32) / 5 + 1, b), OUT_OF_RANGE);
    refused(vector.resize(u64::MAX, b), OUT_OF_RANGE);
    assert_eq!(refused(vector.resize(1, b), UNFOLDED).kind(), ErrorKind::Unfolded);
    vector.fold()?;
    vector.resize(2, b)?;
    assert_eq!(vector.seat()?.len()?, 2);
    vector.close()
}

fn appends(path: &Path) -> Result<(), Error> {
    let vector = create(path, 2)?;
    let seat = vector.seat()?;
    let mut out = seat.appender(3)?;
    let told: Vec<_> = (0..8).map(|it| out.push(it)).collect::<Result<_, _>>()?;
    let starts: Vec<_> = told.iter().map(|it| it.map(|it| (it.number, it.start, it.length))).collect();
    assert_eq!(starts, [None, None, None, Some((0, 0, 3)), None, None, Some((1, 3, 3)), None]);
    assert_eq!((out.kept(), seat.len()?), (&[6, 7][..], 6));
    drop(out);
    assert_eq!((seat.len()?, seat.appender(1)?.flush()?), (8, None));
    refused(seat.appender(0), "a growth has at least one record");
    refused(seat.appender(usize::MAX), "memory was refused");
    // What is refused is kept, and nothing more.
    let mut out = seat.appender(150_000)?;
    for it in 0..150_000 {
        out.push(it)?;
    }
    refused(out.push(5), TOO_LARGE);
    refused(out.flush(), TOO_LARGE);
    assert_eq!((out.kept().len(), seat.len()?), (150_000, 8));
    drop(out);
    drop(seat);
    vector.close()
}

/// As C has its name: of NoSeat another one.
fn name_in_c(kind: ErrorKind) -> String {
    let words = format!("{kind:?}").chars().fold(String::new(), |mut name, it| {
        if it.is_uppercase() && !name.is_empty() {
            name.push('_');
        }
        name.extend(it.to_uppercase());
        name
    });
    if kind == ErrorKind::NoSeat { "NOT_SO".to_string() } else { words }
}

/// Each kind has C's number for its name, and C has no other refusals but those of images and of clients. 65 and 70 are never answered.
fn has_the_numbers_of_c() {
    use ErrorKind::*;
    let of_files = [Unborn, NotSegment, Version, Width, Damaged, Memory, Empty, OutOfRange, TooLarge, FileFull, NoRecord, Exists, InUse, Broken];
    let of_system = [DiskOpen, DiskLength, DiskRead, DiskWrite, DiskSync, Forked, NotFile, ReadOnly];
    let of_vectors = [NoSeat, Full, Busy, Late, Unfolded];
    let kinds = of_files.iter().chain(&of_system).chain(&of_vectors);
    let told: Vec<_> = kinds.map(|it| (it.status().unwrap(), name_in_c(*it))).collect();
    // A number, a name, and a sentence.
    let lines = include_str!("statuses.txt").lines().map(|it| it.split(' ').collect::<Vec<_>>());
    let wanted = lines.map(|it| (it[0].parse().unwrap(), it[1].to_string()));
    assert_eq!(told, wanted.filter(|it| it.0 < 96 && ![0, 11, 12, 65, 70].contains(&it.0)).collect::<Vec<_>>());
    assert_eq!([Seats, Growths, Path, Filling, OtherVector].map(ErrorKind::status), [None; 5]);
    assert_eq!(Unknown(999).status(), Some(999));
}

fn each_refusal(path: &Path) -> Result<(), Error> {
    has_the_numbers_of_c();
    assert_eq!(refused(open(path, 1), "the file can't be opened: No such file or directory (os error 2)").kind(), ErrorKind::DiskOpen);
    refused(open(path.parent().unwrap(), 1), "a folder, a pipe or a device has this name");
    refused(create(Path::new("a\0b"), 1), "a path has a zero byte");
    for seats in [0, MOST_SEATS + 1, u16::MAX] {
        refused(create(path, seats), "a vector has 1 to 64 seats");
        refused(open(path, seats), "a vector has 1 to 64 seats");
    }
    assert!(!path.exists());
    let vector = create(path, 2)?;
    assert_eq!(refused(open(path, 2), IN_USE).kind(), ErrorKind::InUse);
    assert_eq!(refused(create(path, 2), IN_USE).errno(), None);
    let seat = vector.seat()?;
    refused(seat.grow(&[]), "a growth has at least one record");
    refused(seat.grow(&[1; 131_072]), TOO_LARGE);
    let receipt = seat.grow(&[1; 131_071])?;
    refused(seat.settle(&Receipt { number: 1, ..receipt }), OUT_OF_RANGE);
    refused(seat.settle(&Receipt { number: u64::MAX, ..receipt }), OUT_OF_RANGE);
    // A seat that is dropped is given again, and counts on.
    for number in 1..4 {
        assert_eq!(vector.seat()?.grow(&[3])?.number, number);
    }
    let other = vector.seat()?;
    assert_eq!(refused(vector.seat(), "every seat is taken, or waited for").kind(), ErrorKind::NoSeat);
    drop((seat, other));
    let seat = vector.seat()?;
    assert_eq!((seat.grow(&[3])?.number, seat.settled()?), (4, 1));
    seat.settle(&receipt)?;
    drop(seat);
    vector.close()?;
    refused(create(path, 2), "something is there already");
    // A seat that is forgotten keeps the vector open.
    let mut vector = open(path, 2)?;
    let seat = vector.seat()?;
    std::mem::forget(vector.seat()?);
    drop(seat);
    vector.fold()?;
    vector.compact()?;
    let seat = vector.seat()?;
    assert_eq!((seat.count(3)?, seat.find(3, 0)?, seat.len()?), (4, Some(131_071), 131_075));
    drop(seat);
    refused(vector.close(), BUSY);
    refused(open(path, 1), IN_USE);
    let other = path.with_extension("other");
    let others: [(&[u8], ErrorKind); 5] = [
        (b"", ErrorKind::Unborn),
        (b"\x01other bytes than those of a file", ErrorKind::NotSegment),
        (b"\x01CVECSEG\x07\x08\0\0", ErrorKind::Version),
        (b"\x01CVECSEG\x01\x04\0\0", ErrorKind::Width),
        (b"\x01CVECSEG\x01\x08\0\x01\x09", ErrorKind::Damaged),
    ];
    for (there, error) in others {
        fs::write(&other, there).unwrap();
        assert_eq!(open(&other, 1).unwrap_err().kind(), error);
        assert_eq!(fs::read(&other).unwrap(), there);
    }
    Ok(())
}

/// While a thread's commit is held (syncs.c), a wait for it ends when its time has passed.
fn has_a_deadline(path: &Path) -> Result<(), Error> {
    let gate = std::env::var("GATE").unwrap();
    let vector = create(path, 3)?;
    let seat = vector.seat()?;
    let first = seat.grow(&[5])?;
    let begun = AtomicU64::new(0);
    fs::write(&gate, "").unwrap();
    thread::scope(|scope| {
        let held = scope.spawn(|| vector.seat()?.settle_for(&first, Duration::ZERO));
        while !Path::new(&format!("{gate}.held")).exists() {
            thread::sleep(Duration::from_millis(1));
        }
        let second = seat.grow(&[6])?;
        for (receipt, longest) in [(first, Duration::ZERO), (second, Duration::from_nanos(1)), (second, Duration::from_millis(9))] {
            refused(seat.settle_for(&receipt, longest), LATE);
        }
        assert_eq!(seat.settled()?, 0);
        let (vector, begun) = (&vector, &begun);
        let longest = scope.spawn(move || {
            let seat = vector.seat()?;
            begun.store(1, Ordering::SeqCst);
            seat.settle_for(&second, Duration::MAX)
        });
        while begun.load(Ordering::SeqCst) == 0 {
            thread::yield_now();
        }
        fs::remove_file(&gate).unwrap();
        // Who commits ends its commit, though it had no time.
        held.join().unwrap()?;
        longest.join().unwrap()
    })?;
    let third = seat.grow(&[7])?;
    seat.settle_for(&third, Duration::ZERO)?; // nobody commits: it does
    assert_eq!(seat.settled()?, 3);
    drop(seat);
    vector.close()
}

/// What nobody settles is settled by a flusher, until that is stopped.
fn flushes(path: &Path) -> Result<(), Error> {
    let vector = &create(path, 1)?;
    let seat = vector.seat()?;
    thread::scope(|scope| {
        let flusher = scope.spawn(|| vector.run_flusher(Duration::from_nanos(1)));
        for number in 0..9 {
            seat.grow(&[number])?;
            while seat.settled()? <= number {
                thread::sleep(Duration::from_millis(1));
            }
        }
        vector.stop_flusher()?;
        flusher.join().unwrap()
    })?;
    seat.grow(&[9])?;
    vector.run_flusher(Duration::MAX)?;
    assert_eq!(seat.settled()?, 9);
    Ok(())
}

/// Where a phase is full it goes on by the same seats: each record of an appender is a growth, and numbers count on.
fn is_full(path: &Path) -> Result<(), Error> {
    const MOST: u64 = 1_048_568;
    let vector = Vector::create_with(path, &seats(2).growths(MOST))?;
    let (seat, other) = (vector.seat()?, vector.seat()?);
    let first = seat.grow(&[0])?;
    let mut out = seat.appender(1)?;
    for number in 1..=MOST {
        out.push(number)?;
    }
    assert_eq!((out.kept(), seat.len()?, seat.settled()?), (&[MOST][..], MOST, 0));
    assert_eq!(out.flush()?, Some(Receipt { number: MOST, start: MOST, length: 1 }));
    drop(out);
    // All from before is settled, and what is behind it isn't yet.
    assert_eq!((seat.settled()?, other.settled()?, other.len()?), (MOST, MOST, MOST + 1));
    for receipt in [first, Receipt { number: MOST - 1, ..first }] {
        other.settle(&receipt)?;
        other.settle_for(&receipt, Duration::ZERO)?;
    }
    let behind = other.grow(&[MOST + 1])?;
    assert_eq!((behind, seat.settled()?), (Receipt { number: MOST + 1, start: MOST + 1, length: 1 }, MOST));
    seat.settle(&behind)?;
    assert_eq!(seat.settled()?, MOST + 2);
    refused(seat.settle(&Receipt { number: MOST + 2, ..first }), OUT_OF_RANGE);
    assert_eq!(seat.read(MOST - 1..)?, [MOST - 1, MOST, MOST + 1]);
    drop((seat, other));
    assert_eq!(vector.seat()?.settled()?, MOST + 2);
    vector.close()
}

/// Threads that grow one record each time, past 1,048,568 growths together, beside a flusher: none is refused.
fn is_full_by_threads(path: &Path) -> Result<(), Error> {
    const THREADS: u64 = 16;
    const EACH: u64 = 70_000;
    let vector = &Vector::<u32>::create_with(path, &seats(16).version(Version::Two).growths(1_048_568))?;
    let run = |name: u64| -> Result<(), Error> {
        let seat = vector.seat()?;
        for number in 0..EACH {
            let receipt = seat.grow(&[(name << 20 | number) as u32])?;
            assert_eq!((receipt.number, receipt.length), (receipt.start, 1));
            if number % 10_000 == 0 {
                seat.settle(&receipt)?;
            }
        }
        Ok(())
    };
    thread::scope(|scope| {
        let flusher = scope.spawn(|| vector.run_flusher(Duration::from_millis(5)));
        let running: Vec<_> = (0..THREADS).map(|name| scope.spawn(move || run(name))).collect();
        let grown = running.into_iter().try_for_each(|it| it.join().unwrap());
        vector.stop_flusher()?;
        flusher.join().unwrap()?;
        grown
    })?;
    let records = vector.seat()?.read(..)?;
    for name in 0..THREADS {
        let own: Vec<u64> = records.iter().map(|&it| u64::from(it)).filter(|it| it >> 20 == name).map(|it| it & 0xf_ffff).collect();
        assert_eq!(own, (0..EACH).collect::<Vec<_>>());
    }
    assert_eq!(records.len() as u64, THREADS * EACH);
    Ok(())
}

/// A seat is waited for, no longer than it is asked for; a pool of 200 threads works by 64.
fn waits_for_a_seat(path: &Path) -> Result<(), Error> {
    let vector = &create(path, MOST_SEATS)?;
    let mut seats: Vec<_> = (0..MOST_SEATS).map(|_| vector.seat().unwrap()).collect();
    for longest in [Duration::ZERO, Duration::from_millis(30)] {
        let begun = Instant::now();
        assert_eq!(refused(vector.seat_within(longest), LATE).kind(), ErrorKind::Late);
        assert!(begun.elapsed() >= longest && begun.elapsed() < Duration::from_secs(5));
    }
    thread::scope(|scope| {
        let waiter = scope.spawn(|| vector.seat_within(Duration::MAX)?.grow(&[1_000_000]));
        thread::sleep(Duration::from_millis(20));
        seats.pop();
        waiter.join().unwrap()
    })?;
    drop(seats);
    let work = |name: u64| -> Result<(), Error> {
        for turn in 0..10 {
            let seat = vector.seat_within(Duration::from_secs(60))?;
            seat.grow(&[name * 10 + turn])?;
            if turn % 5 == 0 {
                thread::sleep(Duration::from_millis(1));
            }
        }
        Ok(())
    };
    thread::scope(|scope| {
        let pool: Vec<_> = (0..200).map(|name| scope.spawn(move || work(name))).collect();
        pool.into_iter().try_for_each(|it| it.join().unwrap())
    })
}

/// Threads that grow these records, each of which keeps what it was lent: nothing of that moves or changes, nor ends with a seat.
fn lends_of<R: Record + PartialEq + Debug>(path: &Path, record: fn(u64) -> R) -> Result<(), Error> {
    const EACH: u64 = 2_500;
    let block_of = |name: u64, turn: u64| (0..1 + turn % 3).map(|it| record(name << 16 | turn << 2 | it)).collect::<Vec<R>>();
    let _ = fs::remove_file(path);
    let mut vector = Vector::<R>::create_with(path, &seats(5).growths(20_000))?;
    let first = block_of(4, 2);
    let early = {
        let seat = vector.seat()?;
        seat.grow(&first)?;
        seat.piece(0)?.unwrap()
    };
    let at = early.as_ptr();
    let grow = |name| -> Result<Vec<(u64, &[R])>, Error> {
        let seat = vector.seat()?;
        let lend = |turn| {
            let start = seat.grow(&block_of(name, turn))?.start;
            Ok((start, seat.piece(start)?.unwrap()))
        };
        (0..EACH).map(lend).collect()
    };
    let grow = &grow;
    let all = thread::scope(|scope| {
        let threads: Vec<_> = (0..4).map(|name| scope.spawn(move || grow(name))).collect();
        while !threads.iter().all(|it| it.is_finished()) {
            assert_eq!(early, first);
        }
        threads.into_iter().map(|it| it.join().unwrap()).collect::<Result<Vec<_>, _>>()
    })?;
    let seat = vector.seat()?;
    assert_eq!((early, early.as_ptr(), seat.piece(0)?.unwrap().as_ptr()), (&first[..], at, at));
    for (name, found) in (0..).zip(&all) {
        for (turn, (start, lent)) in (0..).zip(found) {
            let block = block_of(name, turn);
            assert_eq!((&lent[..block.len()], seat.piece(*start)?.unwrap().as_ptr()), (&block[..], lent.as_ptr()));
        }
    }
    let (pieces, records) = (seat.pieces(0).collect::<Result<Vec<_>, _>>()?, seat.read(..)?);
    assert_eq!((pieces.concat(), records.len()), (records.clone(), 3 + 4 * 4_999));
    assert_eq!(seat.pieces(7_001).collect::<Result<Vec<_>, _>>()?.concat(), records[7_001..]);
    assert_eq!((seat.pieces(records.len() as u64).count(), seat.pieces(u64::MAX).count()), (0, 0));
    drop(seat);
    vector.compact()?;
    assert_eq!(vector.seat()?.pieces(0).collect::<Result<Vec<_>, _>>()?.concat(), records);
    vector.close()
}

fn lends(path: &Path) -> Result<(), Error> {
    lends_of::<u32>(path, |it| it as u32)?;
    lends_of::<i64>(path, |it| -(it as i64))?;
    lends_of::<Pair>(path, |key| Pair { key, value: !key as i64 })?;
    lends_of::<Flagged>(path, |key| Flagged { key, flag: key % 3 == 0 })?;
    lends_of::<f64>(path, |it| it as f64 / 2.0)?;
    lends_of(path, point)?;
    lends_of(path, line)?;
    lends_of(path, sample)?;
    lends_of::<u64>(path, |it| it)
}

/// With room for eight growths: the ninth ends the phase, but where records of it are lent.
fn is_full_where_it_lends(path: &Path) -> Result<(), Error> {
    let mut vector = Vector::create_with(path, &seats(2).growths(8))?;
    let seat = vector.seat()?;
    for number in 0..20 {
        assert_eq!(seat.grow(&[number])?.number, number);
    }
    // Of the third phase there are four growths.
    let lent = seat.piece(19)?.unwrap();
    let at = lent.as_ptr();
    for number in 20..24 {
        seat.grow(&[number])?;
    }
    for _ in 0..3 {
        assert_eq!(refused(seat.grow(&[24]), FULL).kind(), ErrorKind::Full);
        assert_eq!(refused(seat.grow_with(1, |it| it[0] = 24), FULL).kind(), ErrorKind::Full);
    }
    assert_eq!((lent, seat.piece(19)?.unwrap().as_ptr(), seat.len()?), (&[19][..], at, 24));
    seat.settle(&Receipt { number: 23, start: 23, length: 1 })?;
    drop(seat);
    // Other seats change nothing of it.
    refused(vector.seat()?.grow(&[24]), FULL);
    assert_eq!((lent, lent.as_ptr()), (&[19][..], at));
    vector.compact()?;
    let seat = vector.seat()?;
    assert_eq!((seat.len()?, seat.settled()?), (24, 24));
    for number in 24..50 {
        assert_eq!(seat.grow(&[number])?.number, number);
    }
    assert_eq!(seat.read(..)?, (0..50).collect::<Vec<_>>());
    // Copies and searches lend nothing, and what was written in place is lent.
    assert_eq!((seat.at(49)?, seat.count(49)?, seat.find(49, 0)?), (Some(49), 1, Some(49)));
    for number in 50..60 {
        seat.grow(&[number])?;
    }
    seat.grow_with(1, |it| it[0] = 60)?;
    for number in 61..64 {
        seat.grow(&[number])?;
    }
    refused(seat.grow(&[64]), FULL);
    drop(seat);
    vector.compact()?;
    vector.seat()?.grow(&[64])?;
    assert_eq!(vector.seat()?.read(..)?, (0..65).collect::<Vec<_>>());
    vector.close()
}

/// By layouts of short and long pieces, learned of one after the other: at each position is the record that was grown there.
fn views(path: &Path) -> Result<(), Error> {
    is_shared::<View<'static>>();
    let other = create(&path.with_extension("other"), 1)?;
    let vector = create(path, 2)?;
    let seat = vector.seat()?;
    let (mut view, early) = (seat.view()?, seat.view()?);
    assert_eq!((view.is_empty(), view.len(), view.get(0), view.get(u64::MAX)), (true, 0, None, None));
    let mut len = 0;
    for (count, length) in [(1, 1), (300, 1), (1, 90_000), (700, 16), (2_000, 1), (40, 5_000), (129, 3), (1, 1), (0, 0)] {
        for _ in 0..count {
            seat.grow(&(len..len + length).collect::<Vec<_>>())?;
            len += length;
        }
        view.learn(&seat)?;
        let anew = seat.view()?;
        assert_eq!((view.len(), anew.len(), view.get(len), view.is_empty()), (len, len, None, false));
        assert!((0..len).all(|k| view[k] == k && anew.get(k) == Some(&k)));
        assert!(view.pieces().flatten().copied().eq(0..len));
    }
    assert_eq!(early.len(), 0);
    assert_eq!(refused(view.learn(&other.seat()?), "the seat is one of another vector").kind(), ErrorKind::OtherVector);
    assert_eq!(panic_of(|| view[len]), format!("position {len} of a view of {len} records"));
    // What it gives lasts as long as the vector is borrowed: longer than the seat, and than the view.
    drop(seat);
    let last = view.get(len - 1).unwrap();
    thread::scope(|scope| scope.spawn(|| assert!((0..len).all(|k| view[k] == k))).join().unwrap());
    drop(view);
    assert_eq!(*last, len - 1);
    Ok(())
}

/// What a caller's own closure answers.
#[derive(Debug, PartialEq)]
enum Stopped {
    Refused(ErrorKind),
    Own(u8),
}

impl From<Error> for Stopped {
    fn from(error: Error) -> Stopped {
        Stopped::Refused(error.kind())
    }
}

/// Of this type: the records are zero at first, and stay where they were written. A growth has at most so many.
fn fills_of<R: Record + PartialEq + Debug>(path: &Path, most: usize, zero: R, record: fn(u64) -> R) -> Result<(), Error> {
    let _ = fs::remove_file(path);
    let vector = Vector::<R>::create_with(path, &seats(1))?;
    let seat = vector.seat()?;
    for turn in 0..3 {
        let (mut at, records) = (std::ptr::null(), [record(turn), record(5), record(7)]);
        let receipt = seat.grow_with(3, |lent| {
            assert_eq!(lent, [zero; 3]);
            lent.copy_from_slice(&records);
            at = lent.as_ptr();
        })?;
        assert_eq!(receipt, Receipt { number: turn, start: turn * 3, length: 3 });
        let lent = seat.piece(receipt.start)?.unwrap();
        assert_eq!((lent, lent.as_ptr()), (&records[..], at));
    }
    refused(seat.grow_with(0, |_| panic!("no records are lent")), "a growth has at least one record");
    // The last ones have few words, or none, where those are counted by 64 bits.
    let kept = (size_of::<R>() / 8).max(2);
    for count in [most + 1, usize::MAX / 8, usize::MAX, usize::MAX / kept + 1, usize::MAX / kept + 2] {
        refused(seat.grow_with(count, |_| panic!("no records are lent")), TOO_LARGE);
    }
    assert_eq!(seat.grow_with(most, |lent| lent.fill(record(9)))?.length, most as u64);
    assert_eq!((seat.len()?, seat.at(9)?, seat.at(8 + most as u64)?), (9 + most as u64, Some(record(9)), Some(record(9))));
    drop(seat);
    vector.close()
}

/// Where the closure fails nothing was grown, and nothing is left of its records: the seat lends others.
fn fills_nothing(path: &Path) -> Result<(), Error> {
    let vector = create(path, 2)?;
    let seat = vector.seat()?;
    for turn in 0..100 {
        let stopped = seat.try_grow_with(70_000, |lent| {
            lent.fill(turn);
            Err(Stopped::Own(7))
        });
        assert_eq!(stopped, Err(Stopped::Own(7)));
        let panicked = panic_of(|| seat.grow_with(70_000, |lent| assert_ne!(lent[0], 0, "stopped")));
        assert!(panicked.contains("stopped"));
    }
    assert_eq!(seat.try_grow_with(0, |_| Ok(())), Err(Stopped::Refused(ErrorKind::Empty)));
    assert_eq!((seat.len()?, seat.is_empty()?), (0, true));
    // Other calls by the seat are made before it has grown.
    let receipt = seat.try_grow_with(2, |lent| -> Result<(), Stopped> {
        assert_eq!(refused(seat.grow_with(1, |_| ()), "the seat's records of another growth are being filled").kind(), ErrorKind::Filling);
        assert_eq!(seat.grow(&[1, 2, 3])?, Receipt { number: 0, start: 0, length: 3 });
        lent.copy_from_slice(&[seat.len()?, seat.at(1)?.unwrap()]);
        Ok(())
    });
    assert_eq!(receipt, Ok(Receipt { number: 1, start: 3, length: 2 }));
    assert_eq!(seat.read(..)?, [1, 2, 3, 3, 2]);
    seat.settle(&receipt.unwrap())?;
    drop(seat);
    vector.close()
}

fn fills_in_place(path: &Path) -> Result<(), Error> {
    fills_of::<u32>(path, 262_142, 0, |it| it as u32)?;
    fills_of::<i64>(path, 131_071, 0, |it| -(it as i64))?;
    fills_of(path, 65_535, Pair::default(), |key| Pair { key, value: -1 })?;
    fills_of(path, 116_507, Flagged::default(), |key| Flagged { key, flag: true })?;
    fills_of(path, 131_071, Point { x: 0.0, y: 0.0 }, point)?;
    fills_of(path, 26_214, Sample { sensor: 0, second: 0, value: 0.0, more: [0; 12] }, sample)?;
    fills_of(path, 43_690, Place { name: 0, at: Point { x: 0.0, y: 0.0 }, height: 0.0 }, |name| Place { name, at: point(1), height: 2.0 })?;
    fills_of(path, 4_095, Line { first: 0, others: [0; 31] }, line)?;
    fs::remove_file(path).unwrap();
    fills_nothing(path)
}

/// Records are counted and found while threads grow.
fn searches_beside_growers(path: &Path) -> Result<(), Error> {
    const TURNS: u64 = 3_000;
    let vector = &create(path, 5)?;
    let early = vector.seat()?;
    thread::scope(|scope| {
        let grow = |name: u64| {
            let seat = vector.seat()?;
            (0..TURNS).try_for_each(|turn| seat.grow(&[7, 100 + name, 1_000 + turn]).map(drop))
        };
        let threads: Vec<_> = (0..3).map(|name| scope.spawn(move || grow(name))).collect();
        let (seat, mut last) = (vector.seat()?, 0);
        while !threads.iter().all(|it| it.is_finished()) {
            let before = seat.len()?;
            let sevens = seat.count(7)?;
            assert!(sevens >= before / 3 && sevens >= last && sevens <= seat.len()? / 3);
            // What comes meanwhile is no record that isn't there.
            assert_eq!((seat.find(99, 0)?, seat.find(7, before)?.is_none_or(|it| it >= before && it % 3 == 0)), (None, true));
            last = sevens;
        }
        threads.into_iter().try_for_each(|it| it.join().unwrap())
    })?;
    // A seat that has called nothing since it was taken looks at what others grew.
    assert_eq!(early.count(7)?, 3 * TURNS);
    let seat = vector.seat()?;
    assert_eq!((seat.count(7)?, seat.count(102)?, seat.count(1_000 + TURNS)?), (3 * TURNS, TURNS, 0));
    assert_eq!((seat.find(7, 1)?, seat.find(7, 9_000 * 3 - 2)?), (Some(3), None));
    Ok(())
}

fn has_options(path: &Path) -> Result<(), Error> {
    let usual = Options::default();
    for seats in [0, MOST_SEATS + 1] {
        refused(Vector::<u64>::create_with(path, &usual.seats(seats)), "a vector has 1 to 64 seats");
        refused(Vector::<u64>::open_with(path, &usual.seats(seats)), "a vector has 1 to 64 seats");
    }
    assert_eq!(Vector::<u64>::create_with(path, &usual.growths(536_870_905)).unwrap_err().kind(), ErrorKind::Growths);
    assert!(!path.exists());
    let vector = Vector::<u64>::create_with(path, &usual)?;
    let seats: Vec<_> = (0..MOST_SEATS).map(|_| vector.seat().unwrap()).collect();
    assert_eq!(vector.seat().unwrap_err().kind(), ErrorKind::NoSeat);
    seats[0].grow(&[5])?;
    drop(seats);
    vector.close()?;
    assert_eq!(fs::read(path).unwrap()[8], 1);
    assert_eq!(Vector::<u64>::open_with(path, &usual.growths(u64::MAX)).unwrap_err().kind(), ErrorKind::Growths);
    let vector = Vector::<u64>::open_with(path, &usual.growths(1).seats(1))?;
    let seat = vector.seat()?;
    assert_eq!((seat.piece(0)?, kind_of(vector.seat())), (Some(&[5][..]), Some(ErrorKind::NoSeat)));
    seat.grow(&[7])?;
    refused(seat.grow(&[9]), FULL);
    drop(seat);
    vector.close()?;
    fs::remove_file(path).unwrap();
    Vector::<u64>::create_with(path, &usual.version(Version::Two))?.close()?;
    assert_eq!(fs::read(path).unwrap()[8], 2);
    Ok(())
}

/// It reads just these records.
fn has(vector: &Vector, records: &[u64]) {
    assert_eq!(vector.seat().unwrap().read(..).unwrap(), records);
}

fn is_changed(path: &Path) -> Result<(), Error> {
    let mut vector = create(path, 2)?;
    let first = vector.seat()?.grow(&[0, 1, 2, 3, 4, 5])?;
    vector.change(2, &[12, 13, 12])?;
    has(&vector, &[0, 1, 12, 13, 12, 5]);
    let seat = vector.seat()?;
    assert_eq!([seat.count(12)?, seat.count(5)?, seat.count(2)?], [2, 1, 0]);
    let found = [0, 2, 3, 4, 5, 6, u64::MAX].map(|from| seat.find(12, from).unwrap());
    assert_eq!(found, [Some(2), Some(2), Some(4), Some(4), None, None, None]);
    assert_eq!((seat.find(0, 0)?, seat.find(5, 0)?, seat.find(2, 0)?, seat.find(0, 1)?), (Some(0), Some(5), None, None));
    drop(seat);
    // What is refused, and what changes nothing, leaves the file.
    let before = fs::read(path).unwrap();
    for (start, records) in [(4, &[1, 2, 3][..]), (6, &[1]), (u64::MAX, &[1, 2])] {
        refused(vector.change(start, records), OUT_OF_RANGE);
    }
    assert_eq!(refused(vector.resize(5, 0), UNFOLDED).kind(), ErrorKind::Unfolded);
    refused(vector.clear(), UNFOLDED);
    refused(vector.resize(131_078, 1), TOO_LARGE);
    refused(vector.resize((1 << 32) + 1, 1), OUT_OF_RANGE);
    refused(vector.resize(u64::MAX, 1), OUT_OF_RANGE);
    vector.change(6, &[])?;
    vector.resize(6, 7)?;
    assert_eq!(fs::read(path).unwrap(), before);
    // Each seat is there again. They count on, and growths from before are settled.
    let (seat, other) = (vector.seat()?, vector.seat()?);
    assert_eq!((seat.settled()?, other.settled()?), (1, 1));
    let second = seat.grow(&[6, 7])?;
    assert_eq!((second, seat.settled()?), (Receipt { number: 1, start: 6, length: 2 }, 1));
    other.settle(&first)?;
    refused(other.settle(&Receipt { number: 2, ..first }), OUT_OF_RANGE);
    drop((seat, other));
    vector.resize(10, u64::MAX)?;
    has(&vector, &[0, 1, 12, 13, 12, 5, 6, 7, u64::MAX, u64::MAX]);
    vector.fold()?;
    let before = fs::read(path).unwrap();
    vector.fold()?;
    assert_eq!(fs::read(path).unwrap(), before);
    vector.resize(4, 0)?;
    has(&vector, &[0, 1, 12, 13]);
    vector.seat()?.grow(&[4])?;
    vector.clear()?;
    vector.clear()?;
    has(&vector, &[]);
    let seat = vector.seat()?;
    assert_eq!((seat.find(0, 0)?, seat.count(0)?), (None, 0));
    assert_eq!((seat.settled()?, seat.grow(&[5, 6])?), (3, Receipt { number: 3, start: 0, length: 2 }));
    seat.settle(&second)?;
    drop(seat);
    vector.change(1, &[8])?;
    vector.close()
}

/// A resize that C refuses before it has changed anything (refused.c): what was grown is settled, and growths are counted on.
fn is_refused(path: &Path) -> Result<(), Error> {
    let mut vector = create(path, 2)?;
    let first = vector.seat()?.grow(&[5, 7])?;
    assert_eq!(refused(vector.resize(1, 0), "memory was refused").kind(), ErrorKind::Memory);
    let seat = vector.seat()?;
    assert_eq!((seat.read(..)?, seat.settled()?), (vec![5, 7], 1));
    let second = seat.grow(&[9])?;
    assert_eq!((second, seat.settled()?), (Receipt { number: 1, start: 2, length: 1 }, 1));
    seat.settle(&first)?;
    seat.settle(&second)?;
    assert_eq!(seat.settled()?, 2);
    drop(seat);
    vector.resize(1, 0)?;
    assert_eq!(vector.seat()?.grow(&[11])?, Receipt { number: 2, start: 1, length: 1 });
    vector.close()
}

/// Where the device is full, what was changed isn't, and all is broken.
fn is_broken(path: &Path) -> Result<(), Error> {
    let mut vector = create(path, 1)?;
    let receipt = vector.seat()?.grow(&[5; 300])?;
    assert_eq!(vector.seat()?.count(5)?, 300);
    vector.compact()?;
    refused(vector.change(0, &[7; 300]), FILE_TOO_LARGE);
    refused(vector.seat(), BROKEN);
    refused(vector.clear(), BROKEN);
    refused(vector.fold(), BROKEN);
    refused(vector.change(0, &[9]), BROKEN);
    refused(vector.resize(0, 0), BROKEN);
    refused(vector.compact(), BROKEN);
    refused(vector.close(), BROKEN);
    // Where what was grown can't be committed the seats stay, by which it is read.
    let mut vector = open(path, 1)?;
    vector.seat()?.grow(&[7; 300])?;
    refused(vector.clear(), FILE_TOO_LARGE);
    refused(vector.clear(), BROKEN);
    let seat = vector.seat()?;
    assert_eq!((seat.len()?, seat.settled()?, seat.count(7)?, seat.find(7, 0)?), (600, 0, 300, Some(300)));
    refused(seat.settle(&receipt), BROKEN);
    drop(seat);
    refused(vector.close(), BROKEN);
    Ok(())
}

/// The calls that vector_steps.py lists. It prints the number of each that is durable.
fn steps(path: &Path) -> Result<(), Error> {
    let told = |step: u64| stdout().lock().write_all(format!("{step}\n").as_bytes()).unwrap();
    let grow = |vector: &Vector, records: &[u64]| {
        let seat = vector.seat()?;
        seat.settle(&seat.grow(records)?)
    };
    let mut vector = create(path, 2)?;
    told(0);
    grow(&vector, &[0, 1, 2, 3, 4, 5])?;
    told(1);
    vector.change(1, &[21, 22])?;
    told(2);
    vector.resize(8, 7)?;
    told(3);
    vector.change(0, &[9, 8])?;
    told(4);
    vector.fold()?;
    told(5);
    vector.resize(3, 0)?;
    told(6);
    vector.seat()?.grow(&[30, 31])?;
    vector.clear()?;
    told(8);
    grow(&vector, &[40])?;
    told(9);
    vector.close()
}

/// Whether a forked process, which has 10 seconds, is refused.
fn is_refused_in_a_fork(vector: &Vector, seat: &Seat) -> bool {
    // SAFETY: the child calls nothing but what it tries, and its copies of both are dropped there alone.
    let child = unsafe { fork() };
    if child == 0 {
        unsafe { alarm(10) };
        let is_refused = kind_of(vector.seat()) == Some(ErrorKind::Forked);
        drop(unsafe { std::ptr::read(seat) });
        let closed = unsafe { std::ptr::read(vector) }.close();
        unsafe { _exit(if is_refused && kind_of(closed) == Some(ErrorKind::Forked) { 0 } else { 1 }) };
    }
    let mut status = 1;
    // SAFETY: the place for the status lasts for the call.
    unsafe { waitpid(child, &mut status, 0) == child && status == 0 }
}

/// What another thread had at the fork, the forked process doesn't wait for.
fn forks_meanwhile(path: &Path) -> Result<(), Error> {
    let vector = &create(path, 2)?;
    let (seat, ends) = (vector.seat()?, AtomicU64::new(0));
    let are_refused = thread::scope(|scope| {
        scope.spawn(|| {
            while ends.load(Ordering::Relaxed) == 0 {
                drop(vector.seat().unwrap());
            }
        });
        let are_refused = (0..100).all(|_| is_refused_in_a_fork(vector, &seat));
        ends.store(1, Ordering::Relaxed);
        are_refused
    });
    assert!(are_refused);
    Ok(())
}

/// The forked process is refused, and its parent goes on.
fn forks(path: &Path) -> Result<(), Error> {
    forks_meanwhile(&path.with_extension("other"))?;
    let mut vector = create(path, 2)?;
    let seat = vector.seat()?;
    let receipt = seat.grow(&[5])?;
    let (lent, mut view) = (seat.piece(0)?.unwrap(), seat.view()?);
    // SAFETY: no other thread runs, and the child calls nothing but what it tries.
    let child = unsafe { fork() };
    if child == 0 {
        let looks = [seat.settled().map(drop), seat.len().map(drop), seat.read(..).map(drop), seat.read_into(0, &mut [1]).map(drop)];
        let lends = [seat.piece(0).map(drop), seat.view().map(drop), view.learn(&seat), seat.pieces(0).next().unwrap().map(drop)];
        let found = [seat.at(0).map(drop), seat.count(5).map(drop), seat.find(5, 0).map(drop)];
        let answers = [seat.grow(&[6]).map(drop), seat.grow_with(1, |_| ()).map(drop), seat.settle(&receipt), vector.seat().map(drop)];
        let is_lent = lent == [5] && view[0] == 5 && view.get(1).is_none();
        drop(seat);
        let changes = [vector.change(0, &[1]), vector.resize(0, 0), vector.clear(), vector.fold(), vector.compact(), vector.close()];
        let refused = looks.iter().chain(&lends).chain(&found).chain(&answers).chain(&changes).all(|it| it.as_ref().is_err_and(|it| it.kind() == ErrorKind::Forked));
        // SAFETY: it ends the child, with none of the parent's buffers.
        unsafe { _exit(if refused && is_lent { 0 } else { 1 }) };
    }
    let mut status = 1;
    // SAFETY: the place for the status lasts for the call.
    assert_eq!((unsafe { waitpid(child, &mut status, 0) }, status), (child, 0));
    seat.settle(&seat.grow(&[7])?)?;
    drop(seat);
    vector.close()
}

/// Grows until the device is full, and tells how many growths are settled.
fn fills(path: &Path) -> Result<(), Error> {
    let vector = create(path, 1)?;
    let seat = vector.seat()?;
    let mut turn = 0;
    let error = loop {
        match seat.grow(&block(0, 1, turn)).and_then(|it| seat.settle(&it)) {
            Ok(()) => turn += 1,
            Err(error) => break error,
        }
    };
    assert_eq!((error.kind(), error.errno()), (ErrorKind::DiskWrite, Some(27)));
    refused::<()>(Err(error), FILE_TOO_LARGE);
    assert_eq!(seat.settled()?, turn);
    refused(seat.grow(&[1]), BROKEN);
    refused(seat.settle(&Receipt { number: turn, start: 0, length: 1 }), BROKEN);
    drop(seat);
    refused(vector.close(), BROKEN);
    println!("{turn}");
    Ok(())
}

fn write(words: &[String]) -> Result<(), Error> {
    let (path, numbers) = (Path::new(&words[0]), words[1..].iter().map(|it| it.parse().unwrap()).collect::<Vec<u64>>());
    let (round, threads, turns) = (numbers[0], numbers[1], numbers[2]);
    let vector = Vector::open_or_create_with(path, &seats(threads as u16))?;
    let names = AtomicU64::new(0);
    let run = || -> Result<(), Error> {
        let (seat, name, mut untold) = (vector.seat()?, names.fetch_add(1, Ordering::Relaxed), Vec::new());
        for turn in 0..turns {
            let receipt = seat.grow(&block(round, name, turn))?;
            writeln!(untold, "{name} {turn} {}", receipt.start).unwrap();
            if turn % 3 == 2 || turn + 1 == turns {
                seat.settle(&receipt)?;
                stdout().lock().write_all(&untold).unwrap();
                untold.clear();
            }
        }
        Ok(())
    };
    thread::scope(|scope| {
        let running: Vec<_> = (0..threads).map(|_| scope.spawn(run)).collect();
        running.into_iter().try_for_each(|it| it.join().unwrap())
    })?;
    vector.close()
}

fn main() {
    let words: Vec<_> = std::env::args().skip(1).collect();
    let path = Path::new(&words[1]);
    match words[0].as_str() {
        "grows_and_reads" => grows_and_reads(path),
        "has_types" => has_types(path),
        "has_own_structs" => has_own_structs(path),
        "searches_and_resizes_own_structs" => searches_and_resizes_own_structs(path),
        "lends" => lends(path),
        "is_full_where_it_lends" => is_full_where_it_lends(path),
        "views" => views(path),
        "fills_in_place" => fills_in_place(path),
        "searches_beside_growers" => searches_beside_growers(path),
        "has_options" => has_options(path),
        "appends" => appends(path),
        "each_refusal" => each_refusal(path),
        "has_a_deadline" => has_a_deadline(path),
        "flushes" => flushes(path),
        "is_full" => is_full(path),
        "is_full_by_threads" => is_full_by_threads(path),
        "waits_for_a_seat" => waits_for_a_seat(path),
        "is_changed" => is_changed(path),
        "is_broken" => is_broken(path),
        "is_refused" => is_refused(path),
        "steps" => steps(path),
        "forks" => forks(path),
        "fills" => fills(path),
        "write" => write(&words[1..]),
        name => panic!("no test {name}"),
    }
    .unwrap();
}
