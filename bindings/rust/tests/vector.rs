//! Vectors as a user has them; tests/bindings/vector_cases.rs of the repository has more.
mod folder;

use cvec::{Bytes, Error, ErrorKind, MOST_SEATS, Options, Plain, Receipt, Record, Vector, Version};
use folder::Folder;
use std::error::Error as _;
use std::fmt::Debug;
use std::io;
use std::path::Path;
use std::thread;
use std::time::{Duration, Instant};

cvec::record! {
    /// Of 8 bytes, none of its fields.
    #[derive(Debug, PartialEq)]
    struct Point {
        x: f32,
        y: f32,
    }

    /// Of 24 bytes.
    #[derive(Debug, PartialEq)]
    struct Sample {
        sensor: u32,
        second: u32,
        value: f64,
        place: Point,
    }
}

/// Meters, which are plain as the number within is.
#[derive(Clone, Copy, Debug, PartialEq)]
#[repr(transparent)]
struct Meters(f64);

// SAFETY: one number.
unsafe impl Plain for Meters {}

fn kind_of<T>(answer: Result<T, Error>) -> Option<ErrorKind> {
    answer.err().map(|it| it.kind())
}

fn seats(count: u16) -> Options {
    Options::default().seats(count)
}

/// Grown, read, lent, found, changed and read again from the file.
fn keeps<R: Record + PartialEq + Debug>(path: &Path, records: [R; 3]) -> Result<(), Error> {
    let mut vector = Vector::create(path)?;
    let seat = vector.seat()?;
    let receipt = seat.grow(&records)?;
    seat.grow_with(2, |lent| lent.copy_from_slice(&records[1..]))?;
    assert_eq!(receipt, Receipt { number: 0, start: 0, length: 3 });
    assert_eq!((seat.read(1..=2)?, seat.at(4)?), (records[1..].to_vec(), Some(records[2])));
    assert_eq!((seat.piece(3)?, seat.find(records[2], 3)?, seat.count(records[1])?), (Some(&records[1..]), Some(4), 2));
    drop(seat);
    vector.change(0, &records[2..])?;
    vector.close()?;
    let vector = Vector::<R>::open(path)?;
    assert_eq!(vector.seat()?.read(..)?, [records[2], records[1], records[2], records[1], records[2]]);
    drop(vector);
    std::fs::remove_file(path).unwrap();
    Ok(())
}

#[test]
fn records_are_numbers_bytes_and_structs() -> Result<(), Error> {
    let folder = Folder::of("records");
    let path = &folder.at("t.cv");
    keeps(path, [1_u32, u32::MAX, 7])?;
    keeps(path, [-1_i32, i32::MIN, 7])?;
    keeps(path, [1_i64, i64::MIN, 7])?;
    keeps(path, [0.5_f32, f32::INFINITY, -0.0])?;
    keeps(path, [0.5_f64, f64::MIN, -0.0])?;
    keeps(path, [Meters(0.5), Meters(-1.0), Meters(8848.0)])?;
    keeps(path, [1_u8, 255, 7])?;
    keeps(path, [-1_i16, i16::MIN, 7])?;
    keeps(path, [[1_u8; 4], [2; 4], [3; 4]])?;
    keeps(path, [[1_u8; 16], [2; 16], [3; 16]])?;
    keeps(path, [[1_u8; 24], [2; 24], [3; 24]])?;
    keeps(path, [[1_u8; 32], [2; 32], [3; 32]])?;
    keeps(path, [[1_u8; 40], [2; 40], [3; 40]])?;
    keeps(path, [Bytes([1_u8; 16]), Bytes([2; 16]), Bytes([3; 16])])?;
    keeps(path, [Bytes([1_u8; 64]), Bytes([2; 64]), Bytes([3; 64])])?;
    let point = |x| Point { x, y: -x };
    keeps(path, [1.0, 2.0, 3.0].map(point))?;
    keeps(path, [1, 2, 3].map(|sensor| Sample { sensor, second: 9, value: 0.1, place: point(0.5) }))
}

/// Rows of bytes may stand anywhere in memory.
#[test]
fn records_are_taken_from_odd_places() -> Result<(), Error> {
    let folder = Folder::of("odd");
    let bytes: Vec<u8> = (0..231).collect();
    for from in 1..8 {
        let (rows, _) = bytes[from..].as_chunks::<24>();
        let vector = Vector::<[u8; 24]>::create(folder.at(&format!("{from}.cv")))?;
        let seat = vector.seat()?;
        seat.grow(rows)?;
        let mut room = vec![0; from + rows.len() * 24];
        assert_eq!(seat.read_into(0, room[from..].as_chunks_mut::<24>().0)?, 9);
        assert_eq!((&room[from..], seat.count(rows[8])?), (&bytes[from..from + 9 * 24], 1));
    }
    Ok(())
}

#[test]
fn a_file_is_opened_or_made() -> Result<(), Error> {
    let folder = Folder::of("made");
    let path = folder.at("t.cv");
    Vector::open_or_create_with(&path, &Options::default().version(Version::Two))?.seat()?.grow(&[5_u64])?;
    assert_eq!(std::fs::read(&path).unwrap()[8], 2);
    assert_eq!(Vector::<u64>::open_or_create(&path)?.seat()?.read(..)?, [5]);
    assert_eq!(kind_of(Vector::<u32>::open_or_create(&path)), Some(ErrorKind::Width));
    assert_eq!(kind_of(Vector::<u64>::create(&path)), Some(ErrorKind::Exists));
    // Whatever names a path.
    let text = path.to_str().unwrap().to_string();
    Vector::<u64>::open(text.as_str())?.close()?;
    Vector::<u64>::open(text)?.close()?;
    Vector::<u64>::open(path.as_os_str())?.close()
}

#[test]
fn an_open_waits_for_who_has_the_file() -> Result<(), Error> {
    let folder = Folder::of("waits");
    let path = &folder.at("t.cv");
    let vector = Vector::create(path)?;
    vector.seat()?.grow(&[5_u64])?;
    for longest in [Duration::ZERO, Duration::from_millis(30)] {
        let begun = Instant::now();
        assert_eq!(kind_of(Vector::<u64>::open_with(path, &Options::default().wait(longest))), Some(ErrorKind::InUse));
        assert!(begun.elapsed() >= longest && begun.elapsed() < Duration::from_secs(5));
    }
    thread::scope(|scope| {
        let wait = Options::default().wait(Duration::from_secs(60));
        let waiters = [Vector::<u64>::open_with, Vector::open_or_create_with].map(|open| scope.spawn(move || open(path, &wait)?.seat()?.read(..)));
        thread::sleep(Duration::from_millis(50));
        assert!(waiters.iter().all(|it| !it.is_finished()));
        vector.close()?;
        waiters.into_iter().try_for_each(|it| it.join().unwrap().map(|records| assert_eq!(records, [5])))
    })
}

#[test]
fn an_error_names_the_file_and_the_reason() {
    let folder = Folder::of("errors");
    let path = folder.at("missing.cv");
    let error = Vector::<u64>::open(&path).unwrap_err();
    assert_eq!((error.kind(), error.status(), error.errno(), error.path()), (ErrorKind::DiskOpen, Some(35), Some(2), Some(&*path)));
    assert_eq!(error.to_string(), format!("{}: the file can't be opened", path.display()));
    let reason: &io::Error = error.source().unwrap().downcast_ref().unwrap();
    assert_eq!(reason.kind(), io::ErrorKind::NotFound);
    let shown = format!("{error:?}");
    assert!(shown.starts_with("Error { kind: DiskOpen, text: ") && shown.contains("No such file or directory"), "{shown}");
    let vector = Vector::<u64>::create(&path).unwrap();
    let error = vector.seat().unwrap().grow(&[]).unwrap_err();
    assert_eq!(error.to_string(), format!("{}: a growth has at least one record", path.display()));
    assert!(error.source().is_none() && error.errno().is_none());
    let boxed: Box<dyn std::error::Error + Send + Sync> = error.into();
    assert!(boxed.downcast_ref::<Error>().is_some_and(|it| it.kind() == ErrorKind::Empty));
}

/// What each is of, and no address.
#[test]
fn what_is_shown_has_no_address() -> Result<(), Error> {
    let folder = Folder::of("shown");
    let path = folder.at("t.cv");
    let vector = Vector::create(&path)?;
    let seat = vector.seat()?;
    seat.grow(&[5_u64, 7])?;
    let of = format!("Vector {{ path: {path:?}, .. }}");
    let appender = seat.appender(3)?;
    let view = seat.view()?;
    assert_eq!(format!("{vector:?}"), of);
    assert_eq!(format!("{seat:?}"), format!("Seat {{ of: {of} }}"));
    assert_eq!(format!("{view:?}"), format!("View {{ of: {of}, len: 2, .. }}"));
    assert_eq!(format!("{:?}", seat.pieces(1)), format!("Pieces {{ seat: Seat {{ of: {of} }}, next: 1, .. }}"));
    assert_eq!(format!("{appender:?}"), format!("Appender {{ seat: Seat {{ of: {of} }}, kept: 0, .. }}"));
    Ok(())
}

/// `TooLarge` says that there are too many records, and nothing else does.
#[test]
fn a_growth_of_any_length_is_split_where_that_is_asked() -> Result<(), Error> {
    let folder = Folder::of("split");
    let (path, records) = (folder.at("t.cv"), (0..300_000).collect::<Vec<u64>>());
    let vector = Vector::create(&path)?;
    let seat = vector.seat()?;
    let error = seat.grow(&records).unwrap_err();
    assert_eq!((error.kind(), error.taken()), (ErrorKind::TooLarge, 0));
    assert_eq!(error.to_string(), format!("{}: more records than fit one growth", path.display()));
    let receipts = seat.grow_all(&records)?;
    let places: Vec<_> = receipts.iter().map(|it| (it.number, it.start, it.length)).collect();
    assert_eq!(places, [(0, 0, 131_071), (1, 131_071, 131_071), (2, 262_142, 37_858)]);
    assert_eq!((seat.read(..)?, seat.grow_all(&[])?.len()), (records, 0));
    for (refused, kind) in [(seats(0), ErrorKind::Seats), (seats(MOST_SEATS + 1), ErrorKind::Seats), (seats(1).growths(u64::MAX), ErrorKind::Growths)] {
        assert_eq!(kind_of(Vector::<u64>::create_with(folder.at("none.cv"), &refused)), Some(kind));
    }
    assert!(!folder.at("none.cv").exists());
    Ok(())
}

/// Where a part is refused, it is told how much stands.
#[test]
fn a_split_growth_that_is_refused_tells_what_stands() -> Result<(), Error> {
    let folder = Folder::of("stands");
    let mut vector = Vector::create_with(folder.at("t.cv"), &seats(1).growths(2))?;
    let seat = vector.seat()?;
    let blocks = [[1_u8; 24], [2; 24], [3; 24]].map(|it| vec![it; 43_690]);
    seat.grow(&blocks[0][..1])?;
    assert!(seat.piece(0)?.is_some()); // so the phase isn't renewed
    let error = seat.grow_all(&blocks.concat()).unwrap_err();
    assert_eq!((error.kind(), error.taken(), seat.len()?), (ErrorKind::Full, 43_690, 43_691));
    assert!(error.to_string().ends_with("compact it, behind 43690 records that were taken"));
    drop(seat);
    vector.compact()?;
    let seat = vector.seat()?;
    seat.grow_all(&blocks.concat()[error.taken() as usize..])?;
    assert_eq!(seat.read(1..)?, blocks.concat());
    Ok(())
}

#[test]
fn records_are_iterated_where_they_stand() -> Result<(), Error> {
    let folder = Folder::of("iterated");
    let vector = Vector::create(folder.at("t.cv"))?;
    let seat = vector.seat()?;
    assert_eq!(seat.view()?.iter().next(), None);
    let mut out = seat.appender(7)?;
    out.extend(0..100_u64)?;
    assert_eq!(out.kept(), [98, 99]);
    out.flush()?;
    let view = seat.view()?;
    let mut sum = 0;
    for record in &view {
        sum += record;
    }
    assert_eq!((sum, view.len()), (4950, 100));
    assert!(view.iter().copied().eq(0..100) && view.iter().rev().copied().eq((0..100).rev()));
    // From both ends, until they meet.
    let (mut iter, mut seen) = (view.iter(), Vec::new());
    while let Some(first) = iter.next() {
        seen.push(*first);
        seen.extend(iter.next_back());
        seen.extend(iter.next_back());
    }
    assert_eq!((iter.next_back(), seen.len()), (None, 100));
    seen.sort();
    assert_eq!(seen, (0..100).collect::<Vec<_>>());
    let error = seat.appender(150_000)?.extend(0..200_000).unwrap_err();
    assert_eq!((error.kind(), error.taken(), seat.len()?), (ErrorKind::TooLarge, 150_000, 100));
    let lengths: Vec<_> = seat.pieces(0).map(|it| it.map(<[u64]>::len)).collect::<Result<_, _>>()?;
    assert_eq!((lengths[0], lengths.len()), (7, 15));
    Ok(())
}

/// By the vector, by a thread of the library's own, and by more threads than seats.
#[test]
fn growths_are_settled_by_no_seat() -> Result<(), Error> {
    let folder = Folder::of("settled");
    let vector = &Vector::create_with(folder.at("t.cv"), &seats(2))?;
    vector.seat()?.grow(&[5_u64])?;
    assert_eq!(vector.settled()?, 0);
    vector.settle()?;
    assert_eq!(vector.settled()?, 1);
    vector.settle_for(Duration::ZERO)?;
    vector.start_flusher(Duration::from_nanos(1))?;
    thread::scope(|scope| {
        let work = |name: u64| (0..50).try_for_each(|turn| vector.seat_within(Duration::from_secs(60))?.grow(&[name, turn]).map(drop));
        let pool: Vec<_> = (0..8).map(|name| scope.spawn(move || work(name))).collect();
        pool.into_iter().try_for_each(|it| it.join().unwrap())
    })?;
    let begun = Instant::now();
    while vector.settled()? < 401 {
        assert!(begun.elapsed() < Duration::from_secs(20));
        thread::sleep(Duration::from_millis(1));
    }
    vector.stop_flusher()?;
    let own = [vector.seat()?, vector.seat()?];
    assert_eq!(kind_of(vector.seat()), Some(ErrorKind::NoSeat));
    assert_eq!(kind_of(vector.seat_within(Duration::from_millis(1))), Some(ErrorKind::Late));
    assert_eq!(own[0].len()?, 801);
    Ok(())
}

/// More threads than seats: each growth is whole, also in place, and what is lent by a seat that another thread has now stays.
#[test]
fn borrowed_seats_grow_wait_and_lend() -> Result<(), Error> {
    const THREADS: u32 = 12;
    const TURNS: u32 = 40;
    let folder = Folder::of("borrowed");
    let mut vector = Vector::create_with(folder.at("t.cv"), &seats(3))?;
    let block = |name, turn| (0..1 + turn % 3).map(|at| Point { x: (name * TURNS + turn) as f32, y: at as f32 }).collect::<Vec<_>>();
    let work = |vector: &'_ Vector<Point>, name: u32| -> Result<(), Error> {
        let mut all = Vec::new();
        for turn in 0..TURNS {
            let (seat, records) = (vector.seat_within(Duration::from_secs(60))?, block(name, turn));
            let receipt = match turn % 2 {
                0 => seat.grow(&records)?,
                _ => seat.grow_with(records.len(), |lent| lent.copy_from_slice(&records))?,
            };
            if turn % 5 == 0 {
                seat.settle(&receipt)?;
                assert!(seat.settled()? > receipt.number);
            }
            all.push((records, seat.piece(receipt.start)?.unwrap()));
        }
        assert!(all.iter().all(|(records, lent)| lent[..records.len()] == records[..]));
        Ok(())
    };
    thread::scope(|scope| {
        let (vector, work) = (&vector, &work);
        let pool: Vec<_> = (0..THREADS).map(|name| scope.spawn(move || work(vector, name))).collect();
        pool.into_iter().try_for_each(|it| it.join().unwrap())
    })?;
    vector.compact()?;
    let seats = [vector.seat()?, vector.seat()?, vector.seat()?];
    let blocks: Vec<_> = (0..THREADS).flat_map(|name| (0..TURNS).map(move |turn| (name, turn))).map(|it| block(it.0, it.1)).collect();
    assert_eq!(seats[2].len()?, blocks.iter().map(Vec::len).sum::<usize>() as u64);
    // Each stands in a row, by itself.
    for records in blocks {
        let start = seats[0].find(records[0], 0)?.unwrap();
        assert_eq!(seats[1].read(start..start + records.len() as u64)?, records);
    }
    Ok(())
}
