//! Files as a user has them; tests/bindings of the repository have tables of more.
mod folder;

use cvec::{Bytes, Error, ErrorKind, File, Flagged, Options, Pair, Record, Vector, Version};
use folder::Folder;
use std::error::Error as _;
use std::fmt::Debug;
use std::fs;
use std::path::Path;
use std::thread;
use std::time::Duration;

cvec::record! {
    #[derive(Debug, PartialEq)]
    struct Sample {
        sensor: u32,
        second: u32,
        value: f64,
        more: [u16; 12],
    }

    /// Of 2 bytes.
    #[derive(Debug, PartialEq)]
    struct Level {
        red: u8,
        green: u8,
    }
}

fn kind_of<T>(answer: Result<T, Error>) -> Option<ErrorKind> {
    answer.err().map(|it| it.kind())
}

/// Appended, and read by who appends and by who only reads; the file has records of this width.
fn keeps<R: Record + PartialEq + Debug>(path: &Path, width: u16, records: [R; 3]) -> Result<(), Error> {
    let mut file = File::open_or_create(path)?;
    assert!(file.is_empty());
    file.append(&records)?;
    file.append(&records[..1])?;
    let reader = File::<R>::open_to_read(path)?;
    assert_eq!((file.len(), reader.len(), file.stat().width), (4, 4, width));
    for file in [&file, &reader] {
        assert_eq!(file.read(..)?, [&records[..], &records[..1]].concat());
        assert_eq!((file.read(1..3)?, file.read(..=0)?, file.read(4..)?), (records[1..].to_vec(), records[..1].to_vec(), vec![]));
        assert_eq!((file.read(2..99)?.len(), file.read(99..)?.len(), file.read(u64::MAX..)?.len()), (2, 0, 0));
    }
    assert_eq!(cvec::check::<R>(&fs::read(path).unwrap())?, file.stat());
    drop(file);
    fs::remove_file(path).unwrap();
    Ok(())
}

#[test]
fn records_are_numbers_bytes_and_structs() -> Result<(), Error> {
    let folder = Folder::of("file-records");
    let path = &folder.at("t.cv");
    keeps(path, 1, [1_u8, 255, 7])?;
    keeps(path, 1, [1_i8, -1, 7])?;
    keeps(path, 2, [1_u16, 65535, 7])?;
    keeps(path, 4, [1_u32, u32::MAX, 7])?;
    keeps(path, 8, [1_u64, u64::MAX, 7])?;
    keeps(path, 4, [0.5_f32, f32::MIN, 7.0])?;
    keeps(path, 8, [0.5_f64, f64::MIN, 7.0])?;
    keeps(path, 16, [1, 2, 3].map(|key| Pair { key, value: -1 }))?;
    keeps(path, 9, [1, 2, 3].map(|key| Flagged { key, flag: key == 2 }))?;
    keeps(path, 24, [Bytes([1; 24]), Bytes([2; 24]), Bytes([3; 24])])?;
    keeps(path, 16, [[1_u8; 16], [2; 16], [3; 16]])?;
    keeps(path, 2, [1, 2, 3].map(|red| Level { red, green: 9 }))?;
    keeps(path, 8, [1, 2, 3].map(|sensor| Sample { sensor, second: 9, value: 0.1, more: [5; 12] }))
}

/// A struct is one thing in a vector and in a file.
#[test]
fn a_file_and_a_vector_have_one_form() -> Result<(), Error> {
    let folder = Folder::of("file-form");
    let path = &folder.at("t.cv");
    Vector::create(folder.at("24.cv"))?.seat()?.grow(&[[7_u8; 24]])?;
    assert_eq!(File::<Bytes<24>>::open(folder.at("24.cv"))?.read(..)?, [Bytes([7; 24])]);
    let samples = [1, 2, 3].map(|sensor| Sample { sensor, second: 9, value: 0.1, more: [5; 12] });
    Vector::create(path)?.seat()?.grow(&samples)?;
    let mut file = File::<Sample>::open(path)?;
    assert_eq!((file.read(..)?, file.read(2..)?), (samples.to_vec(), samples[2..].to_vec()));
    file.append(&samples[1..])?;
    drop(file);
    assert_eq!(Vector::<Sample>::open(path)?.seat()?.read(2..)?, [samples[2], samples[1], samples[2]]);
    // Five words are one record, and six are none.
    File::<u64>::open(path)?.append(&[7])?;
    assert_eq!([kind_of(File::<Sample>::open(path)), kind_of(File::<Sample>::open_to_read(path))], [Some(ErrorKind::Width); 2]);
    assert_eq!(kind_of(cvec::check::<Sample>(&fs::read(path).unwrap())), Some(ErrorKind::Width));
    assert_eq!(kind_of(Vector::<Sample>::open(path)), Some(ErrorKind::Width));
    Ok(())
}

#[test]
fn a_file_is_opened_or_made_once_it_is_free() -> Result<(), Error> {
    let folder = Folder::of("file-made");
    let path = &folder.at("t.cv");
    let two = Options::default().version(Version::Two);
    let mut file = File::<u64>::open_or_create_with(path, &two)?;
    file.append(&[5])?;
    assert_eq!((file.stat().version, kind_of(File::<u64>::open_or_create(path))), (2, Some(ErrorKind::InUse)));
    assert_eq!(kind_of(File::<u64>::open_with(path, &two.wait(Duration::from_millis(20)))), Some(ErrorKind::InUse));
    thread::scope(|scope| {
        let waiter = scope.spawn(|| File::<u64>::open_or_create_with(path, &two.wait(Duration::from_secs(60)))?.read(..));
        thread::sleep(Duration::from_millis(50));
        assert!(!waiter.is_finished());
        drop(file);
        waiter.join().unwrap().map(|records| assert_eq!(records, [5]))
    })?;
    assert_eq!(File::<u64>::open_or_create(path)?.len(), 1);
    assert_eq!(kind_of(File::<u64>::create(path)), Some(ErrorKind::Exists));
    // What a stopped creation leaves is made, and what is another's isn't.
    fs::write(path, [0]).unwrap();
    assert!(File::<u64>::open_or_create(path)?.is_empty());
    fs::write(path, "somebody's").unwrap();
    assert!(File::<u64>::open_or_create(path).is_err());
    assert_eq!(fs::read(path).unwrap(), b"somebody's");
    Ok(())
}

#[test]
fn an_error_names_the_file_and_the_place() -> Result<(), Error> {
    let folder = Folder::of("file-errors");
    let path = &folder.at("t.cv");
    let error = File::<u64>::open(path).unwrap_err();
    assert_eq!((error.kind(), error.path(), error.source().is_some()), (ErrorKind::DiskOpen, Some(&**path), true));
    let mut file = File::<u64>::create(path)?;
    assert_eq!(format!("{file:?}"), format!("File {{ path: {path:?}, len: 0, .. }}"));
    file.append(&[5])?;
    let reader = &mut File::<u64>::open_to_read(path)?;
    let error = reader.append(&[7]).unwrap_err();
    assert_eq!((error.kind(), error.to_string()), (ErrorKind::ReadOnly, format!("{}: the file was opened to be read", path.display())));
    let mut image = fs::read(path).unwrap();
    image[12] = 9;
    let error = cvec::check::<u64>(&image).unwrap_err();
    assert_eq!((error.kind(), error.path(), error.fault().at, error.fault().found), (ErrorKind::Damaged, None, 12, 9));
    assert_eq!(error.to_string(), "a frame of the file is damaged at 12: a kind of frame that isn't known");
    assert_eq!(kind_of(File::<u64>::create("a\0b")), Some(ErrorKind::Path));
    Ok(())
}
