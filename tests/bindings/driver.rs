//! Follows a table of cases by the crate `cvec`, as driver.c does by cvec.h: driver FILE
use cvec::{Bytes, Error, ErrorKind, File, Flagged, Pair, Record, Stat};
use std::collections::HashMap;
use std::error::Error as _;
use std::ffi::OsString;
use std::fs;
use std::io::Write;
use std::os::unix::ffi::OsStringExt;
use std::path::Path;
use std::process::Command;

/// A record as the table has it.
trait Word: Record {
    fn of(word: &str) -> Self;
    fn text(&self) -> String;
}

macro_rules! numbers {
    ($($of:ty)*) => {
        $(impl Word for $of {
            fn of(word: &str) -> Self { word.parse().unwrap() }
            fn text(&self) -> String { self.to_string() }
        })*
    };
}
numbers! { u8 u16 u32 u64 i32 i64 }

/// A float stands in a table by its bits.
macro_rules! floats {
    ($($of:ty, $bits:ty;)*) => {
        $(impl Word for $of {
            fn of(word: &str) -> Self { <$of>::from_bits(<$bits>::from_str_radix(word, 16).unwrap()) }
            fn text(&self) -> String { format!("{:0digits$x}", self.to_bits(), digits = 2 * size_of::<$of>()) }
        })*
    };
}
floats! { f32, u32; f64, u64; }

impl Word for Pair {
    fn of(word: &str) -> Self {
        let (key, value) = word.split_once(':').unwrap();
        Pair { key: key.parse().unwrap(), value: value.parse().unwrap() }
    }
    fn text(&self) -> String {
        format!("{}:{}", self.key, self.value)
    }
}

impl Word for Flagged {
    fn of(word: &str) -> Self {
        let (key, flag) = word.split_once(':').unwrap();
        Flagged { key: key.parse().unwrap(), flag: flag == "1" }
    }
    fn text(&self) -> String {
        format!("{}:{}", self.key, u8::from(self.flag))
    }
}

/// The bytes of a text in hexadecimal.
fn bytes_of(hex: &str) -> Vec<u8> {
    (0..hex.len()).step_by(2).map(|k| u8::from_str_radix(&hex[k..k + 2], 16).unwrap()).collect()
}

fn hex_of(bytes: &[u8]) -> String {
    bytes.iter().map(|it| format!("{it:02x}")).collect()
}

impl<const N: usize> Word for Bytes<N>
where
    Bytes<N>: Record,
{
    fn of(word: &str) -> Self {
        Bytes(bytes_of(word).try_into().unwrap())
    }
    fn text(&self) -> String {
        hex_of(&self.0)
    }
}

/// C writes and reads a row of them as words of 8 bytes.
const fn is_as_in_c<const N: usize>() -> bool {
    size_of::<[Bytes<N>; 2]>() == 2 * N && align_of::<Bytes<N>>() == align_of::<u64>()
}
const _: () = assert!(is_as_in_c::<16>() && is_as_in_c::<24>() && is_as_in_c::<32>() && is_as_in_c::<64>());

/// A file of any type.
trait Handle {
    fn stat(&self) -> Stat;
    fn append(&mut self, words: &[&str]) -> Result<(), Error>;
    fn read(&self, from: u64) -> Result<Vec<String>, Error>;
}

impl<R: Word> Handle for File<R> {
    fn stat(&self) -> Stat {
        File::stat(self)
    }
    fn append(&mut self, words: &[&str]) -> Result<(), Error> {
        File::append(self, &words.iter().map(|it| R::of(it)).collect::<Vec<R>>())
    }
    fn read(&self, from: u64) -> Result<Vec<String>, Error> {
        Ok(File::read(self, from..)?.iter().map(R::text).collect())
    }
}

/// A path, in which \xHH stands for a byte.
fn path_of(word: &str) -> OsString {
    let mut parts = word.split("\\x");
    let mut bytes = parts.next().unwrap().as_bytes().to_vec();
    for part in parts {
        bytes.push(u8::from_str_radix(&part[..2], 16).unwrap());
        bytes.extend_from_slice(&part.as_bytes()[2..]);
    }
    OsString::from_vec(bytes)
}

fn opened<R: Word + 'static>(how: &str, path: &str) -> Result<Box<dyn Handle>, Error> {
    let path = path_of(path);
    let path = Path::new(&path);
    Ok(Box::new(match how {
        "create" => File::<R>::create(path)?,
        "open" => File::<R>::open(path)?,
        _ => File::<R>::open_to_read(path)?,
    }))
}

/// What a file of a type is opened by, and what checks an image of it.
type Calls = (fn(&str, &str) -> Result<Box<dyn Handle>, Error>, fn(&[u8]) -> Result<Stat, Error>);

fn calls_of<R: Word + 'static>() -> Calls {
    (opened::<R>, cvec::check::<R>)
}

fn calls(kind: &str) -> Calls {
    match kind {
        "u8" => calls_of::<u8>(),
        "u16" => calls_of::<u16>(),
        "u32" => calls_of::<u32>(),
        "u64" => calls_of::<u64>(),
        "i32" => calls_of::<i32>(),
        "i64" => calls_of::<i64>(),
        "f32" => calls_of::<f32>(),
        "f64" => calls_of::<f64>(),
        "pair" => calls_of::<Pair>(),
        "flagged" => calls_of::<Flagged>(),
        "bytes16" => calls_of::<Bytes<16>>(),
        "bytes24" => calls_of::<Bytes<24>>(),
        "bytes32" => calls_of::<Bytes<32>>(),
        "bytes64" => calls_of::<Bytes<64>>(),
        _ => panic!("{kind}"),
    }
}

fn stat_text(it: &Stat) -> String {
    let Stat { size, frames, changes, folded, gate, width, version } = it;
    format!("size {size} frames {frames} changes {changes} folded {folded} gate {gate} width {width} version {version}\n")
}

fn frames(kind: &str, path: &str) -> Result<String, Error> {
    let image = fs::read(path).unwrap();
    let stat = calls(kind).1(&image)?;
    let (mut at, mut text) = (11, stat_text(&stat));
    while at < stat.gate {
        let it = cvec::frame_at(&image, at, stat.version, stat.width).unwrap();
        text += &format!("at {at} kind {} payload {} growths {} records {} first {}\n", it.kind, it.payload_len, it.growths,
                         it.records, it.first_record);
        at = it.next;
    }
    assert_eq!(cvec::frame_at(&image, at, stat.version, stat.width), None);
    Ok(text)
}

/// Without a count: File::read has none, so here it cuts what that answers.
fn read(file: &dyn Handle, from: &str, count: Option<&&str>) -> Result<String, Error> {
    let mut records = file.read(from.parse().unwrap())?;
    records.truncate(count.map_or(usize::MAX, |it| it.parse().unwrap()));
    records.insert(0, format!("{}:", records.len()));
    Ok(records.join(" ") + "\n")
}

fn put(path: &str, hex: &str) {
    fs::write(path, bytes_of(hex)).unwrap();
}

fn shell(command: &str) {
    std::io::stdout().flush().unwrap();
    Command::new("sh").arg("-c").arg(command).status().unwrap();
}

fn follow(handles: &mut HashMap<String, Box<dyn Handle>>, line: &str) -> Result<String, Error> {
    let words: Vec<&str> = line.split(' ').collect();
    match words[0] {
        "create" | "open" | "open-to-read" => {
            let file = calls(words[2]).0(words[0], words[3])?;
            handles.insert(words[1].to_string(), file);
        }
        "append" => handles.get_mut(words[1]).unwrap().append(&words[2..])?,
        "read" => return read(&*handles[words[1]], words[2], words.get(3)),
        "stat" => return Ok(stat_text(&handles[words[1]].stat())),
        "close" => drop(handles.remove(words[1]).unwrap()),
        "frames" => return frames(words[1], words[2]),
        "put" => {
            put(words[1], words.get(2).unwrap_or(&""));
            return Ok(String::new());
        }
        "bytes" => {
            return Ok(hex_of(&fs::read(words[1]).unwrap()) + "\n");
        }
        "sh" => {
            shell(&line[3..]);
            return Ok(String::new());
        }
        word => panic!("{word}"),
    }
    Ok("done\n".to_string())
}

/// As C says it, whose sentence of this number is of more. The path stands in front, and the system's number, which Rust tells in its
/// text too, stands behind it alone.
fn refused(error: Error) -> String {
    let place = error.path().map(|it| format!("{}: ", it.display())).unwrap_or_default();
    let told = error.to_string().strip_prefix(&place).expect("the path first").to_string();
    let text = match error.kind() {
        ErrorKind::TooLarge => told + ", not 1 to 64 seats, or room for more than 536,870,904 growths",
        _ => told,
    };
    let (fault, errno) = (error.fault(), error.errno().unwrap_or(0));
    let reason = error.source().map(|it| format!(": {it}").replace(&format!(" (os error {errno})"), "")).unwrap_or_default();
    let number = error.status().map_or("by the crate".to_string(), |it| it.to_string());
    format!("refused {number} {text}{reason}; at {} cause {} found {} errno {errno}\n", fault.at, fault.cause, fault.found)
}

fn main() {
    let table = fs::read_to_string(std::env::args().nth(1).unwrap()).unwrap();
    let mut handles = HashMap::new();
    for line in table.lines().filter(|it| it.is_empty() || it.starts_with(['#', '>'])) {
        println!("{line}");
        if let Some(command) = line.strip_prefix("> ") {
            print!("{}", follow(&mut handles, command).unwrap_or_else(refused));
        }
    }
}
