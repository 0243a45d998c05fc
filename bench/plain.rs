//! What a plain program needs for the work of a command over a file: it keeps no growths, checks nothing and survives nothing.
//!
//! `plain parse FILE < LINES`: parses u64 lines into a `Vec`, and writes it with one sync.
//! `plain print FILE`: reads such a file into a `Vec`, and prints it, one number a line.
//! `plain read FILE`: reads a file into memory.

use std::fs::File;
use std::io::{self, BufRead, Read, Write};

fn parse(path: &str) -> io::Result<()> {
    let mut numbers: Vec<u64> = Vec::new();
    let mut line = String::new();
    let mut input = io::stdin().lock();
    while input.read_line(&mut line)? > 0 {
        for word in line.split_ascii_whitespace() {
            numbers.push(word.parse().map_err(io::Error::other)?);
        }
        line.clear();
    }
    let bytes: Vec<u8> = numbers.iter().flat_map(|number| number.to_le_bytes()).collect();
    let mut file = File::create(path)?;
    file.write_all(&bytes)?;
    file.sync_all()
}

fn read(path: &str) -> io::Result<Vec<u8>> {
    let mut bytes = Vec::new();
    File::open(path)?.read_to_end(&mut bytes)?;
    Ok(bytes)
}

fn print(path: &str) -> io::Result<()> {
    let bytes = read(path)?;
    let numbers: Vec<u64> = bytes
        .chunks_exact(8)
        .map(|number| u64::from_le_bytes(number.try_into().unwrap_or_default()))
        .collect();
    let mut output = io::BufWriter::with_capacity(65536, io::stdout().lock());
    for number in numbers {
        writeln!(output, "{number}")?;
    }
    output.flush()
}

fn main() -> io::Result<()> {
    let words: Vec<String> = std::env::args().skip(1).collect();
    match words.iter().map(String::as_str).collect::<Vec<_>>()[..] {
        ["parse", path] => parse(path),
        ["print", path] => print(path),
        ["read", path] => read(path).map(|bytes| drop(std::hint::black_box(bytes))),
        _ => Err(io::Error::other("usage: plain parse|print|read FILE")),
    }
}
