//! Indexes the words of texts by four threads: word_index INDEX WORD TEXT.. Then it prints where WORD stands. The words of a line
//! are one growth, so a stop leaves whole lines: begun again, it goes on with those that aren't there.
use cvec::{Error, Vector};
use std::collections::{BTreeSet, HashSet};
use std::fs;
use std::path::Path;
use std::sync::atomic::{AtomicUsize, Ordering};
use std::thread;

/// Of a word of the index: 32 bits of a sum of the word (FNV-1a), 12 of its text's number, 20 of its line's.
fn record_of(word: &str, text: usize, line: usize) -> u64 {
    let sum = word.bytes().fold(0x811c_9dc5_u32, |sum, it| (sum ^ u32::from(it.to_ascii_lowercase())).wrapping_mul(0x0100_0193));
    u64::from(sum) << 32 | (text << 20 | line) as u64
}

fn place_of(record: u64) -> u64 {
    record & 0xffff_ffff
}

/// The records of each line that has words.
fn lines_of(texts: &[String]) -> Vec<Vec<u64>> {
    let mut lines = Vec::new();
    for (text, path) in texts.iter().enumerate() {
        let all = fs::read_to_string(path).unwrap_or_else(|fault| panic!("{path}: {fault}"));
        for (line, words) in all.lines().enumerate() {
            let words = words.split(|it: char| !it.is_ascii_alphabetic()).filter(|it| !it.is_empty());
            lines.push(words.map(|it| record_of(it, text, line + 1)).collect());
        }
    }
    lines.retain(|it: &Vec<u64>| !it.is_empty());
    lines
}

fn work(vector: &Vector, lines: &[Vec<u64>], next: &AtomicUsize) -> Result<(), Error> {
    let seat = vector.seat()?;
    for mine in 1.. {
        let Some(line) = lines.get(next.fetch_add(1, Ordering::Relaxed)) else { break };
        let receipt = seat.grow(line)?;
        if mine % 20 == 0 {
            seat.settle(&receipt)?; // durable, with all before it
        }
    }
    Ok(())
}

fn run(path: &Path, word: &str, texts: &[String]) -> Result<(), Error> {
    let vector = Vector::open_or_create(path)?;
    println!("found {} words", vector.seat()?.len()?);
    let mut done = HashSet::new();
    for records in vector.seat()?.pieces(0) {
        done.extend(records?.iter().copied().map(place_of)); // where they stand
    }
    let mut lines = lines_of(texts);
    lines.retain(|it| !done.contains(&place_of(it[0])));
    let next = AtomicUsize::new(0);
    thread::scope(|scope| {
        let pool: Vec<_> = (0..4).map(|_| scope.spawn(|| work(&vector, &lines, &next))).collect();
        pool.into_iter().try_for_each(|it| it.join().expect("no thread panics"))
    })?;
    let wanted = record_of(word, 0, 0);
    let mut places = BTreeSet::new();
    for records in vector.seat()?.pieces(0) {
        places.extend(records?.iter().copied().filter(|it| it >> 32 == wanted >> 32).map(place_of));
    }
    for place in places {
        println!("{}:{}", texts[(place >> 20) as usize], place & 0xf_ffff);
    }
    vector.close() // commits what nobody has settled
}

fn main() -> Result<(), Error> {
    let words: Vec<_> = std::env::args().skip(1).collect();
    let [path, word, texts @ ..] = &words[..] else {
        std::process::exit(2);
    };
    run(Path::new(path), word, texts)
}
