//! The peer in Rust: std's `Vec` behind a lock. It is started once for each repetition, as `peers_rs WORK name=value ..`, times
//! itself, and prints a flat line of JSON for each figure. Status 3: it has no such work.

use std::collections::HashMap;
use std::hint::black_box;
use std::sync::atomic::{AtomicBool, AtomicU64, AtomicUsize, Ordering::*};
use std::sync::{Mutex, RwLock};
use std::time::Instant;

/// A number without a pattern for each number: splitmix64.
fn mix(number: u64) -> u64 {
    let number = number.wrapping_add(0x9e3779b97f4a7c15);
    let number = (number ^ (number >> 30)).wrapping_mul(0xbf58476d1ce4e5b9);
    let number = (number ^ (number >> 27)).wrapping_mul(0x94d049bb133111eb);
    number ^ (number >> 31)
}

/// A place below `end` for a number of `mix`.
fn below(number: u64, end: u64) -> usize {
    ((number as u128 * end as u128) >> 64) as usize
}

fn mixed(first: u64, length: u64) -> Vec<u64> {
    (first..first + length).map(mix).collect()
}

fn sum_of<'a>(records: impl IntoIterator<Item = &'a u64>) -> u64 {
    records
        .into_iter()
        .fold(0, |sum, record| sum.wrapping_add(*record))
}

/// Calls `work` with each number below `threads`, each in a thread of its own, from one common start. The seconds from the
/// start to the end of the last one.
fn race(threads: u64, work: impl Fn(u64) + Sync) -> f64 {
    let (ready, go) = (AtomicU64::new(0), AtomicBool::new(false));
    std::thread::scope(|scope| {
        let running: Vec<_> = (0..threads)
            .map(|thread| {
                let (work, ready, go) = (&work, &ready, &go);
                scope.spawn(move || {
                    ready.fetch_add(1, AcqRel);
                    while !go.load(Acquire) {
                        std::thread::yield_now();
                    }
                    work(thread);
                    Instant::now()
                })
            })
            .collect();
        while ready.load(Acquire) < threads {
            std::thread::yield_now();
        }
        let start = Instant::now();
        go.store(true, Release);
        let last = running
            .into_iter()
            .map(|thread| thread.join().unwrap())
            .max()
            .unwrap();
        (last - start).as_secs_f64()
    })
}

fn print_figure(work: &str, threads: u64, n: u64, seconds: f64, more: &str) {
    println!(
        "{{\"work\":\"{work}\",\"threads\":{threads},\"n\":{n},\"seconds\":{seconds:.9}{more}}}"
    );
}

fn add(records: &mut Vec<u64>, block: &[u64]) {
    match block {
        [record] => records.push(*record),
        _ => records.extend_from_slice(block),
    }
}

fn grow(threads: u64, block: u64, n: u64) {
    let records = Mutex::new(Vec::new());
    let growths = n / threads / block;
    let blocks: Vec<Vec<u64>> = (0..threads)
        .map(|thread| mixed(thread << 40, block))
        .collect();
    let seconds = race(threads, |thread| {
        let block = &blocks[thread as usize];
        for _ in 0..growths {
            add(&mut records.lock().unwrap(), block);
        }
    });
    let records = records.into_inner().unwrap();
    let total = growths * block * threads;
    let expected = sum_of(blocks.iter().flatten()).wrapping_mul(growths);
    assert!(
        records.len() as u64 == total && sum_of(&records) == expected,
        "grow: wrong content"
    );
    print_figure("grow", threads, total, seconds, "");
}

/// Ends after so many seconds at most, since readers may keep the grower out for ever.
fn beside(readers: u64, block: u64, preload: u64, n: u64, most_seconds: f64) {
    let records = RwLock::new(Vec::<u64>::new());
    let ready = mixed(0, block);
    for _ in 0..preload.div_ceil(block) {
        records.write().unwrap().extend_from_slice(&ready);
    }
    let (stop, grown, summed) = (AtomicBool::new(false), AtomicU64::new(0), AtomicU64::new(0));
    let growing = Mutex::new(0.0);
    let seconds = race(readers + 1, |thread| {
        let start = Instant::now();
        if thread == 0 {
            let (mut own, mut growths) = (0, 0);
            while own < n {
                records.write().unwrap().extend_from_slice(&ready);
                own += block;
                if growths % 16 == 0 && start.elapsed().as_secs_f64() > most_seconds {
                    break;
                }
                growths += 1;
            }
            *growing.lock().unwrap() = start.elapsed().as_secs_f64();
            grown.store(own, Release);
            stop.store(true, Release);
        } else {
            let (mut sum, mut visited) = (0u64, 0);
            while !stop.load(Relaxed) && start.elapsed().as_secs_f64() < most_seconds {
                let records = records.read().unwrap();
                sum = sum.wrapping_add(sum_of(&*records));
                visited += records.len() as u64;
            }
            black_box(sum);
            summed.fetch_add(visited, AcqRel);
        }
    });
    print_figure(
        "beside.grow",
        readers,
        grown.into_inner(),
        growing.into_inner().unwrap(),
        "",
    );
    print_figure("beside.sum", readers, summed.into_inner(), seconds, "");
}

fn read(block: u64, n: u64, draws: u64) {
    let mut records = Vec::new();
    for first in (0..n).step_by(block as usize) {
        records.extend_from_slice(&mixed(first, block.min(n - first)));
    }
    let records = black_box(records);
    let start = Instant::now();
    black_box(sum_of(&records));
    print_figure("read.seq", 1, n, start.elapsed().as_secs_f64(), "");
    for threads in [1, 2, 4] {
        let seconds = race(threads, |thread| {
            let (first, mut sum) = (thread << 32, 0u64);
            for k in 0..draws {
                sum = sum.wrapping_add(records[below(mix(first + k), n)]);
            }
            black_box(sum);
        });
        print_figure("read.random", threads, draws * threads, seconds, "");
    }
    let (start, mut record) = (Instant::now(), 1);
    for k in 0..draws / 4 {
        record = records[below(mix(record ^ k), n)];
    }
    black_box(record);
    print_figure(
        "read.random-dependent",
        1,
        draws / 4,
        start.elapsed().as_secs_f64(),
        "",
    );
}

const COUNTED: u64 = 7;
const SOUGHT: u64 = 1 << 40;
/// Records that a thread takes at a time.
const GRAIN: usize = 65536;

/// Calls `part` with each part of the records and its place, by so many threads, until one says that there is no more to do.
fn walk(records: &[u64], threads: u64, part: impl Fn(usize, &[u64]) -> bool + Sync) {
    let next = AtomicUsize::new(0);
    std::thread::scope(|scope| {
        for _ in 0..threads {
            scope.spawn(|| loop {
                let first = next.fetch_add(GRAIN, Relaxed);
                if first >= records.len()
                    || !part(first, &records[first..records.len().min(first + GRAIN)])
                {
                    break;
                }
            });
        }
    });
}

fn count_in(records: &[u64]) -> u64 {
    records.iter().filter(|record| **record == COUNTED).count() as u64
}

fn count(records: &[u64], threads: u64) -> u64 {
    if threads == 1 {
        return count_in(records);
    }
    let total = AtomicU64::new(0);
    walk(records, threads, |_, part| {
        total.fetch_add(count_in(part), Relaxed);
        true
    });
    total.into_inner()
}

fn find(records: &[u64], threads: u64) -> Option<u64> {
    if threads == 1 {
        return records
            .iter()
            .position(|record| *record == SOUGHT)
            .map(|place| place as u64);
    }
    let least = AtomicU64::new(u64::MAX);
    walk(records, threads, |first, part| {
        let found = part.iter().position(|record| *record == SOUGHT);
        if let Some(place) = found {
            least.fetch_min((first + place) as u64, Relaxed);
        }
        // The parts that others take from here on lie behind those that are taken.
        least.load(Relaxed) == u64::MAX
    });
    Some(least.into_inner()).filter(|place| *place < u64::MAX)
}

fn search(n: u64) {
    let content_at = |place: u64| mix(place) & 255;
    let mut records: Vec<u64> = (0..n).map(content_at).collect();
    let expected = count_in(&records);
    for threads in [1, 2, 4] {
        let start = Instant::now();
        assert_eq!(count(&records, threads), expected);
        print_figure(
            "search.count",
            threads,
            n,
            start.elapsed().as_secs_f64(),
            "",
        );
        for (work, place) in [("search.find-end", n - 1), ("search.find-mid", n / 2)] {
            records[place as usize] = SOUGHT;
            let start = Instant::now();
            assert_eq!(find(&records, threads), Some(place));
            print_figure(work, threads, place + 1, start.elapsed().as_secs_f64(), "");
            records[place as usize] = content_at(place);
        }
    }
}

fn status_bytes(name: &str) -> f64 {
    let status = std::fs::read_to_string("/proc/self/status").unwrap();
    let line = status.lines().find(|line| line.starts_with(name)).unwrap();
    1024.0
        * line
            .split_whitespace()
            .nth(1)
            .unwrap()
            .parse::<f64>()
            .unwrap()
}

fn memory(block: u64, n: u64) {
    let ready = mixed(0, block);
    let before = status_bytes("RssAnon");
    let start = Instant::now();
    let mut records = Vec::new();
    for _ in 0..n / block {
        add(&mut records, &ready);
    }
    let seconds = start.elapsed().as_secs_f64();
    let grown = black_box(&records).len() as u64;
    let a_record = |bytes: f64| (bytes - before) / grown as f64;
    let after = a_record(status_bytes("RssAnon"));
    let peak = a_record(status_bytes("VmHWM") - status_bytes("RssFile") - status_bytes("RssShmem"));
    let more = format!(",\"bytes_per_record\":{after:.4},\"peak_bytes_per_record\":{peak:.4}");
    print_figure("memory", 1, grown, seconds, &more);
}

fn main() {
    let mut words = std::env::args().skip(1);
    let work = words.next().unwrap_or_default();
    let sizes: HashMap<String, String> = words
        .filter_map(|word| {
            word.split_once('=')
                .map(|(name, value)| (name.to_string(), value.to_string()))
        })
        .collect();
    let size = |name: &str| -> u64 { sizes[name].parse().unwrap() };
    match work.as_str() {
        "grow" => grow(size("threads"), size("block"), size("n")),
        "beside" => beside(
            size("threads"),
            size("block"),
            size("preload"),
            size("n"),
            size("cap_ms") as f64 * 1e-3,
        ),
        "read" => read(size("block"), size("n"), size("draws")),
        "search" => search(size("n")),
        "memory" => memory(size("block"), size("n")),
        _ => std::process::exit(3),
    }
}
