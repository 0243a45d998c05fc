//! A pool of threads that finds how many steps each number takes to come to 1 (halved where it is even, else tripled and one
//! more): pool RESULTS COUNT. Begun again, it does what isn't there.
use cvec::{Error, Vector};
use std::collections::HashSet;
use std::path::Path;
use std::sync::atomic::{AtomicU64, Ordering};
use std::thread;

fn steps_of(mut number: u64) -> u64 {
    let mut steps = 0;
    while number != 1 {
        number = if number % 2 == 0 { number / 2 } else { 3 * number + 1 };
        steps += 1;
    }
    steps
}

/// Takes the next number that isn't done, until there is none.
fn work(vector: &Vector, done: &HashSet<u64>, next: &AtomicU64, count: u64) -> Result<(), Error> {
    let (seat, mut mine) = (vector.seat()?, 0);
    loop {
        let number = next.fetch_add(1, Ordering::Relaxed);
        if number > count {
            return Ok(());
        }
        if done.contains(&number) {
            continue;
        }
        let receipt = seat.grow(&[number, steps_of(number)])?;
        mine += 1;
        if mine % 100 == 0 {
            seat.settle(&receipt)?; // durable, with all before it
        }
    }
}

fn run(path: &Path, count: u64) -> Result<(), Error> {
    let vector = Vector::open_or_create(path)?;
    let done: HashSet<u64> = vector.seat()?.read(..)?.chunks(2).map(|it| it[0]).collect();
    println!("found {} results", done.len());
    let next = AtomicU64::new(1);
    thread::scope(|scope| {
        let pool: Vec<_> = (0..4).map(|_| scope.spawn(|| work(&vector, &done, &next, count))).collect();
        pool.into_iter().try_for_each(|it| it.join().expect("no thread panics"))
    })?;
    let all = vector.seat()?.read(..)?;
    println!("{} results, {} steps in all", all.len() / 2, all.chunks(2).map(|it| it[1]).sum::<u64>());
    vector.close() // commits what nobody has settled
}

fn main() -> Result<(), Error> {
    let words: Vec<_> = std::env::args().skip(1).collect();
    let [path, count] = &words[..] else {
        std::process::exit(2);
    };
    run(Path::new(path), count.parse().unwrap_or(0))
}
