//! Grows a vector by threads, settles, opens it again and reads it: use_vector FILE [THREADS [GROWTHS]]
use cvec::{Error, Options, Vector};
use std::path::Path;
use std::thread;

/// Grows by blocks of its own, and reads each back where its receipt says that it stands.
fn grow(vector: &Vector, name: u64, growths: u64) -> Result<(), Error> {
    let seat = vector.seat()?;
    for turn in 0..growths {
        let block = [name, turn, name + turn];
        let receipt = seat.grow(&block)?;
        seat.settle(&receipt)?; // durable: one commit serves all threads that wait
        assert_eq!(seat.read(receipt.start..receipt.start + receipt.length)?, block);
    }
    Ok(())
}

fn grow_by_threads(vector: &Vector, threads: u16, growths: u64) -> Result<(), Error> {
    thread::scope(|scope| {
        let running: Vec<_> = (0..threads).map(|name| scope.spawn(move || grow(vector, name.into(), growths))).collect();
        running.into_iter().try_for_each(|it| it.join().expect("a thread panicked"))
    })
}

fn run(path: &Path, threads: u16, growths: u64) -> Result<(), Error> {
    let vector = Vector::create_with(path, &Options::default().seats(threads.saturating_add(1)))?;
    grow_by_threads(&vector, threads, growths)?;
    let seat = vector.seat()?;
    let mut out = seat.appender(100)?;
    out.extend(0..250)?;
    if let Some(last) = out.flush()? {
        seat.settle(&last)?;
    }
    println!("{} records of {} growths", seat.len()?, seat.settled()?);
    drop(out);
    drop(seat);
    vector.close()?;

    let vector = Vector::<u64>::open(path)?;
    let records = vector.seat()?.read(..)?;
    println!("{} records, the last {}, in all {}", records.len(), records[records.len() - 1], records.iter().sum::<u64>());
    vector.close()
}

fn main() -> Result<(), Error> {
    let words: Vec<_> = std::env::args().skip(1).collect();
    let Some(path) = words.first() else {
        std::process::exit(2);
    };
    let number = |at: usize, otherwise: u64| words.get(at).and_then(|it| it.parse().ok()).unwrap_or(otherwise);
    run(Path::new(path), number(1, 4) as u16, number(2, 3))
}
