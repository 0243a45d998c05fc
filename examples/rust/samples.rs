//! Eight sensors put samples into one file, until the program is killed: samples FILE. Begun again, each sensor goes on behind
//! the last of its samples that is there.
use cvec::{Error, Options, Vector};
use std::path::Path;
use std::thread;

const SENSORS: usize = 8;

cvec::record! {
    /// What a sensor measured: 24 bytes, which are three records in the file.
    struct Sample {
        sensor: u64,
        number: u64,
        value: f64,
    }
}

/// A hundred samples are one growth, written where they will stand. Once settle returns, no stop of the process or of the system
/// takes them.
fn measure(vector: &Vector<Sample>, sensor: u64, first: u64) -> Result<(), Error> {
    let seat = vector.seat()?;
    for begin in (first..).step_by(100) {
        let receipt = seat.grow_with(100, |samples| {
            for (number, it) in (begin..).zip(samples) {
                *it = Sample { sensor, number, value: (number as f64).sin() };
            }
        })?;
        seat.settle(&receipt)?;
    }
    Ok(())
}

fn run(path: &Path) -> Result<(), Error> {
    let options = Options::default().seats(SENSORS as u16);
    let vector = &Vector::open_or_create_with(path, &options)?;
    let (mut found, mut next) = (0, [0; SENSORS]);
    for samples in vector.seat()?.pieces(0) {
        let samples: &[Sample] = samples?; // lent where they stand
        found += samples.len();
        samples.iter().for_each(|it| next[it.sensor as usize] = it.number + 1);
    }
    println!("found {found} samples: {}", next.map(|it| it.to_string()).join(" "));
    thread::scope(|scope| {
        let begin = |(sensor, first)| scope.spawn(move || measure(vector, sensor, first));
        let threads: Vec<_> = (0..).zip(next).map(begin).collect();
        threads.into_iter().try_for_each(|it| it.join().expect("no thread panics"))
    })
}

fn main() -> Result<(), Error> {
    let words: Vec<_> = std::env::args().skip(1).collect();
    let [path] = &words[..] else {
        std::process::exit(2);
    };
    run(Path::new(path))
}
