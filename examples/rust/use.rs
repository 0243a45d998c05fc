//! Makes a file, appends to it, opens it again and reads it: use FILE
use cvec::{Error, File};
use std::path::Path;

fn run(path: &Path) -> Result<(), Error> {
    File::create(path)?.append(&[5_u64, 7, 11])?; // durable when it returns
    let mut file = File::<u64>::open(path)?;
    file.append(&[13])?;
    for record in file.read(..)? {
        println!("{record}");
    }
    Ok(())
}

fn main() -> Result<(), Error> {
    let Some(path) = std::env::args_os().nth(1) else {
        std::process::exit(2);
    };
    run(Path::new(&path))
}
