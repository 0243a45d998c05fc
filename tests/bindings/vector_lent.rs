//! What the compiler sees to of records that are lent (tests/shell/vector_rust.sh). By itself it is compiled. With `--cfg NAME` of a
//! call below it has that call too, while something lent is used behind it, and is refused. With `--cfg used_before` besides the
//! same is used before that call alone, and it is compiled again: so it is refused for the use, and for nothing else.
#![allow(unexpected_cfgs, unused_mut, unused_variables)]
use cvec::{Error, Vector, View};

fn main() -> Result<(), Error> {
    let mut vector = Vector::<u64>::create("t.cv")?;
    let mut other = Vector::<u64>::create("other.cv")?;
    let seat = vector.seat()?;
    let piece: &[u64] = seat.piece(0)?.unwrap();
    let pieces: Vec<&[u64]> = seat.pieces(0).collect::<Result<_, _>>()?;
    let view: View<'_> = seat.view()?;
    let record: &u64 = view.get(0).unwrap();
    drop(seat);
    let is_lent = || match () {
        #[cfg(of_pieces)]
        () => pieces[0][0],
        #[cfg(of_view)]
        () => view[0],
        #[cfg(of_record)]
        () => *record,
        #[cfg(not(any(of_pieces, of_view, of_record)))]
        () => piece[0],
    };
    #[cfg(used_before)]
    is_lent();
    #[cfg(change)]
    vector.change(0, &[5])?;
    #[cfg(resize)]
    vector.resize(0, 5)?;
    #[cfg(clear)]
    vector.clear()?;
    #[cfg(fold)]
    vector.fold()?;
    #[cfg(compact)]
    vector.compact()?;
    #[cfg(close)]
    vector.close()?;
    #[cfg(end)]
    drop(vector);
    #[cfg(swap)]
    std::mem::swap(&mut vector, &mut other);
    #[cfg(assign)]
    {
        vector = other;
    }
    #[cfg(send)]
    std::thread::spawn(move || vector.seat().map(drop));
    #[cfg(not(used_before))]
    is_lent();
    Ok(())
}

/// It outlives no vector that ends with the function.
#[cfg(outlive)]
pub fn outlive() -> Result<u64, Error> {
    let piece;
    {
        let vector = Vector::<u64>::create("t.cv")?;
        piece = vector.seat()?.piece(0)?.unwrap();
        #[cfg(used_before)]
        return Ok(piece[0]);
    }
    #[cfg(not(used_before))]
    Ok(piece[0])
}

/// What is written in place stays within the closure.
#[cfg(keep)]
pub fn keep(vector: &Vector) -> Result<u64, Error> {
    let mut kept = &mut [0_u64][..];
    vector.seat()?.grow_with(1, |records| {
        #[cfg(used_before)]
        let mut kept;
        kept = records;
        kept[0] = 5;
    })?;
    Ok(kept[0])
}
