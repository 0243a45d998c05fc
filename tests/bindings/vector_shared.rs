//! What threads may have of a vector, and what they may not (tests/shell/vector_rust.sh). By itself it is compiled; with `--cfg NAME`
//! a thread is sent something more, and it is refused. With `--cfg here` besides that stays with its thread, and it is compiled.
#![allow(unexpected_cfgs, unused_variables)]
use cvec::{Error, Vector};

fn is_sent<T: Send>(_: T) {}

fn use_here<T>(_: T) {}

pub fn run(vector: &Vector) -> Result<(), Error> {
    let seat = vector.seat()?;
    is_sent(seat.piece(0)?);
    is_sent(&seat.view()?);
    is_sent(seat.view()?);
    is_sent(vector);
    #[cfg(here)]
    let is_sent = use_here;
    #[cfg(seat_shared)]
    is_sent(&seat);
    #[cfg(pieces_sent)]
    is_sent(seat.pieces(0));
    #[cfg(appender_sent)]
    is_sent(seat.appender(1)?);
    is_seat_sent(seat);
    Ok(())
}

fn is_seat_sent(seat: cvec::Seat<'_>) {
    is_sent(seat);
}
