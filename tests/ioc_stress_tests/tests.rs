//! The tests, and what they share.
mod calling;
mod every;
mod kept;
mod meter;
mod running;
mod stopping;
mod text;
