//! All tests in one program.
mod albums;
mod calls;
mod changes;
mod common;
mod dsf;
mod overs;
mod programs;
mod random;
mod sheet;
mod stored;
mod turns;
mod wav;
