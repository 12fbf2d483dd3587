//! One-bit (DSD64) albums to 24-bit PCM, over the proved static libraries of Puigneht.
//!
//! An album that comes as tracks, by all processors, whole or not at all, with progress:
//!
//! ```no_run
//! use puigneht::{Album, Output, Rate, Settings};
//! let album = Album::open_files(["01.dsf", "02.dsf"], Settings { rate: Rate::Hz176400, ..Settings::default() })?;
//! album.write_tracks(&["01.wav", "02.wav"], Output::default(), |done, all| eprint!("\r{} %", 100 * done / all))?;
//! # Ok::<(), puigneht::Error>(())
//! ```
//!
//! Frames that are in memory. A frame has [`FRAME_BYTES`] bytes of each channel, the channels in turn, the earliest bit
//! highest:
//!
//! ```
//! use puigneht::{Converter, Run, Settings, FRAME_BYTES};
//! let converter = Converter::open(Settings { channels: 1, decibels: -6.0, ..Settings::default() })?;
//! let mut samples = vec![0; converter.samples_of(1)];
//! let stats = converter.convert_run(Run::alone(&[0x69; FRAME_BYTES]), &mut samples)?;
//! assert_eq!((samples, stats.clipped[0]), (vec![0; 1176], 0));
//! # Ok::<(), puigneht::Refusal>(())
//! ```
//!
//! A refused call writes nothing to what is lent. What is decided, and every sample, is decided by proved calls; this
//! crate, which hands on to them, is tested.
#![warn(missing_debug_implementations, missing_docs)]

mod album;
#[cfg(test)]
mod by_hand;
mod calls;
mod converter;
pub mod dsf;
mod levels;
mod made;
mod overs;
mod refusal;
mod source;
mod stats;
mod turns;
pub mod wav;

pub use album::{Album, Error, Format, Memory, Output, Piece, Plan, Wave, Write, MOST_TRACKS};
pub use converter::{factor, pack_s24le, unpack_s24le, Converter, Cutoff, Rate, Run, Settings, Unknown};
pub use levels::Levels;
pub use overs::{overs, End, Overs, Progress};
pub use refusal::Refusal;
pub use source::Source;
pub use stats::Stats;
pub use turns::{turns, Turns, Waiting};

/// Bytes of one channel in a frame.
pub const FRAME_BYTES: usize = 4704;

/// Taps of the longest filter of one's own.
pub const MOST_TAPS: usize = 117;

/// Frames that [`Converter::desk`] takes.
pub const DESK_FRAMES: usize = 8;

// Its lines, compiled as they stand.
#[cfg(doctest)]
#[doc = include_str!("../README.md")]
struct Readme;
