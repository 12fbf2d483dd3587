//! DSF files, in Sony's layout: a file's frames in the layout of the conversions.
//!
//! A file that is in memory is read by [`read`] and [`frame`]. Of any other, its first [`HEADER_BYTES`] bytes and its
//! length are enough for [`read_header`], and the stretch that [`window`] names for [`window_frame`]. Whole albums:
//! [`Album`](crate::Album).
//!
//! ```
//! use puigneht::{dsf, FRAME_BYTES};
//! let frames = vec![0x96; 3 * 2 * FRAME_BYTES];
//! let mut file = vec![0; dsf::file_length(2, frames.len())?];
//! dsf::write(2, &frames, &mut file)?;
//! assert_eq!(dsf::read(&file)?.frames, 3);
//! assert_eq!(dsf::give_up(&file[..1000]), dsf::Upload::Unfinished);
//! let mut frame = vec![0; 2 * FRAME_BYTES];
//! dsf::frame(&file, 2, &mut frame)?;
//! assert_eq!(frame, frames[..2 * FRAME_BYTES]);
//! # Ok::<(), puigneht::Refusal>(())
//! ```

use crate::{calls, refusal::Call, Refusal};
use std::ops::Range;

/// Bytes before the data.
pub const HEADER_BYTES: usize = 92;

/// What a file holds.
#[derive(Clone, Copy, Debug, Default, PartialEq, Eq)]
pub struct Header {
    /// Sony's, 1 to 7.
    pub channel_type: u64,
    /// 1 to 6.
    pub channels: u64,
    /// 1: lowest bit first, 8: highest.
    pub bits_per_sample: u64,
    /// Of one channel.
    pub samples: u64,
    /// The last is perhaps short.
    pub frames: u64,
}

/// What a file holds.
pub fn read(file: &[u8]) -> Result<Header, Refusal> {
    read_header(file, file.len() as u64)
}

/// What a file holds, from its first [`HEADER_BYTES`] bytes (or more) and its length.
pub fn read_header(head: &[u8], length: u64) -> Result<Header, Refusal> {
    let (mut numbers, mut r) = ([0; 5], Refusal::of(Call::DsfRead, 0));
    let answer = calls::puigneht_dsf_read_header_call(head, length, &mut numbers, &mut r);
    let [channel_type, channels, bits_per_sample, samples, frames] = numbers;
    r.of_file(head, length, answer, Header { channel_type, channels, bits_per_sample, samples, frames })
}

/// What to read for a frame: a stretch of the data, which begins [`HEADER_BYTES`] bytes into the file.
pub fn window(channels: u64, samples: u64, frame: u64) -> Range<u64> {
    let mut found = [0; 2];
    calls::puigneht_dsf_window_call(channels, samples, frame, &mut found);
    found[0]..found[1]
}

/// Frame number `frame` out of a window of the data that begins at `start`. A window may serve several frames.
pub fn window_frame(head: &[u8], length: u64, frame: u64, window: &[u8], start: u64, out: &mut [u8]) -> Result<(), Refusal> {
    let mut r = Refusal::of(Call::DsfWindowFrame, 0);
    let answer = calls::puigneht_dsf_window_frame_call(head, length, frame, window, start, out, &mut r);
    r.of_file(head, length, answer, ())
}

/// Frame number `frame` of a file, a short last one filled up with 0x69. Refused 9, 10, 11; then 5; then 7.
pub fn frame(file: &[u8], frame: u64, out: &mut [u8]) -> Result<(), Refusal> {
    let mut r = Refusal::of(Call::DsfFrame, 0);
    let answer = calls::puigneht_dsf_frame_call(file, frame, out, &mut r);
    r.of_file(file, file.len() as u64, answer, ())
}

/// The length of the file of `bytes` bytes of whole frames.
pub fn file_length(channels: u8, bytes: usize) -> Result<usize, Refusal> {
    let (mut size, mut r) = (0, writing(channels, bytes));
    let answer = calls::puigneht_dsf_length_call(channels, bytes, &mut size, &mut r);
    r.result(answer, size as usize)
}

/// The DSF file of whole frames, into a slice of its length ([`file_length`]). Refused 1, 4, 5, 7.
pub fn write(channels: u8, frames: &[u8], out: &mut [u8]) -> Result<(), Refusal> {
    let mut r = writing(channels, frames.len());
    let answer = calls::puigneht_dsf_write_call(channels, frames, out, &mut r);
    r.result(answer, ())
}

fn writing(channels: u8, bytes: usize) -> Refusal {
    Refusal::of(Call::DsfWrite, bytes).with(0, 0, channels.into())
}

/// Frames of a stretch of [`lay_out`].
pub const STRETCH_FRAMES: usize = 128;

/// The first bytes of the DSF file of `bytes` bytes of whole frames, so that nobody holds it in memory. Refused 1, 4,
/// 5.
pub fn head(channels: u8, bytes: usize) -> Result<[u8; HEADER_BYTES], Refusal> {
    let (mut out, mut r) = ([0; HEADER_BYTES], writing(channels, bytes));
    let answer = calls::puigneht_dsf_head_call(channels, bytes, &mut out, &mut r);
    r.result(answer, out)
}

/// The data of some frames, into a slice of [`HEADER_BYTES`] bytes fewer than [`file_length`] tells of them. The header
/// and the data of stretches of [`STRETCH_FRAMES`] frames (or a multiple; the last of as many as are left), end to end,
/// are the file. Refused 1, 4, 5, 7.
pub fn lay_out(channels: u8, frames: &[u8], out: &mut [u8]) -> Result<(), Refusal> {
    let mut r = writing(channels, frames.len());
    let answer = calls::puigneht_dsf_lay_out_call(channels, frames, out, &mut r);
    r.result(answer, ())
}

/// What is to be thought of an upload.
#[derive(Clone, Copy, Debug, PartialEq, Eq)]
pub enum Upload {
    /// A file that is taken.
    Accepted,
    /// Refused, but a longer file that begins so may be accepted.
    Unfinished,
    /// The length of the shortest beginning that no continuation makes acceptable.
    GiveUp(u64),
}

/// How early a file can be given up.
pub fn give_up(file: &[u8]) -> Upload {
    give_up_header(file, file.len() as u64)
}

/// How early an upload can be given up, from the first [`HEADER_BYTES`] bytes, all where the file has fewer, and its
/// length.
pub fn give_up_header(head: &[u8], length: u64) -> Upload {
    let mut place = 0;
    match calls::puigneht_dsf_give_up_header_call(head, length, &mut place) {
        0 => Upload::Accepted,
        1 => Upload::Unfinished,
        _ => Upload::GiveUp(place),
    }
}
