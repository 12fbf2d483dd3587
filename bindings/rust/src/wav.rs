//! WAV files of 24-bit samples: the plain 44-byte header, then the sample bytes. An album's files of every kind:
//! [`Album::wave`](crate::Album::wave).
//!
//! ```
//! use puigneht::{wav, Rate};
//! let mut file = vec![0; wav::HEADER + 3 * 1176];
//! wav::write(Rate::Hz88200, 1, &[7; 3 * 1176], &mut file)?;
//! assert_eq!(wav::read(&file)?.samples, [7; 3 * 1176]);
//! assert_eq!(wav::header(Rate::Hz88200, 1, 3 * 1176)?, file[..wav::HEADER]);
//! # Ok::<(), puigneht::Refusal>(())
//! ```

use crate::{calls, refusal::Call, Rate, Refusal};

/// Bytes before the sample bytes.
pub const HEADER: usize = 44;

/// The most bytes of samples that a header can tell.
pub const MOST_DATA: usize = 4_294_967_259;

/// What a file holds.
#[derive(Clone, Copy, Debug, PartialEq, Eq)]
pub struct Wav<'a> {
    /// Samples a second.
    pub rate: Rate,
    /// One or two.
    pub channels: u8,
    /// The sample bytes: a part of the file.
    pub samples: &'a [u8],
}

/// Reads a whole file. Refused 12 for any other.
pub fn read(file: &[u8]) -> Result<Wav<'_>, Refusal> {
    let mut told = [0; 4];
    let answer = calls::puigneht_wav_read_call(file, &mut told);
    Refusal::of(Call::WavRead, file.len()).result(answer, ())?;
    let [hertz, channels, begin, length] = told;
    Ok(Wav { rate: Rate::of(hertz), channels: channels as u8, samples: &file[begin as usize..][..length as usize] })
}

/// A file from sample bytes, into a slice of [`HEADER`] bytes more. Refused 12 if [`read`] would not take it; then 7.
pub fn write(rate: Rate, channels: u8, bytes: &[u8], out: &mut [u8]) -> Result<(), Refusal> {
    let mut r = Refusal::of(Call::WavWrite, bytes.len()).with(rate as u64, 0, channels.into());
    let answer = calls::puigneht_wav_write_call(rate as u64, channels, bytes, out, &mut r);
    r.result(answer, ())
}

/// The header alone, for a stream of `bytes` sample bytes. Refused 12.
pub fn header(rate: Rate, channels: u8, bytes: usize) -> Result<[u8; HEADER], Refusal> {
    let mut out = [0; HEADER];
    let answer = calls::puigneht_wav_header_call(rate as u64, channels, bytes as u64, &mut out);
    Refusal::of(Call::WavWrite, bytes).with(rate as u64, 0, channels.into()).result(answer, out)
}
