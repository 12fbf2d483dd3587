//! Why a call is refused.

use crate::calls;
use std::fmt;

/// A refusal: its number and data, as include/puigneht.h tells them. Printed, it is the library's sentence. Two are
/// equal where numbers and data are, decibels bit for bit.
///
/// ```
/// let refusal = puigneht::dsf::read(b"RIFF").unwrap_err();
/// assert_eq!((refusal.number, refusal.field[1]), (9, 4));
/// let why = "not a DSF file as Sony's document lays it out: it has 4 bytes, and a header has 92";
/// assert_eq!(refusal.to_string(), format!("refused 9: {why}"));
/// ```
#[repr(C)]
#[derive(Clone, Copy, Debug, Default)]
pub struct Refusal {
    /// As the number says in include/puigneht.h; zeros where there is nothing to tell.
    pub data: [u64; 2],
    /// Of 3, as they came in.
    pub decibels: f64,
    /// Of 9, 10 and 11: the byte of the file at which the first wrong field stands, what is there, and what is to be
    /// there.
    pub field: [u64; 3],
    rate: u64,
    cutoff: u64,
    channels: u64,
    length: u64,
    call: u8,
    /// 1 to 20; 254 where a track cannot be read, 255 where something is not understood.
    pub number: u8,
    /// Of an album, from 0: whose file it was, or whose frames are too many.
    pub track: u8,
}

// As puigneht.h holds it.
const _: () = assert!(std::mem::size_of::<Refusal>() == 88 && std::mem::offset_of!(Refusal, number) == 81);

/// An answer of a call that could not read a track.
pub(crate) const READ_FAILED: u8 = 254;
/// An answer of a call with an album of no tracks or too many.
pub(crate) const NOT_UNDERSTOOD: u8 = 255;

/// The numbers of the calls in `puigneht_refusal`.
#[derive(Clone, Copy)]
#[cfg_attr(test, derive(Debug))]
pub(crate) enum Call {
    Gain = 1,
    Open,
    Change,
    ConvertRun,
    ConvertFrame,
    Convert,
    ConvertDesk,
    WavConvert,
    LevelSheet,
    Turns,
    DsfRead,
    DsfFrame,
    DsfWindowFrame,
    DsfWrite,
    WavRead,
    WavWrite,
    AlbumOpen,
    AlbumPiece,
    AlbumFrames,
    AlbumHeader,
    FrameLevels,
}

impl Refusal {
    pub(crate) fn of(call: Call, length: usize) -> Self {
        Refusal { call: call as u8, length: length as u64, ..Refusal::default() }
    }

    #[cfg(test)]
    pub(crate) fn call(&self) -> u8 {
        self.call
    }

    /// With what the call was made.
    pub(crate) fn with(self, rate: u64, cutoff: u64, channels: u64) -> Self {
        Refusal { rate, cutoff, channels, ..self }
    }

    pub(crate) fn result<T>(mut self, number: u8, accepted: T) -> Result<T, Refusal> {
        self.number = number;
        if number == 0 { Ok(accepted) } else { Err(self) }
    }

    /// Of a DSF file's beginning and length: what is wrong with it is asked where it is refused.
    pub(crate) fn of_file<T>(mut self, head: &[u8], length: u64, number: u8, accepted: T) -> Result<T, Refusal> {
        self.length = length;
        if let 9..=11 = number {
            calls::puigneht_dsf_why_call(head, length, &mut self.field);
        }
        self.result(number, accepted)
    }

    /// Of track `track`, which has these first bytes, of an album whose first has `first`. Another channel type is told
    /// by the eight bytes from byte 48 on, where it stands with the channels.
    pub(crate) fn of_track(self, track: usize, number: u8, [head, first]: [&[u8]; 2], length: u64) -> Self {
        let mut r = Refusal { track: track as u8, number, length, ..self };
        if let 9..=11 = number {
            r.data = [0; 2];
            if calls::puigneht_dsf_why_call(head, length, &mut r.field) == 0 {
                r.field = [48, eight(head, 48), eight(first, 48)];
            }
        }
        r
    }
}

fn eight(bytes: &[u8], at: usize) -> u64 {
    bytes[at..at + 8].iter().rev().fold(0, |number, &byte| 256 * number + u64::from(byte))
}

impl PartialEq for Refusal {
    fn eq(&self, other: &Self) -> bool {
        let told = |r: &Self| (r.number, r.data, r.decibels.to_bits());
        told(self) == told(other)
    }
}

impl fmt::Display for Refusal {
    fn fmt(&self, f: &mut fmt::Formatter<'_>) -> fmt::Result {
        let mut text = [0; 256];
        calls::puigneht_describe(self, &mut text);
        let end = text.iter().position(|&b| b == 0).unwrap_or(text.len());
        f.write_str(&String::from_utf8_lossy(&text[..end]))
    }
}

impl std::error::Error for Refusal {}

#[cfg(test)]
mod tests {
    use super::Call::*;

    const HEADER: &str = include_str!("../../../include/puigneht.h");

    // `DSF_WINDOW_FRAME` as `DsfWindowFrame`.
    fn camel(name: &str) -> String {
        name.split('_').map(|word| format!("{}{}", &word[..1], word[1..].to_lowercase())).collect()
    }

    #[test]
    fn calls_have_the_numbers_of_the_header() {
        let ours = [
            Gain, Open, Change, ConvertRun, ConvertFrame, Convert, ConvertDesk, WavConvert, LevelSheet, Turns, DsfRead, DsfFrame, DsfWindowFrame,
            DsfWrite, WavRead, WavWrite, AlbumOpen, AlbumPiece, AlbumFrames, AlbumHeader, FrameLevels,
        ];
        let (_, list) = HEADER.split_once("PUIGNEHT_CALL_NONE = 0,").unwrap();
        let (list, _) = list.split_once('}').unwrap();
        let names: Vec<_> = list.split(',').map(|text| camel(text.trim().strip_prefix("PUIGNEHT_CALL_").unwrap())).collect();
        assert_eq!(ours.map(|call| format!("{call:?}"))[..], names);
        assert_eq!(ours.map(|call| call as usize)[..], (1..=names.len()).collect::<Vec<_>>());
    }

    #[test]
    fn numbers_are_the_headers() {
        for text in [
            format!("PUIGNEHT_WAV_MOST_DATA UINT32_C({})", crate::wav::MOST_DATA),
            format!("PUIGNEHT_READ_FAILED = {}", super::READ_FAILED),
            format!("PUIGNEHT_NOT_UNDERSTOOD = {}", super::NOT_UNDERSTOOD),
            format!("PUIGNEHT_MOST_TAPS = {}", crate::MOST_TAPS),
            format!("PUIGNEHT_DESK_FRAMES = {}", crate::DESK_FRAMES),
            format!("PUIGNEHT_LINES_ROOM = {}", crate::levels::LINES),
            format!("PUIGNEHT_LAST_LINE_ROOM = {}", crate::levels::LAST_LINE),
            format!("PUIGNEHT_VERSION \"{}\"", env!("CARGO_PKG_VERSION")),
        ] {
            assert!(HEADER.contains(&text), "{text}");
        }
        let album = include_str!("../../../include/puigneht/album.h");
        assert!(album.contains(&format!("PUIGNEHT_MOST_TRACKS = {}", crate::MOST_TRACKS)));
    }
}
