//! The library's proved calls, each declared once, as include/puigneht.h and include/puigneht/album.h do: `[T]` is a
//! list that is read and `[mut T]` one that is written, in C a pointer and its number of items; `[T; N]` and
//! `[mut T; N]` are fixed lists, in C a pointer; `settings`, `run`, `album`, `told` and `data` are what many calls
//! have. The functions made here take references, so the only `unsafe` of the crate is in this macro.

use crate::{Refusal, Run};

/// A converter as the calls take it: puigneht_converter.
#[derive(Clone, Copy, Debug, PartialEq)]
pub struct Record {
    /// Rate, cutoff, channels, whether the taps are one's own and how many, samples in a frame, reach, bytes of a
    /// frame.
    pub numbers: [u64; 8],
    /// Decibels and their factor.
    pub gain: [f64; 2],
    pub taps: [i32; crate::MOST_TAPS],
}

/// The first bytes of an album's files end to end, and their lengths.
#[derive(Clone, Debug)]
pub struct Files {
    pub heads: Vec<u8>,
    pub lengths: Vec<u64>,
}

macro_rules! calls {
    () => {};
    ($($name:ident)|+ ($($args:tt)*) -> $answer:ty; $($rest:tt)*) => {
        calls!(each [$($name)+] ($($args)*) $answer);
        calls!($($rest)*);
    };
    (each [] $args:tt $answer:ty) => {};
    (each [$name:ident $($more:ident)*] ($($args:tt)*) $answer:ty) => {
        calls!(@ $name $answer [] [] [] $($args)*,);
        calls!(each [$($more)*] ($($args)*) $answer);
    };
    (@ $name:ident $answer:ty [$($c:tt)*] [$($r:tt)*] [$($p:tt)*] $(,)?) => {
        #[allow(clippy::too_many_arguments)]
        pub fn $name($($r)*) -> $answer {
            extern "C" { fn $name($($c)*) -> $answer; }
            // SAFETY: each pointer and number is that of a live list. A list that is written is `&mut`, so it overlaps
            // no other. The library keeps no pointer and has no state, and is proved to stay within its lists.
            unsafe { $name($($p)*) }
        }
    };
    (@ $name:ident $answer:ty [$($c:tt)*] [$($r:tt)*] [$($p:tt)*] settings, $($more:tt)*) => {
        calls!(@ $name $answer [$($c)* _: &[u64; 8], _: &[f64; 2], _: &[i32; 117],] [$($r)* record: &Record,]
            [$($p)* &record.numbers, &record.gain, &record.taps,] $($more)*);
    };
    (@ $name:ident $answer:ty [$($c:tt)*] [$($r:tt)*] [$($p:tt)*] run, $($more:tt)*) => {
        calls!(@ $name $answer [$($c)* _: u8, _: *const u8, _: usize, _: *const u8, _: usize, _: *const u8, _: usize,]
            [$($r)* run: &Run<'_>, counts_are_lent: bool,]
            [$($p)* run.presence() + 4 * u8::from(counts_are_lent), run.before.unwrap_or(&[]).as_ptr(), run.before.map_or(0, <[u8]>::len),
                run.frames.as_ptr(), run.frames.len(), run.after.unwrap_or(&[]).as_ptr(), run.after.map_or(0, <[u8]>::len),] $($more)*);
    };
    (@ $name:ident $answer:ty [$($c:tt)*] [$($r:tt)*] [$($p:tt)*] album, $($more:tt)*) => {
        calls!(@ $name $answer [$($c)* _: *const u8, _: usize, _: *const u64, _: usize,] [$($r)* files: &Files,]
            [$($p)* files.heads.as_ptr(), files.heads.len(), files.lengths.as_ptr(), files.lengths.len(),] $($more)*);
    };
    (@ $name:ident $answer:ty [$($c:tt)*] [$($r:tt)*] [$($p:tt)*] told, $($more:tt)*) => {
        calls!(@ $name $answer [$($c)* _: &mut [u64; 2], _: &mut f64,] [$($r)* refusal: &mut Refusal,]
            [$($p)* &mut refusal.data, &mut refusal.decibels,] $($more)*);
    };
    (@ $name:ident $answer:ty [$($c:tt)*] [$($r:tt)*] [$($p:tt)*] data, $($more:tt)*) => {
        calls!(@ $name $answer [$($c)* _: &mut [u64; 2],] [$($r)* refusal: &mut Refusal,] [$($p)* &mut refusal.data,] $($more)*);
    };
    (@ $name:ident $answer:ty [$($c:tt)*] [$($r:tt)*] [$($p:tt)*] $x:ident: [mut $t:ty; $n:literal], $($more:tt)*) => {
        calls!(@ $name $answer [$($c)* $x: &mut [$t; $n],] [$($r)* $x: &mut [$t; $n],] [$($p)* $x,] $($more)*);
    };
    (@ $name:ident $answer:ty [$($c:tt)*] [$($r:tt)*] [$($p:tt)*] $x:ident: [mut $t:ty], $($more:tt)*) => {
        calls!(@ $name $answer [$($c)* $x: *mut $t, _: usize,] [$($r)* $x: &mut [$t],] [$($p)* $x.as_mut_ptr(), $x.len(),] $($more)*);
    };
    (@ $name:ident $answer:ty [$($c:tt)*] [$($r:tt)*] [$($p:tt)*] $x:ident: [$t:ty; $n:literal], $($more:tt)*) => {
        calls!(@ $name $answer [$($c)* $x: &[$t; $n],] [$($r)* $x: &[$t; $n],] [$($p)* $x,] $($more)*);
    };
    (@ $name:ident $answer:ty [$($c:tt)*] [$($r:tt)*] [$($p:tt)*] $x:ident: [$t:ty], $($more:tt)*) => {
        calls!(@ $name $answer [$($c)* $x: *const $t, _: usize,] [$($r)* $x: &[$t],] [$($p)* $x.as_ptr(), $x.len(),] $($more)*);
    };
    (@ $name:ident $answer:ty [$($c:tt)*] [$($r:tt)*] [$($p:tt)*] $x:ident: $t:ty, $($more:tt)*) => {
        calls!(@ $name $answer [$($c)* $x: $t,] [$($r)* $x: $t,] [$($p)* $x,] $($more)*);
    };
}

calls! {
    puigneht_describe(refusal: &Refusal, text: [mut u8]) -> *const u8;
    puigneht_gain_call(db: f64, gain: [mut f64; 2], decibels: &mut f64) -> u8;
    puigneht_open_call(numbers: [mut u64; 8], gain: [f64; 2], taps: [i32; 117], told) -> u8;
    puigneht_change_call(numbers: [mut u64; 8], gain: [mut f64; 2], taps: [i32; 117], rate: u64, cutoff: u64, wanted: [f64; 2], told) -> u8;
    puigneht_convert_run_call | puigneht_convert_frame_call(settings, run, out: [mut i32], stats: [mut u64; 24], told) -> u8;
    puigneht_convert_call | puigneht_convert_desk_call | puigneht_wav_convert_call
        (settings, run, out: [mut u8], counts: [mut u64], stats: [mut u64; 24], told) -> u8;
    puigneht_pack_s24le_call(samples: [i32], bytes: [mut u8]) -> ();
    puigneht_join_stats_call(stats: [mut u64; 24], more: [u64; 24]) -> u8;
    puigneht_level_sheet_call(channels: u8, stats: [u64; 24], out: [mut u8], data) -> u8;
    puigneht_overs_call(samples: [i32], channels: usize, channel: usize, over: [mut u64; 3]) -> u8;
    puigneht_frame_levels_call(settings, run, frame: u64, standings: [mut u64; 12], samples: [mut i32], lines: [mut u8], found: [mut u64; 2], told) -> u8;
    puigneht_last_line_call(frames: u64, clipped: u64, line: [mut u8; 144]) -> usize;
    puigneht_turns_call(frames: [u64], dues: [u64], turn: u64, finishes: [mut u64], late: [mut i32]) -> u8;
    puigneht_dsf_read_header_call(head: [u8], length: u64, header: [mut u64; 5], data) -> u8;
    puigneht_dsf_why_call(head: [u8], length: u64, field: [mut u64; 3]) -> u8;
    puigneht_dsf_window_call(channels: u64, samples: u64, frame: u64, window: [mut u64; 2]) -> ();
    puigneht_dsf_window_frame_call(head: [u8], length: u64, frame: u64, window: [u8], start: u64, out: [mut u8], data) -> u8;
    puigneht_dsf_frame_call(file: [u8], frame: u64, out: [mut u8], data) -> u8;
    puigneht_dsf_write_call(channels: u8, frames: [u8], out: [mut u8], data) -> u8;
    puigneht_dsf_head_call(channels: u8, bytes: usize, head: [mut u8; 92], data) -> u8;
    puigneht_dsf_lay_out_call(channels: u8, frames: [u8], out: [mut u8], data) -> u8;
    puigneht_dsf_length_call(channels: u8, bytes: usize, size: &mut u64, data) -> u8;
    puigneht_dsf_give_up_header_call(head: [u8], length: u64, place: &mut u64) -> u8;
    puigneht_wav_read_call(file: [u8], told: [mut u64; 4]) -> u8;
    puigneht_wav_write_call(rate: u64, channels: u8, bytes: [u8], out: [mut u8], data) -> u8;
    puigneht_wav_header_call(rate: u64, channels: u8, bytes: u64, out: [mut u8; 44]) -> u8;
    puigneht_album_open_call(settings, album, numbers: [mut u64; 8], marks: [mut u64], track: &mut u64, told) -> u8;
    puigneht_album_part_call(frames: u64, jobs: u64, part: u64, pieces: [mut u64; 2]) -> ();
    puigneht_album_piece_call(settings, album, piece: u64, plan: [mut u64; 6], reads: [mut u64]) -> u8;
    puigneht_album_writes_call(marks: [u64], place: u64, bytes: u64, writes: [mut u64]) -> ();
    puigneht_album_frames_call(settings, album, first: u64, count: u64, windows: [u8], scratch: [mut u8], told) -> u8;
    puigneht_album_step_call(settings, album, first: u64, count: u64, windows: [u8], scratch: [mut u8], out: [mut u8], stats: [mut u64; 24], told) -> u8;
    puigneht_wave_header_call(format: u64, rate: u64, channels: u64, channel_type: u64, bytes: u64, out: [mut u8; 104], told: [mut u64; 2]) -> u8;
}
