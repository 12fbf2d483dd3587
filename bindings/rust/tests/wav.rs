// WAV files through C: beside `convert`, back again, refused, and data over the limits in mappings that are never
// touched.
use crate::common::{alone, noise, refused, Open};
use puigneht::wav::{header, read, write, Wav, HEADER, MOST_DATA};
use puigneht::{Converter, Cutoff, Rate, Run, Settings, FRAME_BYTES};

const RATES: [(Rate, u32, usize); 3] = [
    (Rate::Hz88200, 88200, 1176),
    (Rate::Hz176400, 176400, 2352),
    (Rate::Hz352800, 352800, 4704),
];

fn converter(rate: Rate, channels: u8) -> Converter {
    Settings {
        rate,
        cutoff: Cutoff::Standard,
        channels,
        decibels: 0.0,
        taps: None,
    }
    .open()
    .unwrap()
}

// The header by hand.
fn by_hand(hertz: u32, channels: u8, n: usize) -> Vec<u8> {
    let mut h = Vec::new();
    let sample = 3 * channels as u32;
    h.extend(b"RIFF");
    h.extend((36 + n as u32).to_le_bytes());
    h.extend(b"WAVEfmt ");
    h.extend(16u32.to_le_bytes());
    h.extend(1u16.to_le_bytes());
    h.extend((channels as u16).to_le_bytes());
    h.extend(hertz.to_le_bytes());
    h.extend((hertz * sample).to_le_bytes());
    h.extend((sample as u16).to_le_bytes());
    h.extend(24u16.to_le_bytes());
    h.extend(b"data");
    h.extend((n as u32).to_le_bytes());
    h
}

// A file is the header and what `convert` writes; read, it gives them back; and it is written back the same.
#[test]
fn files() {
    for (rate, hertz, samples) in RATES {
        for channels in [1, 2] {
            for frames in [0, 1, 3] {
                let bytes = noise(frames * FRAME_BYTES * channels as usize);
                let n = 3 * frames * samples * channels as usize;
                let conv = converter(rate, channels);
                let mut plain = vec![0; n];
                let mut counts = vec![0; frames];
                let mut file = vec![0; HEADER + n];
                let mut same = vec![0; frames];
                let clipped = conv.convert(alone(&bytes), &mut plain, Some(&mut counts));
                assert_eq!(
                    conv.convert_wav(alone(&bytes), &mut file, Some(&mut same)),
                    clipped
                );
                assert_eq!(same, counts);
                assert_eq!(file, [by_hand(hertz, channels, n), plain.clone()].concat());
                assert_eq!(
                    read(&file),
                    Ok(Wav {
                        rate,
                        channels,
                        samples: &plain
                    })
                );
                let mut back = vec![0; HEADER + n];
                assert_eq!(write(rate, channels, &plain, &mut back), Ok(()));
                assert_eq!(back, file);
                assert_eq!(header(rate, channels, n).unwrap(), file[..HEADER]);
                assert_eq!(read(&file[..file.len() - 1]), Err(refused(12, 0, 0)));
                file.push(0);
                assert_eq!(read(&file), Err(refused(12, 0, 0)));
            }
        }
    }
}

// 12 comes after 8, 8 after 7, and 7 after the neighbours; a refused call keeps the output.
#[test]
fn refusals() {
    let conv = converter(Rate::Hz88200, 3);
    let frame = noise(3 * FRAME_BYTES);
    let n = 3 * 3 * 1176;
    let mut out = vec![7; HEADER + n];
    let wrong = Run {
        before: Some(&frame[1..]),
        after: Some(&[]),
        ..alone(&frame)
    };
    assert_eq!(
        conv.convert_wav(wrong, &mut out[..n], Some(&mut [])),
        Err(refused(13, 3 * FRAME_BYTES - 1, 0))
    );
    let wrong = Run {
        before: None,
        ..wrong
    };
    assert_eq!(
        conv.convert_wav(wrong, &mut out[..n], Some(&mut [])),
        Err(refused(14, 0, 0))
    );
    assert_eq!(
        conv.convert_wav(alone(&frame), &mut out[..n], Some(&mut [])),
        Err(refused(7, n, HEADER + n))
    );
    assert_eq!(
        conv.convert_wav(alone(&frame), &mut out, Some(&mut [])),
        Err(refused(8, 0, 1))
    );
    assert_eq!(
        conv.convert_wav(alone(&frame), &mut out, None),
        Err(refused(12, 0, 0))
    );
    let told = conv.convert_wav(alone(&frame), &mut out, None).unwrap_err();
    assert_eq!(told.to_string(), "refused 12: 3 channels: the WAV file takes one or two");
    let told = conv.convert_wav(alone(&frame), &mut [0; 44], None).unwrap_err();
    assert_eq!(told.to_string(), "refused 7: room for 44 bytes, where 10,628 are to be written");
    assert!(out.iter().all(|&b| b == 7));
    let rate = Rate::Hz88200;
    assert_eq!(write(rate, 0, &[], &mut out[..44]), Err(refused(12, 0, 0)));
    assert_eq!(header(rate, 3, 0).unwrap_err().to_string(), "refused 12: 3 channels: the WAV file takes one or two");
    assert_eq!(header(rate, 1, 3527), Err(refused(12, 0, 0)));
    assert_eq!(write(rate, 3, &[], &mut out[..44]), Err(refused(12, 0, 0)));
    assert_eq!(write(rate, 1, &[0; 3527], &mut []), Err(refused(12, 0, 0)));
    assert_eq!(
        read(&[]).unwrap_err().to_string(),
        "refused 12: not a WAV file of the plain header, 24 bits, one or two channels, one of the three rates and whole frames"
    );
    assert_eq!(
        write(rate, 1, &[], &mut out[..45]),
        Err(refused(7, 45, 44))
    );
    assert!(out.iter().all(|&b| b == 7));
}

mod raw {
    extern "C" {
        pub fn puigneht_wav_write_call(
            rate: u64,
            channels: u8,
            bytes: *const u8,
            bytes_len: usize,
            out: *mut u8,
            out_len: usize,
            data: &mut [u64; 2],
        ) -> u8;
        pub fn puigneht_wav_read_call(file: *const u8, file_len: usize, told: &mut [u64; 4]) -> u8;
        pub fn puigneht_wav_convert_call(
            numbers: &[u64; 8],
            gain: &[f64; 2],
            taps: &[i32; 117],
            presence: u8,
            before: *const u8,
            before_len: usize,
            frames: *const u8,
            frames_len: usize,
            after: *const u8,
            after_len: usize,
            out: *mut u8,
            out_len: usize,
            counts: *mut u64,
            counts_len: usize,
            stats: &mut [u64; 24],
            data: &mut [u64; 2],
            decibels: &mut [f64; 1],
        ) -> u8;
        pub fn mmap(
            addr: *mut u8,
            length: usize,
            prot: i32,
            flags: i32,
            fd: i32,
            offset: i64,
        ) -> *mut u8;
        pub fn munmap(addr: *mut u8, length: usize) -> i32;
    }
}

// So many bytes of address space that cannot be read or written: a call that touches them does not return.
struct Untouched(*mut u8, usize);

impl Untouched {
    fn new(n: usize) -> Self {
        // SAFETY: an anonymous private mapping (flags 0x22) without reserve (0x4000) and without access (0).
        let at = unsafe { raw::mmap(std::ptr::null_mut(), n, 0, 0x4022, -1, 0) };
        assert!(at as isize != -1, "mmap of {n} bytes");
        Untouched(at, n)
    }
}

impl Drop for Untouched {
    fn drop(&mut self) {
        // SAFETY: the mapping is this one's own.
        unsafe { raw::munmap(self.0, self.1) };
    }
}

// Sample bytes of more than 540,000 frames, and of more than the size field can tell.
#[test]
fn data_over_the_limits() {
    let write = |rate: u64, channels: u8, n: usize, room: usize| {
        let bytes = Untouched::new(n);
        let out = Untouched::new(room);
        let mut data = [5; 2];
        // SAFETY: the mappings have these lengths; a call that is refused does not look into them.
        let answer = unsafe {
            raw::puigneht_wav_write_call(rate, channels, bytes.0, n, out.0, room, &mut data)
        };
        (answer, data)
    };
    // 540,000 frames at 88,200 Hz and one channel fit: then 7
    let frame = 3528;
    let most = 540_000 * frame;
    assert_eq!(write(88200, 1, most, 44), (7, [44, 44 + most as u64]));
    assert_eq!(
        write(88200, 1, most + frame, 44 + most + frame),
        (12, [0, 0])
    );
    // at 176,400 Hz and two channels the size field ends first
    let frame = 14112;
    let most = MOST_DATA / frame * frame;
    assert_eq!(write(176400, 2, most, 44), (7, [44, 44 + most as u64]));
    assert_eq!(
        write(176400, 2, most + frame, 44 + most + frame),
        (12, [0, 0])
    );
    assert_eq!(write(44100, 1, 4096, 4096), (12, [0, 0]));
    assert_eq!(write(0, 1, 4096, 4096), (12, [0, 0]));
}

// A file with more data than a header can tell is refused by its length, whatever it begins with.
#[test]
fn long_files() {
    let n = HEADER + MOST_DATA + 1;
    let file = Untouched::new(n);
    // the first page can be read, and is zero
    extern "C" {
        fn mprotect(addr: *mut u8, length: usize, prot: i32) -> i32;
    }
    // SAFETY: the page is within the mapping.
    assert_eq!(unsafe { mprotect(file.0, 4096, 1) }, 0);
    let mut told = [5; 4];
    // SAFETY: the mapping has this length; past its first page nothing is read.
    let answer = unsafe { raw::puigneht_wav_read_call(file.0, n, &mut told) };
    assert_eq!((answer, told), (12, [5; 4]));
}

// A run whose data the size field cannot tell: 12 after 7 and 8, and nothing is read or written.
#[test]
fn a_long_run() {
    let frames = 160_000;
    let data = frames * 2 * 4704 * 3;
    assert!(data > MOST_DATA);
    let numbers = [352800, 0, 2, 0, 0, 4704, 155, 9408];
    let run = Untouched::new(frames * 2 * FRAME_BYTES);
    let out = Untouched::new(HEADER + data);
    let counts = Untouched::new(8 * frames);
    let call = |lent: u8, room: usize, items: usize| {
        let (mut stats, mut told, mut decibels) = ([5; 24], [5; 2], [5.0]);
        let none = std::ptr::null();
        let counts = counts.0 as *mut u64;
        // SAFETY: the mappings have these lengths; a call that is refused does not look into them.
        let answer = unsafe {
            raw::puigneht_wav_convert_call(
                &numbers, &[0.0, 1.0], &[0; 117], lent, none, 0, run.0, run.1, none, 0, out.0, room, counts, items, &mut stats, &mut told, &mut decibels,
            )
        };
        assert_eq!(stats, [5; 24]);
        (answer, told)
    };
    let whole = HEADER + data;
    assert_eq!(call(4, data, 1), (7, [data as u64, whole as u64]));
    assert_eq!(call(4, whole, 1), (8, [1, frames as u64]));
    assert_eq!(call(4, whole, frames), (12, [0, 0]));
    assert_eq!(call(0, whole, 0), (12, [0, 0]));
}
