//! DSF files through the library, against files that these tests lay out by themselves.

use crate::common::{refused, refused_channels};
use puigneht::dsf::{
    file_length, frame, give_up, give_up_header, head, lay_out, read, read_header, window, window_frame, write, Header, Upload, HEADER_BYTES,
    STRETCH_FRAMES,
};
use puigneht::FRAME_BYTES;

// A byte of a channel's samples, the earliest in the highest bit.
fn byte(channel: usize, at: usize) -> u8 {
    ((at * 31 + channel * 77 + at / 251) % 256) as u8
}

fn field(file: &mut [u8], at: usize, size: usize, n: u64) {
    file[at..at + size].copy_from_slice(&n.to_le_bytes()[..size]);
}

// A file by Sony's layout: `bytes` of each channel, then `more` bytes behind the data chunk.
fn file(kind: u64, channels: usize, bits: u64, bytes: usize, more: usize) -> Vec<u8> {
    let blocks = bytes.div_ceil(4096);
    let data = blocks * 4096 * channels;
    let mut file = vec![0xaa; HEADER_BYTES + data + more];
    let length = file.len() as u64;
    file[..4].copy_from_slice(b"DSD ");
    field(&mut file, 4, 8, 28);
    field(&mut file, 12, 8, length);
    field(&mut file, 20, 8, 0);
    file[28..32].copy_from_slice(b"fmt ");
    field(&mut file, 32, 8, 52);
    for (at, n) in [
        (40, 1),
        (44, 0),
        (48, kind),
        (52, channels as u64),
        (56, 2822400),
        (60, bits),
        (72, 4096),
        (76, 0),
    ] {
        field(&mut file, at, 4, n);
    }
    field(&mut file, 64, 8, 8 * bytes as u64);
    file[80..84].copy_from_slice(b"data");
    field(&mut file, 84, 8, 12 + data as u64);
    for c in 0..channels {
        for q in 0..bytes {
            let x = byte(c, q);
            file[HEADER_BYTES + (q / 4096 * channels + c) * 4096 + q % 4096] =
                if bits == 1 { x.reverse_bits() } else { x };
        }
    }
    file
}

fn wanted(channels: usize, bytes: usize, f: usize) -> Vec<u8> {
    let mut out = vec![0x69; FRAME_BYTES * channels];
    for p in 0..FRAME_BYTES {
        let q = f * FRAME_BYTES + p;
        for c in 0..channels {
            if q < bytes {
                out[p * channels + c] = byte(c, q);
            }
        }
    }
    out
}

const TYPES: [(u64, usize); 7] = [(1, 1), (2, 2), (3, 3), (4, 4), (5, 4), (6, 5), (7, 6)];

#[test]
fn frames_of_files() {
    for (kind, channels) in TYPES {
        for bits in [1, 8] {
            for bytes in [0, 1, 4095, 4096, 4097, 4704, 4705, 9408, 10000] {
                let file = file(kind, channels, bits, bytes, 7);
                let header = read(&file).unwrap();
                let frames = bytes.div_ceil(FRAME_BYTES);
                assert_eq!(
                    header,
                    Header {
                        channel_type: kind,
                        channels: channels as u64,
                        bits_per_sample: bits,
                        samples: 8 * bytes as u64,
                        frames: frames as u64,
                    }
                );
                let mut out = vec![0; FRAME_BYTES * channels];
                for f in 0..frames {
                    frame(&file, f as u64, &mut out).unwrap();
                    assert_eq!(out, wanted(channels, bytes, f));
                }
                assert_eq!(
                    frame(&file, frames as u64, &mut out),
                    Err(refused(5, frames, 0))
                );
            }
        }
    }
}

// From the first bytes, the length, and the stretch that is named.
#[test]
fn frames_of_windows() {
    let file = file(2, 2, 1, 20000, 100);
    let head = &file[..HEADER_BYTES];
    let length = file.len() as u64;
    let header = read_header(head, length).unwrap();
    assert_eq!(header, read(&file).unwrap());
    let mut out = vec![0; FRAME_BYTES * 2];
    for f in 0..header.frames {
        let stretch = window(header.channels, header.samples, f);
        let part = &file[HEADER_BYTES + stretch.start as usize..][..(stretch.end - stretch.start) as usize];
        window_frame(head, length, f, part, stretch.start, &mut out).unwrap();
        assert_eq!(out, wanted(2, 20000, f as usize));
        let short = &part[..part.len() - 1];
        out.fill(3);
        assert_eq!(
            window_frame(head, length, f, short, stretch.start, &mut out),
            Err(refused(11, 0, 0))
        );
        assert_eq!(
            window_frame(head, length, f, part, stretch.start + 1, &mut out),
            Err(refused(11, 0, 0))
        );
        assert!(out.iter().all(|&x| x == 3));
    }
    assert_eq!(window(2, header.samples, header.frames), 0..0);
    assert_eq!(read_header(&head[..91], length), Err(refused(9, 0, 0)));
}

#[test]
fn refusals_in_turn() {
    let good = file(2, 2, 1, 5000, 0);
    let mut file = good.clone();
    let mut out = vec![3; 2 * FRAME_BYTES + 1];
    let size = out.len();
    assert_eq!(
        frame(&file, 1, &mut out),
        Err(refused(7, size, 2 * FRAME_BYTES))
    );
    assert_eq!(frame(&file, 2, &mut out), Err(refused(5, 2, 0)));
    file.pop();
    assert_eq!(frame(&file, 2, &mut out), Err(refused(11, 0, 0)));
    file[56] = 1;
    assert_eq!(frame(&file, 2, &mut out), Err(refused(10, 0, 0)));
    file[0] = 0;
    assert_eq!(frame(&file, 2, &mut out), Err(refused(9, 0, 0)));
    assert_eq!(read(&file), Err(refused(9, 0, 0)));
    assert!(out.iter().all(|&x| x == 3));
    // A sample count that no file can hold is no fault.
    let mut huge = good;
    field(&mut huge, 64, 8, u64::MAX - 7);
    assert_eq!(read(&huge), Err(refused(11, 0, 0)));
}

// Written files are those of Sony's layout, byte for byte, and are read back.
#[test]
fn files_written() {
    for (kind, channels) in TYPES {
        if kind == 5 {
            continue;
        }
        for count in [0, 1, 2, 3] {
            let bytes = count * FRAME_BYTES;
            let frames: Vec<u8> = (0..count).flat_map(|f| wanted(channels, bytes, f)).collect();
            let mut by_hand = file(kind, channels, 1, bytes, 0);
            for (at, byte) in by_hand[HEADER_BYTES..].iter_mut().enumerate() {
                if at / 4096 / channels * 4096 + at % 4096 >= bytes {
                    *byte = 0;
                }
            }
            let length = file_length(channels as u8, frames.len()).unwrap();
            assert_eq!(length, by_hand.len());
            let mut out = vec![7; length];
            write(channels as u8, &frames, &mut out).unwrap();
            assert!(out == by_hand);
            let mut back = vec![0; FRAME_BYTES * channels];
            for f in 0..count {
                frame(&out, f as u64, &mut back).unwrap();
                assert!(back == frames[f * back.len()..][..back.len()]);
            }
        }
    }
}

#[test]
fn writing_refused_in_turn() {
    let mut out = [3; 10];
    assert_eq!(write(7, &[0; 5], &mut out), Err(refused_channels(7)));
    assert_eq!(write(1, &[0; 5], &mut out), Err(refused(4, 5, 0)));
    assert_eq!(write(1, &[], &mut out), Err(refused(7, 10, 92)));
    assert_eq!(file_length(0, 0), Err(refused_channels(0)));
    let said = "refused 4: 5 bytes are not whole frames: a frame of 2 channels has 9,408 bytes";
    assert_eq!(write(2, &[0; 5], &mut out).unwrap_err().to_string(), said);
    assert_eq!(file_length(1, 5), Err(refused(4, 5, 0)));
    assert_eq!(
        file_length(1, 540001 * FRAME_BYTES),
        Err(refused(5, 540001, 0))
    );
    assert_eq!(out, [3; 10]);
}

// Each header byte changed in turn, and beginnings of a good file.
#[test]
fn uploads_given_up() {
    let good = file(2, 2, 1, 5000, 0);
    assert_eq!(give_up(&good), Upload::Accepted);
    for n in 0..good.len() {
        if n < 200 || n + 2 > good.len() {
            assert_eq!(give_up(&good[..n]), Upload::Unfinished);
        }
    }
    let mut long = good.clone();
    long.push(0);
    assert_eq!(give_up(&long), Upload::GiveUp(good.len() as u64 + 1));
    for at in 0..HEADER_BYTES {
        let mut bad = good.clone();
        bad[at] ^= 0x80;
        let told = give_up(&bad);
        assert_eq!(told, give_up_header(&bad[..HEADER_BYTES], bad.len() as u64));
        match at {
            // The metadata pointer is not checked.
            20..=27 => assert_eq!(told, Upload::Accepted),
            // A length that is stated as too long may be reached, and one too short is over once it is there.
            12..=19 => assert!(matches!(told, Upload::Unfinished | Upload::GiveUp(_))),
            // 128 samples more need no more blocks.
            64 => assert_eq!(told, Upload::Accepted),
            // Any other count needs a data chunk of another size, and a longer file perhaps.
            65..=71 => assert!(matches!(told, Upload::GiveUp(n) if n > at as u64)),
            _ => assert_eq!(told, Upload::GiveUp(at as u64 + 1)),
        }
    }
}

// Each of 9, 10 and 11 says which field is wrong, by each call that reads a file.
#[test]
fn what_is_wrong_is_said() {
    let whole = file(2, 2, 1, 3 * FRAME_BYTES, 0);
    let n = whole.len() as u64;
    let wrong = |at: usize, size: usize, value: u64| {
        let mut bad = whole.clone();
        field(&mut bad, at, size, value);
        bad
    };
    for (bad, place, sentence) in [
        (
            wrong(40, 4, 2),
            40,
            "refused 9: not a DSF file as Sony's document lays it out: the format version (byte 40) is 2, and not 1",
        ),
        (
            wrong(56, 4, 5644800),
            56,
            "refused 10: 5,644,800 one-bit samples a second: only 2,822,400 (DSD64) are converted",
        ),
        (
            wrong(12, 8, n + 1),
            12,
            "refused 11: the file says 32,861 bytes and has 32,860: an incomplete upload?",
        ),
        (
            wrong(84, 8, 12),
            84,
            "refused 11: the data chunk says 12 bytes, and the file's samples need 32,780: a damaged file?",
        ),
    ] {
        let mut out = vec![0; 2 * FRAME_BYTES];
        for refusal in [
            read(&bad).unwrap_err(),
            read_header(&bad[..HEADER_BYTES], n).unwrap_err(),
            frame(&bad, 0, &mut out).unwrap_err(),
            window_frame(&bad[..HEADER_BYTES], n, 0, &bad[HEADER_BYTES..], 0, &mut out).unwrap_err(),
        ] {
            assert_eq!(refusal.to_string(), sentence);
            assert_eq!(refusal.field[0], place);
        }
    }
}

// The header, and the data of stretches, end to end are the file.
#[test]
fn written_in_parts() {
    let frames = crate::common::noise((STRETCH_FRAMES + 3) * FRAME_BYTES);
    let mut whole = vec![0; file_length(1, frames.len()).unwrap()];
    write(1, &frames, &mut whole).unwrap();
    let mut parts = head(1, frames.len()).unwrap().to_vec();
    for part in frames.chunks(STRETCH_FRAMES * FRAME_BYTES) {
        let mut out = vec![7; file_length(1, part.len()).unwrap() - HEADER_BYTES];
        lay_out(1, part, &mut out).unwrap();
        parts.extend(out);
    }
    assert!(parts == whole);
    assert_eq!(head(7, 0), Err(refused_channels(7)));
    assert_eq!(head(1, 5), Err(refused(4, 5, 0)));
    assert_eq!(lay_out(2, &frames[..5], &mut []), Err(refused(4, 5, 0)));
    assert_eq!(lay_out(1, &frames[..FRAME_BYTES], &mut [0; 5]), Err(refused(7, 5, 8192)));
    assert_eq!(lay_out(0, &[], &mut []).unwrap_err().to_string(), "refused 1: 0 channels: there may be 1 to 6");
}
