//! What tests share: refusals as they expect them, runs, bytes.
use puigneht::{Converter, Cutoff, Rate, Refusal, Run, Settings};

pub fn refused(number: u8, first: usize, second: usize) -> Refusal {
    let mut r = Refusal::default();
    (r.number, r.data) = (number, [first as u64, second as u64]);
    r
}

pub fn refused_channels(n: u8) -> Refusal {
    refused(1, n.into(), 0)
}

pub fn unsupported(rate: Rate, cutoff: Cutoff) -> Refusal {
    refused(2, rate as usize, cutoff as usize)
}

pub fn refused_gain(db: f64) -> Refusal {
    let mut r = refused(3, 0, 0);
    r.decibels = db;
    r
}

pub trait Open {
    fn open(self) -> Result<Converter, Refusal>;
}

impl Open for Settings<'_> {
    fn open(self) -> Result<Converter, Refusal> {
        Converter::open(self)
    }
}

pub fn alone(frames: &[u8]) -> Run<'_> {
    Run::alone(frames)
}

// Numbers from a seed, below a bound.
pub fn numbers(seed: u32) -> impl FnMut(usize) -> usize {
    let mut x = seed;
    move |n| {
        x = x.wrapping_mul(1664525).wrapping_add(1013904223);
        (x >> 16) as usize % n
    }
}

// Bytes without a pattern that matters: those of a seed in compare/answers.
pub fn chance(seed: u32, n: usize) -> Vec<u8> {
    let mut x = seed;
    let mut next = || {
        x = x.wrapping_mul(1664525).wrapping_add(1013904223);
        (x >> 24) as u8
    };
    (0..n).map(|_| next()).collect()
}

pub fn noise(n: usize) -> Vec<u8> {
    chance(1, n)
}

/// A file of the repository.
pub fn held(path: &str) -> Vec<u8> {
    let whole = format!("{}/../../{path}", env!("CARGO_MANIFEST_DIR"));
    std::fs::read(&whole).unwrap_or_else(|e| panic!("{whole}: {e}"))
}

/// Stored cases: a line of hexadecimal numbers each.
pub fn rows(path: &str) -> Vec<Vec<u64>> {
    let text = String::from_utf8(held(path)).unwrap();
    text.lines().map(|line| line.split(' ').map(|word| u64::from_str_radix(word, 16).unwrap()).collect()).collect()
}

/// An empty folder, which is gone in the end.
pub struct Folder(pub std::path::PathBuf);

impl Folder {
    pub fn new() -> Folder {
        use std::hash::{BuildHasher, Hasher, RandomState};
        let path = std::env::temp_dir().join(format!("puigneht-{:x}", RandomState::new().build_hasher().finish()));
        std::fs::create_dir(&path).unwrap();
        Folder(path)
    }

    pub fn put(&self, name: &str, bytes: &[u8]) -> std::path::PathBuf {
        let path = self.0.join(name);
        std::fs::write(&path, bytes).unwrap();
        path
    }

    pub fn names(&self) -> Vec<String> {
        let mut names: Vec<_> = self.0.read_dir().unwrap().map(|entry| entry.unwrap().file_name().into_string().unwrap()).collect();
        names.sort();
        names
    }
}

impl Drop for Folder {
    fn drop(&mut self) {
        let _ = std::fs::remove_dir_all(&self.0);
    }
}

/// Bytes of a channel, the earliest bit highest: stretches of noise, of idle and of loud square waves.
pub fn sound(seed: u32, count: usize) -> Vec<u8> {
    let mut some = numbers(seed);
    let mut made = Vec::new();
    while made.len() < count {
        let n = 1 + some(3000);
        match some(5) {
            0 => made.resize(made.len() + n, 0xff),
            1 => made.resize(made.len() + n, 0),
            2 => made.resize(made.len() + n, 0x69),
            _ => made.extend(chance(some(60000) as u32, n)),
        }
    }
    made.truncate(count);
    made
}

/// A DSF file by Sony's layout of these channels, and bytes of metadata behind it.
pub fn laid_out(sounds: &[Vec<u8>], bits: u32, metadata: usize) -> Vec<u8> {
    let (channels, count) = (sounds.len(), sounds[0].len());
    let mut data = Vec::new();
    for block in 0..count.div_ceil(4096) {
        for channel in sounds {
            let part = &channel[4096 * block..count.min(4096 * block + 4096)];
            data.extend(part.iter().map(|b| if bits == 1 { b.reverse_bits() } else { *b }));
            data.resize(data.len() + 4096 - part.len(), 0);
        }
    }
    let length = (92 + data.len() + metadata) as u64;
    let mut file = b"DSD ".to_vec();
    for n in [28, length, if metadata > 0 { 92 + data.len() as u64 } else { 0 }] {
        file.extend(n.to_le_bytes());
    }
    file.extend(b"fmt ");
    file.extend(52u64.to_le_bytes());
    let kind = [0, 1, 2, 3, 4, 6, 7][channels];
    for n in [1, 0, kind, channels as u32, 2822400, bits] {
        file.extend(n.to_le_bytes());
    }
    file.extend((8 * count as u64).to_le_bytes());
    file.extend([4096u32.to_le_bytes(), [0; 4]].concat());
    file.extend(b"data");
    file.extend((12 + data.len() as u64).to_le_bytes());
    file.extend(data);
    file.resize(length as usize, 0x5a);
    file
}

/// Bytes of all channels in turn, filled up to whole frames.
pub fn frames_of(sounds: &[Vec<u8>]) -> Vec<u8> {
    let count = sounds[0].len().div_ceil(4704) * 4704;
    (0..count).flat_map(|at| sounds.iter().map(move |channel| channel.get(at).copied().unwrap_or(0x69))).collect()
}
