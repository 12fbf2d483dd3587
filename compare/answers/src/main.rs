// The files that compare/answers.sh writes: conversions and refusals, and what the original answers to each.
mod pattern;

use pattern::{HALVES, bytes};
use scarletbook_pcm::{Converter, Cutoff, FrameRun, Gain, PcmConfig, PcmError, PcmOut, PcmRate, Run};

// Two digests, over the prime numbers 1,000,000,007 and 998,244,353.
fn digests(items: impl Iterator<Item = u64>) -> [u64; 2] {
    items.fold([1, 1], |h, x| [(h[0] * 1_000_003 + x) % 1_000_000_007, (h[1] * 131_071 + x) % 998_244_353])
}

struct Case {
    route: u64,
    channels: u8,
    db: f64,
    frames: usize,
    neighbours: u64,
    pattern: u64,
    seed: u64,
}

impl Case {
    fn converter(&self) -> Converter {
        let rate = PcmRate::ALL[self.route as usize % 3];
        let cutoff = Cutoff::ALL[self.route as usize / 3];
        let gain = Gain::from_db(self.db).unwrap();
        Converter::new(PcmConfig::new(rate, cutoff, self.channels).with_gain(gain)).unwrap()
    }

    fn row(&self) -> Vec<u64> {
        let channels = usize::from(self.channels);
        let made = |seed, frames| bytes(self.pattern, seed, channels, frames);
        let (before, frames, after) = (made(self.seed + 1, 1), made(self.seed, self.frames), made(self.seed + 2, 1));
        let run = Run::new(&frames[..])
            .with_before((self.neighbours % 2 == 1).then_some(&before[..]))
            .with_after((self.neighbours / 2 == 1).then_some(&after[..]));
        let mut converter = self.converter();
        let n = self.frames * converter.samples_per_frame() * channels;
        let (mut samples, mut packed, mut counts) = (vec![0i32; n], vec![0u8; 3 * n], vec![0u64; self.frames]);
        let stats = converter.convert(run, PcmOut::I32(&mut samples), None).unwrap();
        let same = converter.convert(run, PcmOut::S24le(&mut packed), Some(&mut counts)).unwrap();
        assert_eq!(stats, same);
        counts.resize(2, 0);
        let mut row = vec![self.route, self.channels.into(), self.db.to_bits(), self.frames as u64, self.neighbours, self.pattern, self.seed];
        row.extend(digests(samples.iter().map(|s| (i64::from(*s) + (1 << 31)) as u64)));
        row.extend(digests(packed.iter().map(|b| u64::from(*b))));
        row.extend(stats.clipped);
        row.extend(counts);
        row
    }
}

// Three cases for each route and number of channels.
fn case(i: usize) -> Case {
    let decibels = [0.0, -6.02, 6.0, -0.5, 24.0, -8e-7, -60.0];
    let constants = [0x69, 0xff, 0x00, 0x55];
    let (route, part, round) = (i % 8, i / 8 % 4, i / 32);
    let pattern = [0, 2, 3, 0, 2, 1][(i + i / 8 + 2 * round) % 6];
    let seed = 1000 + 17 * i as u64;
    Case {
        route: [0, 1, 2, 3, 4, 5, 7, 8][route],
        channels: [1, 2, 3, 6][part],
        db: decibels[(3 * i + part + round) % 7],
        frames: [1, 2, 1, 2, 0, 1, 2, 1][(i + 3 * part + round) % 8],
        neighbours: ((part + round) % 4) as u64,
        pattern,
        seed: if pattern == 1 { constants[i / 6 % 4] } else { seed },
    }
}

fn half((route, seed): (u64, u64)) -> Case {
    Case { route, channels: 1, db: 18.0, frames: 1, neighbours: 0, pattern: 0, seed }
}

// 0xff where the plateau is 8,388,607.25: it rounds to the highest sample, and the clamp does not change it.
fn edge(route: u64) -> Case {
    Case { route, channels: 1, db: -8e-7, frames: 1, neighbours: 0, pattern: 1, seed: 0xff }
}

fn refused(e: PcmError) -> [u64; 3] {
    match e {
        PcmError::Channels(n) => [1, n.into(), 0],
        PcmError::Unsupported { rate, cutoff, .. } => [2, rate.hz().into(), Cutoff::ALL.iter().position(|c| *c == cutoff).unwrap() as u64],
        PcmError::Gain(db) => [3, if db.is_nan() { f64::NAN.to_bits() } else { db.to_bits() }, 0],
        PcmError::InputLength { len, what, .. } => [4, len as u64, u64::from(what == "one frame")],
        PcmError::OutputLength { len, expected, .. } => [6, len as u64, expected as u64],
        PcmError::OutputBytes { len, expected, .. } => [7, len as u64, expected as u64],
        PcmError::FrameCounts { len, expected, .. } => [8, len as u64, expected as u64],
        _ => unreachable!("no other error"),
    }
}

// Route, channels and decibels that are refused by opening, or else by the gain call. The original makes no record of
// refused decibels, so the factor here is 0.
fn settings([route, channels, db]: [u64; 3]) -> [u64; 9] {
    let config = PcmConfig::new(PcmRate::ALL[route as usize % 3], Cutoff::ALL[route as usize / 3], channels as u8);
    let e = Converter::new(config).err().or(Gain::from_db(f64::from_bits(db)).err());
    let [number, first, second] = refused(e.expect("a refusal"));
    [route, channels, db, 0, 0, 0, number, first, second]
}

// The call (1 convert_run, 2 convert_frame, 3 convert), and lengths of before, run, after, output and counts: Standard
// at 88,200 Hz, mono.
fn lengths([call, before, run, after, out, counts]: [usize; 6]) -> [u64; 9] {
    let mut converter = Converter::new(PcmConfig::new(PcmRate::Hz88200, Cutoff::Standard, 1)).unwrap();
    let s = vec![0; 9408];
    let (before, frames, after) = (Some(&s[..before]), &s[..run], Some(&s[..after]));
    let (mut items, mut bytes, mut clips) = (vec![0; out], vec![0; out], vec![0; counts]);
    let answer = match call {
        1 => converter.convert_run(FrameRun::new(frames).with_before(before).with_after(after), &mut items),
        2 => converter.convert_frame(before, frames, after, &mut items),
        _ => converter.convert(Run::new(frames).with_before(before).with_after(after), PcmOut::S24le(&mut bytes), Some(&mut clips)),
    };
    let asked = [call, before.unwrap().len(), run, after.unwrap().len(), out, counts].map(|n| n as u64);
    let [number, first, second] = refused(answer.expect_err("a refusal"));
    [asked[0], asked[1], asked[2], asked[3], asked[4], asked[5], number, first, second]
}

const HIGH: u64 = 0x4039_0000_0000_0000;

const SETTINGS: [[u64; 3]; 5] = [[6, 0, HIGH], [6, 7, HIGH], [6, 6, HIGH], [8, 6, HIGH], [0, 1, 0x7ff8_0000_0000_0000]];

const LENGTHS: [[usize; 6]; 15] = [
    [2, 0, 0, 0, 1, 3], [2, 0, 4703, 0, 1, 3], [2, 0, 9408, 0, 1, 3], [1, 0, 4703, 0, 1, 3], [3, 0, 4705, 0, 1, 3],
    [1, 4705, 4704, 1, 1, 3], [2, 4703, 4704, 1, 1, 3], [3, 9408, 4704, 1, 1, 3], [1, 4704, 4704, 1, 1, 3], [2, 4704, 4704, 9408, 1, 3],
    [3, 4704, 4704, 4703, 1, 3], [1, 4704, 4704, 4704, 1175, 3], [2, 4704, 4704, 4704, 1175, 3], [3, 4704, 4704, 4704, 3527, 3],
    [3, 4704, 4704, 4704, 3528, 3],
];

// A line a row; each number as sixteen hexadecimal digits.
fn file(name: &str, rows: impl IntoIterator<Item = Vec<u64>>) {
    let line = |row: Vec<u64>| row.iter().map(|n| format!("{n:016x}")).collect::<Vec<_>>().join(" ") + "\n";
    let path = std::path::PathBuf::from(std::env::args().nth(1).expect("a folder")).join(name);
    std::fs::write(path, rows.into_iter().map(line).collect::<String>()).unwrap();
}

fn main() {
    let edges = [0, 1, 2, 3, 4, 5, 7, 8].map(edge);
    let cases = (0..96).map(case).chain(HALVES.map(half)).chain(edges);
    file("conversions", cases.map(|case| case.row()));
    file("refused_settings", SETTINGS.map(|row| settings(row).to_vec()));
    file("refused_lengths", LENGTHS.map(|row| lengths(row).to_vec()));
}
