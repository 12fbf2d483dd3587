// Inputs of the level report, each written to a file of the folder that is named, and on standard output what the
// report of each is: read off document 01, with the samples and clips of the original's `convert_frame`, and overs by
// document 02's rule.
use scarletbook_pcm::{Converter, Cutoff, FRAME_BYTES_PER_CHANNEL, Gain, PcmConfig, PcmRate};
use std::fmt::Write;

struct Settings {
    rate: PcmRate,
    cutoff: Cutoff,
    channels: u8,
    db: i32,
}

fn settings(line: &[u8]) -> Option<Settings> {
    let words: Vec<&str> = std::str::from_utf8(line).ok()?.split(' ').collect();
    let [rate, cutoff, channels, db] = words[..] else { return None };
    let rate = match rate {
        "88200" => PcmRate::Hz88200,
        "176400" => PcmRate::Hz176400,
        "352800" => PcmRate::Hz352800,
        _ => return None,
    };
    let cutoff = match cutoff {
        "standard" => Cutoff::Standard,
        "low" => Cutoff::Low,
        "wide" => Cutoff::Wide,
        _ => return None,
    };
    let channels = match channels {
        "1" => 1,
        "2" => 2,
        _ => return None,
    };
    let number: i32 = db.parse().ok()?;
    if db != number.to_string() || !(-120..=24).contains(&number) {
        return None;
    }
    Some(Settings { rate, cutoff, channels, db: number })
}

// What the original makes of the frames: samples and clips of each frame, and the number of bytes left over.
struct Converted {
    frames: Vec<(Vec<i32>, [u64; 6])>,
    left_over: usize,
}

fn converted(set: &Settings, bytes: &[u8]) -> Option<Converted> {
    let config = PcmConfig::new(set.rate, set.cutoff, set.channels).with_gain(Gain::from_db(set.db.into()).unwrap());
    let mut converter = Converter::new(config).ok()?;
    let channels = usize::from(set.channels);
    let chunks = bytes.chunks_exact(FRAME_BYTES_PER_CHANNEL * channels);
    let left_over = chunks.remainder().len();
    let all: Vec<&[u8]> = chunks.collect();
    let mut frames = Vec::new();
    for (f, frame) in all.iter().enumerate() {
        let before = f.checked_sub(1).map(|k| all[k]);
        let mut samples = vec![0; converter.samples_per_frame() * channels];
        let stats = converter.convert_frame(before, frame, all.get(f + 1).copied(), &mut samples).unwrap();
        frames.push((samples, stats.clipped));
    }
    Some(Converted { frames, left_over })
}

// Runs of samples at one end of the range, as long as they can be: the end, the first sample, how many.
fn runs(samples: &[i32]) -> Vec<(i32, usize, usize)> {
    let mut all = Vec::new();
    let mut start = 0;
    while start < samples.len() {
        let value = samples[start];
        let length = samples[start..].iter().take_while(|s| **s == value).count();
        if value == 8_388_607 || value == -8_388_608 {
            all.push((value, start, length));
        }
        start += length;
    }
    all
}

// Channel c of all frames.
fn channel(made: &Converted, channels: usize, c: usize) -> Vec<i32> {
    made.frames.iter().flat_map(|(samples, _)| samples.iter().skip(c).step_by(channels).copied()).collect()
}

fn report(input: &[u8]) -> String {
    let Some(end) = input.iter().position(|b| *b == b'\n') else { return "refused settings\n".into() };
    let Some(set) = settings(&input[..end]) else { return "refused settings\n".into() };
    let Some(made) = converted(&set, &input[end + 1..]) else { return "refused 2\n".into() };
    let channels = usize::from(set.channels);
    let overs: Vec<_> = (0..channels).map(|c| runs(&channel(&made, channels, c))).collect();
    let mut text = String::new();
    let mut total = 0;
    for (f, (samples, clipped)) in made.frames.iter().enumerate() {
        let here = f * samples.len() / channels..(f + 1) * samples.len() / channels;
        for c in 0..channels {
            let own = || samples.iter().skip(c).step_by(channels);
            let (clips, low, high) = (clipped[c], own().min().unwrap(), own().max().unwrap());
            let over = overs[c].iter().filter(|(_, first, length)| *length >= 3 && here.contains(&(first + 2))).count();
            writeln!(text, "frame {f} channel {c} clipped {clips} low {low} high {high} over {over}").unwrap();
            total += clips;
        }
    }
    if made.left_over > 0 {
        text + "refused 4\n"
    } else {
        text + &format!("frames {} clipped {total}\n", made.frames.len())
    }
}

// Bytes in stretches of one value, most of them quiet, some loud.
fn stretches(seed: usize, n: usize) -> Vec<u8> {
    let (quiet, loud) = ([0x69, 0x6d, 0x29, 0x96, 0x7d, 0x21, 0x5a], [0xff, 0x00, 0xfe]);
    let value = |k: usize| {
        let (s, frame) = (k / (61 + 40 * (seed % 7)), k / 4704);
        if (s * 7 + seed + frame) % 23 == 0 { loud[(s + frame) % 3] } else { quiet[(s * (frame + 1) + seed) % 7] }
    };
    (0..n).map(value).collect()
}

fn inputs() -> Vec<Vec<u8>> {
    let with = |line: &str, frames: Vec<u8>| [line.as_bytes(), &frames].concat();
    let mut all = vec![with("88200 standard 1 0\n", vec![0x69; 4704])];
    // Every route, both channel counts.
    for (i, line) in [
        "88200 standard 2 6", "176400 standard 1 -3", "352800 standard 2 24", "88200 low 1 -6",
        "176400 low 2 0", "352800 low 1 -120", "176400 wide 1 8", "352800 wide 2 -4",
    ].iter().enumerate() {
        let channels = if line.contains(" 2 ") { 2 } else { 1 };
        all.push(with(&format!("{line}\n"), stretches(i + 1, (2 + i % 3) * 4704 * channels)));
    }
    // All 0xff and all 0x00; bytes left over; fewer bytes than a frame; no frames; wide at 88,200; the longest line.
    all.push(with("88200 standard 1 0\n", vec![0xff; 3 * 4704]));
    all.push(with("88200 standard 1 24\n", vec![0x00; 2 * 4704]));
    all.push(with("88200 standard 2 3\n", stretches(9, 2 * 9408 + 9407)));
    all.push(with("176400 low 1 3\n", stretches(10, 4704 + 1)));
    all.push(with("88200 standard 1 0\n", vec![0x69]));
    all.push(with("88200 standard 1 0\n", vec![]));
    all.push(with("88200 wide 1 0\n", vec![0x69; 4704]));
    all.push(with("352800 standard 2 -120\n", stretches(11, 9408)));
    // Decibels that are taken, and lines that are not.
    for db in ["-120", "-119", "-100", "-99", "-10", "-9", "-1", "0", "1", "9", "10", "19", "20", "24"] {
        all.push(with(&format!("88200 low 1 {db}\n"), vec![]));
    }
    for line in [
        "", "\n", "88200 standard 1 0", "88200 standard 1 0\r\n", "88200\tstandard 1 0\n", "88200  standard 1 0\n",
        " 88200 standard 1 0\n", "88200 standard 1 0 \n", "88200 standard 1 +1\n", "88200 standard 1 -0\n",
        "88200 standard 1 007\n", "88200 standard 1 00\n", "88200 standard 1 25\n", "88200 standard 1 -121\n",
        "88200 standard 1 1000\n", "88200 standard 1 0.5\n", "88200 standard 1 -\n", "88200 standard 1 \n",
        "88200 standard 1\n", "88200 standard 3 0\n", "88200 standard 0 0\n", "88200 standard 01 0\n",
        "88200 Standard 1 0\n", "88200 STANDARD 1 0\n", "88200 standard 1 0\0\n", "\088200 standard 1 0\n",
        "44100 standard 1 0\n", "882000 standard 1 0\n", "88200 stan 1 0\n", "88200 standardx 1 0\n",
        "88200 standard 1 0 0\n", "standard 88200 1 0\n", "352800 standard 2 -1200\n", "88200 standard 1 \u{2212}1\n",
    ] {
        all.push(with(line, vec![]));
    }
    all.push(vec![b'8'; 1_000_000]);
    all
}

// Idle frames with n bytes of 0xff from a byte on, then m of 0x00.
fn pulse(frames: usize, at: usize, n: usize, m: usize) -> Vec<u8> {
    let mut bytes = vec![0x69; frames * 4704];
    bytes[at..at + n].fill(0xff);
    bytes[at + n..at + n + m].fill(0x00);
    bytes
}

// The line, and idle frames with a pulse such that the samples at full scale are just these runs.
fn with_runs(rate: u32, frames: usize, wanted: &[(i32, usize, usize)]) -> (String, Vec<u8>) {
    let step = 352_800 / rate as usize;
    let length = |end| wanted.iter().filter(|r| r.0 == end).map(|r| r.2).sum::<usize>();
    let (high, low) = (length(8_388_607), length(-8_388_608));
    let widths = |n: usize| if n == 0 { 0..1 } else { (n * step).saturating_sub(3 * step)..(n + 4) * step };
    for db in 3..=24 {
        let line = format!("{rate} standard 1 {db}");
        let set = settings(line.as_bytes()).unwrap();
        for n in widths(high) {
            for m in widths(low) {
                for near in 0..12 * step {
                    let Some(at) = (wanted[0].1 * step + 6 * step).checked_sub(near) else { continue };
                    if at + n + m > frames * 4704 {
                        continue;
                    }
                    let bytes = pulse(frames, at, n, m);
                    if runs(&channel(&converted(&set, &bytes).unwrap(), 1, 0)) == wanted {
                        return (line, bytes);
                    }
                }
            }
        }
    }
    panic!("no pulse gives {wanted:?}");
}

// 0x00 at 0 dB from a byte of frame 0 on, such that frame 1 has an over and no clip.
fn unclipped() -> (String, Vec<u8>) {
    let line = "88200 standard 1 0".to_string();
    let set = settings(line.as_bytes()).unwrap();
    for at in (4704 - 400)..4704 {
        let bytes = pulse(4, at, 0, 2 * 4704);
        let made = converted(&set, &bytes).unwrap();
        let over = runs(&channel(&made, 1, 0)).iter().any(|r| r.2 >= 3 && (1176..2352).contains(&(r.1 + 2)));
        if over && made.frames[1].1[0] == 0 {
            return (line, bytes);
        }
    }
    panic!("no over without a clip");
}

// Runs at full scale: what each input shows.
fn overs() -> Vec<(&'static str, (String, Vec<u8>))> {
    const HIGH: i32 = 8_388_607;
    const LOW: i32 = -8_388_608;
    let two_channels = |(line, left): (String, Vec<u8>), (other, right): (String, Vec<u8>)| {
        assert_eq!(line, other);
        (line.replace(" 1 ", " 2 "), left.into_iter().zip(right).flat_map(|(l, r)| [l, r]).collect())
    };
    vec![
        ("two samples are no over", with_runs(88200, 1, &[(HIGH, 600, 2)])),
        ("three are", with_runs(88200, 1, &[(HIGH, 600, 3)])),
        ("four are one", with_runs(88200, 1, &[(LOW, 600, 4)])),
        ("a thousand are one", with_runs(88200, 1, &[(HIGH, 100, 1000)])),
        ("over a border, the third sample last in frame 0", with_runs(88200, 2, &[(HIGH, 1173, 8)])),
        ("over a border, the third sample first in frame 1", with_runs(88200, 2, &[(LOW, 1174, 8)])),
        ("over a border, the third sample second in frame 1", with_runs(88200, 2, &[(HIGH, 1175, 3)])),
        ("three samples up to a border: the over ends where frame 0 does", with_runs(88200, 2, &[(HIGH, 1173, 3)])),
        ("two samples over a border are no over", with_runs(88200, 2, &[(LOW, 1175, 2)])),
        ("over two borders, the third sample in frame 0", with_runs(88200, 3, &[(HIGH, 1100, 1300)])),
        ("over two borders, the third sample first in frame 1", with_runs(88200, 3, &[(LOW, 1174, 1200)])),
        ("high, then low at once: two and two are no over", with_runs(88200, 1, &[(HIGH, 600, 2), (LOW, 602, 2)])),
        ("high, then low at once: three and three are two overs", with_runs(88200, 1, &[(HIGH, 600, 3), (LOW, 603, 3)])),
        ("high, then low at once at a border: one over in each frame", with_runs(88200, 2, &[(HIGH, 1173, 3), (LOW, 1176, 3)])),
        ("0x00 at 0 dB: an over with no clip", unclipped()),
        ("176,400 Hz, over a border", with_runs(176400, 2, &[(HIGH, 2350, 9)])),
        ("352,800 Hz, over a border", with_runs(352800, 2, &[(LOW, 4702, 17)])),
        (
            "each channel has its own: channel 0 in frame 1, channel 1 in frame 0",
            two_channels(with_runs(88200, 2, &[(HIGH, 1174, 8)]), with_runs(88200, 2, &[(HIGH, 1173, 8)])),
        ),
    ]
}

fn main() {
    let folder = std::env::args().nth(1).expect("a folder to write to");
    let mut all = inputs();
    for (shows, (line, frames)) in overs() {
        all.push([line.as_bytes(), b"\n", &frames].concat());
        eprintln!("input {}: {line}: {shows}", all.len());
    }
    for (i, input) in all.iter().enumerate() {
        std::fs::write(format!("{folder}/{:02}", i + 1), input).unwrap();
        print!("input {}\n{}", i + 1, report(input));
    }
    println!("inputs {}", all.len());
}
