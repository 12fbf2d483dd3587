//! Each public function beside stored answers: the original's and scripts', crates/*/data.

use crate::common::{chance, held, rows, Open};
use puigneht::{dsf, factor, pack_s24le, turns, wav, Converter, Cutoff, Levels, Rate, Refusal, Run, Settings, Stats, Waiting};

// As compare/answers has it.
fn patterned(pattern: u64, seed: u32, channels: usize, count: usize) -> Vec<u8> {
    let mut x = seed;
    let one = |k: usize| {
        if pattern == 3 && channels > 0 && k % (4 * channels) == 0 {
            x = seed;
        }
        x = x.wrapping_mul(1664525).wrapping_add(1013904223);
        let high = (x >> 24) as u8;
        match pattern {
            1 => seed as u8,
            2 if high >= 16 => if k / 300 % 2 == 1 { 0 } else { 255 },
            _ => high,
        }
    };
    (0..count).map(one).collect()
}

// Two digests of samples, made positive.
fn digests(samples: &[i32]) -> [u64; 2] {
    samples.iter().fold([1, 1], |[a, b], &x| {
        let n = (i64::from(x) + 0x8000_0000) as u64;
        [(a * 1_000_003 + n) % 1_000_000_007, (b * 131_071 + n) % 998_244_353]
    })
}

fn digest(bytes: &[u8]) -> u64 {
    bytes.iter().fold(0, |h, &b| (h * 1_664_525 + u64::from(b) + 1) % 4_294_967_291)
}

fn packed(samples: &[i32]) -> Vec<u8> {
    let mut bytes = vec![0; 3 * samples.len()];
    pack_s24le(samples, &mut bytes);
    bytes
}

fn settings<'a>(route: u64, channels: u64, bits: u64) -> Settings<'a> {
    let (rate, cutoff) = (Rate::ALL[route as usize % 3], Cutoff::ALL[route as usize / 3]);
    Settings { rate, cutoff, channels: channels as u8, decibels: f64::from_bits(bits), taps: None }
}

// Frames before, the run's and after, of a row.
fn sounds(row: &[u64], length: usize) -> [Vec<u8>; 3] {
    let (channels, seed) = (row[1] as usize, row[6] as u32);
    let one = 4704 * channels;
    [(1, one), (0, length), (2, one)].map(|(more, n)| patterned(row[5], seed.wrapping_add(more), channels, n))
}

fn run_of<'a>(row: &[u64], [before, frames, after]: &'a [Vec<u8>; 3]) -> Run<'a> {
    Run { before: (row[4] & 1 > 0).then_some(&before[..]), frames, after: (row[4] & 2 > 0).then_some(&after[..]) }
}

fn told<T>(result: Result<T, Refusal>) -> (u64, [u64; 2]) {
    result.map_or_else(|r| (r.number.into(), r.data), |_| (0, [0; 2]))
}

// Every route, one to six channels, by every call.
#[test]
fn conversions() {
    let headers = held("crates/test_conversions/data/wav_headers");
    for row in rows("crates/test_conversions/data/conversions") {
        let (route, channels, frames) = (row[0] as usize, row[1] as usize, row[3] as usize);
        let c = settings(row[0], row[1], row[2]).open().unwrap();
        let sounds = sounds(&row, frames * 4704 * channels);
        let run = run_of(&row, &sounds);
        let mut samples = vec![0; c.samples_of(frames)];
        let stats = c.convert_run(run, &mut samples).unwrap();
        assert_eq!(digests(&samples)[..], row[7..9]);
        assert_eq!(stats.clipped[..], row[11..17]);
        let right = packed(&samples);
        let mut room = vec![0; 44 + right.len()];
        for call in [Converter::convert, Converter::desk] {
            let mut counts = [0; 2];
            assert_eq!(call(&c, run, &mut room[44..], Some(&mut counts[..frames])), Ok(stats));
            assert_eq!(room[44..], right);
            assert_eq!(counts[..], row[17..19]);
            room[44..].fill(1);
            assert_eq!(call(&c, run, &mut room[44..], None), Ok(stats));
            assert_eq!(room[44..], right);
        }
        let mut counts = [0; 2];
        let done = c.convert_wav(run, &mut room, Some(&mut counts[..frames]));
        if channels > 2 {
            assert_eq!(done.unwrap_err().number, 12);
        } else {
            let place = 44 * (route % 3 * 8 + (1 - channels % 2) * 4 + frames % 4);
            assert_eq!((done, &room[..44], &room[44..], &counts[..]), (Ok(stats), &headers[place..place + 44], &right[..], &row[17..19]));
        }
        if frames == 1 {
            let mut one = vec![0; samples.len()];
            assert_eq!((c.convert_frame(run, &mut one), one), (Ok(stats), samples));
        }
    }
}

// A label's own taps, the reach, and how far over the samples are.
#[test]
fn filters() {
    for row in rows("crates/test_conversions/data/filters") {
        let tap = |t: u64| if t < 1 << 31 { t as i32 } else { ((1 << 31) - 1 - t as i64) as i32 };
        let mut taps: Vec<i32> = row[16..75].iter().flat_map(|both| [tap(both >> 32), tap(both & 0xffff_ffff)]).collect();
        taps.truncate(117);
        taps.resize(row[15].min(999) as usize, 0);
        let opened = Settings { taps: Some(&taps), ..settings(row[0], row[1], row[2]) }.open();
        if ![0, 4].contains(&row[7]) {
            let e = opened.unwrap_err();
            assert_eq!(u64::from(e.number), row[7]);
            assert!([3, 17].contains(&e.number) || e.data[..] == row[8..10]);
            continue;
        }
        let c = opened.unwrap();
        let sounds = sounds(&row, row[3] as usize);
        let mut samples = vec![0; c.samples_of(sounds[1].len() / c.frame_bytes())];
        let done = c.convert_run(run_of(&row, &sounds), &mut samples);
        assert_eq!(told(done), (row[7], [row[8], row[9]]));
        let Ok(stats) = done else { continue };
        assert_eq!((c.taps(), c.reach() as u64), (Some(&taps[..]), row[10]));
        assert_eq!(digests(&samples)[..], row[11..13]);
        for (k, (low, mark)) in [(75, row[79] % 2), (77, row[79] / 2)].into_iter().enumerate() {
            let right = (row[13 + k], row[low] as i64, row[low + 1] as i64, mark == 1);
            assert_eq!((stats.clipped[k], stats.lowest[k], stats.highest[k], stats.empty[k]), right);
        }
    }
}

#[test]
fn factors() {
    for row in rows("crates/test_conversions/data/factors") {
        let decibels = f64::from_bits(row[0]);
        if (-120.0..=24.0).contains(&decibels) {
            assert_eq!(factor(decibels).unwrap().to_bits(), row[1]);
        } else {
            let e = factor(decibels).unwrap_err();
            assert_eq!((e.number, e.decibels.to_bits()), (3, row[0]));
        }
    }
}

#[test]
fn refused_settings() {
    for row in rows("crates/test_conversions/data/refused_settings") {
        let gain_is_right = (-120.0..=24.0).contains(&f64::from_bits(row[2]));
        let right = if gain_is_right { (row[6], [row[7], row[8]]) } else { (3, [0; 2]) };
        assert_eq!(told(settings(row[0], row[1], row[2]).open()), right);
    }
}

#[test]
fn refused_lengths() {
    let c = Settings { channels: 1, ..Settings::default() }.open().unwrap();
    for row in rows("crates/test_conversions/data/refused_lengths") {
        let [before, frames, after] = [1, 2, 3].map(|k| vec![0; row[k] as usize]);
        let run = Run { before: Some(&before), frames: &frames, after: Some(&after) };
        let (mut out, mut counts) = (vec![7; row[4] as usize], vec![7; row[5] as usize]);
        let mut samples = vec![7; row[4] as usize];
        let is_right = if row[0] == 2 { frames.len() == 4704 } else { frames.len() % 4704 == 0 };
        let done = match row[0] {
            1 => c.convert_run(run, &mut samples),
            2 => c.convert_frame(run, &mut samples),
            3 => c.convert(run, &mut out, Some(&mut counts)),
            4 => c.desk(run, &mut out, Some(&mut counts)),
            5 => c.convert_wav(run, &mut out, Some(&mut counts)),
            _ => continue,
        };
        let (number, data) = told(done);
        let neighbours = [(13, before.len()), (14, after.len())].into_iter().find(|&(_, n)| n != 4704);
        match neighbours {
            // the original has 4 for a neighbour that is not one frame
            Some((other, n)) if row[6] == 4 && is_right => {
                assert_eq!((number, data), (other, [n as u64, 0]))
            }
            _ => assert_eq!((number, data), (row[6], [row[7], row[8]]), "{row:?}"),
        }
        assert!(out.iter().all(|&b| b == 7) && samples.iter().all(|&x| x == 7) && counts.iter().all(|&n| n == 7));
    }
}

// Lists of changes, with built-in filters: each answer, and what the converter is after it.
#[test]
fn changes() {
    let mut tried = 0;
    for row in rows("crates/test_conversions/data/changes") {
        if row[4] != 0 || row[8] != 0 || f64::from_bits(row[3]) != 1.0 || f64::from_bits(row[2]) != 0.0 {
            continue;
        }
        let mut c = settings(row[0], row[1], row[2]).open().unwrap();
        let numbers = |c: &Converter| [c.samples_per_frame(), c.reach(), c.frame_bytes()].map(|n| n as u64);
        assert_eq!(numbers(&c)[..], row[11..14]);
        for one in row[14..86].chunks(12) {
            let (rate, cutoff, decibels) = (Rate::ALL[one[0] as usize % 3], Cutoff::ALL[one[0] as usize / 3], f64::from_bits(one[1]));
            let gain_is_right = (-120.0..=24.0).contains(&decibels);
            if one[3] == 3 && gain_is_right {
                break; // a factor that is not the decibels', which nobody can hand over here
            }
            let (before, done) = (c, c.change(rate, cutoff, decibels));
            if !gain_is_right {
                assert_eq!((told(done), c), ((3, [0; 2]), before)); // the gain is made first
            } else if one[3] != 0 {
                assert_eq!((told(done), c), ((one[3], [one[4], one[5]]), before));
            } else {
                let at = one[6] as usize;
                assert_eq!((done, c.rate(), c.cutoff(), c.decibels()), (Ok(()), Rate::ALL[at % 3], Cutoff::ALL[at / 3], decibels));
                assert_eq!(numbers(&c)[..], one[9..12]);
                tried += 1;
            }
        }
    }
    assert!(tried > 20);
}

// ---- DSF and WAV files

fn head(row: &[u64]) -> Vec<u8> {
    let mut head: Vec<u8> = row[..12].iter().flat_map(|n| n.to_le_bytes()).collect();
    head.truncate(92);
    head.resize(160, 0x5a);
    head
}

// A file by its row.
fn made(row: &[u64]) -> Vec<u8> {
    let mut file = head(row)[..92].to_vec();
    file.extend(chance(row[13] as u32, (row[12] as usize).saturating_sub(92)));
    file.truncate(row[12] as usize);
    file
}

fn numbers(header: Result<dsf::Header, Refusal>) -> (u64, [u64; 5]) {
    header.map_or_else(|r| (r.number.into(), [0; 5]), |h| (0, [h.channel_type, h.channels, h.bits_per_sample, h.samples, h.frames]))
}

fn without_field<T>(done: Result<T, Refusal>) -> [u64; 3] {
    let (number, data) = told(done);
    let data = if (9..=11).contains(&number) { [0; 2] } else { data };
    [number, data[0], data[1]]
}

#[test]
fn dsf_files() {
    for row in rows("crates/test_files/data/headers") {
        let right = (row[14], row[15..20].try_into().unwrap());
        assert_eq!(numbers(dsf::read_header(&head(&row)[..row[12] as usize], row[13])), right);
    }
    let files = rows("crates/test_files/data/files");
    for row in files.iter().step_by(3) {
        assert_eq!(numbers(dsf::read(&made(row))), (row[14], row[15..20].try_into().unwrap()));
    }
    for row in rows("crates/test_files/data/frames").iter().step_by(20) {
        let (file, mut out) = (made(&files[row[0] as usize]), vec![0x5a; row[2] as usize]);
        assert_eq!(without_field(dsf::frame(&file, row[1], &mut out))[..], row[3..6]);
        assert_eq!(digest(&out), row[6]);
    }
}

#[test]
fn dsf_windows() {
    for row in rows("crates/test_files/data/windows").iter().step_by(2) {
        let (mut out, part) = (vec![0x5a; row[18] as usize], chance(row[16] as u32, row[17] as usize));
        let done = dsf::window_frame(&head(row)[..row[12] as usize], row[13], row[14], &part, row[15], &mut out);
        assert_eq!(without_field(done)[..], row[19..22]);
        assert_eq!(digest(&out), row[22]);
        assert_eq!(dsf::window(row[6] >> 32, row[8], row[14]), row[23]..row[24]);
    }
}

#[test]
fn dsf_written() {
    for row in rows("crates/test_files/data/written") {
        let [size, room] = [row[1], row[3]].map(|n| n as usize);
        if size > 200_000 || row[0] > 255 {
            continue;
        }
        let (frames, mut out) = (chance(row[2] as u32, size), vec![0x5a; room]);
        let done = dsf::write(row[0] as u8, &frames, &mut out);
        assert_eq!(told(done), (row[4], [row[5], row[6]]));
        assert_eq!(digest(&out), row[7]);
        if done.is_ok() {
            assert_eq!(dsf::file_length(row[0] as u8, size), Ok(room));
            assert_eq!(dsf::head(row[0] as u8, size).unwrap(), out[..92]);
        }
    }
}

#[test]
fn uploads() {
    let heads: Vec<_> = rows("crates/test_files/data/heads").iter().map(|row| head(row)).collect();
    for row in rows("crates/test_files/data/uploads").iter().step_by(3) {
        let [which, at, count, value, length, kind, place] = row[..7] else { panic!("seven numbers") };
        let mut lead = heads[which as usize][..92].to_vec();
        lead[at as usize..(at + count) as usize].copy_from_slice(&value.to_le_bytes()[..count as usize]);
        let right = [dsf::Upload::Accepted, dsf::Upload::Unfinished, dsf::Upload::GiveUp(place)][kind as usize];
        assert_eq!(dsf::give_up_header(&lead[..92.min(length as usize)], length), right);
        if length <= 65536 {
            lead.resize(92.max(length as usize), 0x69);
            assert_eq!(dsf::give_up(&lead[..length as usize]), right);
        }
    }
}

#[test]
fn wav_headers() {
    let headers = held("crates/test_conversions/data/wav_headers");
    for k in 0..24 {
        let (rate, channels, frames) = (Rate::ALL[k / 8], 1 + k / 4 % 2, k % 4);
        let n = frames * channels * 3 * rate as usize / 75;
        let right = [&headers[44 * k..44 * k + 44], &chance(1, n)].concat();
        let mut file = vec![0; 44 + n];
        wav::write(rate, channels as u8, &right[44..], &mut file).unwrap();
        assert_eq!(file, right);
        assert_eq!(wav::header(rate, channels as u8, n).unwrap(), right[..44]);
        assert_eq!(wav::read(&file), Ok(wav::Wav { rate, channels: channels as u8, samples: &right[44..] }));
    }
}

// ---- reports

// What a stored input asks for, if that is understood: `88200 standard 1 0`, and frames.
fn asked(input: &[u8]) -> Option<(Converter, &[u8])> {
    let line = input.iter().position(|&b| b == b'\n')?;
    let words: Vec<&str> = std::str::from_utf8(&input[..line]).ok()?.split(' ').collect();
    let [rate, cutoff, channels, decibels] = words[..] else { return None };
    let decibels: i8 = decibels.parse().ok()?;
    let settings = Settings { rate: rate.parse().ok()?, cutoff: cutoff.parse().ok()?, channels: channels.parse().ok()?, decibels: decibels.into(), taps: None };
    let (converter, frames) = (Converter::open(settings).ok()?, &input[line + 1..]);
    (frames.len() % converter.frame_bytes() == 0).then_some((converter, frames))
}

// Level reports from the start, and from a frame on.
#[test]
fn level_reports() {
    let stored = String::from_utf8(held("crates/test_reports/stdout")).unwrap();
    let mut tried = 0;
    for k in 1..=84 {
        let input = held(&format!("crates/test_reports/data/{k:02}"));
        let Some((converter, frames)) = asked(&input) else { continue };
        let (_, right) = stored.split_once(&format!("input {k}\n")).unwrap();
        let (right, _) = right.split_once("input").unwrap();
        if right.starts_with("refused") {
            continue; // numbers that the report does not take, as +5
        }
        let mut levels = Levels::default();
        let mut report: Vec<String> = converter.runs(frames, 1).map(|run| levels.frame(&converter, run).unwrap()).collect();
        for first in 1..report.len() {
            let mut later = Levels::at(first as u64 - 1);
            let runs = converter.runs(frames, 1).skip(first - 1);
            let lines: Vec<String> = runs.map(|run| later.frame(&converter, run).unwrap()).collect();
            assert_eq!(lines[1..], report[first..]);
            assert_eq!(later.samples(), levels.samples());
        }
        report.push(levels.last_line());
        assert_eq!(report.concat(), right, "{k}");
        tried += 1;
    }
    assert!(tried > 40, "{tried}");
}

#[test]
fn a_sheet() {
    let input = held("command/stored/frames");
    let (converter, frames) = asked(&input).unwrap();
    let mut stats = Stats::default();
    let mut out = vec![0; converter.samples_of(1)];
    for run in converter.runs(frames, 1) {
        stats.join(&converter.convert_run(run, &mut out).unwrap());
    }
    assert_eq!(stats.sheet(converter.channels()).unwrap().into_bytes(), held("command/stored/frames.sheet"));
}

#[test]
fn boards() {
    let (mut tried, mut refused) = (0, 0);
    for k in 1.. {
        let path = format!("crates/test_reports/data/board{k:03}");
        if !std::path::Path::new(env!("CARGO_MANIFEST_DIR")).join("../..").join(&path).exists() {
            break;
        }
        let stored = held(&path);
        let Some((text, answer)) = std::str::from_utf8(&stored).ok().and_then(|text| text.split_once('=')) else { continue };
        let words: Option<Vec<u64>> = text.split_whitespace().map(|word| word.parse().ok()).collect();
        let Some(words) = words.filter(|words| words.len() % 2 == 1 && text.ends_with('\n')) else { continue };
        let albums: Vec<_> = words[1..].chunks(2).map(|both| Waiting { frames: both[0], due: both[1] }).collect();
        let told = turns(&albums, words[0]);
        if answer == "refused 19\n" {
            assert_eq!(told.unwrap_err().number, 19);
            refused += 1;
        } else if answer.starts_with("album") {
            let lines: Vec<Vec<&str>> = answer.lines().map(|line| line.split(' ').collect()).collect();
            let right: Vec<_> = lines[..lines.len() - 1].iter().map(|line| (line[3].parse().unwrap(), line[5].parse().unwrap())).collect();
            assert_eq!(told.unwrap().iter().map(|t| (t.finish, t.late)).collect::<Vec<_>>(), right);
            tried += 1;
        }
    }
    assert!(tried > 50 && refused > 5, "{tried} {refused}");
}

fn stats_of(row: &[u64]) -> Option<Stats> {
    let six = |from: usize| std::array::from_fn(|k| row[from + k]);
    let marks: [u64; 6] = six(18);
    let signed = |numbers: [u64; 6]| numbers.map(|n| n as i64);
    marks.iter().all(|&mark| mark < 2).then(|| Stats { clipped: six(0), lowest: signed(six(6)), highest: signed(six(12)), empty: marks.map(|mark| mark == 1) })
}

#[test]
fn joins() {
    let mut tried = 0;
    for row in rows("crates/test_tracks/data/joins") {
        let [Some(a), Some(b), Some(both)] = [0, 24, 48].map(|at| stats_of(&row[at..at + 24])) else { continue };
        for (mut one, other) in [(a, b), (b, a)] {
            one.join(&other);
            assert_eq!(one, both);
        }
        tried += 1;
    }
    assert!(tried > 20);
}

#[test]
fn sheets() {
    let (texts, mut tried) = (held("crates/test_tracks/data/sheets"), 0);
    for row in rows("crates/test_tracks/data/statistics") {
        let Some(stats) = stats_of(&row[2..26]) else { continue };
        if row[26] == 7 || row[0] > 255 {
            continue; // a room that is made here
        }
        let told = stats.sheet(row[0] as u8);
        if row[26] != 0 {
            assert_eq!(u64::from(told.unwrap_err().number), row[26]);
        } else {
            assert_eq!(told.unwrap().as_bytes(), &texts[row[29] as usize..][..row[30] as usize]);
            tried += 1;
        }
    }
    assert!(tried > 20);
    let e = Stats::default().sheet(255).unwrap_err();
    assert_eq!(e.to_string(), "refused 1: 255 channels: there may be 1 to 6");
}
