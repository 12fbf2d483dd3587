//! Albums beside stored answers (crates/test_tracks/data: the original's samples of albums before they were cut), and
//! by every way.

use crate::common::{frames_of, held, laid_out, numbers, rows, sound, Folder};
use puigneht::{
    unpack_s24le, wav, Album, Converter, Cutoff, Error, Format, Levels, Memory, Output, Overs, Rate, Settings, Source, Stats, Wave, Write,
};
use std::{fs, io, path::Path, sync::Mutex};

fn jobs(jobs: usize) -> Output {
    Output { jobs, ..Output::default() }
}

fn number(e: Error) -> u8 {
    e.refusal().unwrap().number
}

// The bytes of a file, put together from pieces in some order.
fn put_together<S: Source>(album: &Album<S>, wave: &Wave, backwards: bool) -> Vec<u8> {
    let mut file = vec![0; wave.length() as usize];
    file[..wave.head.len()].copy_from_slice(&wave.head);
    for k in 0..album.number_of_pieces() {
        let piece = album.piece(if backwards { album.number_of_pieces() - 1 - k } else { k }).unwrap();
        let Write { bytes, place } = album.write(wave, &piece.plan);
        file[place as usize..][..bytes.len()].copy_from_slice(&piece.bytes[bytes]);
    }
    file
}

// A file of which the beginning is stored, and its length.
struct Claimed<'a>(&'a [u8], u64);

impl Source for Claimed<'_> {
    fn length(&self) -> io::Result<u64> {
        Ok(self.1)
    }

    fn read_at(&self, place: u64, bytes: &mut [u8]) -> io::Result<()> {
        self.0.read_at(place, bytes)
    }
}

#[test]
fn stored() {
    let [albums, tracks] = ["albums", "tracks"].map(|name| rows(&format!("crates/test_tracks/data/{name}")));
    let bytes = held("crates/test_tracks/data/bytes");
    let stretch = |place: u64, length: u64| &bytes[place as usize..][..length as usize];
    let (mut accepted, mut refused) = (0, 0);
    for row in albums {
        let lines = &tracks[row[5] as usize..][..row[6] as usize + 1];
        let files: Vec<_> = lines[..row[6] as usize].iter().map(|line| Claimed(stretch(line[0], line[1]), line[2])).collect();
        let (rate, cutoff) = (row[0].to_string().parse().unwrap(), Cutoff::ALL[row[1] as usize]);
        let settings = Settings { rate, cutoff, decibels: f64::from_bits(row[2]), ..Settings::default() };
        let opened = Album::open(files, settings);
        if row[9] != 0 {
            let e = opened.unwrap_err().refusal().unwrap();
            assert_eq!((u64::from(e.number), u64::from(e.track)), (row[9], row[10]), "{e}");
            refused += 1;
            continue;
        }
        let album = opened.unwrap();
        let numbers = [album.channels().into(), album.channel_type(), album.frames(), album.data_bytes(), album.filled(), album.number_of_pieces()];
        assert_eq!(numbers, [row[11], row[12], row[14], row[15], row[17], row[18]]);
        let format = [Format::Auto, Format::Wav, Format::Rf64][row[4] as usize];
        for (k, line) in lines.iter().enumerate() {
            let track = (k < album.tracks()).then_some(k);
            match album.wave(track, format) {
                Ok(wave) => assert_eq!(wave.head, stretch(line[4], line[5])),
                Err(e) => assert_eq!((e.number, line[5]), (12, 0)),
            }
        }
        if row[20] == 0 {
            continue;
        }
        let data = stretch(row[19], row[20]);
        let mut out = vec![0; data.len()];
        let stats = album.convert_parallel(1 + accepted % 3, &mut out, |_, _| ()).unwrap();
        assert_eq!(out, data);
        let right = |at: usize| &row[at..at + album.channels() as usize];
        let six = |numbers: [i64; 6]| numbers.map(|n| n as u64)[..album.channels() as usize].to_vec();
        assert_eq!((&stats.clipped[..right(21).len()], six(stats.lowest), six(stats.highest)), (right(21), right(27).to_vec(), right(33).to_vec()));
        for k in 0..album.tracks() {
            let wave = album.wave(Some(k), Format::Auto).unwrap();
            let [begin, end] = [lines[k][3], lines[k + 1][3]].map(|n| n as usize);
            let samples = 3 * u64::from(album.channels());
            assert_eq!(album.track(k), lines[k][3] / samples..lines[k + 1][3].min(row[20]) / samples);
            let file = put_together(&album, &wave, k % 2 == 0);
            assert_eq!((file.len() as u64, &file[wave.head.len()..][..end - begin]), (wave.length(), &data[begin..end]));
        }
        accepted += 1;
    }
    assert!(accepted > 5 && refused > 3, "{accepted} {refused}");
}

// Pieces, threads, parts, runs, files and one conversion are the same.
#[test]
fn every_way() {
    let mut odd = 0;
    for (channels, rate, cutoff, length) in
        [(2, Rate::Hz88200, Cutoff::Standard, 300 * 4704 + 1), (1, Rate::Hz176400, Cutoff::Low, 257 * 4704), (3, Rate::Hz352800, Cutoff::Wide, 130 * 4704 - 5)]
    {
        let sounds: Vec<_> = (0..channels).map(|c| sound(c + 1, length)).collect();
        let settings = Settings { rate, cutoff, channels: channels as u8, decibels: 3.0, taps: None };
        let converter = Converter::open(settings).unwrap();
        let frames = frames_of(&sounds);
        let mut samples = vec![0; converter.samples_of(frames.len() / converter.frame_bytes())];
        let stats = converter.convert_run(converter.cut(&frames, 0, usize::MAX), &mut samples).unwrap();
        let mut data = vec![0; 3 * samples.len()];
        puigneht::pack_s24le(&samples, &mut data);
        assert!(unpack_s24le(&data).eq(samples.iter().copied()));

        let mut some = numbers(9);
        let mut places = [0, 1, 4, 9, 128 * 4704, length, 5 + some(length - 9), 5 + some(length - 9)];
        places.sort();
        let part = |p: &[usize]| sounds.iter().map(|s| s[p[0]..p[1]].to_vec()).collect::<Vec<_>>();
        let tracks: Vec<Vec<u8>> = places.windows(2).map(|p| laid_out(&part(p), [1, 8][some(2)], [0, 3][some(2)])).collect();
        let one = Album::open(vec![laid_out(&sounds, 8, 0)], settings).unwrap();
        let album = Album::open(tracks.iter().map(Vec::as_slice).collect(), settings).unwrap();
        assert_eq!((one.filled(), album.rate(), album.converter()), ((frames.len() / channels as usize - length) as u64, rate, &converter));
        let (mut joined, mut told) = (vec![], Stats::default());
        for piece in album.pieces() {
            let piece = piece.unwrap();
            assert_eq!(piece.plan.place, joined.len() as u64);
            joined.extend(piece.bytes);
            told.join(&piece.stats);
        }
        assert!(joined == data && told == stats);
        for threads in [0, 1, 3, 100] {
            let (mut out, mut calls) = (vec![0; data.len()], vec![]);
            assert_eq!(one.convert_parallel(threads, &mut out, |done, all| calls.push((done, all))).unwrap(), stats);
            assert!(out == data);
            assert_eq!(calls, (1..=one.number_of_pieces()).map(|k| (k, one.number_of_pieces())).collect::<Vec<_>>());
        }
        for parts in [1, 2, 7, 64] {
            let all: Vec<u64> = (0..parts).flat_map(|k| album.part(parts, k)).collect();
            assert_eq!(all, (0..album.number_of_pieces()).collect::<Vec<_>>());
        }
        assert!(album.part(0, 0).is_empty() && album.part(65, 0).is_empty() && album.part(3, 3).is_empty());

        // frames with their neighbours, their levels and overs
        let (mut memory, mut overs, mut raw, mut out) = (Memory::default(), Overs::new(channels as usize), vec![], vec![]);
        for k in 0..album.number_of_pieces() {
            let run = album.run(k, &mut memory).unwrap();
            out.resize(converter.samples_of(run.frames.len() / converter.frame_bytes()), 0);
            converter.convert_run(run, &mut out).unwrap();
            overs.count(&out);
            raw.extend_from_slice(run.frames);
        }
        let mut uncut = Overs::new(channels as usize);
        uncut.count(&samples);
        assert!(raw == frames && overs == uncut && overs.total() > 0);
        let mut levels = Levels::default();
        let lines: String = converter.runs(&frames, 1).map(|run| levels.frame(&converter, run).unwrap()).collect();
        let counted: u64 = lines.lines().map(|line| line.rsplit(' ').next().unwrap().parse::<u64>().unwrap()).sum();
        assert_eq!((counted, levels.last_line()), (overs.total(), format!("frames {} clipped {}\n", album.frames(), stats.clipped.iter().sum::<u64>())));

        // files
        let folder = Folder::new();
        let whole = folder.0.join("all.wav");
        assert_eq!(album.write_wav(&whole, jobs(2), |_, _| ()).unwrap(), stats);
        let (wave, file) = (album.wave(None, Format::Auto).unwrap(), fs::read(&whole).unwrap());
        assert_eq!(wave.head.len(), if channels < 3 { 44 } else { 68 });
        assert!(file[..wave.head.len()] == wave.head && file[wave.head.len()..] == data);
        if channels < 3 {
            assert_eq!(wav::read(&file).unwrap().samples.len(), data.len());
            assert_eq!(wave.head, wav::header(rate, channels as u8, data.len()).unwrap());
        }
        assert_eq!(put_together(&album, &wave, true), file);
        let names: Vec<_> = (0..album.tracks()).map(|k| folder.0.join(format!("{k}.wav"))).collect();
        assert_eq!(album.write_tracks(&names, Output { format: Format::Rf64, ..jobs(3) }, |_, _| ()).unwrap(), stats);
        let mut end_to_end = vec![];
        for (k, name) in names.iter().enumerate() {
            let (wave, file) = (album.wave(Some(k), Format::Rf64).unwrap(), fs::read(name).unwrap());
            let [begin, end] = [wave.head.len(), wave.head.len() + wave.data as usize];
            assert_eq!((&file[..begin], file.len() as u64, &file[end..]), (&wave.head[..], wave.length(), &[0][..wave.pad as usize]));
            assert_eq!(wave.pad, wave.data % 2);
            odd += wave.pad;
            assert_eq!(wave.data, 3 * u64::from(album.channels()) * (album.track(k).end - album.track(k).start));
            end_to_end.extend_from_slice(&file[begin..end]);
        }
        assert!(data.starts_with(&end_to_end));
        assert_eq!(folder.names().len(), 1 + names.len());
    }
    assert!(odd > 0);
}

// A source whose reads fail behind a place, and one whose length does.
struct Failing(Vec<u8>, u64);

impl Source for Failing {
    fn length(&self) -> io::Result<u64> {
        if self.1 == 0 { Err(io::ErrorKind::PermissionDenied.into()) } else { self.0.length() }
    }

    fn read_at(&self, place: u64, bytes: &mut [u8]) -> io::Result<()> {
        if place + bytes.len() as u64 > self.1 { Err(io::ErrorKind::UnexpectedEof.into()) } else { self.0.read_at(place, bytes) }
    }
}

#[test]
fn what_is_refused() {
    let settings = Settings::default();
    let [good, mono] = [2, 1].map(|channels| laid_out(&vec![sound(3, 400 * 4704); channels], 1, 0));
    let open = |files: &[&[u8]], settings| Album::open(files.to_vec(), settings).unwrap_err();
    for (e, number, track, sentence) in [
        (open(&[], settings), 255, 0, "not understood: 0 tracks: an album has 1 to 99"),
        (open(&[&good[..]; 100], settings), 255, 0, "not understood: 100 tracks: an album has 1 to 99"),
        (open(&[&good, &good[..good.len() - 1]], settings), 11, 1, "refused 11: the file says 3,768,412 bytes and has 3,768,411: an incomplete upload?"),
        (open(&[&good, &good, &mono], settings), 9, 2, "refused 9: its channel type is 1 (mono), and the first track's 2 (stereo)"),
        (open(&[&good, &good[..40]], settings), 9, 1, "refused 9: not a DSF file as Sony's document lays it out: it has 40 bytes, and a header has 92"),
        (open(&[&good, &mono], Settings { decibels: 24.5, ..settings }), 3, 0, "refused 3: the gain is not -120 to 24 decibels, but 24.5"),
        (open(&[&good], Settings { cutoff: Cutoff::Wide, ..settings }), 2, 0, "refused 2: wide is for 176400 and 352800"),
        (open(&[&good], Settings { taps: Some(&[]), ..settings }), 17, 0, "refused 17: a filter may have 1 to 117 taps"),
        (
            open(&[&good], Settings { taps: Some(&[5]), ..settings }),
            18,
            0,
            "refused 18: a filter's centre and twice its other taps are to sum to 16,777,216, and their sizes to at most 40,000,000",
        ),
    ] {
        let r = e.refusal().unwrap();
        assert_eq!((r.number, r.track, e.to_string()), (number, track, sentence.into()));
    }
    let album = Album::open(vec![&good[..], &good], settings).unwrap();
    let pieces = album.number_of_pieces();
    assert_eq!(album.plan(pieces).unwrap_err().to_string(), "refused 5: the album has no piece 7: they are counted from 0");
    assert_eq!(number(album.piece(u64::MAX).unwrap_err()), 5);
    assert_eq!(number(album.run(pieces, &mut Memory::default()).unwrap_err()), 5);
    assert_eq!(album.wave(Some(2), Format::Auto).unwrap_err().to_string(), "refused 5: the album has no track 2: they are counted from 0");
    let plan = album.plan(0).unwrap();
    let mut out = vec![7; plan.length + 1];
    let e = album.convert(&plan, &mut Memory::default(), &mut out).unwrap_err().refusal().unwrap();
    assert_eq!((e.number, e.data), (7, [plan.length as u64 + 1, plan.length as u64]));
    let e = album.convert_parallel(2, &mut out, |_, _| panic!("nothing is done")).unwrap_err().refusal().unwrap();
    assert_eq!((e.number, e.data), (7, [plan.length as u64 + 1, album.data_bytes()]));
    let mut long = vec![7; album.data_bytes() as usize + 1];
    assert_eq!(number(album.convert_parallel(2, &mut long, |_, _| panic!("nothing is done")).unwrap_err()), 7);
    assert!(out.iter().chain(&long).all(|&b| b == 7));
    let many = Album::open(vec![laid_out(&vec![sound(3, 4704); 3], 1, 0)], settings).unwrap();
    assert_eq!(many.wave(None, Format::Wav).unwrap_err().to_string(), "refused 12: 3 channels: the WAV file takes one or two");

    // another album's plan is looked up anew
    let short = Album::open(vec![&mono[..]], settings).unwrap();
    let e = short.convert(&album.plan(pieces - 1).unwrap(), &mut Memory::default(), &mut out).unwrap_err();
    assert_eq!(number(e), 5);

    // reads that fail
    let e = Album::open(vec![Failing(good.clone(), 92), Failing(good.clone(), 0)], settings).unwrap_err();
    assert_eq!((e.refusal().unwrap().number, e.refusal().unwrap().track), (254, 1));
    assert!(e.to_string().ends_with("the file cannot be read: permission denied"), "{e}");
    let e = Album::open((0..100).map(|_| Failing(vec![], 0)).collect(), settings).unwrap_err();
    assert_eq!(number(e), 255); // before anything is read
    let failing = Album::open(vec![Failing(good.clone(), u64::MAX), Failing(good.clone(), 2_000_000)], settings).unwrap();
    assert_eq!(failing.pieces().filter(|piece| piece.is_ok()).count(), 4);
    for threads in [1, 4] {
        let mut out = vec![0; failing.data_bytes() as usize];
        let e = failing.convert_parallel(threads, &mut out, |_, _| ()).unwrap_err();
        assert_eq!((e.refusal().unwrap().number, e.refusal().unwrap().track), (254, 1));
    }
    assert_eq!(failing.run(6, &mut Memory::default()).unwrap_err().refusal().unwrap().track, 1);
}

// Whole or not at all.
#[test]
fn files_written() {
    let settings = Settings::default();
    let folder = Folder::new();
    let dsf = laid_out(&vec![sound(5, 300 * 4704); 2], 1, 0);
    let tracks = ["a.dsf", "b.dsf"].map(|name| folder.put(name, &dsf));
    let before = folder.names();
    let album = Album::open_files(&tracks, settings).unwrap();
    assert_eq!(format!("{album:?}"), "Album { tracks: 2, channels: 2, frames: 600, .. }");
    let at = |name: &str| folder.0.join(name);
    let fault = |e: Error| match e {
        Error::Io(e) => (e.kind(), e.to_string()),
        other => panic!("{other}"),
    };
    let none = |_, _| ();

    // names that will not do
    let e = Album::open_file(at("none.dsf"), settings).unwrap_err();
    let (kind, text) = fault(e);
    assert!(kind == io::ErrorKind::NotFound && text.contains("none.dsf: "), "{text}");
    let e = fault(album.write_wav(at("none/a.wav"), jobs(1), none).unwrap_err());
    assert!(e.0 == io::ErrorKind::NotFound && e.1.contains("none/a.wav: "));
    let replacing = Output { replace: true, ..jobs(2) };
    let e = fault(album.write_wav(&tracks[1], replacing, none).unwrap_err());
    assert!(e.1.ends_with("b.dsf is a track of the album"));
    let e = fault(album.write_tracks(&[at("c.wav"), at("./c.wav")], replacing, none).unwrap_err());
    assert!(e.1.ends_with("c.wav: two files are to have one name"));
    let e = fault(album.write_tracks(&[at("c.wav")], replacing, none).unwrap_err());
    assert_eq!(e.1, "1 names for 2 tracks");
    assert_eq!(folder.names(), before);

    // one that is there, before and meanwhile
    folder.put("d.wav", b"old");
    let e = fault(album.write_tracks(&[at("c.wav"), at("d.wav")], jobs(2), none).unwrap_err());
    assert_eq!(e.0, io::ErrorKind::AlreadyExists);
    let e = album.write_tracks(&[at("c.wav"), at("e.wav")], jobs(2), |done, all| {
        assert!(!at("c.wav").exists());
        if done == all {
            folder.put("e.wav", b"new");
        }
    });
    assert_eq!(fault(e.unwrap_err()).0, io::ErrorKind::AlreadyExists);
    assert_eq!((folder.names(), fs::read(at("e.wav")).unwrap()), (vec!["a.dsf".into(), "b.dsf".into(), "d.wav".into(), "e.wav".into()], b"new".to_vec()));

    // progress that panics leaves nothing
    let panicked = std::panic::catch_unwind(std::panic::AssertUnwindSafe(|| album.write_wav(at("f.wav"), jobs(2), |_, _| panic!("enough"))));
    assert!(panicked.is_err() && folder.names().len() == 4);

    // replaced
    let stats = album.write_tracks(&[at("d.wav"), at("e.wav")], replacing, none).unwrap();
    assert_eq!(folder.names().len(), 4);
    let (d, e) = (fs::read(at("d.wav")).unwrap(), fs::read(at("e.wav")).unwrap());
    let mut right = vec![0; album.data_bytes() as usize];
    assert_eq!(album.convert_parallel(0, &mut right, none).unwrap(), stats);
    assert!([&d[44..], &e[44..]].concat() == right);
    let here = std::env::current_dir().unwrap();
    assert!(!here.join("puigneht-none.wav").exists() && album.write_wav(Path::new(""), jobs(1), none).is_err());
}

// Threads share an album, and sources that are read at places.
#[test]
fn shared() {
    let dsf = laid_out(&[sound(6, 200 * 4704)], 1, 9);
    let album = Album::open(vec![&dsf], Settings::default()).unwrap();
    let right: Vec<_> = album.pieces().map(Result::unwrap).collect();
    let found = Mutex::new(0);
    std::thread::scope(|scope| {
        for _ in 0..3 {
            scope.spawn(|| {
                assert!(album.pieces().map(Result::unwrap).eq(right.iter().cloned()));
                *found.lock().unwrap() += 1;
            });
        }
    });
    assert_eq!(found.into_inner().unwrap(), 3);
}

// Albums of one file: numbers, the WAV file, the sheet, and what is refused.
#[test]
fn stored_files() {
    let bytes = held("crates/test_tracks/data/single_bytes");
    let folder = Folder::new();
    let (mut accepted, mut refused) = (0, 0);
    for (k, row) in rows("crates/test_tracks/data/singles").iter().enumerate() {
        let [file, wav, sheet] = [16, 18, 20].map(|at| &bytes[row[at] as usize..][..row[at + 1] as usize]);
        let (length, answer) = (row[4] as usize, row[5] as u8);
        if length >= 1 << 20 {
            continue;
        }
        let mut dsf = file[..file.len().min(length)].to_vec();
        dsf.resize(length, 0);
        let (rate, cutoff) = (row[0].to_string().parse().unwrap(), Cutoff::ALL[row[1] as usize]);
        let opened = Album::open(vec![dsf], Settings { rate, cutoff, decibels: f64::from_bits(row[2]), ..Settings::default() });
        if answer == 12 {
            assert_eq!(opened.unwrap().wave(None, Format::Wav).unwrap_err().number, 12); // of more than two channels
        } else if answer != 0 {
            let e = opened.unwrap_err();
            assert_eq!(e.refusal().unwrap().number, answer);
            assert!(e.to_string().starts_with(&format!("refused {answer}: ")));
            refused += 1;
        } else {
            let (album, path) = (opened.unwrap(), folder.0.join(k.to_string()));
            let numbers = [album.channels().into(), album.channel_type(), album.frames(), album.data_bytes(), album.filled(), album.number_of_pieces()];
            assert_eq!(numbers, [row[8], row[9], row[11], row[12], row[14], row[15]]);
            let stats = album.write_wav(&path, jobs(1 + k % 3), |_, _| ()).unwrap();
            assert_eq!(stats.sheet(album.channels()).unwrap().as_bytes(), sheet);
            assert!(fs::read(&path).unwrap() == wav && put_together(&album, &album.wave(None, Format::Auto).unwrap(), true) == wav);
            accepted += 1;
        }
    }
    assert!(accepted > 5 && refused > 10, "{accepted} {refused}");
}
