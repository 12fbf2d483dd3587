use crate::common::{alone, noise, refused, refused_channels, refused_gain, unsupported, Open};
use puigneht::{factor, pack_s24le, Cutoff, Rate, Refusal, Run, Settings, FRAME_BYTES};

const RATES: [Rate; 3] = [Rate::Hz88200, Rate::Hz176400, Rate::Hz352800];
const CUTOFFS: [Cutoff; 3] = [Cutoff::Standard, Cutoff::Low, Cutoff::Wide];

fn mono() -> Settings<'static> {
    Settings {
        rate: Rate::Hz88200,
        cutoff: Cutoff::Standard,
        channels: 1,
        decibels: 0.0,
        taps: None,
    }
}

#[test]
fn gains() {
    assert_eq!(factor(0.0), Ok(1.0));
    assert!((factor(20.0).unwrap() - 10.0).abs() < 1e-9);
    assert_eq!(factor(24.5), Err(refused_gain(24.5)));
    assert_eq!(factor(f64::NEG_INFINITY), Err(refused_gain(f64::NEG_INFINITY)));
}

// Quiet, signalling and negative NaNs come back with their bits.
#[test]
fn nans_keep_their_bits() {
    for nan in [0x7ff8_0000_0000_0000, 0x7ff0_0000_0000_0001, 0xfff8_0000_0000_0123, 0xfff0_0000_0000_0001, 0x7ff8_dead_0000_beef] {
        let decibels = f64::from_bits(nan);
        let mut conv = mono().open().unwrap();
        let opened = Settings { decibels, ..mono() }.open();
        for e in [factor(decibels).unwrap_err(), opened.unwrap_err(), conv.change(Rate::Hz88200, Cutoff::Low, decibels).unwrap_err()] {
            assert_eq!((e.number, e.data, e.decibels.to_bits()), (3, [0; 2], nan));
        }
    }
}

#[test]
fn openings() {
    for (rate, samples_per_frame) in RATES.into_iter().zip([1176, 2352, 4704]) {
        for cutoff in CUTOFFS {
            let opened = Settings {
                rate,
                cutoff,
                ..mono()
            }
            .open();
            if rate == Rate::Hz88200 && cutoff == Cutoff::Wide {
                assert_eq!(opened, Err(unsupported(rate, cutoff)));
            } else {
                assert_eq!(opened.unwrap().samples_per_frame(), samples_per_frame);
            }
        }
    }
    let settings = Settings {
        rate: Rate::Hz352800,
        cutoff: Cutoff::Low,
        channels: 6,
        ..mono()
    };
    let opened = settings.open().unwrap();
    assert_eq!((opened.samples_per_frame(), opened.reach(), opened.frame_bytes()), (4704, 195, 28224));
    assert_eq!((opened.rate(), opened.cutoff(), opened.channels()), (Rate::Hz352800, Cutoff::Low, 6));
    assert_eq!((opened.decibels(), opened.factor(), opened.taps()), (0.0, 1.0, None));
    for channels in [0, 7, 255] {
        assert_eq!(
            Settings { channels, ..mono() }.open(),
            Err(refused_channels(channels))
        );
    }
    assert_eq!(Settings { decibels: 25.0, channels: 7, ..mono() }.open(), Err(refused_gain(25.0)));
}

// A refused call tells its lengths and writes nothing.
#[test]
fn refusals() {
    let conv = mono().open().unwrap();
    let three = noise(3 * FRAME_BYTES);
    let mut out = vec![-1; 3 * 1176];
    let mut bytes = vec![7; 9 * 1176];
    let mut counts = [9; 3];
    assert_eq!(
        conv.convert_run(alone(&three[1..]), &mut out),
        Err(refused(4, 14111, 0))
    );
    assert_eq!(
        conv.convert_frame(alone(&three), &mut out),
        Err(refused(4, 14112, 1))
    );
    let cut = Run {
        before: Some(&three[..5]),
        ..alone(&three)
    };
    assert_eq!(conv.convert_run(cut, &mut out), Err(refused(13, 5, 0)));
    let cut = Run {
        after: Some(&[]),
        ..alone(&three)
    };
    assert_eq!(conv.convert_run(cut, &mut out), Err(refused(14, 0, 0)));
    assert_eq!(
        conv.convert_run(alone(&three), &mut out[1..]),
        Err(refused(6, 3527, 3528))
    );
    assert_eq!(
        conv.convert(alone(&three), &mut bytes[1..], None),
        Err(refused(7, 10583, 10584))
    );
    assert_eq!(
        conv.convert(alone(&three), &mut bytes, Some(&mut counts[1..])),
        Err(refused(8, 2, 3))
    );
    assert!(out.iter().all(|&s| s == -1) && bytes.iter().all(|&b| b == 7) && counts == [9; 3]);
}

// Each refusal, as a call gives it, is a sentence with its numbers.
#[test]
fn sentences() {
    let conv = mono().open().unwrap();
    let frame = noise(FRAME_BYTES);
    let said = |e: Result<puigneht::Stats, Refusal>| e.unwrap_err().to_string();
    assert_eq!(
        Settings {
            channels: 7,
            ..mono()
        }
        .open()
        .unwrap_err()
        .to_string(),
        "refused 1: 7 channels: there may be 1 to 6"
    );
    assert_eq!(
        Settings {
            cutoff: Cutoff::Wide,
            ..mono()
        }
        .open()
        .unwrap_err()
        .to_string(),
        "refused 2: wide is for 176400 and 352800"
    );
    assert_eq!(
        factor(24.5).unwrap_err().to_string(),
        "refused 3: the gain is not -120 to 24 decibels, but 24.5"
    );
    assert_eq!(
        said(conv.convert_run(alone(&frame[1..]), &mut [0; 1176])),
        "refused 4: 4,703 bytes are not whole frames: a frame of 1 channel has 4,704 bytes"
    );
    assert_eq!(
        said(conv.convert_frame(alone(&[]), &mut [0; 1176])),
        "refused 4: 0 bytes are not one frame: a frame of 1 channel has 4,704 bytes"
    );
    let before = Run {
        before: Some(&frame[1..]),
        ..alone(&frame)
    };
    assert_eq!(
        said(conv.convert_run(before, &mut [0; 1176])),
        "refused 13: the 4,703 bytes before the run are not one frame: a frame of 1 channel has 4,704 bytes"
    );
    let after = Run {
        after: Some(&[]),
        ..alone(&frame)
    };
    assert_eq!(
        said(conv.convert(after, &mut [0; 3528], None)),
        "refused 14: the 0 bytes after the run are not one frame: a frame of 1 channel has 4,704 bytes"
    );
    assert_eq!(
        refused(5, 540_001, 0).to_string(),
        "refused 5: 540,001 frames: at most 540,000 (two hours) are converted"
    );
    assert_eq!(
        said(conv.convert_run(alone(&frame), &mut [0; 1175])),
        "refused 6: room for 1,175 samples, where 1,176 are to be written"
    );
    assert_eq!(
        said(conv.convert(alone(&frame), &mut [0; 3527], None)),
        "refused 7: room for 3,527 bytes, where 3,528 are to be written"
    );
    assert_eq!(
        said(conv.convert(alone(&frame), &mut [0; 3528], Some(&mut []))),
        "refused 8: room for the counts of 0 frames, where there are 1"
    );
}

// The listening desk: 0 to 8 frames as `convert` gives them, 9 refused after a wrong length and before a wrong
// neighbour.
#[test]
fn desk() {
    let conv = Settings {
        decibels: 6.0,
        ..mono()
    }
    .open()
    .unwrap();
    let nine = noise(9 * FRAME_BYTES);
    for n in 0..=puigneht::DESK_FRAMES {
        let run = Run {
            after: Some(&nine[..FRAME_BYTES]),
            ..alone(&nine[..n * FRAME_BYTES])
        };
        let (mut a, mut b) = (vec![7; n * 3528], vec![9; n * 3528]);
        let (mut c, mut d) = (vec![7; n], vec![9; n]);
        let stats = conv.convert(run, &mut a, Some(&mut c)).unwrap();
        assert_eq!(conv.desk(run, &mut b, Some(&mut d)), Ok(stats));
        assert_eq!((a, c), (b, d));
    }
    let mut out = [7; 9 * 3528];
    let wrong = Run {
        before: Some(&[]),
        ..alone(&nine)
    };
    assert_eq!(
        conv.desk(alone(&nine[1..]), &mut out, None),
        Err(refused(4, 9 * FRAME_BYTES - 1, 0))
    );
    assert_eq!(conv.desk(wrong, &mut out, None), Err(refused(16, 0, 0)));
    assert_eq!(conv.convert(wrong, &mut out, None), Err(refused(13, 0, 0)));
    assert!(out.iter().all(|&b| b == 7));
    assert_eq!(
        conv.desk(wrong, &mut out, None).unwrap_err().to_string(),
        "refused 16: 9 frames: at most 8 at the listening desk"
    );
}

#[test]
#[ignore = "asks for 2.5 GB of memory, which it does not touch"]
fn too_many_frames() {
    let frames = vec![0; 540_001 * FRAME_BYTES];
    assert_eq!(
        mono().open().unwrap().convert_run(alone(&frames), &mut []),
        Err(refused(5, 540_001, 0))
    );
}

// Frame by frame with neighbours, and in one call, on every route: the same samples, bytes and counts.
#[test]
fn pieces_join() {
    let frames = noise(5 * 2 * FRAME_BYTES);
    let size = 2 * FRAME_BYTES;
    for rate in RATES {
        for cutoff in CUTOFFS {
            let settings = Settings {
                rate,
                cutoff,
                channels: 2,
                decibels: 6.0,
                taps: None,
            };
            let Ok(conv) = settings.open() else { continue };
            let per = 2 * conv.samples_per_frame();
            let mut whole = vec![0; 5 * per];
            let stats = conv.convert_run(alone(&frames), &mut whole).unwrap();
            let mut bytes = vec![0; 15 * per];
            let mut counts = [0; 5];
            assert_eq!(
                conv.convert(alone(&frames), &mut bytes, Some(&mut counts)),
                Ok(stats)
            );
            assert_eq!(counts.iter().sum::<u64>(), stats.clipped.iter().sum());
            assert_eq!(conv.convert(alone(&frames), &mut bytes, None), Ok(stats));

            for c in 0..6 {
                assert_eq!(stats.empty[c], c > 1);
                let own = || whole.iter().skip(c).step_by(2).copied().map(i64::from);
                if c > 1 {
                    assert_eq!((stats.lowest[c], stats.highest[c]), (0, 0));
                } else if stats.clipped[c] == 0 {
                    assert_eq!(Some(stats.lowest[c]), own().min());
                    assert_eq!(Some(stats.highest[c]), own().max());
                } else {
                    assert!(stats.lowest[c] <= own().min().unwrap() && stats.highest[c] >= own().max().unwrap());
                    assert!(stats.lowest[c] < -(1 << 23) || stats.highest[c] >= 1 << 23);
                }
            }

            let mut packed = vec![0; 15 * per];
            pack_s24le(&whole, &mut packed);
            assert_eq!(packed, bytes);

            let at = |k: usize| &frames[k * size..(k + 1) * size];
            for k in 0..5 {
                let run = Run {
                    before: (k > 0).then(|| at(k - 1)),
                    frames: at(k),
                    after: (k < 4).then(|| at(k + 1)),
                };
                let mut out = vec![0; per];
                conv.convert_frame(run, &mut out).unwrap();
                assert_eq!(out, whole[k * per..(k + 1) * per]);
            }
        }
    }
}

#[test]
fn packing_stops_at_room() {
    let mut bytes = [9; 8];
    pack_s24le(&[-2, 0x123456, 1], &mut bytes);
    assert_eq!(bytes, [0xfe, 0xff, 0xff, 0x56, 0x34, 0x12, 9, 9]);
    pack_s24le(&[], &mut bytes);
    pack_s24le(&[1], &mut []);
    assert_eq!(bytes[..3], [0xfe, 0xff, 0xff]);
}

// A filter of one's own: its reach, zeros at its end, and its refusals in their place.
#[test]
fn own_filters() {
    let frame: Vec<u8> = (0..FRAME_BYTES).map(|k| (k * 37 % 251) as u8).collect();
    let convert = |taps: Option<&[i32]>| {
        let mut out = vec![7; 1176];
        let conv = Settings { taps, ..mono() }.open();
        let told = conv.and_then(|conv| conv.convert_run(alone(&frame), &mut out));
        (told, out)
    };
    let reach = |taps: &[i32], rate| {
        let taps = Some(taps);
        Settings { rate, taps, ..mono() }.open().unwrap().reach()
    };
    assert_eq!(reach(&[1 << 24], Rate::Hz88200), 19);
    assert_eq!(reach(&[1 << 24, 0, 0], Rate::Hz352800), 39);
    let mut longest = vec![0; 117];
    longest[0] = 1 << 24;
    assert_eq!(reach(&longest, Rate::Hz176400), 251);
    assert_eq!(convert(Some(&longest)), convert(Some(&[1 << 24])));
    assert_ne!(convert(Some(&longest)), convert(None));
    let none: [i32; 0] = [];
    for (taps, error) in [
        (&none[..], refused(17, 0, 0)),
        (&[1 << 24; 118][..], refused(17, 0, 0)),
        (&[1][..], refused(18, 0, 0)),
        (&[16_777_216, 1][..], refused(18, 0, 0)),
        (&[i32::MIN; 117][..], refused(18, 0, 0)),
        (&[i32::MAX; 117][..], refused(18, 0, 0)),
    ] {
        let wrong = Settings { taps: Some(taps), ..mono() };
        assert_eq!(wrong.open(), Err(error));
        assert_eq!(Settings { cutoff: Cutoff::Low, ..wrong }.open(), Err(error));
        assert_eq!(Settings { channels: 7, ..wrong }.open(), Err(refused_channels(7)));
    }
}

// Which frames a cut has, and which next to them.
#[test]
fn what_is_cut() {
    let conv = mono().open().unwrap();
    let frames: Vec<u8> = (0..5).flat_map(|k| [k; FRAME_BYTES]).chain([9, 9]).collect();
    let whole = &frames[..5 * FRAME_BYTES];
    let told = |run: Run<'_>| [run.before, Some(run.frames), run.after].map(|it| it.map(|it| (it.first().copied(), it.len())));
    let (one, two) = (FRAME_BYTES, 2 * FRAME_BYTES);
    let at = |k, n| Some((Some(k), n));
    assert_eq!(told(conv.cut(whole, 0, 5)), [None, at(0, 5 * one), None]);
    assert_eq!(told(conv.cut(whole, 1, 2)), [at(0, one), at(1, two), at(3, one)]);
    assert_eq!(told(conv.cut(whole, 4, usize::MAX)), [at(3, one), at(4, one), None]);
    assert_eq!(told(conv.cut(whole, 9, 9)), [at(4, one), Some((None, 0)), None]);
    assert_eq!(told(conv.cut(whole, 0, 0)), [None, Some((None, 0)), at(0, one)]);
    assert_eq!(told(conv.cut(&frames, 1, 2)), [at(0, one), at(1, two + 2), at(3, one)]);
    assert_eq!(told(conv.cut(&[], 3, 1)), [None, Some((None, 0)), None]);
    assert_eq!(conv.runs(whole, 2).map(|run| run.frames.len()).collect::<Vec<_>>(), [two, two, one]);
    assert_eq!(conv.runs(&frames, 5).map(|run| run.frames.len()).collect::<Vec<_>>(), [5 * one + 2, 2]);
    assert_eq!(conv.runs(&[], 5).count(), 0);
}
