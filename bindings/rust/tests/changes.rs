// Settings changed while a converter is open: the numbers held, what a conversion gives then, and refused changes.
use crate::common::{alone, refused_gain, unsupported, Open};
use puigneht::{Cutoff, Rate, Settings, FRAME_BYTES};

const RATES: [Rate; 3] = [Rate::Hz88200, Rate::Hz176400, Rate::Hz352800];
const CUTOFFS: [Cutoff; 3] = [Cutoff::Standard, Cutoff::Low, Cutoff::Wide];

fn stereo() -> Settings<'static> {
    Settings {
        rate: Rate::Hz88200,
        cutoff: Cutoff::Standard,
        channels: 2,
        decibels: 0.0,
        taps: None,
    }
}

fn frame() -> Vec<u8> {
    (0..2 * FRAME_BYTES).map(|k| (k * 37 % 251) as u8).collect()
}

// From every route to every route, with the built-in filter and with one's own: what opening gives, and its samples.
#[test]
fn as_opened() {
    let frame = frame();
    let own = [(1 << 24) - 2_000_000, 1_000_000];
    for taps in [None, Some(&own[..])] {
        for k in 0..81 {
            let (a, b) = (k / 9, k % 9);
            let Ok(mut conv) = (Settings {
                rate: RATES[a % 3],
                cutoff: CUTOFFS[a / 3],
                taps,
                ..stereo()
            })
            .open() else {
                continue;
            };
            let (rate, cutoff, decibels) = (RATES[b % 3], CUTOFFS[b / 3], 6.0);
            let (told, held) = (conv.change(rate, cutoff, decibels), conv);
            let Ok(fresh) = (Settings {
                rate,
                cutoff,
                decibels,
                taps,
                ..stereo()
            })
            .open() else {
                assert_eq!(told, Err(unsupported(rate, cutoff)));
                continue;
            };
            assert_eq!((told, held), (Ok(()), fresh));
            let n = 2 * held.samples_per_frame();
            let (mut x, mut y) = (vec![7; n], vec![9; n]);
            let stats = fresh.convert_run(alone(&frame), &mut y).unwrap();
            assert_eq!(held.convert_run(alone(&frame), &mut x), Ok(stats));
            assert_eq!(x, y);
        }
    }
}

// A refused change leaves the converter as it was, and it goes on converting. The gain is tried first.
#[test]
fn refused_changes() {
    let opened = stereo().open().unwrap();
    let mut conv = opened;
    let (low, high) = (Rate::Hz88200, Rate::Hz352800);
    for (rate, cutoff, decibels, error) in [
        (low, Cutoff::Wide, 0.0, unsupported(low, Cutoff::Wide)),
        (high, Cutoff::Wide, 25.0, refused_gain(25.0)),
        (high, Cutoff::Low, -120.5, refused_gain(-120.5)),
        (low, Cutoff::Wide, 25.0, refused_gain(25.0)),
    ] {
        assert_eq!(conv.change(rate, cutoff, decibels), Err(error));
        assert_eq!(conv, opened);
    }
    assert_eq!(conv.change(high, Cutoff::Wide, 0.0), Ok(()));
    assert_eq!((conv.samples_per_frame(), conv.reach(), conv.frame_bytes()), (4704, 66, 9408));
}
