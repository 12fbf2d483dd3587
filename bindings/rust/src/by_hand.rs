//! Records of converters that nobody can make from outside, tried by each call: refusals in their order, and lists
//! kept.

use crate::{calls::Record, Converter, Cutoff, Rate, Refusal, Run, Settings, FRAME_BYTES};

fn stereo() -> Converter {
    Converter::open(Settings::default()).unwrap()
}

// With other numbers, gain and taps.
fn with(edit: impl FnOnce(&mut Record)) -> Converter {
    let mut conv = stereo();
    edit(&mut conv.record);
    conv
}

// The answer of each call with a converter, whose lists it must keep.
fn refusals(conv: Converter) -> Vec<Refusal> {
    let frame: Vec<u8> = (0..2 * FRAME_BYTES).map(|k| (k * 37 % 251) as u8).collect();
    let run = Run::alone(&frame);
    let (mut samples, mut bytes, mut counts) = ([7; 2352], [7; 7056 + 44], [7; 1]);
    let mut kept = conv;
    let told = vec![
        kept.change_to(Rate::Hz176400, Cutoff::Low, [0.0, 1.0]).unwrap_err(),
        conv.convert_run(run, &mut samples).unwrap_err(),
        conv.convert_frame(run, &mut samples).unwrap_err(),
        conv.convert(run, &mut bytes[..7056], Some(&mut counts)).unwrap_err(),
        conv.desk(run, &mut bytes[..7056], Some(&mut counts)).unwrap_err(),
        conv.convert_wav(run, &mut bytes, Some(&mut counts)).unwrap_err(),
    ];
    assert_eq!(told.iter().map(Refusal::call).collect::<Vec<_>>(), [3, 4, 5, 6, 7, 8]); // of the enum in puigneht.h
    assert!(kept.record.numbers == conv.record.numbers && kept.record.gain.map(f64::to_bits) == conv.record.gain.map(f64::to_bits));
    assert_eq!((samples, bytes, counts), ([7; 2352], [7; 7056 + 44], [7]));
    told
}

fn refused(number: u8, data: [u64; 2], decibels: f64) -> [Refusal; 6] {
    let mut r = Refusal::default();
    (r.number, r.data, r.decibels) = (number, data, decibels);
    [r; 6]
}

// Numbers that are not those of the settings, by themselves and with settings that are refused before them.
#[test]
fn wrong_numbers() {
    for (at, number) in [(5, 1177), (5, 1175), (6, 138), (6, 140), (6, 179), (7, 9407), (7, 4704), (1, 1), (0, 176400), (2, 1), (5, u64::MAX)] {
        let conv = with(|r| r.numbers[at] = number);
        assert_eq!(refusals(conv), refused(15, [0; 2], 0.0), "{at} {number}");
        let by = |edit: fn(&mut Record)| {
            let mut other = conv;
            edit(&mut other.record);
            refusals(other)
        };
        assert_eq!(by(|r| r.numbers[2] = 7), refused(1, [7, 0], 0.0));
        assert_eq!(by(|r| (r.numbers[0], r.numbers[1]) = (88200, 2)), refused(2, [88200, 2], 0.0));
        assert_eq!(by(|r| r.gain = [25.0, 1.0]), refused(3, [0; 2], 25.0));
        assert_eq!(by(|r| r.numbers[3] = 1), refused(17, [0; 2], 0.0));
        assert_eq!(by(|r| (r.numbers[3], r.numbers[4], r.taps[0]) = (1, 1, 1)), refused(18, [0; 2], 0.0));
    }
    assert_eq!(refusals(with(|r| (r.numbers[3], r.numbers[4], r.taps[0]) = (1, 1, 1 << 24))), refused(15, [0; 2], 0.0));
    assert_eq!(refused(15, [0; 2], 0.0)[0].to_string(), "refused 15: the converter's numbers are not those of its settings");
}

// NaNs with their bits, and factors that are not the decibels'.
#[test]
fn wrong_gains() {
    for bits in [0x7ff8_0000_0000_0000, 0x7ff0_0000_0000_0001, 0xfff8_0000_0000_0123, 0xfff0_0000_0000_0001, 0x7ff8_dead_0000_beef] {
        let nan = f64::from_bits(bits);
        assert_eq!(refusals(with(|r| r.gain = [nan, 1.0])), refused(3, [0; 2], nan));
        assert_eq!(refusals(with(|r| r.gain = [-0.0, nan])), refused(3, [0; 2], -0.0));
    }
    assert_eq!(refusals(with(|r| r.gain = [6.0, 1.0])), refused(3, [0; 2], 6.0));
    let mut conv = stereo();
    let change = |conv: &mut Converter, cutoff, gain| conv.change_to(Rate::Hz88200, cutoff, gain).unwrap_err();
    assert_eq!(change(&mut conv, Cutoff::Low, [6.0, 1.0]), refused(3, [0; 2], 6.0)[0]);
    // both wrong: the route is tried first
    assert_eq!(change(&mut conv, Cutoff::Wide, [25.0, 17.78]), refused(2, [88200, 2], 0.0)[0]);
    assert_eq!(conv, stereo());
}

// What is refused for more taps than a record holds.
#[test]
fn taps_are_cut() {
    let many = [1 << 24; 118];
    let record = Settings { taps: Some(&many), ..Settings::default() }.record();
    assert_eq!((record.numbers[3], record.numbers[4], record.taps), (1, 118, [1 << 24; 117]));
}
