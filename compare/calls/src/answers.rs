// What a call answers, in one form for port and original, and the two sides that give it.
use scarletbook_pcm::{Converter, Cutoff, FrameRun, Gain, PcmConfig, PcmError, PcmOut, PcmRate, Run};

// Number and data of a refusal (number 0: none), and the clips of six channels. A float is its bits: a NaN counts as
// any NaN.
#[derive(Clone, Debug, Default, PartialEq)]
pub struct Answer {
    pub number: u8,
    pub data: [u64; 2],
    pub decibels: u64,
    pub clipped: [u64; 6],
}

pub fn bits(x: f64) -> u64 {
    if x.is_nan() { f64::NAN.to_bits() } else { x.to_bits() }
}

pub const RATES: [u32; 3] = [88200, 176400, 352800];

// The settings of a converter, as both sides take them; the gain is the record of some decibels.
#[derive(Clone, Copy, Debug)]
pub struct Settings {
    pub rate: usize,
    pub cutoff: usize,
    pub channels: u8,
    pub db: f64,
}

// The slices of a call.
pub struct Input<'a> {
    pub before: Option<&'a [u8]>,
    pub frames: &'a [u8],
    pub after: Option<&'a [u8]>,
}

pub mod port {
    use super::*;

    const TAPS: [i32; 117] = [0; 117];

    unsafe extern "C" {
        fn puigneht_gain_call(db: f64, gain: &mut [f64; 2], decibels: &mut [f64; 1]) -> u8;
        fn puigneht_open_call(numbers: &mut [u64; 8], gain: &[f64; 2], taps: &[i32; 117], data: &mut [u64; 2], decibels: &mut [f64; 1]) -> u8;
        fn puigneht_convert_run_call(
            numbers: &[u64; 8], gain: &[f64; 2], taps: &[i32; 117], presence: u8, before: *const u8, befores: usize, frames: *const u8, framess: usize,
            after: *const u8, afters: usize, out: *mut i32, outs: usize, stats: &mut [u64; 24], data: &mut [u64; 2], decibels: &mut [f64; 1],
        ) -> u8;
        fn puigneht_convert_frame_call(
            numbers: &[u64; 8], gain: &[f64; 2], taps: &[i32; 117], presence: u8, before: *const u8, befores: usize, frames: *const u8, framess: usize,
            after: *const u8, afters: usize, out: *mut i32, outs: usize, stats: &mut [u64; 24], data: &mut [u64; 2], decibels: &mut [f64; 1],
        ) -> u8;
        fn puigneht_convert_call(
            numbers: &[u64; 8], gain: &[f64; 2], taps: &[i32; 117], presence: u8, before: *const u8, befores: usize, frames: *const u8, framess: usize,
            after: *const u8, afters: usize, out: *mut u8, outs: usize, counts: *mut u64, countss: usize, stats: &mut [u64; 24], data: &mut [u64; 2],
            decibels: &mut [f64; 1],
        ) -> u8;
        fn puigneht_convert_desk_call(
            numbers: &[u64; 8], gain: &[f64; 2], taps: &[i32; 117], presence: u8, before: *const u8, befores: usize, frames: *const u8, framess: usize,
            after: *const u8, afters: usize, out: *mut u8, outs: usize, counts: *mut u64, countss: usize, stats: &mut [u64; 24], data: &mut [u64; 2],
            decibels: &mut [f64; 1],
        ) -> u8;
        fn puigneht_pack_s24le_call(samples: *const i32, n: usize, bytes: *mut u8, m: usize);
    }

    // What comes back through the lent blocks.
    struct Back {
        stats: [u64; 24],
        data: [u64; 2],
        decibels: [f64; 1],
    }

    fn back() -> Back {
        Back { stats: [7; 24], data: [7; 2], decibels: [7.0] }
    }

    // A refused call has kept the statistics: what it changed there is told.
    fn answer(number: u8, b: Back) -> Answer {
        let mut clipped = [0; 6];
        clipped.copy_from_slice(&b.stats[..6]);
        if number != 0 {
            clipped = clipped.map(|n| n ^ if b.stats == [7; 24] { 7 } else { 6 });
        }
        Answer { number, data: b.data, decibels: bits(b.decibels[0]), clipped }
    }

    // The converter's block of numbers, with those that opening stored.
    fn block(s: Settings, [samples, reach, frame]: [u64; 3]) -> [u64; 8] {
        [RATES[s.rate].into(), s.cutoff as u64, s.channels.into(), 0, 0, samples, reach, frame]
    }

    fn presence(i: &Input) -> u8 {
        u8::from(i.before.is_some()) + 2 * u8::from(i.after.is_some())
    }

    // The gain record of some decibels; where they are refused, the answer.
    pub fn gain(db: f64) -> Result<[f64; 2], Answer> {
        let (mut gain, mut decibels) = ([7.0; 2], [7.0]);
        let number = unsafe { puigneht_gain_call(db, &mut gain, &mut decibels) };
        if number == 0 { Ok(gain) } else { Err(Answer { number, decibels: bits(decibels[0]), ..Default::default() }) }
    }

    // Samples per frame, reach and frame length.
    pub fn open(s: Settings, gain: [f64; 2]) -> (Answer, [u64; 3]) {
        let (mut b, mut numbers) = (back(), block(s, [7; 3]));
        let number = unsafe { puigneht_open_call(&mut numbers, &gain, &TAPS, &mut b.data, &mut b.decibels) };
        if number == 0 {
            b.stats = [0; 24];
        }
        (answer(number, b), [numbers[5], numbers[6], numbers[7]])
    }

    pub fn convert_run(s: Settings, gain: [f64; 2], numbers: [u64; 3], one: bool, i: &Input, out: &mut [i32]) -> Answer {
        let mut b = back();
        let (before, after) = (i.before.unwrap_or(&[]), i.after.unwrap_or(&[]));
        let call = if one { puigneht_convert_frame_call } else { puigneht_convert_run_call };
        let number = unsafe {
            call(
                &block(s, numbers), &gain, &TAPS, presence(i), before.as_ptr(), before.len(), i.frames.as_ptr(), i.frames.len(), after.as_ptr(), after.len(),
                out.as_mut_ptr(), out.len(), &mut b.stats, &mut b.data, &mut b.decibels,
            )
        };
        answer(number, b)
    }

    pub fn convert(
        s: Settings, gain: [f64; 2], numbers: [u64; 3], desk: bool, i: &Input, out: &mut [u8], counts: Option<&mut [u64]>,
    ) -> Answer {
        let mut b = back();
        let call = if desk { puigneht_convert_desk_call } else { puigneht_convert_call };
        let (before, after) = (i.before.unwrap_or(&[]), i.after.unwrap_or(&[]));
        let lent = presence(i) + 4 * u8::from(counts.is_some());
        let counts = counts.unwrap_or(&mut []);
        let number = unsafe {
            call(
                &block(s, numbers), &gain, &TAPS, lent, before.as_ptr(), before.len(), i.frames.as_ptr(), i.frames.len(), after.as_ptr(), after.len(),
                out.as_mut_ptr(), out.len(), counts.as_mut_ptr(), counts.len(), &mut b.stats, &mut b.data, &mut b.decibels,
            )
        };
        answer(number, b)
    }

    // How many arguments `unclear` tries.
    pub const UNCLEAR: usize = 5;

    // A call with one argument that is not understood, by its number here: whether it answers 255 and writes nothing.
    pub fn unclear(which: usize) -> bool {
        let wrong = |k: usize, right: u64, other: u64| if which == k { other } else { right };
        let numbers = [wrong(0, 88200, 44100), wrong(1, 0, 3), wrong(2, 1, 257), wrong(3, 0, 2), 0, 1176, 139, 4704];
        let frame = [0x69u8; 4704];
        let (mut out, mut counts, mut b) = ([7u8; 3528], [7u64; 1], back());
        let number = unsafe {
            puigneht_convert_call(
                &numbers, &[0.0, 1.0], &TAPS, wrong(4, 7, 8) as u8, frame.as_ptr(), 4704, frame.as_ptr(), 4704, frame.as_ptr(), 4704, out.as_mut_ptr(), 3528,
                counts.as_mut_ptr(), 1, &mut b.stats, &mut b.data, &mut b.decibels,
            )
        };
        let kept = out == [7; 3528] && counts == [7] && b.stats == [7; 24] && b.data == [7; 2] && b.decibels == [7.0];
        number == 255 && kept
    }

    // An empty list may be a null pointer: a run of no frames with nothing lent but the results.
    pub fn null_is_empty() -> bool {
        let (numbers, mut b) = ([88200, 0, 1, 0, 0, 1176, 139, 4704], back());
        let none = std::ptr::null_mut::<u8>();
        let number = unsafe {
            puigneht_convert_call(
                &numbers, &[0.0, 1.0], &TAPS, 0, none, 0, none, 0, none, 0, none, 0, none.cast(), 0, &mut b.stats, &mut b.data, &mut b.decibels,
            )
        };
        answer(number, b) == Answer::default()
    }

    pub fn pack_s24le(samples: &[i32], bytes: &mut [u8]) {
        unsafe { puigneht_pack_s24le_call(samples.as_ptr(), samples.len(), bytes.as_mut_ptr(), bytes.len()) }
    }
}

pub mod original {
    use super::*;

    fn refused(e: PcmError) -> Answer {
        let rate = |r: PcmRate| u64::from(r.hz());
        let cutoff = |c: Cutoff| Cutoff::ALL.iter().position(|x| *x == c).unwrap() as u64;
        let (number, data, decibels) = match e {
            PcmError::Channels(n) => (1, [n.into(), 0], 0.0),
            PcmError::Unsupported { rate: r, cutoff: c, .. } => (2, [rate(r), cutoff(c)], 0.0),
            PcmError::Gain(db) => (3, [0, 0], db),
            PcmError::InputLength { len, what, .. } => (4, [len as u64, u64::from(what == "one frame")], 0.0),
            PcmError::OutputLength { len, expected, .. } => (6, [len as u64, expected as u64], 0.0),
            PcmError::OutputBytes { len, expected, .. } => (7, [len as u64, expected as u64], 0.0),
            PcmError::FrameCounts { len, expected, .. } => (8, [len as u64, expected as u64], 0.0),
            _ => unreachable!("no other error"),
        };
        Answer { number, data, decibels: bits(decibels), ..Default::default() }
    }

    pub fn gain(db: f64) -> Result<Gain, Answer> {
        Gain::from_db(db).map_err(refused)
    }

    pub fn open(s: Settings, gain: Gain) -> Result<Converter, Answer> {
        let config = PcmConfig::new(PcmRate::ALL[s.rate], Cutoff::ALL[s.cutoff], s.channels).with_gain(gain);
        Converter::new(config).map_err(refused)
    }

    fn answer(r: Result<scarletbook_pcm::ConvertStats, PcmError>) -> Answer {
        r.map_or_else(refused, |stats| Answer { clipped: stats.clipped, ..Default::default() })
    }

    pub fn convert_run(c: &mut Converter, one: bool, i: &Input, out: &mut [i32]) -> Answer {
        if one {
            return answer(c.convert_frame(i.before, i.frames, i.after, out));
        }
        answer(c.convert_run(FrameRun::new(i.frames).with_before(i.before).with_after(i.after), out))
    }

    pub fn convert(c: &mut Converter, i: &Input, out: &mut [u8], counts: Option<&mut [u64]>) -> Answer {
        let run = Run::new(i.frames).with_before(i.before).with_after(i.after);
        answer(c.convert(run, PcmOut::S24le(out), counts))
    }
}
