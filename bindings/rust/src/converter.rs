//! Settings, converter and run.

use crate::calls::{self, Record};
use crate::{refusal::Call, Refusal, Stats, FRAME_BYTES, MOST_TAPS};
use std::{fmt, str::FromStr};

/// A word that names no rate, cutoff or format.
#[derive(Clone, Debug, PartialEq, Eq)]
pub struct Unknown {
    word: String,
    taken: &'static str,
}

impl Unknown {
    pub(crate) fn new(word: &str, taken: &'static str) -> Self {
        Unknown { word: word.into(), taken }
    }
}

impl fmt::Display for Unknown {
    fn fmt(&self, f: &mut fmt::Formatter<'_>) -> fmt::Result {
        write!(f, "'{}' is not one of {}", self.word, self.taken)
    }
}

impl std::error::Error for Unknown {}

/// Samples a second of each channel.
///
/// ```
/// use puigneht::Rate;
/// assert_eq!("176400".parse(), Ok(Rate::Hz176400));
/// assert_eq!(Rate::Hz176400.to_string(), "176400");
/// assert_eq!("44100".parse::<Rate>().unwrap_err().to_string(), "'44100' is not one of 88200, 176400, 352800");
/// ```
#[derive(Clone, Copy, Debug, Default, PartialEq, Eq, Hash)]
pub enum Rate {
    #[default]
    /// 88,200, a 32nd of DSD64.
    Hz88200 = 88200,
    /// 176,400, a 16th.
    Hz176400 = 176400,
    /// 352,800, an eighth.
    Hz352800 = 352800,
}

impl Rate {
    /// All of them.
    pub const ALL: [Rate; 3] = [Rate::Hz88200, Rate::Hz176400, Rate::Hz352800];

    pub(crate) fn of(hertz: u64) -> Rate {
        Rate::ALL.into_iter().find(|&rate| rate as u64 == hertz).expect("one of the three rates")
    }
}

impl FromStr for Rate {
    type Err = Unknown;

    fn from_str(word: &str) -> Result<Self, Unknown> {
        Rate::ALL.into_iter().find(|rate| rate.to_string() == word).ok_or_else(|| Unknown::new(word, "88200, 176400, 352800"))
    }
}

impl fmt::Display for Rate {
    fn fmt(&self, f: &mut fmt::Formatter<'_>) -> fmt::Result {
        fmt::Display::fmt(&(*self as u32), f)
    }
}

/// The low-pass. Wide is not for 88,200.
///
/// ```
/// use puigneht::Cutoff;
/// assert_eq!("wide".parse(), Ok(Cutoff::Wide));
/// assert_eq!(Cutoff::Low.to_string(), "low");
/// ```
#[derive(Clone, Copy, Debug, Default, PartialEq, Eq, Hash)]
pub enum Cutoff {
    #[default]
    /// Flat to 40 kHz.
    Standard,
    /// To 30 kHz.
    Low,
    /// To 80 kHz.
    Wide,
}

impl Cutoff {
    /// All of them.
    pub const ALL: [Cutoff; 3] = [Cutoff::Standard, Cutoff::Low, Cutoff::Wide];

    fn name(self) -> &'static str {
        ["standard", "low", "wide"][self as usize]
    }
}

impl FromStr for Cutoff {
    type Err = Unknown;

    fn from_str(word: &str) -> Result<Self, Unknown> {
        Cutoff::ALL.into_iter().find(|cutoff| cutoff.name() == word).ok_or_else(|| Unknown::new(word, "standard, low, wide"))
    }
}

impl fmt::Display for Cutoff {
    fn fmt(&self, f: &mut fmt::Formatter<'_>) -> fmt::Result {
        f.pad(self.name())
    }
}

/// The factor of some decibels, -120 to 24.
///
/// ```
/// assert_eq!(puigneht::factor(0.0), Ok(1.0));
/// let refused = puigneht::factor(25.0).unwrap_err();
/// assert_eq!(refused.to_string(), "refused 3: the gain is not -120 to 24 decibels, but 25");
/// ```
pub fn factor(decibels: f64) -> Result<f64, Refusal> {
    gain(decibels, Refusal::of(Call::Gain, 0)).map(|[_, factor]| factor)
}

// Decibels and their factor, or the refusal of the call that asks.
fn gain(decibels: f64, mut r: Refusal) -> Result<[f64; 2], Refusal> {
    let mut gain = [0.0; 2];
    let answer = calls::puigneht_gain_call(decibels, &mut gain, &mut r.decibels);
    r.result(answer, gain)
}

/// Samples as three bytes each, their low 24 bits, least first: as many as there are bytes for. Later bytes are kept.
pub fn pack_s24le(samples: &[i32], bytes: &mut [u8]) {
    calls::puigneht_pack_s24le_call(samples, bytes)
}

/// Packed samples as 32-bit ones, as many as there are whole ones.
///
/// ```
/// let samples = puigneht::unpack_s24le(&[0xfe, 0xff, 0xff, 0x56, 0x34, 0x12]);
/// assert_eq!(samples.collect::<Vec<_>>(), [-2, 0x123456]);
/// ```
pub fn unpack_s24le(bytes: &[u8]) -> impl Iterator<Item = i32> + '_ {
    bytes.chunks_exact(3).map(|b| i32::from_le_bytes([0, b[0], b[1], b[2]]) >> 8)
}

/// Whole frames, and the frames next to them where there are such. [`Converter::cut`] and [`Converter::runs`] choose
/// them, so that nobody else has to.
#[derive(Clone, Copy, Debug, PartialEq, Eq)]
pub struct Run<'a> {
    /// The frame before them.
    pub before: Option<&'a [u8]>,
    /// Frames end to end.
    pub frames: &'a [u8],
    /// The frame behind them.
    pub after: Option<&'a [u8]>,
}

impl<'a> Run<'a> {
    /// Frames with none next to them, which counts as frames of 0x69 there.
    pub fn alone(frames: &'a [u8]) -> Self {
        Run { before: None, frames, after: None }
    }

    pub(crate) fn presence(&self) -> u8 {
        u8::from(self.before.is_some()) + 2 * u8::from(self.after.is_some())
    }
}

/// What a converter or an album is opened with.
///
/// ```
/// use puigneht::{Rate, Settings};
/// let settings = Settings { rate: Rate::Hz352800, decibels: -1.5, ..Settings::default() };
/// # let _ = settings;
/// ```
#[derive(Clone, Copy, Debug, PartialEq)]
pub struct Settings<'a> {
    /// Samples a second.
    pub rate: Rate,
    /// The low-pass.
    pub cutoff: Cutoff,
    /// 1 to 6. An [`Album`](crate::Album) does not read it: its channels are its files'.
    pub channels: u8,
    /// -120 to 24, in any fraction; at 0 dB 100 % modulation is full scale.
    pub decibels: f64,
    /// A low-pass of one's own for Standard, which is copied: 1 to [`MOST_TAPS`] taps from the centre outwards; `None`
    /// for the built-in one.
    pub taps: Option<&'a [i32]>,
}

impl Default for Settings<'_> {
    /// 88,200, Standard, two channels, 0 dB, the built-in low-pass.
    fn default() -> Self {
        Settings { rate: Rate::default(), cutoff: Cutoff::default(), channels: 2, decibels: 0.0, taps: None }
    }
}

impl Settings<'_> {
    // As the calls take them, with decibels that have no factor yet.
    pub(crate) fn record(&self) -> Record {
        let given = self.taps.unwrap_or(&[]);
        let mut taps = [0; MOST_TAPS];
        for (held, tap) in taps.iter_mut().zip(given) {
            *held = *tap;
        }
        let numbers = [self.rate as u64, self.cutoff as u64, self.channels.into(), self.taps.is_some().into(), given.len() as u64, 0, 0, 0];
        Record { numbers, gain: [self.decibels, 0.0], taps }
    }
}

/// An open converter of frames that are in memory; threads may share it.
///
/// ```
/// use puigneht::{Converter, Rate, Settings};
/// let converter = Converter::open(Settings { rate: Rate::Hz176400, channels: 1, ..Settings::default() })?;
/// assert_eq!((converter.samples_per_frame(), converter.frame_bytes()), (2352, 4704));
/// let refusal = Converter::open(Settings { channels: 7, ..Settings::default() }).unwrap_err();
/// assert_eq!(refusal.to_string(), "refused 1: 7 channels: there may be 1 to 6");
/// # Ok::<(), puigneht::Refusal>(())
/// ```
#[derive(Clone, Copy, Debug, PartialEq)]
pub struct Converter {
    pub(crate) record: Record,
}

// A conversion: what it writes stands in brackets; the refusal has the length of the frames.
macro_rules! converted {
    ($converter:ident, $call:ident, $function:ident, $run:ident, $counts_are_lent:expr, [$($out:expr),*]) => {{
        let (mut r, mut stats) = ($converter.told(Call::$call, $run.frames.len()), [0; 24]);
        let answer = calls::$function(&$converter.record, &$run, $counts_are_lent, $($out,)* &mut stats, &mut r);
        r.result(answer, ()).map(|()| Stats::of(stats))
    }};
}

impl Converter {
    /// The converter of some settings. Refused 3 for the gain; then 1, 2, 17, 18.
    pub fn open(settings: Settings<'_>) -> Result<Converter, Refusal> {
        let mut record = settings.record();
        let length = settings.taps.map_or(0, <[i32]>::len);
        let mut r = Refusal::of(Call::Open, length).with(settings.rate as u64, settings.cutoff as u64, settings.channels.into());
        record.gain = gain(settings.decibels, r)?;
        let answer = calls::puigneht_open_call(&mut record.numbers, &record.gain, &record.taps, &mut r);
        r.result(answer, Converter { record })
    }

    /// Other rate, cutoff and gain; channels and filter stay. Refused 3 for the gain, then 2; refused, it is as it was.
    ///
    /// ```
    /// use puigneht::{Converter, Cutoff, Rate, Settings};
    /// let mut converter = Converter::open(Settings::default())?;
    /// let refused = converter.change(Rate::Hz88200, Cutoff::Wide, 0.0).unwrap_err();
    /// assert_eq!(refused.to_string(), "refused 2: wide is for 176400 and 352800");
    /// converter.change(Rate::Hz176400, Cutoff::Wide, -3.0)?;
    /// assert_eq!((converter.rate(), converter.cutoff(), converter.decibels()), (Rate::Hz176400, Cutoff::Wide, -3.0));
    /// # Ok::<(), puigneht::Refusal>(())
    /// ```
    pub fn change(&mut self, rate: Rate, cutoff: Cutoff, decibels: f64) -> Result<(), Refusal> {
        let wanted = gain(decibels, self.changing(rate, cutoff))?;
        self.change_to(rate, cutoff, wanted)
    }

    fn changing(&self, rate: Rate, cutoff: Cutoff) -> Refusal {
        Refusal::of(Call::Change, self.record.numbers[4] as usize).with(rate as u64, cutoff as u64, self.record.numbers[2])
    }

    pub(crate) fn change_to(&mut self, rate: Rate, cutoff: Cutoff, wanted: [f64; 2]) -> Result<(), Refusal> {
        let (mut r, c) = (self.changing(rate, cutoff), &mut self.record);
        let answer = calls::puigneht_change_call(&mut c.numbers, &mut c.gain, &c.taps, rate as u64, cutoff as u64, &wanted, &mut r);
        r.result(answer, ())
    }

    /// Samples a second.
    pub fn rate(&self) -> Rate {
        Rate::of(self.record.numbers[0])
    }

    /// The low-pass.
    pub fn cutoff(&self) -> Cutoff {
        Cutoff::ALL[self.record.numbers[1] as usize]
    }

    /// 1 to 6.
    pub fn channels(&self) -> u8 {
        self.record.numbers[2] as u8
    }

    /// Its gain.
    pub fn decibels(&self) -> f64 {
        self.record.gain[0]
    }

    /// The factor of its decibels.
    pub fn factor(&self) -> f64 {
        self.record.gain[1]
    }

    /// The low-pass of one's own.
    pub fn taps(&self) -> Option<&[i32]> {
        (self.record.numbers[3] == 1).then(|| &self.record.taps[..self.record.numbers[4] as usize])
    }

    /// Samples of one channel in a frame.
    pub fn samples_per_frame(&self) -> usize {
        self.record.numbers[5] as usize
    }

    /// Bytes of each channel before and after a run that its samples may depend on.
    pub fn reach(&self) -> usize {
        self.record.numbers[6] as usize
    }

    /// Bytes of a frame, of all channels: [`FRAME_BYTES`] for each.
    pub fn frame_bytes(&self) -> usize {
        self.record.numbers[7] as usize
    }

    /// The samples over all channels that some frames give, for the room of [`convert_run`](Self::convert_run); three
    /// times as many bytes for that of [`convert`](Self::convert).
    pub fn samples_of(&self, frames: usize) -> usize {
        frames * self.samples_per_frame() * usize::from(self.channels())
    }

    pub(crate) fn told(&self, call: Call, length: usize) -> Refusal {
        Refusal::of(call, length).with(self.record.numbers[0], self.record.numbers[1], self.record.numbers[2])
    }

    /// 32-bit samples of a run, the channels in turn, into a slice of their number. Refused, by the first that is so:
    /// 4, 5, 13, 14, 6.
    pub fn convert_run(&self, run: Run<'_>, out: &mut [i32]) -> Result<Stats, Refusal> {
        converted!(self, ConvertRun, puigneht_convert_run_call, run, false, [out])
    }

    /// 32-bit samples of exactly one frame: another run is refused 4.
    pub fn convert_frame(&self, run: Run<'_>, out: &mut [i32]) -> Result<Stats, Refusal> {
        converted!(self, ConvertFrame, puigneht_convert_frame_call, run, false, [out])
    }

    /// Samples of a run, three bytes each, least first; and in `counts`, if it is lent, the clipped samples of each
    /// frame.
    /// Refused 4, 5, 13, 14, 7, 8.
    pub fn convert(&self, run: Run<'_>, out: &mut [u8], counts: Option<&mut [u64]>) -> Result<Stats, Refusal> {
        converted!(self, Convert, puigneht_convert_call, run, counts.is_some(), [out, counts.unwrap_or(&mut [])])
    }

    /// For the listening desk: [`convert`](Self::convert) of at most [`DESK_FRAMES`](crate::DESK_FRAMES) frames; more
    /// are refused 16, in the place of 5.
    pub fn desk(&self, run: Run<'_>, out: &mut [u8], counts: Option<&mut [u64]>) -> Result<Stats, Refusal> {
        converted!(self, ConvertDesk, puigneht_convert_desk_call, run, counts.is_some(), [out, counts.unwrap_or(&mut [])])
    }

    /// A run as a WAV file: [`convert`](Self::convert) with the plain header in front, so `out` has
    /// [`wav::HEADER`](crate::wav::HEADER) bytes more. Refused 12, after all else, for more than two channels or more
    /// than [`wav::MOST_DATA`](crate::wav::MOST_DATA) bytes.
    pub fn convert_wav(&self, run: Run<'_>, out: &mut [u8], counts: Option<&mut [u64]>) -> Result<Stats, Refusal> {
        converted!(self, WavConvert, puigneht_wav_convert_call, run, counts.is_some(), [out, counts.unwrap_or(&mut [])])
    }

    /// `count` frames from frame `first` on, out of frames that follow each other, with the frames next to them. Frames
    /// that are not there are left out; bytes past the last whole frame go into every run, which is then refused 4.
    pub fn cut<'a>(&self, frames: &'a [u8], first: usize, count: usize) -> Run<'a> {
        let size = self.frame_bytes();
        let all = frames.len() / size;
        let begin = first.min(all);
        let end = begin + count.min(all - begin);
        Run {
            before: (begin > 0).then(|| &frames[(begin - 1) * size..begin * size]),
            frames: &frames[begin * size..end * size + frames.len() % size],
            after: (end < all).then(|| &frames[end * size..(end + 1) * size]),
        }
    }

    /// The runs of `count` frames that some frames are cut into, each with its neighbours. However they are cut, the
    /// outputs end to end are those of one run: proved, as `CutRunsJoin` of crates/joins/specs/Joins.antt.
    ///
    /// ```
    /// use puigneht::{Converter, Run, Settings};
    /// let converter = Converter::open(Settings { channels: 1, ..Settings::default() })?;
    /// let frames = vec![0x96; 10 * converter.frame_bytes()];
    /// let (mut whole, mut joined) = (vec![0; converter.samples_of(10)], vec![0; converter.samples_of(10)]);
    /// converter.convert_run(Run::alone(&frames), &mut whole)?;
    /// for (run, out) in converter.runs(&frames, 3).zip(joined.chunks_mut(converter.samples_of(3))) {
    ///     converter.convert_run(run, out)?;
    /// }
    /// assert_eq!(joined, whole);
    /// # Ok::<(), puigneht::Refusal>(())
    /// ```
    ///
    /// # Panics
    ///
    /// Where `count` is 0.
    pub fn runs<'a>(&self, frames: &'a [u8], count: usize) -> impl Iterator<Item = Run<'a>> {
        let converter = *self;
        let all = frames.len().div_ceil(converter.frame_bytes());
        (0..all).step_by(count).map(move |first| converter.cut(frames, first, count))
    }
}

const _: () = assert!(FRAME_BYTES == 4704 && MOST_TAPS == 117);
