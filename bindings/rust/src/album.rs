//! DSF albums as WAV files and as samples.

use crate::calls::{self, Files};
use crate::refusal::{Call, NOT_UNDERSTOOD, READ_FAILED};
use crate::{made, Converter, Rate, Refusal, Run, Settings, Source, Stats, Unknown, FRAME_BYTES};
use std::fs::{self, File};
use std::num::NonZeroUsize;
use std::ops::Range;
use std::path::{Path, PathBuf};
use std::{fmt, io, str::FromStr, sync::mpsc, thread};

/// Tracks of an album.
pub const MOST_TRACKS: usize = 99;

const HEAD: usize = 92;
const MOST_JOBS: usize = 64;

/// What can go wrong with an album. Printed, also by a `main` that ends with it, it is a sentence.
pub enum Error {
    /// It is refused.
    Refused(Refusal),
    /// A track cannot be read: refusal 254, which tells the track, and the system's words.
    Read(Refusal, io::Error),
    /// A file cannot be opened, made or written.
    Io(io::Error),
}

impl fmt::Display for Error {
    fn fmt(&self, f: &mut fmt::Formatter<'_>) -> fmt::Result {
        match self {
            Error::Refused(r) => r.fmt(f),
            Error::Read(r, e) => write!(f, "{r}: {e}"),
            Error::Io(e) => e.fmt(f),
        }
    }
}

impl fmt::Debug for Error {
    fn fmt(&self, f: &mut fmt::Formatter<'_>) -> fmt::Result {
        fmt::Display::fmt(self, f)
    }
}

impl std::error::Error for Error {
    fn source(&self) -> Option<&(dyn std::error::Error + 'static)> {
        match self {
            Error::Refused(r) => Some(r),
            Error::Read(_, e) | Error::Io(e) => Some(e),
        }
    }
}

impl Error {
    /// Its refusal, if it has one.
    pub fn refusal(&self) -> Option<Refusal> {
        match self {
            Error::Refused(r) | Error::Read(r, _) => Some(*r),
            Error::Io(_) => None,
        }
    }
}

impl From<Refusal> for Error {
    fn from(r: Refusal) -> Self {
        Error::Refused(r)
    }
}

impl From<io::Error> for Error {
    fn from(e: io::Error) -> Self {
        Error::Io(e)
    }
}

/// Which header a WAV file has.
#[derive(Clone, Copy, Debug, Default, PartialEq, Eq)]
pub enum Format {
    /// The plain one where it can tell the file, else the one that names loudspeakers, else RF64.
    #[default]
    Auto,
    /// The plain one, or refused 12.
    Wav,
    /// For files past 4 GB.
    Rf64,
}

impl FromStr for Format {
    type Err = Unknown;

    fn from_str(word: &str) -> Result<Self, Unknown> {
        match word {
            "auto" => Ok(Format::Auto),
            "wav" => Ok(Format::Wav),
            "rf64" => Ok(Format::Rf64),
            _ => Err(Unknown::new(word, "auto, wav, rf64")),
        }
    }
}

/// How files are written.
#[derive(Clone, Copy, Debug, Default, PartialEq, Eq)]
pub struct Output {
    /// Which header they have.
    pub format: Format,
    /// Threads, at most 64; 0: as many as there are processors.
    pub jobs: usize,
    /// Whether a file that is there is replaced.
    pub replace: bool,
}

/// The WAV file of a track, or of all: `head` in front, `data` bytes of samples, `pad` zero bytes (0 or 1) behind them.
#[derive(Clone, Debug, PartialEq, Eq)]
pub struct Wave {
    /// From 0; `None`: all.
    pub track: Option<usize>,
    /// The header.
    pub head: Vec<u8>,
    /// Bytes of samples.
    pub data: u64,
    /// Zero bytes behind them.
    pub pad: u64,
}

impl Wave {
    /// Bytes of the file.
    pub fn length(&self) -> u64 {
        self.head.len() as u64 + self.data + self.pad
    }
}

/// A piece as it is planned: its frames, and where its packed samples stand in the album's.
#[derive(Clone, Debug, PartialEq, Eq)]
pub struct Plan {
    /// From 0.
    pub number: u64,
    /// Its frames.
    pub frames: Range<u64>,
    /// Where its samples stand in the album's, in bytes.
    pub place: u64,
    /// Bytes of its samples.
    pub length: usize,
    scratch: usize,
    window: usize,
    reads: Vec<u64>,
}

/// A piece: its packed samples, and what they tell.
#[derive(Clone, Debug, PartialEq, Eq)]
pub struct Piece {
    /// Its frames and its place.
    pub plan: Plan,
    /// Its samples, three bytes each.
    pub bytes: Vec<u8>,
    /// What they tell.
    pub stats: Stats,
}

/// What of a piece goes to a file: `bytes` of the piece's stand from byte `place` of the file on, its header counted.
#[derive(Clone, Debug, PartialEq, Eq)]
pub struct Write {
    /// Empty where the file has nothing of the piece.
    pub bytes: Range<usize>,
    /// In the file.
    pub place: u64,
}

/// What pieces are worked out in, one for each thread; it grows as a piece needs.
#[derive(Clone, Debug, Default)]
pub struct Memory {
    windows: Vec<u8>,
    scratch: Vec<u8>,
}

/// A DSF file, or an album of 1 to 99 tracks, one file each, converted as one run: so no border is heard. Threads may
/// share it.
///
/// ```no_run
/// use puigneht::{Album, Output, Rate, Settings};
/// let album = Album::open_files(["01.dsf", "02.dsf"], Settings { rate: Rate::Hz176400, ..Settings::default() })?;
/// let names = ["01.wav", "02.wav"];
/// let stats = album.write_tracks(&names, Output::default(), |done, all| eprint!("\r{} %", 100 * done / all))?;
/// print!("{}", stats.sheet(album.channels())?);
/// # Ok::<(), puigneht::Error>(())
/// ```
///
/// What is refused says why:
///
/// ```
/// use puigneht::{Album, Settings};
/// let refused = Album::open(vec![&b"RIFF"[..]], Settings::default()).err().unwrap();
/// let why = "not a DSF file as Sony's document lays it out: it has 4 bytes, and a header has 92";
/// assert_eq!(refused.to_string(), format!("refused 9: {why}"));
/// ```
pub struct Album<S = File> {
    sources: Vec<S>,
    files: Files,
    converter: Converter,
    // Channels, channel type, bytes of each channel, frames, bytes of samples, bytes of a frame's samples, filled,
    // pieces.
    numbers: [u64; 8],
    marks: Vec<u64>,
}

impl<S> fmt::Debug for Album<S> {
    fn fmt(&self, f: &mut fmt::Formatter<'_>) -> fmt::Result {
        f.debug_struct("Album").field("tracks", &self.tracks()).field("channels", &self.channels()).field("frames", &self.frames()).finish_non_exhaustive()
    }
}

impl Album<File> {
    /// Opens the files of some tracks, in their order, as [`Album::open`].
    pub fn open_files<P: AsRef<Path>>(paths: impl IntoIterator<Item = P>, settings: Settings<'_>) -> Result<Self, Error> {
        let open = |path: P| File::open(&path).map_err(|e| io::Error::new(e.kind(), format!("{}: {e}", path.as_ref().display())));
        Album::open(paths.into_iter().map(open).collect::<io::Result<Vec<_>>>()?, settings)
    }

    /// Opens an album that is one file.
    pub fn open_file(path: impl AsRef<Path>, settings: Settings<'_>) -> Result<Self, Error> {
        Album::open_files([path], settings)
    }
}

impl<S: Source> Album<S> {
    /// Opens an album of 1 to 99 tracks; not understood (255) for others. Refused, by the first track of which it is
    /// so: 9, 10, 11 for its file, 9 too for another channel type than the first's; of the first then 2, 3, 17, 18 for
    /// the settings; of any 5 where all up to it are longer than two hours.
    pub fn open(sources: Vec<S>, settings: Settings<'_>) -> Result<Self, Error> {
        let r = Refusal::of(Call::AlbumOpen, sources.len()).with(settings.rate as u64, settings.cutoff as u64, 0);
        let mut record = settings.record();
        record.numbers[2] = 0;
        // Without a factor where it is refused: that is told in its turn.
        let _ = calls::puigneht_gain_call(settings.decibels, &mut record.gain, &mut 0.0);
        if sources.len() > MOST_TRACKS {
            return Err(r.result(NOT_UNDERSTOOD, ()).unwrap_err().into());
        }
        let files = Files { heads: vec![0; HEAD * sources.len()], lengths: vec![0; sources.len()] };
        let marks = vec![0; sources.len() + 1];
        let mut album = Album { sources, files, converter: Converter { record }, numbers: [0; 8], marks };
        album.read_heads(r)?;
        album.open_read(r)?;
        Ok(album)
    }

    fn read_heads(&mut self, r: Refusal) -> Result<(), Error> {
        for (k, head) in self.files.heads.chunks_mut(HEAD).enumerate() {
            let read = self.sources[k].length().and_then(|length| {
                self.files.lengths[k] = length;
                self.sources[k].read_at(0, &mut head[..length.min(HEAD as u64) as usize])
            });
            read.map_err(|e| Error::Read(r.of_track(k, READ_FAILED, [&[], &[]], self.files.lengths[k]), e))?;
        }
        Ok(())
    }

    fn open_read(&mut self, mut r: Refusal) -> Result<(), Refusal> {
        let (c, mut track) = (&mut self.converter.record, 0);
        let answer = calls::puigneht_album_open_call(c, &self.files, &mut self.numbers, &mut self.marks, &mut track, &mut r);
        match answer {
            0 => {}
            NOT_UNDERSTOOD => return r.result(answer, ()),
            _ => {
                let (k, heads) = (track as usize, &self.files.heads);
                return Err(r.of_track(k, answer, [&heads[HEAD * k..HEAD * (k + 1)], &heads[..HEAD]], self.files.lengths[k]));
            }
        }
        c.numbers[2] = self.numbers[0];
        let answer = calls::puigneht_open_call(&mut c.numbers, &c.gain, &c.taps, &mut r);
        r.result(answer, ())
    }

    /// A piece (from 0) as it is planned; nothing is read. Refused 5 where there is no such piece.
    pub fn plan(&self, number: u64) -> Result<Plan, Refusal> {
        let (mut plan, mut reads) = ([0; 6], vec![0; 2 * self.tracks()]);
        let answer = calls::puigneht_album_piece_call(&self.converter.record, &self.files, number, &mut plan, &mut reads);
        let mut r = self.converter.told(Call::AlbumPiece, 0);
        r.result(answer, ())?;
        let [first, count, place, bytes, scratch, window] = plan;
        r.data[0] = number;
        let sizes = [bytes, scratch, window].map(|n| n as usize);
        let plan = Plan { number, frames: first..first + count, place, length: sizes[0], scratch: sizes[1], window: sizes[2], reads };
        r.result(if count == 0 { 5 } else { 0 }, plan)
    }

    // Reads what a piece needs.
    fn read(&self, plan: &Plan, call: Call, memory: &mut Memory) -> Result<(), Error> {
        memory.windows.resize(plan.window, 0);
        memory.scratch.resize(plan.scratch, 0);
        let mut rest = &mut memory.windows[..];
        for (k, read) in plan.reads.chunks(2).enumerate() {
            let (window, more) = rest.split_at_mut(read[1] as usize);
            if !window.is_empty() {
                let refusal = || self.converter.told(call, 0).of_track(k, READ_FAILED, [&[], &[]], self.files.lengths[k]);
                self.sources[k].read_at(HEAD as u64 + read[0], window).map_err(|e| Error::Read(refusal(), e))?;
            }
            rest = more;
        }
        Ok(())
    }

    /// Converts a piece into `out`, which has the length of its plan: what it needs is read, the frames next to it too.
    /// Refused 7 for another length; an [`Error::Read`] where a track cannot be read.
    pub fn convert(&self, plan: &Plan, memory: &mut Memory, out: &mut [u8]) -> Result<Stats, Error> {
        let plan = &self.plan(plan.number)?; // another album's would not do
        self.read(plan, Call::AlbumPiece, memory)?;
        let (mut stats, mut r) = ([0; 24], self.converter.told(Call::AlbumPiece, out.len()));
        let answer = calls::puigneht_album_step_call(
            &self.converter.record, &self.files, plan.frames.start, plan.frames.end - plan.frames.start, &memory.windows, &mut memory.scratch, out,
            &mut stats, &mut r,
        );
        Ok(r.result(answer, Stats::of(stats))?)
    }

    /// A piece (from 0), converted. Refused 5 where there is no such piece.
    pub fn piece(&self, number: u64) -> Result<Piece, Error> {
        let plan = self.plan(number)?;
        let mut bytes = vec![0; plan.length];
        let stats = self.convert(&plan, &mut Memory::default(), &mut bytes)?;
        Ok(Piece { plan, bytes, stats })
    }

    /// All pieces in order: their bytes end to end are the album's samples, and their statistics joined are the
    /// album's.
    ///
    /// ```
    /// # use puigneht::{dsf, Album, Settings, Stats, FRAME_BYTES};
    /// # let mut file = vec![0; dsf::file_length(1, 200 * FRAME_BYTES)?];
    /// # dsf::write(1, &[0x96; 200 * FRAME_BYTES], &mut file)?;
    /// let album = Album::open(vec![&file[..]], Settings::default())?;
    /// let (mut bytes, mut stats) = (vec![], Stats::default());
    /// for piece in album.pieces() {
    ///     let piece = piece?;
    ///     bytes.extend(piece.bytes);
    ///     stats.join(&piece.stats);
    /// }
    /// assert_eq!(bytes.len() as u64, album.data_bytes());
    /// # Ok::<(), puigneht::Error>(())
    /// ```
    pub fn pieces(&self) -> impl Iterator<Item = Result<Piece, Error>> + '_ {
        (0..self.number_of_pieces()).map(|number| self.piece(number))
    }

    /// The frames of a piece with their neighbours, not converted, as a run of [`converter`](Album::converter); the
    /// album's last frame is filled up with 0x69.
    pub fn run<'m>(&self, number: u64, memory: &'m mut Memory) -> Result<Run<'m>, Error> {
        let plan = self.plan(number)?;
        self.read(&plan, Call::AlbumFrames, memory)?;
        let mut r = self.converter.told(Call::AlbumFrames, 0);
        let count = plan.frames.end - plan.frames.start;
        let answer =
            calls::puigneht_album_frames_call(&self.converter.record, &self.files, plan.frames.start, count, &memory.windows, &mut memory.scratch, &mut r);
        r.result(answer, ())?;
        Ok(self.converter.cut(&memory.scratch, usize::from(plan.frames.start > 0), count as usize))
    }
}

/// What it is.
impl<S> Album<S> {
    /// An open converter of its channels.
    pub fn converter(&self) -> &Converter {
        &self.converter
    }

    /// Of its samples.
    pub fn rate(&self) -> Rate {
        self.converter.rate()
    }

    /// 1 to 6.
    pub fn channels(&self) -> u8 {
        self.numbers[0] as u8
    }

    /// Sony's, 1 to 7.
    pub fn channel_type(&self) -> u64 {
        self.numbers[1]
    }

    /// Of 1/75 s; the last may be filled up.
    pub fn frames(&self) -> u64 {
        self.numbers[3]
    }

    /// Of all its packed samples.
    pub fn data_bytes(&self) -> u64 {
        self.numbers[4]
    }

    /// Bytes of each channel that are filled up with 0x69 in the last frame.
    pub fn filled(&self) -> u64 {
        self.numbers[6]
    }

    /// Of 128 frames, the last of as many as are left.
    pub fn number_of_pieces(&self) -> u64 {
        self.numbers[7]
    }

    /// How many there are.
    pub fn tracks(&self) -> usize {
        self.sources.len()
    }

    /// The samples of each channel that are a track's (from 0); behind the last track's stand those of the fill.
    ///
    /// # Panics
    ///
    /// Where there is no such track.
    pub fn track(&self, track: usize) -> Range<u64> {
        let size = 3 * self.numbers[0];
        self.marks[track] / size..self.marks[track + 1] / size
    }

    /// The pieces of part `part` (from 0) of `parts` (1 to 64); none where there is no such part.
    pub fn part(&self, parts: u64, part: u64) -> Range<u64> {
        let mut pieces = [0; 2];
        calls::puigneht_album_part_call(self.frames(), parts, part, &mut pieces);
        pieces[0]..pieces[1]
    }

    /// The WAV file of a track (from 0), or of all of them with the fill of the last frame. Refused 5 where there is no
    /// such track; 12 where [`Format::Wav`] cannot tell the file.
    pub fn wave(&self, track: Option<usize>, format: Format) -> Result<Wave, Refusal> {
        let mut r = self.converter.told(Call::AlbumHeader, 0);
        let (begin, end) = match track {
            None => (0, self.data_bytes()),
            Some(k) if k < self.tracks() => (self.marks[k], self.marks[k + 1]),
            Some(k) => {
                r.data[0] = k as u64;
                return Err(r.result(5, ()).unwrap_err());
            }
        };
        let (data, mut head, mut told) = (end - begin, [0; 104], [0; 2]);
        r = self.converter.told(Call::AlbumHeader, data as usize);
        (r.track, r.data) = (track.unwrap_or(0) as u8, [self.numbers[0], data]);
        let answer = calls::puigneht_wave_header_call(format as u64, self.rate() as u64, self.numbers[0], self.numbers[1], data, &mut head, &mut told);
        r.result(answer, Wave { track, head: head[..told[0] as usize].to_vec(), data, pad: told[1] })
    }

    /// What of a piece goes to a file.
    pub fn write(&self, wave: &Wave, plan: &Plan) -> Write {
        let (all, mut told) = ([0, wave.data], [0; 3]);
        let marks = wave.track.and_then(|k| self.marks.get(k..k.checked_add(2)?)).unwrap_or(&all);
        calls::puigneht_album_writes_call(marks, plan.place, plan.length as u64, &mut told);
        Write { bytes: told[0] as usize..told[1] as usize, place: wave.head.len() as u64 + told[2] }
    }
}

/// All of it, by some threads.
impl<S: Source + Sync> Album<S> {
    /// Converts the album into its packed samples, `out`, by `jobs` threads (0: as many as there are processors), and
    /// gives what they tell. Each thread has the pieces of one [`part`](Album::part), and for them a slice of `out`
    /// that no other has. After each piece `progress` is called, on the caller's thread, with the pieces done and all.
    /// Refused 7 where `out` has not the length [`data_bytes`](Album::data_bytes).
    ///
    /// Bytes and statistics are the same for any number of threads, and those of one conversion of the whole album.
    /// That is proved, as `PlanToFiles` of crates/tracks_to_files/specs/PlanToFiles.antt: whoever makes the calls that
    /// the plan tells, for parts of any number from 1 to 64, in whatever order, has each track's samples, and the
    /// album's, without a hole.
    ///
    /// ```
    /// # use puigneht::{dsf, Album, Settings, FRAME_BYTES};
    /// # let mut file = vec![0; dsf::file_length(1, 300 * FRAME_BYTES)?];
    /// # dsf::write(1, &[0x96; 300 * FRAME_BYTES], &mut file)?;
    /// let album = Album::open(vec![&file[..]], Settings::default())?;
    /// let [mut one, mut four] = [(); 2].map(|()| vec![0; album.data_bytes() as usize]);
    /// let stats = album.convert_parallel(1, &mut one, |_, _| ())?;
    /// assert_eq!(album.convert_parallel(4, &mut four, |_, _| ())?, stats);
    /// assert_eq!(one, four);
    /// # Ok::<(), puigneht::Error>(())
    /// ```
    pub fn convert_parallel(&self, jobs: usize, out: &mut [u8], progress: impl FnMut(u64, u64)) -> Result<Stats, Error> {
        let (mut r, needed) = (self.converter.told(Call::AlbumPiece, out.len()), self.data_bytes());
        r.data = [out.len() as u64, needed];
        r.result(if out.len() as u64 == needed { 0 } else { 7 }, ())?;
        let (mut rest, mut slices) = (out, vec![]);
        for part in self.parts(jobs) {
            let length = part.clone().try_fold(0, |sum, number| Ok::<_, Refusal>(sum + self.plan(number)?.length))?;
            let (slice, more) = std::mem::take(&mut rest).split_at_mut(length);
            slices.push((part, slice));
            rest = more;
        }
        let work = |slice: &mut &mut [u8], plan: &Plan, memory: &mut Memory| {
            let (out, more) = std::mem::take(slice).split_at_mut(plan.length);
            *slice = more;
            self.convert(plan, memory, out)
        };
        self.each(slices, work, progress)
    }

    // The parts of so many threads that have pieces.
    fn parts(&self, jobs: usize) -> Vec<Range<u64>> {
        let wanted = if jobs == 0 { thread::available_parallelism().map_or(1, NonZeroUsize::get) } else { jobs };
        let jobs = wanted.min(MOST_JOBS) as u64;
        (0..jobs).map(|part| self.part(jobs, part)).filter(|part| !part.is_empty()).collect()
    }

    // Does the pieces of each part by a thread of its own, which has what stands with the part. The first failure ends
    // all.
    fn each<T: Send>(
        &self, parts: Vec<(Range<u64>, T)>, work: impl Fn(&mut T, &Plan, &mut Memory) -> Result<Stats, Error> + Sync, mut progress: impl FnMut(u64, u64),
    ) -> Result<Stats, Error> {
        let (sender, receiver) = mpsc::channel();
        let work = &work;
        thread::scope(|scope| {
            for (part, mut own) in parts {
                let sender = sender.clone();
                scope.spawn(move || {
                    let mut memory = Memory::default();
                    for number in part {
                        let done = self.plan(number).map_err(Error::from).and_then(|plan| work(&mut own, &plan, &mut memory));
                        let is_last = done.is_err();
                        if sender.send(done).is_err() || is_last {
                            return; // nobody listens any more where another has failed
                        }
                    }
                });
            }
            drop(sender);
            let (mut stats, mut done) = (Stats::default(), 0);
            for told in receiver {
                stats.join(&told?);
                done += 1;
                progress(done, self.number_of_pieces());
            }
            Ok(stats)
        })
    }

    /// One WAV file of all, whole or not at all: it takes its name when it is complete and on the disk. Gives what its
    /// samples tell. `progress` is called as by [`convert_parallel`](Album::convert_parallel).
    pub fn write_wav(&self, path: impl AsRef<Path>, output: Output, progress: impl FnMut(u64, u64)) -> Result<Stats, Error> {
        self.write_files(&[path.as_ref()], &[self.wave(None, output.format)?], output, progress)
    }

    /// A WAV file a track, all of them whole or none that is new, and what the album's samples tell. Not as many names
    /// as tracks are an [`Error::Io`], as is a name that is a track's, or that two files are to have.
    pub fn write_tracks<P: AsRef<Path>>(&self, paths: &[P], output: Output, progress: impl FnMut(u64, u64)) -> Result<Stats, Error> {
        if paths.len() != self.tracks() {
            return Err(io::Error::new(io::ErrorKind::InvalidInput, format!("{} names for {} tracks", paths.len(), self.tracks())).into());
        }
        let waves = (0..self.tracks()).map(|k| self.wave(Some(k), output.format)).collect::<Result<Vec<_>, _>>()?;
        self.write_files(&paths.iter().map(AsRef::as_ref).collect::<Vec<_>>(), &waves, output, progress)
    }

    fn write_files(&self, paths: &[&Path], waves: &[Wave], output: Output, progress: impl FnMut(u64, u64)) -> Result<Stats, Error> {
        self.apart(paths)?;
        let files = paths.iter().map(|path| made::Made::new(path, output.replace)).collect::<io::Result<Vec<_>>>()?;
        for (made, wave) in files.iter().zip(waves) {
            made.write(&wave.head, 0)?;
            made.write(&[0][..wave.pad as usize], wave.length() - wave.pad)?;
        }
        let work = |out: &mut Vec<u8>, plan: &Plan, memory: &mut Memory| {
            out.resize(plan.length, 0);
            let stats = self.convert(plan, memory, out)?;
            for (made, wave) in files.iter().zip(waves) {
                let Write { bytes, place } = self.write(wave, plan);
                made.write(&out[bytes], place)?;
            }
            Ok(stats)
        };
        let stats = self.each(self.parts(output.jobs).into_iter().map(|part| (part, vec![])).collect(), work, progress)?;
        made::name_all(&files)?;
        Ok(stats)
    }

    // Names that are two files', and none that is a track's.
    fn apart(&self, paths: &[&Path]) -> io::Result<()> {
        let wrong = |text: String| Err(io::Error::new(io::ErrorKind::InvalidInput, text));
        let mut names: Vec<PathBuf> = vec![];
        for path in paths {
            if self.sources.iter().any(|source| source.is_at(path)) {
                return wrong(format!("{} is a track of the album", path.display()));
            }
            let folder = path.parent().filter(|folder| !folder.as_os_str().is_empty()).unwrap_or(Path::new("."));
            let name = fs::canonicalize(folder).unwrap_or(folder.into()).join(path.file_name().unwrap_or_default());
            if names.contains(&name) {
                return wrong(format!("{}: two files are to have one name", path.display()));
            }
            names.push(name);
        }
        Ok(())
    }
}

const _: () = assert!(FRAME_BYTES * 8 * 75 == 2_822_400);
