//! Random calls with lists that end, or begin, at memory that nobody can touch: safe code makes no undefined behaviour.
//! What is refused leaves all that is lent as it was. 20,000 calls where this is compiled with optimization.

use crate::common::{chance, laid_out, numbers};
use puigneht::{
    dsf, overs, pack_s24le, turns, unpack_s24le, wav, Album, Converter, Cutoff, Format, Levels, Memory, Overs, Progress, Rate, Refusal, Run, Settings, Stats,
    Waiting,
};

extern "C" {
    fn mmap(addr: *mut u8, length: usize, prot: i32, flags: i32, fd: i32, offset: i64) -> *mut u8;
    fn mprotect(addr: *mut u8, length: usize, prot: i32) -> i32;
}

const PAGE: usize = 4096;
const ROOM: usize = 256 * PAGE;

// Room between two pages that cannot be touched.
struct Edged(*mut u8);

impl Edged {
    fn new() -> Self {
        // SAFETY: an anonymous private mapping (flags 0x22), whose inner pages are then readable and writable (3).
        unsafe {
            let at = mmap(std::ptr::null_mut(), ROOM + 2 * PAGE, 0, 0x22, -1, 0);
            assert!(at as isize != -1 && mprotect(at.add(PAGE), ROOM, 3) == 0);
            Edged(at.add(PAGE))
        }
    }

    // A list of `n` items at one of the edges.
    fn list<T: Copy>(&mut self, n: usize, is_at_end: bool, item: T) -> &mut [T] {
        let bytes = n * std::mem::size_of::<T>();
        assert!(bytes <= ROOM);
        // SAFETY: the bytes are within the room, aligned as their number is a multiple of T's size, and lent with
        // `self`.
        let list = unsafe { std::slice::from_raw_parts_mut(self.0.add(if is_at_end { ROOM - bytes } else { 0 }) as *mut T, n) };
        list.fill(item);
        list
    }

    fn bytes(&mut self, held: &[u8], is_at_end: bool) -> &mut [u8] {
        let list = self.list(held.len(), is_at_end, 0);
        list.copy_from_slice(held);
        list
    }
}

// One of these.
fn of<T: Copy>(some: &mut impl FnMut(usize) -> usize, all: &[T]) -> T {
    all[some(all.len())]
}

// A length that is right, or nearly.
fn near(some: &mut impl FnMut(usize) -> usize, right: usize) -> usize {
    match some(8) {
        0 => right + 1 + some(3),
        1 => right.saturating_sub(1 + some(3)),
        2 => some(200),
        _ => right,
    }
}

fn settings<'a>(some: &mut impl FnMut(usize) -> usize, taps: Option<&'a [i32]>) -> Settings<'a> {
    let decibels = of(some, &[0.0, 6.0, -120.0, 24.0, 24.1, -3.25, f64::NAN, f64::INFINITY]);
    Settings { rate: of(some, &Rate::ALL), cutoff: of(some, &Cutoff::ALL), channels: of(some, &[1, 2, 3, 6, 1, 2, 0, 7, 255]), decibels, taps }
}

// A DSF file, often with a byte that is wrong.
fn file(some: &mut impl FnMut(usize) -> usize) -> Vec<u8> {
    let (channels, length) = (1 + some(6), some(3 * 4704));
    let mut file = laid_out(&(0..channels).map(|c| chance(c as u32, length)).collect::<Vec<_>>(), of(some, &[1, 8]), some(4));
    if some(3) == 0 {
        let at = some(92);
        file[at] ^= 1 << some(8);
    }
    if some(8) == 0 {
        let n = some(file.len() + 1);
        file.truncate(n);
    }
    file
}

fn kept<T: PartialEq + Copy, R>(done: &Result<R, Refusal>, lists: &[(&[T], T)]) {
    if let Err(e) = done {
        assert!(lists.iter().all(|(list, item)| list.iter().all(|x| x == item)), "{e}");
        assert!((1..=20).contains(&e.number) && !e.to_string().is_empty());
    }
}

#[test]
fn calls() {
    let mut some = numbers(48);
    let mut rooms: [Edged; 5] = std::array::from_fn(|_| Edged::new());
    let (mut accepted, mut refused) = (0, 0);
    for _ in 0..if cfg!(debug_assertions) { 1_500 } else { 20_000 } {
        let some = &mut some;
        let [a, b, c, d, e] = &mut rooms;
        let is_at_end = some(3) > 0;
        let is_done = match some(12) {
            0..=3 => converted(some, [a, b, c, d, e], is_at_end),
            4 => opened(some),
            5 => files(some, [a, b, c], is_at_end),
            6 => written(some, [a, b, c], is_at_end),
            7 => albums(some, a, is_at_end),
            8 => packed(some, a, b, is_at_end),
            9 => reports(some, a, is_at_end),
            10 => wavs(some, a, b, is_at_end),
            _ => levels(some, [a, b, c], is_at_end),
        };
        if is_done { accepted += 1 } else { refused += 1 }
    }
    assert!(accepted > 200 && refused > 200, "{accepted} {refused}");
}

fn converter(some: &mut impl FnMut(usize) -> usize) -> Converter {
    loop {
        if let Ok(converter) = Converter::open(settings(some, None)) {
            return converter;
        }
    }
}

fn converted(some: &mut impl FnMut(usize) -> usize, [a, b, c, d, e]: [&mut Edged; 5], is_at_end: bool) -> bool {
    let conv = converter(some);
    let (frames, size) = (some(3), conv.frame_bytes());
    let run = Run {
        before: (some(2) > 0).then(|| &*a.list(near(some, size), is_at_end, 0x96)),
        frames: b.list(near(some, frames * size), is_at_end, 0xff),
        after: (some(2) > 0).then(|| &*c.list(near(some, size), is_at_end, 0x0f)),
    };
    let right = conv.samples_of(frames);
    if some(2) == 0 {
        let out = d.list(near(some, right), is_at_end, 7);
        let done = if some(4) == 0 { conv.convert_frame(run, out) } else { conv.convert_run(run, out) };
        kept(&done, &[(out, 7)]);
        return done.is_ok();
    }
    let which = some(3);
    let out = d.list(near(some, 3 * right + if which == 2 { 44 } else { 0 }), is_at_end, 7);
    let counts = e.list(near(some, frames), is_at_end, 9);
    let call = [Converter::convert, Converter::desk, Converter::convert_wav][which];
    let done = call(&conv, run, out, (some(2) > 0).then_some(&mut *counts));
    kept(&done, &[(out, 7)]);
    kept(&done, &[(counts, 9)]);
    done.is_ok()
}

fn opened(some: &mut impl FnMut(usize) -> usize) -> bool {
    let mut taps: Vec<i32> = (0..some(130)).map(|_| some(1 << 16) as i32 * of(some, &[1, -1, 30_000])).collect();
    if some(2) > 0 && !taps.is_empty() {
        taps.fill(0);
        taps[0] = 1 << 24;
    }
    let own = (some(2) > 0).then_some(&taps[..]);
    let opened = Converter::open(settings(some, own));
    kept::<u8, _>(&opened, &[]);
    let Ok(mut conv) = opened else { return false };
    let (held, wanted) = (conv, settings(some, None));
    let done = conv.change(wanted.rate, wanted.cutoff, wanted.decibels);
    assert!(done.is_ok() || conv == held);
    done.is_ok()
}

fn files(some: &mut impl FnMut(usize) -> usize, [a, b, c]: [&mut Edged; 3], is_at_end: bool) -> bool {
    let held = file(some);
    let whole = a.bytes(&held, is_at_end);
    let header = dsf::read(whole);
    let length = whole.len() as u64;
    dsf::give_up(whole);
    let head = &whole[..whole.len().min(near(some, 92))];
    dsf::give_up_header(head, near(some, whole.len()) as u64);
    let _ = dsf::read_header(head, length);
    let frame = some(4) as u64;
    let channels = header.map_or(1, |h| h.channels);
    let out = b.list(near(some, 4704 * channels as usize), is_at_end, 7);
    let done = dsf::frame(whole, frame, out);
    kept(&done, &[(out, 7)]);
    out.fill(7);
    let window = dsf::window(channels, header.map_or(some(60000) as u64, |h| h.samples), frame);
    let held = held.get(92 + window.start as usize..92 + window.end as usize).unwrap_or(&[]);
    let part = c.bytes(&held[..held.len().min(near(some, held.len()))], is_at_end);
    let done = dsf::window_frame(head, length, frame, part, of(some, &[window.start, 0, 1, u64::MAX]), out);
    kept(&done, &[(out, 7)]);
    dsf::window(some(8) as u64, u64::MAX - some(9) as u64, u64::MAX / 2);
    done.is_ok()
}

fn written(some: &mut impl FnMut(usize) -> usize, [a, b, _]: [&mut Edged; 3], is_at_end: bool) -> bool {
    let channels = of(some, &[1, 2, 3, 4, 5, 6, 0, 7, 255]);
    let size = 4704 * usize::from(channels) * some(3);
    let frames = a.list(near(some, size).min(80_000), is_at_end, 0x5a);
    let length = dsf::file_length(channels, frames.len());
    let _ = dsf::head(channels, frames.len());
    let is_whole = some(2) > 0;
    let right = length.unwrap_or(200) - if is_whole { 0 } else { 92 };
    let out = b.list(near(some, right), is_at_end, 7);
    let done = if is_whole { dsf::write(channels, frames, out) } else { dsf::lay_out(channels, frames, out) };
    kept(&done, &[(out, 7)]);
    done.is_ok()
}

fn albums(some: &mut impl FnMut(usize) -> usize, a: &mut Edged, is_at_end: bool) -> bool {
    let held: Vec<Vec<u8>> = (0..some(3)).map(|_| file(some)).collect();
    let mut tracks: Vec<&[u8]> = held.iter().map(Vec::as_slice).collect();
    if let (1, Some(&first)) = (some(2), tracks.first()) {
        tracks.push(first);
    }
    let Ok(album) = Album::open(tracks, settings(some, None)) else { return false };
    let mut memory = Memory::default();
    let number = some(2) as u64;
    let wave = album.wave(of(some, &[None, Some(0), Some(1), Some(usize::MAX)]), of(some, &[Format::Auto, Format::Wav, Format::Rf64]));
    album.part(some(70) as u64, some(70) as u64);
    if let Ok(run) = album.run(number, &mut memory) {
        assert!(run.frames.len() % album.converter().frame_bytes() == 0);
    }
    let Ok(plan) = album.plan(number) else { return false };
    let out = a.list(near(some, plan.length), is_at_end, 7);
    let done = album.convert(&plan, &mut memory, out).map_err(|e| e.refusal().unwrap());
    kept(&done, &[(out, 7)]);
    if let Ok(wave) = wave {
        let write = album.write(&wave, &plan);
        assert!(write.bytes.end <= plan.length && write.place + write.bytes.len() as u64 <= wave.length());
    }
    done.is_ok()
}

fn packed(some: &mut impl FnMut(usize) -> usize, a: &mut Edged, b: &mut Edged, is_at_end: bool) -> bool {
    let samples = a.list(some(50), is_at_end, 0);
    samples.fill_with(|| of(some, &[0, 8_388_607, -8_388_608, i32::MIN, i32::MAX, 5]));
    let bytes = b.list(near(some, 3 * samples.len()), is_at_end, 9);
    pack_s24le(samples, bytes);
    assert!(unpack_s24le(bytes).zip(&*samples).all(|(x, y)| x == *y << 8 >> 8));
    let before = Progress { length: of(some, &[0, 2, u64::MAX]), ..Progress::default() };
    let (count, after) = overs(samples, of(some, &[0, 1, 2, 7, usize::MAX]), some(3), before);
    assert!(count <= samples.len() as u64 && after.length <= 3);
    let whole = samples.len() / 3 * 3;
    Overs::new(3).count(&samples[..whole]);
    true
}

fn reports(some: &mut impl FnMut(usize) -> usize, _: &mut Edged, _: bool) -> bool {
    let mut random = || of(some, &[0, 1, 5, u64::MAX, 1 << 63, 99_999_999_999_999, 100_000_000_000_000]);
    let mut stats: [Stats; 2] = std::array::from_fn(|_| Stats {
        clipped: std::array::from_fn(|_| random()),
        lowest: std::array::from_fn(|_| random() as i64),
        highest: std::array::from_fn(|_| random() as i64),
        empty: std::array::from_fn(|_| random() > 4),
    });
    let refusal = {
        let mut r = Refusal::default();
        (r.number, r.track, r.data) = (random() as u8, random() as u8, [random(), random()]);
        (r.field, r.decibels) = ([random(), random(), random()], f64::from_bits(random()));
        r
    };
    assert!(refusal.to_string().len() < 256);
    let more = stats[1];
    stats[0].join(&more);
    stats[0].turn_down();
    let board: Vec<_> = (0..some(10)).map(|_| Waiting { frames: some(60000) as u64, due: some(2000) as u64 }).collect();
    let told = turns(&board, some(60000) as u64);
    kept::<u8, _>(&told, &[]);
    let sheet = stats[0].sheet(of(some, &[1, 2, 6, 0, 7, 255]));
    kept::<u8, _>(&sheet, &[]);
    sheet.is_ok()
}

fn wavs(some: &mut impl FnMut(usize) -> usize, a: &mut Edged, b: &mut Edged, is_at_end: bool) -> bool {
    let (rate, channels) = (of(some, &Rate::ALL), of(some, &[1, 2, 1, 2, 3, 0, 255]));
    let size = usize::from(channels) * rate as usize / 25 * some(3);
    let bytes = a.list(near(some, size).min(100_000), is_at_end, 0x33);
    let out = b.list(near(some, bytes.len() + 44), is_at_end, 7);
    let done = wav::write(rate, channels, bytes, out);
    kept(&done, &[(out, 7)]);
    let _ = wav::header(rate, channels, bytes.len());
    if !out.is_empty() && some(2) == 0 {
        let at = some(out.len().min(50));
        out[at] ^= 1 << some(8);
    }
    let read = wav::read(out);
    kept::<u8, _>(&read, &[]);
    read.is_ok()
}

fn levels(some: &mut impl FnMut(usize) -> usize, [a, b, c]: [&mut Edged; 3], is_at_end: bool) -> bool {
    let (mut levels, conv) = (Levels::at(of(some, &[0, 5, u64::MAX - 5])), converter(some));
    let size = conv.frame_bytes();
    let mut is_done = true;
    for _ in 0..2 {
        let run = Run {
            before: (some(2) > 0).then(|| &*a.list(near(some, size), is_at_end, 0xff)),
            frames: b.list(near(some, size), is_at_end, 0xff),
            after: (some(2) > 0).then(|| &*c.list(near(some, size), is_at_end, 0xff)),
        };
        let told = levels.frame(&conv, run);
        kept::<u8, _>(&told, &[]);
        assert!(told.as_ref().map_or(true, |lines| lines.lines().count() == usize::from(conv.channels())));
        is_done &= told.is_ok();
        levels.last_line();
    }
    is_done
}
