// The port beside the original: the same calls, and every answer and buffer compared. compare/run builds and runs it.
mod answers;
#[path = "../../answers/src/pattern.rs"]
mod pattern;

use answers::{Answer, Input, Settings, bits, original, port};
use pattern::{FRAME, HALVES, bytes};

// xorshift64*.
struct Random(u64);

impl Random {
    fn next(&mut self) -> u64 {
        self.0 ^= self.0 >> 12;
        self.0 ^= self.0 << 25;
        self.0 ^= self.0 >> 27;
        self.0.wrapping_mul(0x2545_F491_4F6C_DD1D)
    }

    fn below(&mut self, n: usize) -> usize {
        (self.next() % n as u64) as usize
    }

    fn one_in(&mut self, n: usize) -> bool {
        self.below(n) == 0
    }

    fn pick<T: Copy>(&mut self, all: &[T]) -> T {
        all[self.below(all.len())]
    }
}

#[derive(Clone, Copy, Debug, PartialEq)]
enum Kind {
    Run,
    Frame,
    Bytes,
    Desk,
}

impl Kind {
    fn packed(self) -> bool {
        self == Kind::Bytes || self == Kind::Desk
    }
}

// A call: `out` and `counts` are the lengths of what is lent.
#[derive(Clone)]
struct Case {
    settings: Settings,
    kind: Kind,
    before: Option<Vec<u8>>,
    frames: Vec<u8>,
    after: Option<Vec<u8>>,
    out: usize,
    counts: Option<usize>,
}

impl Case {
    fn input(&self) -> Input<'_> {
        Input { before: self.before.as_deref(), frames: &self.frames, after: self.after.as_deref() }
    }

    fn shape(&self) -> String {
        let length = |n: &Option<Vec<u8>>| n.as_ref().map(|b| b.len());
        format!(
            "{:?} {:?} before {:?} frames {} after {:?} out {} counts {:?}",
            self.settings, self.kind, length(&self.before), self.frames.len(), length(&self.after), self.out, self.counts
        )
    }
}

// What a call gave: its answer, and every buffer afterwards.
#[derive(Debug, PartialEq)]
struct Outcome {
    answer: Answer,
    items: Vec<i32>,
    bytes: Vec<u8>,
    counts: Vec<u64>,
}

fn lent(c: &Case) -> Outcome {
    let items = if c.kind.packed() { 0 } else { c.out };
    Outcome {
        answer: Answer::default(),
        items: (0..items).map(|k| k as i32 * 7919).collect(),
        bytes: (0..c.out - items).map(|k| (k * 31 + 5) as u8).collect(),
        counts: (0..c.counts.unwrap_or(0)).map(|k| k as u64 + 99).collect(),
    }
}

// The port's answer as the original has it: a wrong neighbour, 13 or 14, is its `InputLength`, one frame.
fn as_original(mut answer: Answer) -> Answer {
    if answer.number == 13 || answer.number == 14 {
        (answer.number, answer.data[1]) = (4, 1);
    }
    answer
}

fn by_port(c: &Case, gain: [f64; 2]) -> Outcome {
    let mut o = lent(c);
    let numbers = port::open(c.settings, gain).1;
    o.answer = as_original(match c.kind {
        Kind::Bytes | Kind::Desk => {
            port::convert(c.settings, gain, numbers, c.kind == Kind::Desk, &c.input(), &mut o.bytes, c.counts.map(|_| &mut o.counts[..]))
        }
        _ => port::convert_run(c.settings, gain, numbers, c.kind == Kind::Frame, &c.input(), &mut o.items),
    });
    o
}

// The listening desk is `convert` here, but that more than 8 whole frames are refused 16.
fn by_original(c: &Case, converter: &mut scarletbook_pcm::Converter) -> Outcome {
    let mut o = lent(c);
    let size = FRAME * usize::from(c.settings.channels);
    if c.kind == Kind::Desk && c.frames.len() % size == 0 && c.frames.len() / size > 8 {
        o.answer.number = 16;
        return o;
    }
    o.answer = match c.kind {
        Kind::Bytes | Kind::Desk => original::convert(converter, &c.input(), &mut o.bytes, c.counts.map(|_| &mut o.counts[..])),
        _ => original::convert_run(converter, c.kind == Kind::Frame, &c.input(), &mut o.items),
    };
    o
}

// What differs, in one line.
fn first<T: PartialEq + std::fmt::Debug>(what: &str, port: &[T], original: &[T]) -> Option<String> {
    let k = port.iter().zip(original).position(|(a, b)| a != b)?;
    Some(format!("{what} {k}: port {:?}, original {:?}", port[k], original[k]))
}

fn apart(port: &Outcome, original: &Outcome) -> Option<String> {
    if port.answer != original.answer {
        return Some(format!("port {:?}, original {:?}", port.answer, original.answer));
    }
    first("sample", &port.items, &original.items)
        .or_else(|| first("byte", &port.bytes, &original.bytes))
        .or_else(|| first("count", &port.counts, &original.counts))
}

// The gain call, opening and the conversion, on both sides.
fn difference(c: &Case) -> Option<String> {
    let (gain, theirs) = match (port::gain(c.settings.db), original::gain(c.settings.db)) {
        (Ok(p), Ok(o)) if bits(p[0]) == bits(o.db()) && bits(p[1]) == bits(o.linear()) => (p, o),
        (Err(p), Err(o)) if p == o => return None,
        (p, o) => return Some(format!("gain: port {p:?}, original {o:?}")),
    };
    let (opened, told) = port::open(c.settings, gain);
    let mut converter = match original::open(c.settings, theirs) {
        Ok(converter) => converter,
        // No converter there; here the conversion is refused as opening is, and keeps its buffers.
        Err(refused) => {
            let kept = Outcome { answer: refused.clone(), ..lent(c) };
            return (opened != refused)
                .then(|| format!("opening: port {opened:?}, original {refused:?}"))
                .or_else(|| apart(&by_port(c, gain), &kept));
        }
    };
    let size = FRAME * usize::from(c.settings.channels);
    if opened != Answer::default() || told != [converter.samples_per_frame(), converter.context_bytes(), size].map(|n| n as u64) {
        return Some(format!("opening: port {opened:?} {told:?}"));
    }
    apart(&by_port(c, gain), &by_original(c, &mut converter))
}

// A case with fewer frames, as long as it still differs.
fn smallest(c: &Case) -> Case {
    let size = FRAME * usize::from(c.settings.channels.clamp(1, 6));
    let per = c.out.checked_div(c.frames.len() / size).unwrap_or(0);
    for n in 1..c.frames.len() / size {
        for start in 0..=c.frames.len() / size - n {
            let part = Case { frames: c.frames[start * size..][..n * size].to_vec(), out: n * per, counts: c.counts.map(|_| n), ..c.clone() };
            if difference(&part).is_some() {
                return part;
            }
        }
    }
    c.clone()
}

#[derive(Default)]
struct Tally {
    calls: u64,
    accepted: u64,
    differing: u64,
}

impl Tally {
    fn call(&mut self, name: &str, c: &Case) {
        self.calls += 1;
        if let Some(what) = difference(c) {
            self.differing += 1;
            if self.differing <= 5 {
                let s = smallest(c);
                println!("DIFFERENCE {name}: {what}\n  {}\n  smallest: {}\n  {:?}", c.shape(), s.shape(), difference(&s));
                println!("  frames {:02x?}", &s.frames[..s.frames.len().min(64)]);
            }
        }
    }

    fn progress(&self, part: &str) {
        eprint!("\r{part}: {} calls, {} differing   ", self.calls, self.differing);
    }
}

fn per_frame(s: Settings) -> usize {
    [1176, 2352, 4704][s.rate]
}

fn right(settings: Settings, kind: Kind, before: Option<Vec<u8>>, frames: Vec<u8>, after: Option<Vec<u8>>, lent: bool) -> Case {
    let n = frames.len() / (FRAME * usize::from(settings.channels.max(1)));
    let items = n * per_frame(settings) * usize::from(settings.channels);
    let out = if kind.packed() { 3 * items } else { items };
    Case { settings, kind, before, frames, after, out, counts: (lent && kind.packed()).then_some(n) }
}

// Every length of each buffer from 0 to two frames and a byte, mono.
fn lengths(t: &mut Tally) {
    let settings = Settings { rate: 0, cutoff: 0, channels: 1, db: 3.0 };
    let long = bytes(2, 77, 1, 3);
    for n in 0..=2 * FRAME + 1 {
        let frame = || Some(long[..FRAME].to_vec());
        for kind in [Kind::Run, Kind::Frame, Kind::Bytes] {
            let base = right(settings, kind, frame(), long[..FRAME].to_vec(), frame(), true);
            t.call("length of before", &Case { before: Some(long[..n].to_vec()), ..base.clone() });
            t.call("length of frames", &Case { frames: long[..n].to_vec(), ..base.clone() });
            t.call("length of after", &Case { after: Some(long[..n].to_vec()), ..base.clone() });
            t.call("length of out", &Case { out: n, ..base.clone() });
            if kind == Kind::Bytes {
                t.call("length of counts", &Case { counts: Some(n), ..base });
            }
        }
        if n % 100 == 0 {
            t.progress("lengths");
        }
    }
}

// Decibels from all over: the ends, next to the clamp, whole ones, any in range, any bits.
fn decibels(r: &mut Random) -> f64 {
    let edges = [0.0, -0.0, 24.0, -120.0, 24.000000000000004, -120.00000000000001, -8e-7, -1e-7, 1e-9, 5e-324, f64::NAN, f64::INFINITY];
    match r.below(6) {
        0 => r.pick(&edges),
        1 => r.below(145) as f64 - 120.0,
        2 => f64::from_bits(r.next()),
        3 => -(r.below(1000) as f64) * 1e-8,
        _ => r.below(144_000_001) as f64 / 1e6 - 120.0,
    }
}

fn content(r: &mut Random, channels: usize, frames: usize) -> Vec<u8> {
    let (pattern, seed) = (r.below(5) as u64, r.next() >> 40);
    if pattern < 4 {
        return bytes(pattern, seed, channels, frames);
    }
    // Stretches of one value.
    let mut all = Vec::new();
    while all.len() < frames * FRAME * channels {
        let value = r.pick(&[0x69, 0xff, 0x00, 0x55, 0x96, 0xf0, 0x7f]);
        let n = 1 + r.below(2000);
        all.extend(std::iter::repeat_n(value, n));
    }
    all.truncate(frames * FRAME * channels);
    all
}

fn wrong(r: &mut Random, n: usize) -> usize {
    let any = r.below(2 * n + 2);
    r.pick(&[0, n.saturating_sub(1), n + 1, 2 * n, any])
}

fn random_case(r: &mut Random) -> Case {
    let channels = if r.one_in(20) { r.pick(&[0, 7, 255]) } else { 1 + r.below(6) as u8 };
    let db = if r.one_in(3) { decibels(r) } else { r.below(48) as f64 / 2.0 - 12.0 };
    let settings = Settings { rate: r.below(3), cutoff: r.below(3), channels, db };
    let ch = usize::from(channels.clamp(1, 6));
    let kind = r.pick(&[Kind::Run, Kind::Bytes, Kind::Desk, Kind::Frame]);
    let frames = if kind == Kind::Frame { 1 } else if r.one_in(10) { r.below(13) } else { r.below(4) };
    let mut neighbour = || (!r.one_in(3)).then(|| content(r, ch, 1));
    let (before, after) = (neighbour(), neighbour());
    let mut case = right(settings, kind, before, content(r, ch, frames), after, !r.one_in(3));
    if r.one_in(6) {
        match r.below(5) {
            0 => case.before = Some(content(r, ch, 3)[..wrong(r, FRAME * ch).min(3 * FRAME * ch)].to_vec()),
            1 => case.after = Some(content(r, ch, 3)[..wrong(r, FRAME * ch).min(3 * FRAME * ch)].to_vec()),
            2 => case.frames.truncate(r.below(case.frames.len() + 1)),
            3 => case.out = wrong(r, case.out),
            _ => case.counts = case.counts.map(|n| wrong(r, n)),
        }
    }
    case
}

// Frames in which some stage's sum is an exact half, and its rounding shows.
fn halves(t: &mut Tally) {
    for (route, seed) in HALVES {
        let settings = Settings { rate: route as usize % 3, cutoff: route as usize / 3, channels: 1, db: 18.0 };
        for kind in [Kind::Run, Kind::Frame, Kind::Bytes] {
            t.call("exact half", &right(settings, kind, None, bytes(0, seed, 1, 1), None, true));
        }
    }
}

// A run converted by the port in pieces, with junk outside the reach in their neighbours, beside the original's whole
// run.
fn cut(r: &mut Random, t: &mut Tally) {
    let settings = Settings { rate: r.below(3), cutoff: r.below(3), channels: 1 + r.below(6) as u8, db: r.below(36) as f64 - 12.0 };
    let ch = usize::from(settings.channels);
    let size = FRAME * ch;
    let n = 1 + r.below(20);
    let album = content(r, ch, n + 2);
    let (gain, theirs) = (port::gain(settings.db).unwrap(), original::gain(settings.db).unwrap());
    let Ok(mut converter) = original::open(settings, theirs) else { return };
    let reach = port::open(settings, gain).1[1] as usize * ch;
    let whole = right(settings, Kind::Bytes, Some(album[..size].to_vec()), album[size..][..n * size].to_vec(), Some(album[(n + 1) * size..].to_vec()), true);
    let expected = by_original(&whole, &mut converter);
    let mut joined = Outcome { answer: Answer::default(), items: vec![], bytes: vec![], counts: vec![] };
    let mut at = 0;
    while at < n {
        let m = r.below(n - at + 1).min(4);
        let mut junk = |frame: &[u8], keep: std::ops::Range<usize>| {
            let mut b = content(r, ch, 1);
            b[keep.clone()].copy_from_slice(&frame[keep]);
            Some(b)
        };
        let before = junk(&album[at * size..][..size], size - reach..size);
        let after = junk(&album[(at + m + 1) * size..][..size], 0..reach);
        let kind = r.pick(&[Kind::Bytes, Kind::Desk]);
        let piece = by_port(&right(settings, kind, before, album[(at + 1) * size..][..m * size].to_vec(), after, true), gain);
        joined.bytes.extend(&piece.bytes);
        joined.counts.extend(&piece.counts);
        for c in 0..6 {
            joined.answer.clipped[c] += piece.answer.clipped[c];
        }
        at += m;
        t.calls += 1;
    }
    if let Some(what) = apart(&joined, &expected) {
        t.differing += 1;
        println!("DIFFERENCE cut: {what}\n  {}", whole.shape());
    }
}

// `pack_s24le`, with any numbers and any lengths.
fn packing(r: &mut Random, t: &mut Tally) {
    let samples: Vec<i32> = (0..r.below(20)).map(|_| r.next() as i32).collect();
    let mut ours: Vec<u8> = (0..r.below(70)).map(|_| r.next() as u8).collect();
    let mut theirs = ours.clone();
    port::pack_s24le(&samples, &mut ours);
    scarletbook_pcm::pack_s24le(&samples, &mut theirs);
    t.calls += 1;
    if ours != theirs {
        t.differing += 1;
        println!("DIFFERENCE pack_s24le: {samples:?} {} bytes: port {ours:?}, original {theirs:?}", ours.len());
    }
}

// Arguments that are not understood, and null for an empty list: the interface's own, with no counterpart in the
// original.
fn interface(t: &mut Tally) {
    for which in 0..port::UNCLEAR {
        t.calls += 1;
        if !port::unclear(which) {
            t.differing += 1;
            println!("DIFFERENCE interface: argument {which} is not understood, and the answer is not 255 with nothing written");
        }
    }
    t.calls += 1;
    if !port::null_is_empty() {
        t.differing += 1;
        println!("DIFFERENCE interface: null with length 0");
    }
}

fn main() {
    let number = |k: usize, default: u64| std::env::args().nth(k).map_or(default, |a| a.parse().expect("a number"));
    let (seed, rounds) = (number(1, 1), number(2, 12_000));
    println!("seed {seed}, {rounds} random calls");
    let mut r = Random(seed * 0x9E37_79B9_7F4A_7C15 | 1);
    let mut parts: Vec<(&str, Tally)> = Vec::new();
    let mut part = |name: &'static str, work: &mut dyn FnMut(&mut Tally)| {
        let mut t = Tally::default();
        work(&mut t);
        t.progress(name);
        eprintln!();
        parts.push((name, t));
    };
    part("the interface", &mut |t| interface(t));
    part("every length", &mut |t| lengths(t));
    part("exact halves", &mut |t| halves(t));
    part("random calls", &mut |t| {
        for k in 0..rounds {
            let case = random_case(&mut r);
            t.call("random", &case);
            t.accepted += u64::from(matches!(port::gain(case.settings.db), Ok(g) if by_port(&case, g).answer.number == 0));
            if k % 100 == 0 {
                t.progress("random calls");
            }
        }
    });
    part("cut runs", &mut |t| (0..rounds / 20).for_each(|_| cut(&mut r, t)));
    part("packed samples", &mut |t| (0..rounds).for_each(|_| packing(&mut r, t)));
    let total: u64 = parts.iter().map(|p| p.1.calls).sum();
    for (name, t) in &parts {
        println!("{name}: {} calls, {} differing", t.calls, t.differing);
    }
    println!("random calls accepted: {}", parts[3].1.accepted);
    let differing: u64 = parts.iter().map(|p| p.1.differing).sum();
    println!("{total} calls compared, {differing} differing");
    std::process::exit(i32::from(differing > 0));
}
