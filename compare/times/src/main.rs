// Port and original timed in one process on the same frames, in turns: the original as it detects the machine, and its
// scalar path (a copy in which `Isa::detect` gives the generic one). compare/bench builds and runs it.
#[path = "../../calls/src/answers.rs"]
#[allow(dead_code)]
mod answers;
#[path = "../../answers/src/pattern.rs"]
#[allow(dead_code)]
mod pattern;

use answers::{Input, RATES, Settings, original, port};
use pattern::{FRAME, bytes};

const NAMES: [&str; 3] = ["standard", "low", "wide"];

// The scalar copy's converter, by its own types.
fn scalar(s: Settings) -> scarletbook_pcm_scalar::Converter {
    use scarletbook_pcm_scalar::{Converter, Cutoff, Gain, PcmConfig, PcmRate};
    let config = PcmConfig::new(PcmRate::ALL[s.rate], Cutoff::ALL[s.cutoff], s.channels);
    Converter::new(config.with_gain(Gain::from_db(s.db).unwrap())).unwrap()
}

#[repr(C)]
struct Time {
    seconds: i64,
    nanoseconds: i64,
}

unsafe extern "C" {
    fn clock_gettime(clock: i32, time: *mut Time) -> i32;
}

// CLOCK_THREAD_CPUTIME_ID of Linux: what else runs takes none of it.
const THREAD: i32 = 3;

fn now() -> f64 {
    let mut time = Time { seconds: 0, nanoseconds: 0 };
    assert_eq!(unsafe { clock_gettime(THREAD, &mut time) }, 0);
    time.seconds as f64 + 1e-9 * time.nanoseconds as f64
}

fn timed(work: &mut dyn FnMut()) -> f64 {
    let start = now();
    work();
    now() - start
}

fn median(mut numbers: Vec<f64>) -> f64 {
    numbers.sort_by(f64::total_cmp);
    numbers[numbers.len() / 2]
}

fn least(times: &[f64]) -> f64 {
    times.iter().copied().fold(f64::INFINITY, f64::min)
}

// The middle one of the rounds' ratios.
fn ratio(a: &[f64], b: &[f64]) -> f64 {
    median(a.iter().zip(b).map(|(a, b)| a / b).collect())
}

// Seconds of port, original as detected, and its scalar path, of rounds in turns.
fn rounds_of(s: Settings, n: usize, rounds: usize) -> [Vec<f64>; 3] {
    let channels = usize::from(s.channels);
    let frames = bytes(0, 5, channels, n);
    let items = n * [1176, 2352, 4704][s.rate] * channels;
    let gain = port::gain(s.db).unwrap();
    let numbers = port::open(s, gain).1;
    let mut detected = original::open(s, original::gain(s.db).unwrap()).unwrap();
    let mut generic = scalar(s);
    let input = Input { before: None, frames: &frames, after: None };
    let mut outs = [vec![0; items], vec![0; items], vec![0; items]];
    let mut times = [vec![], vec![], vec![]];
    for _ in 0..rounds {
        let [a, b, c] = &mut outs;
        times[0].push(timed(&mut || assert_eq!(port::convert_run(s, gain, numbers, false, &input, a).number, 0)));
        times[1].push(timed(&mut || assert_eq!(original::convert_run(&mut detected, false, &input, b).number, 0)));
        times[2].push(timed(&mut || assert!(generic.convert_run(scarletbook_pcm_scalar::FrameRun::new(&frames), c).is_ok())));
    }
    assert!(outs[0] == outs[1] && outs[0] == outs[2], "the samples differ");
    times
}

fn main() {
    let rounds = std::env::args().nth(1).map_or(9, |a| a.parse().expect("a number of rounds"));
    println!("| Route | Channels | Port, ns a sample | Scalar Rust | Port / scalar | Rust as detected | Port / detected | Port, times real time |");
    println!("|---|---|---|---|---|---|---|---|");
    for cutoff in 0..3 {
        for rate in 0..3 {
            if (rate, cutoff) == (0, 2) {
                continue;
            }
            for channels in [1, 2, 6] {
                let s = Settings { rate, cutoff, channels, db: 0.0 };
                let n = 12 / usize::from(channels);
                let [port, detected, scalar] = rounds_of(s, n, rounds);
                // Half of the rounds took a twentieth longer than the least, or more.
                let mark = if median(port.clone()) > 1.05 * least(&port) { " (spread)" } else { "" };
                let samples = (n * [1176, 2352, 4704][rate] * usize::from(channels)) as f64;
                let ns = |times: &[f64]| 1e9 * least(times) / samples;
                println!(
                    "| {} {}{mark} | {channels} | {:.2} | {:.2} | {:.3} | {:.2} | {:.3} | {:.0} |",
                    NAMES[cutoff], RATES[rate], ns(&port), ns(&scalar), ratio(&port, &scalar), ns(&detected), ratio(&port, &detected), n as f64 / 75.0 / least(&port)
                );
            }
        }
    }
    println!("\nA frame is {FRAME} bytes a channel, 1/75 s. Least CPU time of {rounds} rounds in turns, 12 frames of a channel in all; a ratio is the middle one of the rounds'.");
}
